//! Copies of a cell that are not all equal: the cell is missing, whichever came first, and a third copy does not rescue it. Each
//! pack goes to the independent program too, and every lent byte is compared.

use std::collections::{BTreeMap, BTreeSet};

use compare::{
    COPY_KINDS, CellCopy, KINDS, LARGE_SHAPES, Lens, Source, Trial, air_of, random_shape, twin,
};
use jibrufath::{Received, Reception, packets, receive, receive_pack, write};
use reference::fill::largest_stopping_set;
use reference::random::Random;
use reference::write::data_string;
use reference::{Outcome, Shape};

/// What stands in lent memory before a call.
const BEFORE: u8 = 0xC7;

/// What came of a pack.
struct After {
    answer: Result<reference::Received, u8>,
    cube: Vec<u8>,
    flags: Vec<u8>,
    file: Vec<u8>,
}

/// Receives these copies, as the independent program does.
fn received(what: &str, shape: Shape, copies: &[CellCopy]) -> After {
    let lens = Lens::exact(shape);
    let trial = Trial {
        pack: air_of(shape, copies),
        lens,
    };
    let agreed = trial
        .compare(&mut Random::new(12_000))
        .unwrap_or_else(|difference| panic!("{what}: {difference}"));
    let [mut cube, mut flags, mut file] =
        [lens.cube, lens.flags, lens.file].map(|len| vec![BEFORE; len]);
    let _ = receive_pack(&trial.pack, &mut cube, &mut flags, &mut file);
    After {
        answer: agreed.receive.map_err(|refusal| refusal.number),
        cube,
        flags,
        file,
    }
}

/// The answer that a file of this length came out.
fn file_of(len: usize, packets: usize, repeats: usize, conflicts: usize) -> reference::Received {
    reference::Received {
        outcome: Outcome::File { len },
        packets: packets as u64,
        repeats: repeats as u64,
        conflicts: conflicts as u64,
    }
}

/// The answer that so many cells are left.
fn left_of(cells: usize, packets: usize, repeats: usize, conflicts: usize) -> reference::Received {
    reference::Received {
        outcome: Outcome::Left { cells },
        ..file_of(0, packets, repeats, conflicts)
    }
}

/// A code cube whose file fills it.
fn full_source(random: &mut Random, shape: Shape) -> Source {
    let file = random.bytes(shape.file_bytes());
    Source::new(shape, &data_string(shape, &file))
}

/// Every cell as it was sent but these.
fn all_but(source: &Source, cells: &[usize]) -> Vec<CellCopy> {
    let mut copies = source.all_sent();
    copies.retain(|copy| !cells.contains(&copy.cell));
    copies
}

/// A cell with a byte changed.
fn other(source: &Source, cell: usize, at: usize) -> CellCopy {
    let mut copy = source.sent(cell);
    copy.bytes[at] ^= 0x40;
    copy
}

/// The file came back, and the cube with it.
fn assert_file(what: &str, source: &Source, copies: &[CellCopy], repeats: usize, conflicts: usize) {
    let after = received(what, source.shape, copies);
    let len = source.shape.file_bytes();
    let expected = file_of(len, copies.len(), repeats, conflicts);
    assert_eq!(after.answer, Ok(expected), "{what}");
    assert!(after.cube == source.cube, "{what}");
    assert!(after.flags.iter().all(|&flag| flag == 0), "{what}");
}

/// 3 by 3 by 3 cells of 8 bytes, each of which determines all others.
const BLOCK: Shape = Shape {
    lengths: [3; 3],
    w: 8,
};

/// A list of copies of a few cells, the others known, as the request says it: the different contents of each cell are put in a set,
/// and one content makes a known cell. A known cell that is wrong contradicts the others.
fn check_few(source: &Source, copies: &[CellCopy]) {
    let what = format!("{copies:?}");
    let mut contents: BTreeMap<usize, BTreeSet<&[u8]>> = BTreeMap::new();
    for copy in copies {
        contents.entry(copy.cell).or_default().insert(&copy.bytes);
    }
    let known: BTreeMap<usize, &[u8]> = contents
        .iter()
        .filter(|(_, set)| set.len() == 1)
        .flat_map(|(&cell, set)| set.first().map(|&bytes| (cell, bytes)))
        .collect();
    let right = |(&cell, &bytes): (&usize, &&[u8])| source.sent(cell).bytes == bytes;
    if known.iter().all(right) {
        let repeats = copies.len() - contents.len();
        let conflicts = contents.len() - known.len();
        return assert_file(&what, source, copies, repeats, conflicts);
    }
    let after = received(&what, source.shape, copies);
    assert_eq!(after.answer, Err(13), "{what}");
    for cell in 0..source.shape.cells() {
        let held = &after.cube[source.shape.bytes(cell)];
        let (bytes, flag) = match known.get(&cell) {
            Some(&bytes) => (bytes, 0),
            None => (&[0x00; 8][..], 1),
        };
        assert_eq!((held, after.flags[cell]), (bytes, flag), "{what}");
    }
    assert!(after.file.iter().all(|&byte| byte == BEFORE), "{what}");
}

/// Every list of up to four copies of a data cell and a parity cell, each as it was sent or with one of two other contents: A B,
/// A B A, A A B, A B B, B A A, and all others, before the other cells and behind them.
#[test]
fn every_order_of_a_few_copies() {
    let source = full_source(&mut Random::new(12_001), BLOCK);
    let [x, y] = [0, 26];
    let rest = all_but(&source, &[x, y]);
    let contents = [x, y]
        .map(|cell| {
            [
                source.sent(cell),
                other(&source, cell, 0),
                other(&source, cell, 7),
            ]
        })
        .concat();
    for len in 0..=4 {
        for number in 0..6_usize.pow(len) {
            let list: Vec<CellCopy> = (0..len)
                .map(|at| contents[number / 6_usize.pow(at) % 6].clone())
                .collect();
            check_few(&source, &[&list[..], &rest].concat());
            check_few(&source, &[&rest[..], &list].concat());
        }
    }
}

/// Copies that differ in one byte, wherever it stands.
#[test]
fn one_byte_apart() {
    let mut random = Random::new(12_002);
    let narrow = [1, 2, 3, 7, 8, 9, 15, 16, 17, 31, 32, 33, 63, 64, 65];
    for w in narrow.into_iter().chain([127, 128, 129, 1023, 1024]) {
        let source = full_source(&mut random, Shape::new(4, 4, 3, w));
        let cell = random.among(0..=47);
        let rest = all_but(&source, &[cell]);
        for at in (0..w).filter(|&at| w <= 65 || at == 0 || at + 1 == w) {
            let [sent, other] = [source.sent(cell), other(&source, cell, at)];
            for copies in [[sent.clone(), other.clone()], [other, sent]] {
                let what = format!("W {w}, byte {at}");
                assert_file(&what, &source, &[&rest[..], &copies].concat(), 1, 1);
            }
        }
    }
}

#[test]
fn every_cell_in_conflict() {
    let mut random = Random::new(12_003);
    for (shape, times) in [
        (BLOCK, 100),
        (Shape::new(4, 4, 4, 1), 100),
        (Shape::new(5, 4, 3, 17), 50),
        (Shape::new(12, 12, 8, 20), 5),
    ] {
        let source = full_source(&mut random, shape);
        let cells = shape.cells();
        for _ in 0..times {
            let copies: Vec<CellCopy> = (0..cells)
                .flat_map(|cell| source.differing(&mut random, cell))
                .collect();
            let copies = random.shuffled(&copies);
            let after = received("every cell", shape, &copies);
            let left = left_of(cells, copies.len(), copies.len() - cells, cells);
            assert_eq!(after.answer, Ok(left));
            assert!(after.cube.iter().all(|&byte| byte == 0x00));
            assert!(after.flags.iter().all(|&flag| flag == 1));
            assert!(after.file.iter().all(|&byte| byte == BEFORE));
        }
    }
}

/// Data cells and parity cells alike: each by itself, all data cells, all parity cells.
#[test]
fn cells_in_conflict_are_filled() {
    let mut random = Random::new(12_004);
    let shape = Shape::new(5, 4, 3, 9);
    let source = full_source(&mut random, shape);
    let (data, parity): (Vec<usize>, Vec<usize>) =
        (0..shape.cells()).partition(|&cell| shape.is_data(cell));
    let each = (0..shape.cells()).map(|cell| vec![cell]);
    for cells in each.chain([data, parity]) {
        let mut copies = all_but(&source, &cells);
        for &cell in &cells {
            copies.extend(source.differing(&mut random, cell));
        }
        let repeats = copies.len() - shape.cells();
        let what = format!("{cells:?}");
        let copies = random.shuffled(&copies);
        assert_file(&what, &source, &copies, repeats, cells.len());
    }
}

/// A box of 27 cells stays missing: 26 that were lost and one in conflict. Another cell in conflict is forced.
#[test]
fn forced_and_left() {
    let mut random = Random::new(12_005);
    let shape = Shape::new(4, 4, 4, 3);
    let source = full_source(&mut random, shape);
    let in_box = |&cell: &usize| shape.coordinates(cell).iter().all(|&place| place > 0);
    let stuck: Vec<usize> = (0..64).filter(in_box).collect();
    for forced in (0..64).filter(|cell| !in_box(cell)) {
        let mut copies = all_but(&source, &stuck);
        copies.push(other(&source, forced, 2));
        let held = random.pick(&stuck);
        copies.extend([
            source.sent(held),
            other(&source, held, 1),
            source.sent(held),
        ]);
        let after = received("a box left", shape, &random.shuffled(&copies));
        assert_eq!(after.answer, Ok(left_of(27, 41, 3, 2)));
        for cell in 0..64 {
            let (bytes, flag) = match stuck.contains(&cell) {
                true => (vec![0x00; 3], 1),
                false => (source.sent(cell).bytes, 0),
            };
            assert_eq!(after.cube[shape.bytes(cell)], bytes, "{cell}");
            assert_eq!(after.flags[cell], flag, "{cell}");
        }
        assert!(after.file.iter().all(|&byte| byte == BEFORE));
    }
}

/// Two copies that are equal and wrong are known.
#[test]
fn equal_and_wrong() {
    let source = full_source(&mut Random::new(12_006), BLOCK);
    let wrong = other(&source, 13, 5);
    let mut copies = all_but(&source, &[13]);
    copies.extend([wrong.clone(), wrong.clone()]);
    let after = received("two wrong copies", BLOCK, &copies);
    assert_eq!(after.answer, Err(13));
    assert_eq!(after.cube[BLOCK.bytes(13)], wrong.bytes);
    assert_eq!(after.flags, [0; 27]);
    // A third copy as it was sent makes the cell missing, and so the file comes back.
    copies.push(source.sent(13));
    assert_file("a third copy", &source, &copies, 2, 1);
}

/// A packet of 00h is a packet: it makes a cell known, and differs from one of other bytes. All of this cube is 00h.
#[test]
fn cells_of_00h() {
    let zero = Source::new(BLOCK, &data_string(BLOCK, &[]));
    let [sent, other] = [zero.sent(5), other(&zero, 5, 7)];
    for (copies, answer) in [
        (vec![], left_of(27, 0, 0, 0)),
        (vec![&sent], file_of(0, 1, 0, 0)),
        (vec![&sent, &sent], file_of(0, 2, 1, 0)),
        (vec![&sent, &other], left_of(27, 2, 1, 1)),
        (vec![&other, &sent], left_of(27, 2, 1, 1)),
        (vec![&other, &sent, &sent], left_of(27, 3, 2, 1)),
        (vec![&sent, &other, &sent], left_of(27, 3, 2, 1)),
        (vec![&sent, &other, &sent, &other], left_of(27, 4, 3, 1)),
    ] {
        let copies: Vec<CellCopy> = copies.into_iter().cloned().collect();
        let what = format!("{copies:?}");
        let after = received(&what, BLOCK, &copies);
        assert_eq!(after.answer, Ok(answer), "{what}");
        assert!(after.cube.iter().all(|&byte| byte == 0x00), "{what}");
    }
}

#[test]
fn random_packs() {
    let mut random = Random::new(12_007);
    let [mut files, mut left, mut contradictions] = [0; 3];
    for case in 0..20_000 {
        let kind = COPY_KINDS.start + case % COPY_KINDS.len();
        let trial = Trial::random(&mut random, kind);
        let agreed = trial
            .compare(&mut random)
            .unwrap_or_else(|difference| panic!("{}: {difference}", KINDS[kind].0));
        match agreed.receive.map(|r| (r.outcome, r.conflicts)) {
            Ok((_, 0)) => {}
            Ok((Outcome::File { .. }, _)) => files += 1,
            Ok((Outcome::Left { .. }, _)) => left += 1,
            Err(refusal) => contradictions += usize::from(refusal.number == 13),
        }
    }
    assert!(files > 5_000, "{files}");
    assert!(left > 2_000, "{left}");
    assert!(contradictions > 1_000, "{contradictions}");
}

/// Two transponders, of which the second damages one packet in 199: of no line more than two.
#[test]
fn large_packs() {
    let mut random = Random::new(12_008);
    for large in LARGE_SHAPES {
        let source = full_source(&mut random, twin(large));
        let mut second = source.all_sent();
        let damaged = second.iter_mut().filter(|copy| copy.cell % 199 == 7);
        damaged.for_each(|copy| copy.damage(&mut random));
        let cells = source.shape.cells();
        let conflicts = (0..cells).filter(|cell| cell % 199 == 7).count();
        let copies = [source.all_sent(), second].concat();
        assert_file(&format!("{large:?}"), &source, &copies, cells, conflicts);
    }
}

/// Packets that were written, and which cells of them count as lost.
struct List {
    copies: Vec<CellCopy>,
    lost: Vec<bool>,
    conflicts: u64,
}

/// A list of packets that were written, each any number of times, and for some cells copies that are not all equal.
fn random_list(random: &mut Random, source: &Source) -> List {
    let [lost, differing] = [0; 2].map(|_| random.among(0..=90));
    let mut list = List {
        copies: Vec::new(),
        lost: vec![false; source.shape.cells()],
        conflicts: 0,
    };
    for cell in 0..source.shape.cells() {
        if random.chance(differing) {
            list.copies.extend(source.differing(random, cell));
            list.lost[cell] = true;
            list.conflicts += 1;
        } else if random.chance(lost) {
            list.lost[cell] = true;
            continue;
        }
        let least = usize::from(!list.lost[cell]);
        let times = random.among(least..=2);
        list.copies.extend(vec![source.sent(cell); times]);
    }
    list.copies = random.shuffled(&list.copies);
    list
}

/// The third demand for one list: no refusal, and the file byte for byte exactly where nothing is left.
fn check_demand(source: &Source, file: &[u8], list: &List) -> usize {
    let shape = source.shape;
    let stuck = largest_stopping_set(shape, &list.lost);
    let left = stuck.iter().filter(|&&stuck| stuck).count();
    let air = air_of(shape, &list.copies);
    let [mut cube, mut flags, mut buffer] =
        [shape.cube_bytes(), shape.cells(), shape.file_bytes()].map(|len| vec![BEFORE; len]);
    let answer = receive_pack(&air, &mut cube, &mut flags, &mut buffer);
    let (cells, len, counted) = match answer.expect("packets that were written are not refused") {
        Received::File { len, conflicts, .. } => (0, len, conflicts),
        Received::Left {
            cells, conflicts, ..
        } => (cells, 0, conflicts),
    };
    assert_eq!((cells, counted), (left, list.conflicts), "{shape:?}");
    assert!(left == 0 || left >= 27, "{shape:?}: {left}");
    let came = if left == 0 { file } else { &[] };
    assert!(buffer[..len] == *came, "{shape:?}");
    assert!(buffer[len..].iter().all(|&byte| byte == BEFORE));
    assert!(flags.iter().zip(&stuck).all(|(&f, &s)| f == u8::from(s)));
    check_own_memory(&air, came, list, &stuck);
    left
}

/// The same with memory of its own.
fn check_own_memory(air: &[u8], came: &[u8], list: &List, stuck: &[bool]) {
    let reception = receive(air).expect("packets that were written are not refused");
    assert!(
        reception
            .left()
            .eq((0..stuck.len()).filter(|&cell| stuck[cell]))
    );
    let (Reception::File { conflicts, .. } | Reception::Left { conflicts, .. }) = reception;
    assert_eq!(conflicts, list.conflicts);
    assert!(reception.into_file().unwrap_or_default() == came);
}

#[test]
fn the_third_demand() {
    let mut random = Random::new(12_009);
    let mut ends = [0; 2];
    for _ in 0..4_000 {
        let shape = random_shape(&mut random);
        if twin(shape).capacity() < 4 {
            continue;
        }
        let len = random.among(0..=twin(shape).file_bytes());
        let file = random.bytes(len);
        let written = write(shape, &file).expect("the file fits");
        let cells = packets(&written).expect("a written pack");
        let source = Source {
            shape: twin(shape),
            used: None,
            cube: cells.flat_map(|packet| packet.bytes.to_vec()).collect(),
        };
        let list = random_list(&mut random, &source);
        let left = check_demand(&source, &file, &list);
        ends[usize::from(left > 0)] += usize::from(list.conflicts > 0);
    }
    assert!(ends.iter().all(|&count| count > 500), "{ends:?}");
}
