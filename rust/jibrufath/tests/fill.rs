//! Filling compared with the independent program: answer, cube and flags, with garbage in missing cells.

use compare::{
    Embedded, FillTrial as Trial, LARGE_SHAPES, SHAPES_AT_THE_LIMITS, agree, narrow_shapes,
    numbered, random_shape, twin,
};
use jibrufath::{Shape, fill};
use reference::full_sweeps;
use reference::random::Random;

/// A stopping set that is a whole box.
fn block(random: &mut Random) -> Embedded {
    let sizes = [0; 3].map(|_| random.among(3..=5));
    Embedded::new(random, sizes, 3, |_| true)
}

/// A stopping set without a 3 by 3 by 3 block, n by n by m: all but the diagonal. Of the three lines through a cell of the
/// diagonal, two have cells of the set and one has none.
fn off_diagonal(random: &mut Random) -> Embedded {
    // From 6 on, three of one axis and three others of the next would make a block.
    let n = random.among(4..=5);
    let m = random.among(3..=5);
    Embedded::new(random, [n, n, m], 3, |[i, j, _]| i != j)
}

/// A stopping set, n by n by n, in which each line of the box lacks exactly one cell: every line through a cell of the
/// rest has cells of the set.
fn latin(random: &mut Random) -> Embedded {
    let n = random.among(4..=6);
    Embedded::new(random, [n, n, n], 2, |[i, j, k]| (i + j + k) % n != 0)
}

#[test]
fn random_losses() {
    let mut random = Random::new(3001);
    let mut seen = [0; 2];
    for _ in 0..4_000 {
        let shape = random_shape(&mut random);
        let mut trial = Trial::new(&mut random, shape);
        let percent = random.among(0..=100);
        trial.lose_percent(&mut random, percent);
        match trial.compare(&mut random) {
            Ok(0) => seen[0] += 1,
            Ok(_) => seen[1] += 1,
            Err(number) => panic!("a code cube with losses was refused {number}"),
        }
    }
    assert!(seen.iter().all(|&count| count > 500), "{seen:?}");
}

#[test]
fn losses_and_wrong_bytes() {
    let mut random = Random::new(3002);
    let mut seen = [0; 3];
    for _ in 0..1_500 {
        let shape = random_shape(&mut random);
        let mut trial = Trial::new(&mut random, shape);
        for _ in 0..random.among(1..=3) {
            let cell = random.among(0..=trial.flags.len() - 1);
            trial.spoil(&mut random, cell);
        }
        let percent = random.among(20..=100);
        trial.lose_percent(&mut random, percent);
        match trial.compare(&mut random) {
            Ok(0) => seen[0] += 1,
            Ok(_) => seen[1] += 1,
            Err(_) => seen[2] += 1,
        }
    }
    assert!(seen.iter().all(|&count| count > 100), "{seen:?}");
}

/// Flag 2 is a known cell, whatever it holds: data or parity, right or wrong. It is kept, also with 13.
#[test]
fn unsent_cells() {
    let mut random = Random::new(3017);
    let mut seen = [0; 3];
    for _ in 0..4_000 {
        let shape = random_shape(&mut random);
        let mut trial = Trial::new(&mut random, shape);
        let [lost, unsent] = [0, 1].map(|least| random.among(least..=100));
        trial.lose_percent(&mut random, lost);
        trial.unsend_percent(&mut random, unsent);
        let right = trial.compare(&mut random);
        assert!(right.is_ok(), "a code cube with losses: {right:?}");
        let unsent: Vec<usize> = (0..trial.flags.len())
            .filter(|&cell| trial.flags[cell] == 2)
            .collect();
        if unsent.is_empty() {
            continue;
        }
        let cell = random.pick(&unsent);
        trial.spoil(&mut random, cell);
        match trial.compare(&mut random) {
            Ok(0) => seen[0] += 1,
            Ok(_) => seen[1] += 1,
            Err(number) => {
                assert_eq!(number, 13);
                seen[2] += 1;
            }
        }
    }
    assert!(seen.iter().all(|&count| count > 30), "{seen:?}");
}

#[test]
fn every_narrow_width() {
    let mut random = Random::new(3017);
    let mut seen = [0; 3];
    for (case, shape) in narrow_shapes().enumerate() {
        for percent in [0, 5, 30, 90] {
            let mut trial = Trial::new(&mut random, shape);
            trial.lose_percent(&mut random, percent);
            if case % 3 == 0 {
                let cell = random.among(0..=trial.flags.len() - 1);
                trial.spoil(&mut random, cell);
            }
            match trial.compare(&mut random) {
                Ok(0) => seen[0] += 1,
                Ok(_) => seen[1] += 1,
                Err(_) => seen[2] += 1,
            }
        }
    }
    assert!(seen.iter().all(|&count| count > 100), "{seen:?}");
}

#[test]
fn up_to_26_losses_always_fill() {
    let mut random = Random::new(3003);
    for _ in 0..1_000 {
        let shape = random_shape(&mut random);
        let mut trial = Trial::new(&mut random, shape);
        let count = random.among(0..=26);
        for cell in random.different(count, trial.flags.len()) {
            trial.lose(&mut random, cell);
        }
        assert_eq!(trial.compare(&mut random), Ok(0), "{shape:?}, {count} lost");
    }
}

#[test]
fn whole_planes() {
    let mut random = Random::new(3004);
    for _ in 0..1_000 {
        let shape = random_shape(&mut random);
        let mut trial = Trial::new(&mut random, shape);
        let axis = random.among(0..=2);
        let length = twin(shape).lengths[axis];
        let count = random.among(1..=length.min(5));
        let planes = random.different(count, length);
        let mut lost = 0;
        for cell in 0..trial.flags.len() {
            if planes.contains(&twin(shape).coordinates(cell)[axis]) {
                trial.lose(&mut random, cell);
                lost += 1;
            }
        }
        // Two planes are two holes a line; three are a stopping set.
        let left = if count < 3 { 0 } else { lost };
        assert_eq!(
            trial.compare(&mut random),
            Ok(left),
            "{shape:?}, {planes:?}"
        );
    }
}

#[test]
fn stopping_sets() {
    let mut random = Random::new(3005);
    for make in [block, off_diagonal, latin] {
        for case in 0..500 {
            let set = make(&mut random);
            let mut trial = Trial::without(&mut random, &set);
            if case % 2 == 0 {
                assert_eq!(
                    trial.compare(&mut random),
                    Ok(set.cells.len()),
                    "{:?}",
                    set.shape
                );
            } else {
                // With other losses around it, the set is still left.
                let percent = random.among(1..=50);
                trial.lose_percent(&mut random, percent);
                let left = trial.compare(&mut random).expect("a code cube with losses");
                assert!(left >= set.cells.len());
            }
        }
    }
}

#[test]
fn stopping_set_but_for_one_cell() {
    let mut random = Random::new(3006);
    for make in [block, off_diagonal, latin] {
        for _ in 0..100 {
            let mut set = make(&mut random);
            // Any cell of the smallest block frees all others; of a larger set, perhaps none.
            let known = random.among(0..=set.cells.len() - 1);
            set.cells.swap_remove(known);
            let left = Trial::without(&mut random, &set).compare(&mut random);
            assert!(left.expect("a code cube with losses") <= set.cells.len());
        }
    }
}

#[test]
fn wrong_byte_in_one_layer() {
    let mut random = Random::new(3007);
    for _ in 0..500 {
        let shape = random_shape(&mut random);
        let mut trial = Trial::new(&mut random, shape);
        let cell = random.among(0..=trial.flags.len() - 1);
        trial.spoil(&mut random, cell);
        // Every cell but the spoiled one may be among the few lost.
        for other in random.different(3, trial.flags.len()) {
            if other != cell && random.chance(50) {
                trial.lose(&mut random, other);
            }
        }
        assert_eq!(trial.compare(&mut random), Err(13), "{shape:?}");
    }
}

#[test]
fn contradiction_along_one_axis() {
    let mut random = Random::new(3008);
    for case in 0..600 {
        let shape = random_shape(&mut random);
        let mut trial = Trial::new(&mut random, shape);
        // One plane of another code cube: right along the two axes inside it, wrong along the third.
        let other = Trial::new(&mut random, shape);
        let before = trial.cube.clone();
        let across = case % 3;
        let plane = random.among(0..=twin(shape).lengths[across] - 1);
        for cell in 0..trial.flags.len() {
            if twin(shape).coordinates(cell)[across] == plane {
                let bytes = twin(shape).bytes(cell);
                trial.cube[bytes.clone()].copy_from_slice(&other.cube[bytes]);
            }
        }
        // Small cubes may share a plane.
        let answer = if trial.cube == before { Ok(0) } else { Err(13) };
        assert_eq!(trial.compare(&mut random), answer, "{shape:?}");
    }
}

#[test]
fn contradiction_of_the_second_sum_alone() {
    let mut random = Random::new(3009);
    for case in 0..600 {
        // The same byte is added at the eight corners of a box: all first sums stay 00h.
        let is_corner = |place: [usize; 3]| place.iter().all(|&i| i < 2);
        let corners = Embedded::new(&mut random, [3, 3, 3], 3, is_corner);
        let mut trial = Trial::new(&mut random, corners.shape);
        let layer = random.among(0..=corners.shape.w - 1);
        let wrong = random.nonzero_byte();
        for &cell in &corners.cells {
            trial.cube[cell * corners.shape.w + layer] ^= wrong;
        }
        // A corner that is lost gets the wrong byte back from the first sums of all three of its lines.
        if case % 2 == 0 {
            let lost = random.pick(&corners.cells);
            trial.lose(&mut random, lost);
        }
        assert_eq!(trial.compare(&mut random), Err(13), "{:?}", corners.shape);
    }
}

#[test]
fn wrong_byte_on_lines_that_all_meet_the_stopping_set() {
    let mut random = Random::new(3010);
    for _ in 0..400 {
        let set = latin(&mut random);
        let mut trial = Trial::without(&mut random, &set);
        let wrong = random.pick(&set.rest);
        trial.spoil(&mut random, wrong);
        assert_eq!(
            trial.compare(&mut random),
            Ok(set.cells.len()),
            "{:?}",
            set.shape
        );
    }
}

#[test]
fn wrong_byte_on_one_line_that_misses_the_stopping_set() {
    let mut random = Random::new(3011);
    for _ in 0..400 {
        let set = off_diagonal(&mut random);
        let mut trial = Trial::without(&mut random, &set);
        let wrong = random.pick(&set.rest);
        trial.spoil(&mut random, wrong);
        assert_eq!(trial.compare(&mut random), Err(13), "{:?}", set.shape);
    }
}

#[test]
fn many_sweeps() {
    let mut random = Random::new(3012);
    for case in 0..300 {
        // Every line of the box has three cells of the pattern, or none. One known cell frees its lines, these free others,
        // and so on.
        let mut set = if case % 2 == 0 {
            let n = random.among(20..=40);
            Embedded::new(&mut random, [n, n, 3], 2, |[i, j, _]| (i + n - j) % n < 3)
        } else {
            let n = random.among(12..=20);
            Embedded::new(&mut random, [n, n, n], 2, |[i, j, k]| (i + j + k) % n < 3)
        };
        if case % 10 < 2 {
            let left = set.cells.len();
            assert_eq!(
                Trial::without(&mut random, &set).compare(&mut random),
                Ok(left)
            );
        }
        let known = random.among(0..=set.cells.len() - 1);
        set.cells.swap_remove(known);
        let trial = Trial::without(&mut random, &set);
        let sweeps = full_sweeps(twin(set.shape), &trial.flags);
        assert!(sweeps.number >= 12, "{sweeps:?}");
        assert_eq!(trial.compare(&mut random), Ok(0), "{:?}", set.shape);
    }
}

#[test]
fn large_cubes() {
    let mut random = Random::new(3013);
    let in_succession = |shape: Shape| 2 * shape.l1 * shape.l2;
    for shape in LARGE_SHAPES {
        let right = Trial::new(&mut random, shape);
        assert_eq!(right.compare(&mut random), Ok(0), "{shape:?}, nothing lost");
        for percent in [5, 60, 95] {
            let mut trial = Trial::new(&mut random, shape);
            trial.lose_percent(&mut random, percent);
            let answer = trial.compare(&mut random);
            assert!(answer.is_ok(), "{shape:?}, {percent} % lost");
        }
        let mut trial = Trial::new(&mut random, shape);
        let count = in_succession(shape);
        let first = random.among(0..=trial.flags.len() - count);
        for cell in first..first + count {
            trial.lose(&mut random, cell);
        }
        assert_eq!(
            trial.compare(&mut random),
            Ok(0),
            "{shape:?}, {count} from {first}"
        );
    }
    // The longest chain.
    let mut chain = Embedded::new(&mut random, [255, 255, 3], 0, |[i, j, _]| {
        (i + 255 - j) % 255 < 3
    });
    chain.cells.pop();
    assert_eq!(
        Trial::without(&mut random, &chain).compare(&mut random),
        Ok(0)
    );
}

/// The 3 by 3 by 3 cube of document 01.
fn first_cube(random: &mut Random) -> Trial {
    let shape = Shape::new(3, 3, 3, 1);
    let mut trial = Trial::new(random, shape);
    reference::encode(twin(shape), &[0x08], &mut trial.cube).expect("the shape is good");
    trial
}

#[test]
fn examples_of_document_01() {
    let mut random = Random::new(3014);

    // Only (2,2,2) = 01h known.
    let mut trial = first_cube(&mut random);
    assert_eq!(trial.cube[26], 0x01);
    (0..26).for_each(|cell| trial.lose(&mut random, cell));
    assert_eq!(trial.compare(&mut random), Ok(0));

    // Nothing known.
    trial.lose(&mut random, 26);
    assert_eq!(trial.compare(&mut random), Ok(27));

    // (0,0,0) missing and (2,2,2) made 00h.
    let mut trial = first_cube(&mut random);
    trial.lose(&mut random, 0);
    trial.cube[26] = 0x00;
    assert_eq!(trial.compare(&mut random), Err(13));

    // 4 by 4 by 3, missing where a ≠ b.
    let shape = Shape::new(4, 4, 3, 1);
    let mut trial = Trial::new(&mut random, shape);
    for cell in 0..48 {
        let [a, b, _] = twin(shape).coordinates(cell);
        if a != b {
            trial.lose(&mut random, cell);
        }
    }
    assert_eq!(trial.compare(&mut random), Ok(36));
}

/// The call, lent garbage and flags, refuses with the number and changes no byte.
fn assert_refused(shape: Shape, cube_len: usize, flags: &[u8], number: u8) {
    let mut random = Random::new(3015);
    // Garbage is no code cube, so that 13 would be the answer if nothing came before it.
    let cube = random.bytes(cube_len);
    agree(
        &format!("{shape:?}, {cube_len} bytes, flags {flags:?}"),
        &mut random,
        [&cube, flags],
        |[cube, flags]| numbered(fill(shape, cube, flags)),
        |_| Err(number),
    );
}

#[test]
fn shapes_at_the_limits() {
    for (shape, number) in SHAPES_AT_THE_LIMITS {
        assert_refused(shape, 28, &[0; 28], number);
        assert_refused(shape, 28, &[2; 28], number);
    }
}

#[test]
fn refusals_change_no_byte() {
    let good = Shape::new(3, 3, 3, 2);
    // A cube of 54 bytes, 27 flags; one of them bad.
    for (cube_len, flags_len, bad_flag, number) in [
        (53, 27, None, 4),
        (55, 27, None, 4),
        (54, 26, None, 4),
        (54, 28, None, 4),
        (54, 54, None, 4),
        (27, 27, None, 4),
        (0, 27, None, 4),
        (54, 0, None, 4),
        (0, 0, None, 4),
        (54, 27, Some((0, 3)), 5),
        (54, 27, Some((26, 3)), 5),
        (54, 27, Some((13, 255)), 5),
        (54, 27, Some((26, 128)), 5),
        // The first of several reasons counts.
        (53, 27, Some((0, 3)), 4),
        (54, 28, Some((27, 3)), 4),
    ] {
        let mut flags: Vec<u8> = (0..flags_len).map(|i| [0, 1, 2][i % 9 / 3]).collect();
        if let Some((place, flag)) = bad_flag {
            flags[place] = flag;
        }
        assert_refused(good, cube_len, &flags, number);
    }
}

#[test]
fn contradiction_clears_only_missing_cells() {
    let mut random = Random::new(3016);
    let shape = Shape::new(3, 3, 3, 2);
    let mut trial = Trial::new(&mut random, shape);
    trial.spoil(&mut random, 26);
    for cell in [0, 13, 14] {
        trial.lose(&mut random, cell);
    }
    trial.flags[1] = 2;
    trial.flags[26] = 2;
    agree(
        "contradiction",
        &mut random,
        [&trial.cube, &trial.flags],
        |[cube, flags]| numbered(fill(shape, cube, flags)),
        |[cube, _]| {
            for cell in [0, 13, 14] {
                cube[2 * cell..2 * cell + 2].fill(0x00);
            }
            Err(13)
        },
    );
}
