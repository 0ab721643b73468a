//! Losses that filling has the most work with: each compared with the independent program, which takes another way, and with full
//! sweeps.

use compare::patterns::{MANY_SWEEPS, SHORTEST, at_random};
use compare::{Embedded, FillTrial, random_box, twin};
use jibrufath::{AirPack, Received, Shape, needs, packets, receive_pack, write};
use reference::full_sweeps;
use reference::random::Random;

/// Widths around the steps that a fast program may take.
const WIDTHS: [usize; 14] = [1, 2, 7, 8, 15, 16, 17, 31, 32, 33, 63, 64, 65, 100];

/// What is done to a cube beside its losses: whether a box that stays missing is lost too, and a known byte made wrong.
const BESIDE: [(&str, bool, bool); 4] = [
    ("nothing else", false, false),
    ("a stopping set", true, false),
    ("a wrong byte", false, true),
    ("both", true, true),
];

/// How often each answer came: everything filled, cells left, a contradiction.
type Answers = [usize; 3];

/// The flags of a box of random lengths, put at random coordinates of a shape, its axes in random order.
fn embedded(random: &mut Random, flags_of: impl Fn(&mut Random, Shape) -> Vec<u8>) -> Embedded {
    let sizes = [0; 3].map(|_| random.among(SHORTEST..=SHORTEST + 4));
    let pattern = Shape::new(sizes[0], sizes[1], sizes[2], 1);
    let flags = flags_of(random, pattern);
    Embedded::new(random, sizes, 3, |place| {
        flags[twin(pattern).cell(place)] == 1
    })
}

/// Fills a pattern of each width, with each of the things beside it, so many times.
fn compare_with_full_sweeps(
    random: &mut Random,
    times: usize,
    flags_of: impl Fn(&mut Random, Shape) -> Vec<u8>,
) -> [Answers; BESIDE.len()] {
    let mut answers = [[0; 3]; BESIDE.len()];
    for (answers, (beside, stopping_set, wrong_byte)) in answers.iter_mut().zip(BESIDE) {
        for case in 0..times * WIDTHS.len() {
            let mut pattern = embedded(random, &flags_of);
            pattern.shape.w = WIDTHS[case % WIDTHS.len()];
            let mut trial = FillTrial::without(random, &pattern);
            if stopping_set {
                for cell in random_box(random, trial.shape, [3; 3]) {
                    trial.lose(random, cell);
                }
            }
            if wrong_byte {
                let cells = 0..trial.flags.len();
                let known: Vec<usize> = cells.filter(|&cell| trial.flags[cell] == 0).collect();
                let cell = random.pick(&known);
                trial.spoil(random, cell);
            }
            let left = full_sweeps(twin(trial.shape), &trial.flags).left;
            let answer = trial.compare(random);
            let expected = if wrong_byte { Err(13) } else { Ok(left) };
            assert!(
                answer == Ok(left) || answer == expected,
                "{:?}, {beside}: {answer:?}",
                trial.shape
            );
            let kind = answer.map_or(2, |left| usize::from(left > 0));
            answers[kind] += 1;
        }
    }
    answers
}

#[test]
fn many_sweeps() {
    let mut random = Random::new(11_001);
    for pattern in MANY_SWEEPS {
        let flags = |_: &mut Random, shape| (pattern.flags)(shape);
        let [nothing, stopping_set, wrong_byte, both] =
            compare_with_full_sweeps(&mut random, 20, flags);
        let name = pattern.name;
        assert_eq!(nothing, [280, 0, 0], "{name}");
        assert_eq!(stopping_set, [0, 280, 0], "{name}");
        // Now and then the lost cells have room for another code cube, which has the wrong byte.
        let refused = wrong_byte[2].min(both[2]);
        assert!(refused > 200, "{name}: {wrong_byte:?}, {both:?}");
    }
}

#[test]
fn random_losses() {
    let mut random = Random::new(11_002);
    let flags = |random: &mut Random, shape| {
        let percent = random.among(5..=60);
        at_random(random, shape, percent, 100)
    };
    let [nothing, stopping_set, wrong_byte, both] =
        compare_with_full_sweeps(&mut random, 20, flags);
    assert!(nothing[0] > 50 && nothing[1] > 50, "{nothing:?}");
    assert_eq!(stopping_set, [0, 280, 0]);
    assert!(
        wrong_byte[2] > 200 && both[2] > 200,
        "{wrong_byte:?}, {both:?}"
    );
}

/// The longest lines, and cubes of unequal ones, in the order in which the sweeps take their axes.
#[test]
fn large_cubes() {
    let mut random = Random::new(11_003);
    for pattern in MANY_SWEEPS {
        for (l1, l2, l3, w) in [
            (24, 24, 24, 1),
            (24, 25, 7, 16),
            (7, 30, 40, 3),
            (40, 9, 30, 64),
            (255, 255, 4, 1),
            (255, 20, 5, 2),
            (9, 255, 9, 1),
        ] {
            let shape = Shape::new(l1, l2, l3, w);
            let mut trial = FillTrial::new(&mut random, shape);
            let flags = (pattern.flags)(shape);
            let lost = (0..flags.len()).filter(|&cell| flags[cell] == 1);
            lost.for_each(|cell| trial.lose(&mut random, cell));
            let answer = trial.compare(&mut random);
            assert_eq!(answer, Ok(0), "{}, {shape:?}", pattern.name);
        }
    }
}

/// A pack of some megabytes without the cells of a pattern: nothing is left, so the file comes back byte for byte.
#[test]
fn packs_of_megabytes() {
    let shape = Shape::new(100, 100, 100, 1);
    let mut random = Random::new(11_004);
    let file = random.bytes(twin(shape).file_bytes());
    let written = write(shape, &file).expect("memory for the cube");
    for pattern in MANY_SWEEPS {
        let flags = (pattern.flags)(shape);
        let mut air = AirPack::new(shape).expect("a good shape");
        let mut heard = 0;
        for (packet, flag) in packets(&written).expect("a whole pack").zip(flags) {
            if flag == 0 {
                air.push(packet).expect("memory for the pack");
                heard += 1;
            }
        }
        let air = air.into_bytes();
        assert!(air.len() > 3_000_000);
        let needs = needs(&air).expect("a good pack");
        let [mut cube, mut flags, mut back] =
            [needs.cube_bytes, needs.cells, needs.file_bytes].map(|len| random.bytes(len));
        let received = receive_pack(&air, &mut cube, &mut flags, &mut back);
        let received = received.expect("packets of a code cube");
        let Received::File {
            len,
            packets,
            repeats,
            ..
        } = received
        else {
            panic!("{}: {received:?}", pattern.name);
        };
        assert_eq!((len, packets, repeats), (file.len(), heard, 0));
        assert!(back == file, "{}", pattern.name);
        assert!(flags.iter().all(|&flag| flag == 0), "{}", pattern.name);
    }
}
