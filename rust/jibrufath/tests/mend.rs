//! Mending and its passes compared with the independent program: restored, refused, or another code cube.

use compare::{
    LARGE_SHAPES, Mended, SHAPES_AT_THE_LIMITS, agree, lightest_cube, narrow_shapes, numbered,
    random_box, random_code_cube, random_shape, twin,
};
use jibrufath::{Shape, mend, mend_axis};
use reference::field::{inverse, mul};
use reference::random::Random;

/// How often each outcome came.
#[derive(Debug, Default)]
struct Tally {
    restored: usize,
    other: usize,
    refused: usize,
}

impl Tally {
    fn count(&mut self, outcome: Mended) {
        match outcome {
            Mended::Restored => self.restored += 1,
            Mended::OtherCodeCube => self.other += 1,
            Mended::Refused => self.refused += 1,
        }
    }
}

/// One pass along each axis, from the same cube, by both programs.
fn compare_passes(random: &mut Random, shape: Shape, damaged: &[u8]) {
    for axis in 1..=3 {
        compare_pass(random, shape, axis, damaged);
    }
}

fn compare_pass(random: &mut Random, shape: Shape, axis: usize, damaged: &[u8]) {
    agree(
        &format!("{shape:?}, axis {axis}"),
        random,
        [damaged],
        |[cube]| numbered(mend_axis(shape, axis, cube)),
        |[cube]| reference::mend_axis(twin(shape), axis, cube),
    );
}

/// Adds to `count` bytes of each layer, in different cells among those given. All of a layer get the same byte, or each its own.
fn damage(random: &mut Random, shape: Shape, cube: &mut [u8], cells: &[usize], count: usize) {
    for layer in 0..shape.w {
        let same = random.chance(25).then(|| random.nonzero_byte());
        for i in random.different(count, cells.len()) {
            let wrong = same.unwrap_or_else(|| random.nonzero_byte());
            cube[cells[i] * shape.w + layer] ^= wrong;
        }
    }
}

/// Damages a code cube in `count` places of a layer among `cells`, and mends it. Up to seven wrong bytes a layer are always mended.
fn damage_and_mend(random: &mut Random, shape: Shape, cells: &[usize], count: usize) -> Mended {
    let right = random_code_cube(random, shape);
    let mut damaged = right.clone();
    damage(random, shape, &mut damaged, cells, count);
    compare_passes(random, shape, &damaged);
    let outcome = Mended::compare(random, shape, &right, &damaged);
    assert!(
        count > 7 || outcome == Mended::Restored,
        "{shape:?}, {count} wrong"
    );
    outcome
}

#[test]
fn wrong_bytes_anywhere() {
    let mut random = Random::new(4001);
    let mut tally = Tally::default();
    for case in 0..5_000 {
        let shape = random_shape(&mut random);
        let all: Vec<usize> = (0..twin(shape).cells()).collect();
        tally.count(damage_and_mend(&mut random, shape, &all, 1 + case % 12));
    }
    assert!(tally.restored > 2_500 && tally.refused > 20, "{tally:?}");
}

#[test]
fn wrong_bytes_close_together() {
    let mut random = Random::new(4002);
    let mut tally = Tally::default();
    for case in 0..4_000 {
        let shape = random_shape(&mut random);
        let count = 1 + case % 12;
        // A box that has room for them, and little more.
        let sizes = loop {
            let sizes = [0; 3].map(|_| random.among(1..=3));
            if sizes.iter().product::<usize>() >= count {
                break sizes;
            }
        };
        let cells = random_box(&mut random, shape, sizes);
        tally.count(damage_and_mend(&mut random, shape, &cells, count));
    }
    assert!(tally.restored > 1_500 && tally.refused > 500, "{tally:?}");
}

#[test]
fn damage_that_leads_to_another_code_cube() {
    let mut random = Random::new(4003);
    let mut tally = Tally::default();
    for _ in 0..1_200 {
        let shape = random_shape(&mut random);
        let right = random_code_cube(&mut random, shape);
        let mut damaged = right.clone();
        // With two of three places along each axis of a lightest code cube, or all three along one, the passes put in the others.
        let mut part = [2; 3];
        if random.chance(50) {
            part[random.among(0..=2)] = 3;
        }
        let layer = random.among(0..=shape.w - 1);
        for light in lightest_cube(&mut random, shape) {
            if (0..3).all(|axis| light.place[axis] < part[axis]) {
                damaged[light.cell * shape.w + layer] ^= light.byte;
            }
        }
        compare_passes(&mut random, shape, &damaged);
        tally.count(Mended::compare(&mut random, shape, &right, &damaged));
    }
    assert_eq!(tally.other, 1_200, "{tally:?}");
}

#[test]
fn every_narrow_width() {
    let mut random = Random::new(4011);
    let mut tally = Tally::default();
    for (case, shape) in narrow_shapes().enumerate() {
        let all: Vec<usize> = (0..twin(shape).cells()).collect();
        tally.count(damage_and_mend(&mut random, shape, &all, case % 12));
    }
    assert!(tally.restored > 200 && tally.refused > 5, "{tally:?}");
}

#[test]
fn each_pass_has_its_share() {
    let mut random = Random::new(4004);
    // 01h added to the cells of a box of these sizes, and the passes that restore the cube.
    for (sizes, first_pass_that_restores) in [
        ([1, 1, 1], 1),
        ([1, 2, 2], 1),
        ([2, 1, 1], 2),
        ([2, 1, 2], 2),
        ([2, 2, 1], 3),
    ] {
        for _ in 0..100 {
            let shape = random_shape(&mut random);
            let right = random_code_cube(&mut random, shape);
            let mut cube = right.clone();
            let layer = random.among(0..=shape.w - 1);
            for cell in random_box(&mut random, shape, sizes) {
                cube[cell * shape.w + layer] ^= 0x01;
            }
            assert_eq!(
                Mended::compare(&mut random, shape, &right, &cube),
                Mended::Restored
            );
            for axis in 1..=first_pass_that_restores {
                assert_ne!(cube, right, "{shape:?}, {sizes:?} before axis {axis}");
                compare_passes(&mut random, shape, &cube);
                mend_axis(shape, axis, &mut cube).expect("the shape is good");
            }
            assert_eq!(cube, right, "{shape:?}, {sizes:?}");
        }
    }
}

#[test]
fn passes_over_garbage() {
    let mut random = Random::new(4005);
    for _ in 0..1_000 {
        let shape = random_shape(&mut random);
        let mut garbage = random.bytes(twin(shape).cube_bytes());
        // Also cubes of few bytes that are not 00h: there more lines have one sum 00h.
        if random.chance(50) {
            garbage
                .iter_mut()
                .for_each(|byte| *byte = u8::from(*byte < 20));
        }
        compare_passes(&mut random, shape, &garbage);
    }
}

#[test]
fn large_cubes() {
    let mut random = Random::new(4006);
    for shape in LARGE_SHAPES {
        let right = random_code_cube(&mut random, shape);
        assert_eq!(
            Mended::compare(&mut random, shape, &right, &right),
            Mended::Restored
        );
        let all: Vec<usize> = (0..twin(shape).cells()).collect();
        for count in [1, 7, 12] {
            let mut damaged = right.clone();
            damage(&mut random, shape, &mut damaged, &all, count);
            compare_passes(&mut random, shape, &damaged);
            Mended::compare(&mut random, shape, &right, &damaged);
        }
        let garbage = random.bytes(right.len());
        compare_passes(&mut random, shape, &garbage);
        assert_eq!(
            Mended::compare(&mut random, shape, &right, &garbage),
            Mended::Refused
        );
    }
}

#[test]
fn examples_of_document_01() {
    let mut random = Random::new(4007);
    let shape = Shape::new(3, 3, 3, 1);
    let mut right = vec![0; 27];
    reference::encode(twin(shape), &[0x08], &mut right).expect("the shape is good");

    // (1,1,1) made 00h is restored to 0Fh.
    let mut damaged = right.clone();
    assert_eq!(damaged[13], 0x0F);
    damaged[13] = 0x00;
    assert_eq!(
        Mended::compare(&mut random, shape, &right, &damaged),
        Mended::Restored
    );

    // A line of length 3 with sums 01h and 08h: j = 3 is past its end.
    let byte = mul(0x09, inverse(0x03).expect("not 00h"));
    let mut cube = [0; 27];
    cube[..2].copy_from_slice(&[0x01 ^ byte, byte]);
    let line = twin(shape).line_through(1, 0);
    assert_eq!(twin(shape).sums(&cube, line), [[0x01], [0x08]]);
    let before = cube;
    mend_axis(shape, 1, &mut cube).expect("the shape is good");
    assert_eq!(cube, before);
}

#[test]
fn lines_with_every_pair_of_sums() {
    // The first places of each line along axis 1 give it any two sums; lengths on both sides of the longest j.
    for l1 in [3, 4, 100, 254, 255] {
        let shape = Shape::new(l1, 3, 3, 1024);
        let mut random = Random::new(4008);
        for first in 0..=255u8 {
            let mut cube = vec![0; twin(shape).cube_bytes()];
            for second in 0..=255u8 {
                // c0 + c1 = first and c0 + 2 c1 = second.
                let c1 = mul(first ^ second, inverse(0x03).expect("not 00h"));
                cube[usize::from(second)] = first ^ c1;
                cube[shape.w + usize::from(second)] = c1;
            }
            compare_pass(&mut random, shape, 1, &cube);
        }
    }
}

/// Mending, lent garbage and flags, refuses with the number and changes no byte.
fn assert_refused(shape: Shape, [cube, second]: [usize; 2], flags: &[u8], number: u8) {
    let mut random = Random::new(4009);
    // Garbage is no code cube, so that 16 would be the answer if nothing came before it.
    let [cube, second] = [cube, second].map(|len| random.bytes(len));
    agree(
        &format!(
            "{shape:?}, {} and {} bytes, flags {flags:?}",
            cube.len(),
            second.len()
        ),
        &mut random,
        [&cube, flags, &second],
        |[cube, flags, second]| numbered(mend(shape, cube, flags, second)),
        |_| Err(number),
    );
}

/// A pass, lent garbage, refuses with the number and changes no byte.
fn assert_pass_refused(shape: Shape, axis: usize, len: usize, number: u8) {
    let mut random = Random::new(4010);
    let cube = random.bytes(len);
    agree(
        &format!("{shape:?}, axis {axis}, {len} bytes"),
        &mut random,
        [&cube],
        |[cube]| numbered(mend_axis(shape, axis, cube)),
        |_| Err(number),
    );
}

#[test]
fn shapes_at_the_limits() {
    for (shape, number) in SHAPES_AT_THE_LIMITS {
        assert_refused(shape, [28, 28], &[2; 28], number);
        for axis in 1..=3 {
            assert_pass_refused(shape, axis, 28, number);
        }
        // The axis is asked for beside the lengths, before W.
        for axis in [0, 4, usize::MAX] {
            assert_pass_refused(shape, axis, 28, 1);
        }
    }
}

#[test]
fn refusals_change_no_byte() {
    let good = Shape::new(3, 3, 3, 2);
    // Cubes of 54 bytes, 27 flags; those that are not 0.
    for (cubes, flags_len, marked, number) in [
        ([53, 54], 27, &[] as &[(usize, u8)], 4),
        ([55, 54], 27, &[], 4),
        ([54, 54], 26, &[], 4),
        ([54, 54], 28, &[], 4),
        ([54, 53], 27, &[], 4),
        ([54, 55], 27, &[], 4),
        ([0, 0], 0, &[], 4),
        ([54, 54], 54, &[], 4),
        ([54, 54], 27, &[(0, 3)], 5),
        ([54, 54], 27, &[(26, 255)], 5),
        ([54, 54], 27, &[(0, 1)], 15),
        ([54, 54], 27, &[(26, 1)], 15),
        ([54, 54], 27, &[(0, 2), (13, 1), (26, 2)], 15),
        // 5 is asked of all flags before 15.
        ([54, 54], 27, &[(0, 1), (26, 3)], 5),
        ([54, 54], 27, &[(0, 3), (26, 1)], 5),
        // The first of several reasons counts.
        ([54, 53], 27, &[(0, 1), (26, 3)], 4),
    ] {
        let mut flags = vec![0; flags_len];
        for &(place, flag) in marked {
            flags[place] = flag;
        }
        assert_refused(good, cubes, &flags, number);
    }
}

#[test]
fn refusals_of_a_pass_change_no_byte() {
    let good = Shape::new(3, 3, 3, 2);
    for (axis, len, number) in [
        (0, 54, 1),
        (4, 54, 1),
        (usize::MAX, 54, 1),
        // 1 modulo 256 and modulo 2^32.
        (257, 54, 1),
        ((1 << 32) + 1, 54, 1),
        (1, 53, 4),
        (2, 55, 4),
        (3, 0, 4),
        // The first of several reasons counts.
        (4, 53, 1),
    ] {
        assert_pass_refused(good, axis, len, number);
    }
}
