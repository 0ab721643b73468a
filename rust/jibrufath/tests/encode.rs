//! The field, encoding, extracting and checking, compared with the independent program.

use compare::{
    SHAPES_AT_THE_LIMITS, agree, lightest_line, narrow_shapes, numbered, random_code_cube,
    random_shape, twin,
};
use jibrufath::{Shape, encode, extract, field, is_code_cube};
use reference::field::mul;
use reference::random::Random;

#[test]
fn all_products() {
    for a in 0..=255 {
        for b in 0..=255 {
            let product = reference::field::mul(a, b);
            assert_eq!(field::mul(a, b), product, "{a:02X}h times {b:02X}h");
        }
    }
}

#[test]
fn all_inverses() {
    for a in 0..=255 {
        assert_eq!(field::inverse(a), reference::field::inverse(a), "{a:02X}h");
    }
}

#[test]
fn powers_past_the_period() {
    for i in 0..=255 {
        assert_eq!(field::pow(i), reference::field::pow(i.into()), "power {i}");
    }
}

/// Encodes random data over garbage, and reads data out of the code cube and out of garbage.
fn compare(random: &mut Random, shape: Shape) {
    let data = random.bytes(twin(shape).capacity());
    let code_cube = compare_encode(random, shape, &data);
    compare_extract(random, shape, &code_cube);
    let garbage = random.bytes(code_cube.len());
    compare_extract(random, shape, &garbage);
    assert!(compare_check(random, shape, &code_cube), "{shape:?}");
    compare_check(random, shape, &garbage);
    let mut damaged = code_cube;
    let at = random.among(0..=damaged.len() - 1);
    damaged[at] ^= random.nonzero_byte();
    assert!(!compare_check(random, shape, &damaged), "{shape:?}, {at}");
}

/// Whether any cube is a code cube, by both programs.
fn compare_check(random: &mut Random, shape: Shape, cube: &[u8]) -> bool {
    agree(
        &format!("is_code_cube {shape:?}"),
        random,
        [cube],
        |[cube]| numbered(is_code_cube(shape, cube)),
        |[cube]| reference::is_code_cube(twin(shape), cube),
    )
    .answer
    .expect("the shape is good")
}

/// Encodes over garbage, compares every byte, and hands back the code cube.
fn compare_encode(random: &mut Random, shape: Shape, data: &[u8]) -> Vec<u8> {
    let garbage = random.bytes(twin(shape).cube_bytes());
    let [_, code_cube] = agree(
        &format!("encode {shape:?}"),
        random,
        [data, &garbage],
        |[data, cube]| numbered(encode(shape, data, cube)),
        |[data, cube]| reference::encode(twin(shape), data, cube),
    )
    .after;
    code_cube
}

/// Reads the data of any cube, over garbage, and compares every byte.
fn compare_extract(random: &mut Random, shape: Shape, cube: &[u8]) {
    let garbage = random.bytes(twin(shape).capacity());
    agree(
        &format!("extract {shape:?}"),
        random,
        [cube, &garbage],
        |[cube, data]| numbered(extract(shape, cube, data)),
        |[cube, data]| reference::extract(twin(shape), cube, data),
    );
}

#[test]
fn random_cubes() {
    let mut random = Random::new(2001);
    for _ in 0..10_000 {
        let shape = random_shape(&mut random);
        compare(&mut random, shape);
    }
}

#[test]
fn every_narrow_width() {
    let mut random = Random::new(2008);
    for shape in narrow_shapes() {
        compare(&mut random, shape);
    }
}

/// Cubes of narrow cells with more than 64 rows in a plane or in all, so that a check of 64 rows at a time has a rest.
fn cubes_of_many_rows(random: &mut Random) -> Vec<(Shape, Vec<u8>)> {
    let lengths = [
        [3, 65, 3],
        [4, 130, 3],
        [65, 3, 4],
        [3, 4, 65],
        [5, 9, 8],
        [3, 8, 8],
    ];
    let shapes = (1..=9).flat_map(|w| lengths.map(|[l1, l2, l3]| Shape::new(l1, l2, l3, w)));
    shapes
        .map(|shape| (shape, random_code_cube(random, shape)))
        .collect()
}

#[test]
fn one_wrong_byte_anywhere() {
    let mut random = Random::new(2009);
    for (shape, mut cube) in cubes_of_many_rows(&mut random) {
        assert_eq!(is_code_cube(shape, &cube), Ok(true), "{shape:?}");
        for at in 0..cube.len() {
            let wrong = random.nonzero_byte();
            cube[at] ^= wrong;
            assert_eq!(is_code_cube(shape, &cube), Ok(false), "{shape:?}, {at}");
            cube[at] ^= wrong;
        }
    }
}

/// Three places in succession along each of two axes, in one plane across the third, get what keeps every line of these two right: the
/// nine lines of the third axis alone show it.
#[test]
fn wrong_along_one_axis_alone() {
    let mut random = Random::new(2010);
    for (shape, right) in cubes_of_many_rows(&mut random) {
        let lengths = twin(shape).lengths;
        for across in 0..3 {
            let [one, other] = [(across + 1) % 3, (across + 2) % 3];
            // Every row of nine in its turn, those at the end among them.
            for first in 0..=lengths[one] - 3 {
                let mut cube = right.clone();
                let start = random.among(0..=lengths[other] - 3);
                let [ones, others] = [first, start].map(|at| [at, at + 1, at + 2]);
                let plane = random.among(0..=lengths[across] - 1);
                let layer = random.among(0..=shape.w - 1);
                let factor = random.nonzero_byte();
                for (&i, x) in ones.iter().zip(lightest_line(&ones)) {
                    for (&j, y) in others.iter().zip(lightest_line(&others)) {
                        let mut place = [plane; 3];
                        (place[one], place[other]) = (i, j);
                        cube[twin(shape).cell(place) * shape.w + layer] ^= mul(factor, mul(x, y));
                    }
                }
                let found = !compare_check(&mut random, shape, &cube);
                assert!(found, "{shape:?}, across axis {}, from {first}", across + 1);
            }
        }
    }
}

#[test]
fn special_data() {
    let mut random = Random::new(2002);
    for _ in 0..100 {
        let shape = random_shape(&mut random);
        let len = twin(shape).capacity();
        let mut one_byte = vec![0x00; len];
        one_byte[random.among(0..=len - 1)] = random.nonzero_byte();
        for data in [vec![0x00; len], vec![0xFF; len], one_byte] {
            compare_encode(&mut random, shape, &data);
        }
    }
}

#[test]
fn large_cubes() {
    let mut random = Random::new(2003);
    for (l1, l2, l3, w) in [
        (69, 69, 25, 3),    // the reference set's lengths
        (20, 20, 10, 397),  // its width
        (255, 255, 3, 1),   // two longest axes
        (255, 3, 255, 2),   //
        (3, 255, 255, 5),   //
        (255, 255, 255, 1), // three
        (9, 9, 9, 1024),    // the widest cells
        (3, 3, 255, 1024),  //
        (3, 255, 3, 1024),  //
        (255, 3, 3, 1024),  //
        (254, 254, 4, 16),  //
    ] {
        compare(&mut random, Shape::new(l1, l2, l3, w));
    }
}

#[test]
fn largest_cubes() {
    let mut random = Random::new(2004);
    for (l1, l2, l3, w) in [
        (128, 128, 16, 1024), // exactly the most bytes
        (255, 255, 255, 16),  // the most cells, with the widest packets that they may have
    ] {
        let shape = Shape::new(l1, l2, l3, w);
        let data = random.bytes(twin(shape).capacity());
        compare_encode(&mut random, shape, &data);
    }
}

/// Both calls, lent garbage of these lengths, refuse with the number and change no byte.
fn assert_refused(shape: Shape, data_len: usize, cube_len: usize, number: u8) {
    let mut random = Random::new(2005);
    let what = format!("{shape:?} with {data_len} and {cube_len} bytes");
    let [data, cube] = [data_len, cube_len].map(|len| random.bytes(len));
    let before: [&[u8]; 2] = [&data, &cube];
    let calls = [
        |[data, cube]: [&mut [u8]; 2], shape| encode(shape, data, cube),
        |[data, cube]: [&mut [u8]; 2], shape| extract(shape, cube, data),
    ];
    for call in calls {
        let call = |lent: [&mut [u8]; 2]| numbered(call(lent, shape));
        agree(&what, &mut random, before, call, |_| Err(number));
    }
}

#[test]
fn shapes_at_the_limits() {
    for (shape, number) in SHAPES_AT_THE_LIMITS {
        assert_refused(shape, 2, 28, number);
    }
}

#[test]
fn slices_of_other_lengths() {
    // 5 by 4 by 3 cells of 2 bytes: data of 12 bytes, a cube of 120.
    for (data_len, cube_len) in [
        (11, 120),
        (13, 120),
        (12, 119),
        (12, 121),
        (0, 120),
        (12, 0),
        (0, 0),
        (120, 12),
        (120, 120),
        // As if W were 1.
        (6, 60),
        (12, 60),
    ] {
        assert_refused(Shape::new(5, 4, 3, 2), data_len, cube_len, 4);
    }
}

#[test]
fn checks_refused() {
    let good = Shape::new(5, 4, 3, 2);
    let other_lengths = [0, 1, 60, 119, 121, 240].map(|len| (good, len, 4));
    let limits = SHAPES_AT_THE_LIMITS.map(|(shape, number)| (shape, 28, number));
    let mut random = Random::new(2007);
    for (shape, len, number) in limits.into_iter().chain(other_lengths) {
        let cube = random.bytes(len);
        agree(
            &format!("is_code_cube {shape:?} with {len} bytes"),
            &mut random,
            [&cube],
            |[cube]| numbered(is_code_cube(shape, cube)),
            |_| Err(number),
        );
    }
}

#[test]
fn lengths_and_widths_that_pass() {
    let mut random = Random::new(2006);
    for (l1, l2, l3, w) in [
        (3, 3, 3, 1),
        (255, 3, 3, 1),
        (3, 255, 3, 1),
        (3, 3, 255, 1),
        (3, 3, 3, 1024),
    ] {
        compare(&mut random, Shape::new(l1, l2, l3, w));
    }
}

#[test]
fn sizes_of_a_shape() {
    for (shape, number) in SHAPES_AT_THE_LIMITS {
        let other = twin(shape);
        let sizes = [
            shape.check().map(|()| 0),
            shape.cells(),
            shape.cube_bytes(),
            shape.capacity(),
            shape.pack_bytes(),
            shape.file_bytes(),
        ];
        let expected = match number {
            4 => [
                Ok(0),
                Ok(other.cells()),
                Ok(other.cube_bytes()),
                Ok(other.capacity()),
                Ok(other.pack_bytes()),
                other.capacity().checked_sub(4).ok_or(10),
            ],
            _ => [Err(number); 6],
        };
        assert_eq!(sizes.map(numbered), expected, "{shape:?}");
    }
}
