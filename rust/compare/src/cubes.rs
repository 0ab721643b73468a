//! Random code cubes, and patterns of cells and bytes inside them.

use jibrufath::Shape;
use reference::field::{inverse, mul, pow};
use reference::random::Random;

use crate::twin;

/// A code cube of random data.
pub fn random_code_cube(random: &mut Random, shape: Shape) -> Vec<u8> {
    let data = random.bytes(twin(shape).capacity());
    let mut cube = vec![0; twin(shape).cube_bytes()];
    reference::encode(twin(shape), &data, &mut cube).expect("the shape is good");
    cube
}

/// The cells of a box of random places along each axis: `sizes` of them.
pub fn random_box(random: &mut Random, shape: Shape, sizes: [usize; 3]) -> Vec<usize> {
    let lengths = twin(shape).lengths;
    let places: Vec<Vec<usize>> = (0..3)
        .map(|axis| random.different(sizes[axis].min(lengths[axis]), lengths[axis]))
        .collect();
    let mut cells = Vec::new();
    for &c in &places[2] {
        for &b in &places[1] {
            for &a in &places[0] {
                cells.push(twin(shape).cell([a, b, c]));
            }
        }
    }
    cells
}

/// Three bytes that make a right line at the three places, the rest 00h.
pub fn lightest_line(places: &[usize]) -> [u8; 3] {
    let [i, j, k] = [0, 1, 2].map(|at| pow(places[at]));
    let scale = inverse(i ^ j).expect("the places differ");
    [mul(j ^ k, scale), mul(i ^ k, scale), 1]
}

/// A byte of a lightest code cube.
pub struct LightByte {
    /// Its place among the three along each axis.
    pub place: [usize; 3],
    pub cell: usize,
    pub byte: u8,
}

/// A random one of the lightest code cubes with one layer, the products of three lightest lines: its 27 bytes that are not 00h.
pub fn lightest_cube(random: &mut Random, shape: Shape) -> Vec<LightByte> {
    let places = twin(shape)
        .lengths
        .map(|length| random.different(3, length));
    let lines = places.each_ref().map(|places| lightest_line(places));
    let factor = random.nonzero_byte();
    let light = |number: usize| {
        let place = [number % 3, number / 3 % 3, number / 9];
        let [a, b, c] = [0, 1, 2].map(|axis| lines[axis][place[axis]]);
        LightByte {
            place,
            cell: twin(shape).cell([0, 1, 2].map(|axis| places[axis][place[axis]])),
            byte: mul(factor, mul(mul(a, b), c)),
        }
    };
    (0..27).map(light).collect()
}

/// A pattern of cells in a box, put at random coordinates of a shape, with the axes in random order.
pub struct Embedded {
    pub shape: Shape,
    /// The cells of the pattern.
    pub cells: Vec<usize>,
    /// The other cells of the box.
    pub rest: Vec<usize>,
}

impl Embedded {
    /// The shape's lengths are at most `room` above those of the box.
    pub fn new(
        random: &mut Random,
        sizes: [usize; 3],
        room: usize,
        in_pattern: impl Fn([usize; 3]) -> bool,
    ) -> Embedded {
        let axes = random.different(3, 3);
        let mut lengths = [0; 3];
        let mut coordinates = Vec::new();
        for (&axis, size) in axes.iter().zip(sizes) {
            lengths[axis] = random.among(size..=(size + room).min(255));
            coordinates.push(random.different(size, lengths[axis]));
        }
        let w = match random.among(0..=19) {
            0 => random.among(60..=70),
            _ => random.among(1..=4),
        };
        let shape = Shape::new(lengths[0], lengths[1], lengths[2], w);
        let (mut cells, mut rest) = (Vec::new(), Vec::new());
        for number in 0..sizes.iter().product() {
            let place = reference::Shape { lengths: sizes, w }.coordinates(number);
            let mut to = [0; 3];
            for i in 0..3 {
                to[axes[i]] = coordinates[i][place[i]];
            }
            let part = if in_pattern(place) {
                &mut cells
            } else {
                &mut rest
            };
            part.push(twin(shape).cell(to));
        }
        Embedded { shape, cells, rest }
    }
}
