//! Random shapes, and shapes at the limits of the checks.

use jibrufath::Shape;
use reference::random::Random;

/// Widths around the steps that a fast program may take.
pub(crate) const EDGE_WIDTHS: [usize; 21] = [
    15, 16, 17, 31, 32, 33, 63, 64, 65, 127, 128, 129, 255, 256, 257, 511, 512, 513, 1022, 1023,
    1024,
];

/// A shape that passes all checks: mostly a tiny one, now and then a long, wide, flat or larger one.
pub fn random_shape(random: &mut Random) -> Shape {
    let mut lengths = [0; 3].map(|_| random.among(3..=6));
    let w = match random.among(0..=99) {
        0..70 => random.among(1..=5),
        70..82 => {
            lengths = lengths.map(|_| random.among(3..=12));
            random.among(1..=40)
        }
        82..88 => {
            lengths[random.among(0..=2)] = random.among(7..=255);
            random.among(1..=20)
        }
        88..92 => random.among(1..=1024),
        92..96 => random.pick(&EDGE_WIDTHS),
        96..99 => {
            let thin = random.among(0..=2);
            for (axis, length) in lengths.iter_mut().enumerate() {
                if axis != thin {
                    *length = random.among(7..=60);
                }
            }
            random.among(1..=4)
        }
        _ => {
            lengths = lengths.map(|_| random.among(10..=30));
            random.among(1..=8)
        }
    };
    Shape::new(lengths[0], lengths[1], lengths[2], w)
}

/// Small cubes, and cubes with more than 64 rows, columns or planes, of every width up to 65 bytes.
pub fn narrow_shapes() -> impl Iterator<Item = Shape> {
    let lengths = [[3, 3, 3], [5, 4, 6], [4, 67, 3], [66, 3, 4], [3, 4, 70]];
    (1..=65).flat_map(move |w| lengths.map(|[l1, l2, l3]| Shape::new(l1, l2, l3, w)))
}

/// The same shape for the independent program.
pub fn twin(shape: Shape) -> reference::Shape {
    reference::Shape::new(shape.l1, shape.l2, shape.l3, shape.w)
}

/// Shapes larger than the random ones: long axes, wide cells, many cells.
pub const LARGE_SHAPES: [Shape; 8] = [
    Shape::new(69, 69, 25, 3),
    Shape::new(20, 20, 10, 397),
    Shape::new(255, 255, 3, 1),
    Shape::new(255, 3, 255, 2),
    Shape::new(3, 255, 255, 5),
    Shape::new(130, 140, 150, 1),
    Shape::new(9, 9, 9, 1024),
    Shape::new(4, 5, 255, 1024),
];

const HUGE: usize = usize::MAX;

/// Shapes, and what every call answers to them that is lent slices of wrong lengths: 4 where the shape is good.
pub const SHAPES_AT_THE_LIMITS: [(Shape, u8); 37] = [
    (Shape::new(2, 3, 3, 1), 1),
    (Shape::new(3, 2, 3, 1), 1),
    (Shape::new(3, 3, 2, 1), 1),
    (Shape::new(0, 3, 3, 1), 1),
    (Shape::new(3, 0, 3, 1), 1),
    (Shape::new(3, 3, 0, 1), 1),
    (Shape::new(256, 3, 3, 1), 1),
    (Shape::new(3, 256, 3, 1), 1),
    (Shape::new(3, 3, 256, 1), 1),
    (Shape::new(HUGE, 3, 3, 1), 1),
    (Shape::new(3, HUGE, 3, 1), 1),
    (Shape::new(3, 3, HUGE, 1), 1),
    (Shape::new(HUGE, HUGE, HUGE, HUGE), 1),
    // 3 modulo 256 and modulo 2^32.
    (Shape::new(259, 3, 3, 1), 1),
    (Shape::new(3, (1 << 32) + 3, 3, 1), 1),
    (Shape::new(3, 3, 3, 0), 2),
    (Shape::new(3, 3, 3, 1025), 2),
    (Shape::new(3, 3, 3, 65535), 2),
    (Shape::new(3, 3, 3, HUGE), 2),
    (Shape::new(3, 3, 3, (1 << 32) + 1), 2),
    (Shape::new(255, 255, 255, 17), 3),
    (Shape::new(255, 255, 255, 1024), 3),
    (Shape::new(255, 255, 65, 1017), 3),
    (Shape::new(128, 128, 17, 1024), 3),
    // 10 bytes too many.
    (Shape::new(26, 167, 211, 293), 3),
    // The first of several reasons counts.
    (Shape::new(2, 3, 3, 0), 1),
    (Shape::new(255, 255, 256, 17), 1),
    (Shape::new(255, 255, 255, 1025), 2),
    (Shape::new(3, 3, 3, 1), 4),
    (Shape::new(255, 3, 3, 1), 4),
    (Shape::new(3, 255, 3, 1), 4),
    (Shape::new(3, 3, 255, 1), 4),
    (Shape::new(3, 3, 3, 1024), 4),
    (Shape::new(255, 255, 255, 16), 4),
    (Shape::new(128, 128, 16, 1024), 4),
    // One byte below the most.
    (Shape::new(113, 127, 215, 87), 4),
    (Shape::new(69, 69, 25, 397), 4),
];
