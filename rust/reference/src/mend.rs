//! Mending of wrong bytes: a pass an axis, each line of each layer by itself.

use crate::Shape;
use crate::field::{PERIOD, logarithm};

/// One pass along an axis (1, 2 or 3).
pub fn mend_axis(shape: Shape, axis: usize, cube: &mut [u8]) -> Result<(), u8> {
    shape.check(Some(axis))?;
    if cube.len() != shape.cube_bytes() {
        return Err(4);
    }
    for line in shape.lines(axis) {
        let [first, second] = shape.sums(cube, line);
        for w in 0..shape.w {
            if let Some(j) = place_of_error(first[w], second[w], line.length) {
                cube[line.cell(j) * shape.w + w] ^= first[w];
            }
        }
    }
    Ok(())
}

/// The j below the length with `second` = α^j × `first`, both not 0.
pub fn place_of_error(first: u8, second: u8, length: usize) -> Option<usize> {
    let j = (PERIOD + logarithm(second)? - logarithm(first)?) % PERIOD;
    (j < length).then_some(j)
}

/// The three passes on a copy; what they leave is written if it is a code cube.
pub fn mend(shape: Shape, cube: &[u8], flags: &[u8], second: &mut [u8]) -> Result<(), u8> {
    shape.check(None)?;
    let bytes = shape.cube_bytes();
    if cube.len() != bytes || flags.len() != shape.cells() || second.len() != bytes {
        return Err(4);
    }
    if flags.iter().any(|&flag| flag > 2) {
        return Err(5);
    }
    if flags.contains(&1) {
        return Err(15);
    }
    let mut mended = cube.to_vec();
    for axis in 1..=3 {
        mend_axis(shape, axis, &mut mended)?;
    }
    if shape.is_code_cube(&mended) {
        second.copy_from_slice(&mended);
        Ok(())
    } else {
        second.fill(0);
        Err(16)
    }
}

#[cfg(test)]
mod tests {
    use super::*;
    use crate::encode;
    use crate::field::{mul, pow};

    #[test]
    fn examples_of_document_01() {
        let shape = Shape::new(3, 3, 3, 1);
        let mut right = [0; 27];
        encode(shape, &[0x08], &mut right).unwrap();
        let mut wrong = right;
        wrong[13] = 0x00;
        let mut second = [0xAA; 27];
        assert_eq!(mend(shape, &wrong, &[0; 27], &mut second), Ok(()));
        assert_eq!((second, second[13]), (right, 0x0F));

        assert_eq!(mend(shape, &wrong, &[2; 27], &mut second), Ok(()));

        assert_eq!(place_of_error(0x01, 0x08, 3), None);
        assert_eq!(place_of_error(0x01, 0x08, 4), Some(3));
    }

    #[test]
    fn place_of_error_by_definition() {
        for first in 0..=255u8 {
            for second in 0..=255u8 {
                for length in [3, 100, 255] {
                    let place = (0..length).find(|&j| second == mul(pow(j), first));
                    let both = first != 0 && second != 0;
                    assert_eq!(
                        place_of_error(first, second, length),
                        place.filter(|_| both)
                    );
                }
            }
        }
    }
}
