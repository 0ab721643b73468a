//! The field of bytes in which the lines are summed: binary polynomials modulo 1C3h.

use crate::ffi::{jibrufath_inverse, jibrufath_mul, jibrufath_pow};

/// The product of two bytes.
///
/// ```
/// assert_eq!(jibrufath::field::mul(0x02, 0x80), 0xC3);
/// ```
pub fn mul(a: u8, b: u8) -> u8 {
    jibrufath_mul(a, b)
}

/// The byte whose product with `a` is 01h; none for 00h.
///
/// ```
/// assert_eq!(jibrufath::field::inverse(0x02), Some(0xE1));
/// assert_eq!(jibrufath::field::inverse(0x00), None);
/// ```
pub fn inverse(a: u8) -> Option<u8> {
    (a != 0).then(|| jibrufath_inverse(a))
}

/// α, which is 02h, to the i-th.
///
/// ```
/// assert_eq!(jibrufath::field::pow(7), 0x80);
/// assert_eq!(jibrufath::field::pow(8), 0xC3);
/// ```
pub fn pow(i: u8) -> u8 {
    jibrufath_pow(i)
}
