//! The field of 256 bytes, by tables of logarithms to the base α.

use std::sync::LazyLock;

/// The field's polynomial: degrees 8, 7, 6, 1, 0.
const POLYNOMIAL: u32 = 0x1C3;

/// α, whose powers 0 to 254 are the nonzero bytes.
pub const ALPHA: u8 = 0x02;

/// The number of nonzero bytes, and the period of α's powers.
pub const PERIOD: usize = 255;

/// The product of two bytes as binary polynomials, then the remainder of long division.
/// Only the tables, and the tests of the tables, are made with it.
pub fn product_by_definition(a: u8, b: u8) -> u8 {
    let mut coefficients = [0u32; 15];
    for i in 0..8 {
        for j in 0..8 {
            coefficients[i + j] += u32::from(a) >> i & u32::from(b) >> j & 1;
        }
    }
    for degree in (8..15).rev() {
        if coefficients[degree] % 2 == 1 {
            for i in 0..=8 {
                coefficients[degree - 8 + i] += POLYNOMIAL >> i & 1;
            }
        }
    }
    (0..8).map(|i| ((coefficients[i] % 2) as u8) << i).sum()
}

struct Tables {
    /// α to the i-th.
    powers: [u8; PERIOD],
    /// The i with α to the i-th equal to the byte; the entry of 0 means nothing.
    logarithms: [usize; 256],
    /// All products, a row for each first factor.
    products: Vec<[u8; 256]>,
}

static TABLES: LazyLock<Tables> = LazyLock::new(|| {
    let mut powers = [0; PERIOD];
    let mut logarithms = [0; 256];
    let mut power = 1;
    for (i, entry) in powers.iter_mut().enumerate() {
        *entry = power;
        logarithms[usize::from(power)] = i;
        power = product_by_definition(power, ALPHA);
    }
    let mut products = vec![[0; 256]; 256];
    for a in 1..256 {
        for b in 1..256 {
            products[a][b] = powers[(logarithms[a] + logarithms[b]) % PERIOD];
        }
    }
    Tables {
        powers,
        logarithms,
        products,
    }
});

/// The products of `a` with every byte.
pub fn products(a: u8) -> &'static [u8; 256] {
    &TABLES.products[usize::from(a)]
}

/// The product of two bytes.
pub fn mul(a: u8, b: u8) -> u8 {
    products(a)[usize::from(b)]
}

/// α to the i-th.
pub fn pow(i: usize) -> u8 {
    TABLES.powers[i % PERIOD]
}

/// The i below 255 with α to the i-th equal to `a`; none for 0.
pub fn logarithm(a: u8) -> Option<usize> {
    (a != 0).then(|| TABLES.logarithms[usize::from(a)])
}

/// The byte whose product with `a` is 1; none for 0.
pub fn inverse(a: u8) -> Option<u8> {
    logarithm(a).map(|i| pow(PERIOD - i))
}

#[cfg(test)]
mod tests {
    use super::*;

    #[test]
    fn examples_of_document_01() {
        assert_eq!(mul(0x02, 0x80), 0xC3);
        assert_eq!(mul(0x02, 0xE1), 0x01);
    }

    #[test]
    fn tables_agree_with_polynomials() {
        for a in 0..=255 {
            for b in 0..=255 {
                assert_eq!(mul(a, b), product_by_definition(a, b), "{a} times {b}");
            }
        }
    }

    #[test]
    fn powers_are_the_nonzero_bytes() {
        let mut bytes: Vec<u8> = (0..PERIOD).map(pow).collect();
        bytes.sort();
        assert_eq!(bytes, (1..=255).collect::<Vec<u8>>());
    }

    #[test]
    fn inverses() {
        assert_eq!(inverse(0), None);
        for a in 1..=255 {
            assert_eq!(mul(a, inverse(a).unwrap()), 1);
        }
    }
}
