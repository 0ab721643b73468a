//! Systems of linear equations over the field, by Gaussian elimination.

use crate::field::{inverse, products};

/// What a system of equations has.
#[derive(Debug, PartialEq, Eq)]
pub enum Solutions {
    None,
    /// One row for each unknown, one column for each right-hand side.
    One(Vec<Vec<u8>>),
    Many,
}

/// Solves several systems with the same left-hand side at once. A row holds the factors of the unknowns, then the
/// right-hand sides. If any right-hand side has no solution, the answer is `None`.
pub fn solve(mut rows: Vec<Vec<u8>>, unknowns: usize) -> Solutions {
    let mut rank = 0;
    for column in 0..unknowns {
        let Some(pivot) = (rank..rows.len()).find(|&row| rows[row][column] != 0) else {
            continue;
        };
        rows.swap(rank, pivot);
        let scale = products(inverse(rows[rank][column]).expect("the pivot is not 0"));
        for byte in &mut rows[rank] {
            *byte = scale[usize::from(*byte)];
        }
        let pivot_row = rows[rank].clone();
        for (i, row) in rows.iter_mut().enumerate() {
            if i != rank && row[column] != 0 {
                let times = products(row[column]);
                for (byte, &pivot_byte) in row.iter_mut().zip(&pivot_row) {
                    *byte ^= times[usize::from(pivot_byte)];
                }
            }
        }
        rank += 1;
    }
    if rows[rank..].iter().flatten().any(|&byte| byte != 0) {
        Solutions::None
    } else if rank < unknowns {
        Solutions::Many
    } else {
        rows.truncate(unknowns);
        Solutions::One(
            rows.into_iter()
                .map(|row| row[unknowns..].to_vec())
                .collect(),
        )
    }
}

#[cfg(test)]
mod tests {
    use super::*;

    #[test]
    fn systems() {
        // x + y = 3, x + 2y = 5: y times 3 is 6, so y is 2 and x is 1.
        let one = vec![vec![1, 1, 3], vec![1, 2, 5]];
        assert_eq!(solve(one, 2), Solutions::One(vec![vec![1], vec![2]]));
        let none = vec![vec![1, 1, 3], vec![2, 2, 5]];
        assert_eq!(solve(none, 2), Solutions::None);
        let many = vec![vec![1, 1, 3], vec![2, 2, 6]];
        assert_eq!(solve(many, 2), Solutions::Many);
    }
}
