//! Lines of packets by ISA-L.

use std::ffi::c_int;

use crate::cube_encoder::{LineCode, PARITY};

#[link(name = "isal")]
unsafe extern "C" {
    fn gf_gen_rs_matrix(matrix: *mut u8, rows: c_int, k: c_int);
    fn ec_init_tables(k: c_int, rows: c_int, matrix: *const u8, tables: *mut u8);
    fn ec_encode_data(
        len: c_int,
        k: c_int,
        rows: c_int,
        tables: *const u8,
        data: *const *const u8,
        coding: *const *mut u8,
    );
}

/// A line by `ec_encode_data`, which is made for this code.
pub struct IsalLine {
    data_places: usize,
    tables: Vec<u8>,
    /// Where the packets of the line in work stand.
    places: Vec<*mut u8>,
}

impl LineCode for IsalLine {
    fn new(length: usize) -> IsalLine {
        let k = length - PARITY;
        let mut matrix = vec![0; length * k];
        let mut tables = vec![0; 32 * k * PARITY];
        // SAFETY: the matrix has `length` rows of `k`; the tables have 32 bytes for each entry of its last two rows.
        unsafe {
            gf_gen_rs_matrix(matrix.as_mut_ptr(), length as c_int, k as c_int);
            let parity_rows = &matrix[k * k..];
            ec_init_tables(
                k as c_int,
                PARITY as c_int,
                parity_rows.as_ptr(),
                tables.as_mut_ptr(),
            );
        }
        IsalLine {
            data_places: k,
            tables,
            places: vec![std::ptr::null_mut(); length],
        }
    }

    fn encode(&mut self, memory: &mut [u8], first: usize, step: usize, len: usize) {
        let k = self.data_places;
        assert!(first + (k + PARITY - 1) * step + len <= memory.len());
        assert!(len <= step);
        let base = memory.as_mut_ptr();
        for (i, place) in self.places.iter_mut().enumerate() {
            // SAFETY: inside `memory`, by the first assertion.
            *place = unsafe { base.add(first + i * step) };
        }
        // SAFETY: all packets are inside `memory`, and the written ones overlap no other, as `len` is at most `step`.
        unsafe {
            ec_encode_data(
                len as c_int,
                k as c_int,
                PARITY as c_int,
                self.tables.as_ptr(),
                self.places.as_ptr().cast(),
                self.places[k..].as_ptr(),
            );
        }
    }
}
