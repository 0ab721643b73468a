//! Lines of packets by GF-Complete, whose field of 8 bits is that of 11Dh: sums of regions of memory times constants.

use std::ffi::{c_int, c_void};
use std::ptr;

use crate::cube_encoder::{LineCode, PARITY, product};

/// Adds `value` times a region to another, or puts it there.
type MultiplyRegion =
    unsafe extern "C" fn(*mut Field, *const u8, *mut u8, value: u32, bytes: c_int, add: c_int);

/// The library's `gf_t`: five functions and its own memory.
#[repr(C)]
struct Field {
    multiply: *const c_void,
    divide: *const c_void,
    inverse: *const c_void,
    multiply_region: Option<MultiplyRegion>,
    extract_word: *const c_void,
    scratch: *mut c_void,
}

#[link(name = "gf_complete")]
unsafe extern "C" {
    fn gf_init_easy(field: *mut Field, bits: c_int) -> c_int;
}

/// The widths whose packets it takes as they stand: source and destination must be alike in their last four bits.
pub const ALIGNMENT: usize = 16;

/// A line by products of regions.
pub struct GfLine {
    field: Field,
    multiply_region: MultiplyRegion,
    /// The factor of each data place in the second parity.
    powers: Vec<u8>,
}

impl LineCode for GfLine {
    fn new(length: usize) -> GfLine {
        let mut field = Field {
            multiply: ptr::null(),
            divide: ptr::null(),
            inverse: ptr::null(),
            multiply_region: None,
            extract_word: ptr::null(),
            scratch: ptr::null_mut(),
        };
        // SAFETY: the call fills in the structure, which has the layout of the library's.
        let made = unsafe { gf_init_easy(&mut field, 8) };
        assert_eq!(made, 1, "the field is there");
        let powers = std::iter::successors(Some(1), |&power| Some(product(power, 2)));
        GfLine {
            multiply_region: field.multiply_region.expect("the field is made"),
            field,
            powers: powers.take(length - PARITY).collect(),
        }
    }

    fn encode(&mut self, memory: &mut [u8], first: usize, step: usize, len: usize) {
        let k = self.powers.len();
        assert!(first + (k + PARITY - 1) * step + len <= memory.len());
        assert!(len <= step && step % ALIGNMENT == 0);
        let base = memory.as_mut_ptr();
        for (i, &power) in self.powers.iter().enumerate() {
            for (parity, factor) in [(k, 1), (k + 1, power)] {
                // SAFETY: both packets are inside `memory` and do not overlap, by the assertions.
                unsafe {
                    (self.multiply_region)(
                        &mut self.field,
                        base.add(first + i * step),
                        base.add(first + parity * step),
                        u32::from(factor),
                        len as c_int,
                        c_int::from(i > 0),
                    );
                }
            }
        }
    }
}
