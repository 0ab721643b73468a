//! The exported calls as include/jibrufath.h declares them. Each goes to the archive whose instructions are in use.

#[cfg(avx2)]
use crate::processor;

/// Declares the calls of each archive that is linked, and for each call a function of its name that goes to one of them.
macro_rules! calls {
    (
        safe { $(pub fn $safe:ident($($number:ident: $numbers:ty),*) -> $told:ty;)* }
        unsafe { $(pub fn $lent:ident($($argument:ident: $kind:ty),* $(,)?) -> $answer:ty;)* }
    ) => {
        mod baseline {
            unsafe extern "C" {
                $(pub safe fn $safe($($number: $numbers),*) -> $told;)*
                $(pub fn $lent($($argument: $kind),*) -> $answer;)*
            }
        }

        #[cfg(avx2)]
        mod v3 {
            unsafe extern "C" {
                $(
                    #[link_name = concat!(stringify!($safe), "_v3")]
                    pub safe fn $safe($($number: $numbers),*) -> $told;
                )*
                $(
                    #[link_name = concat!(stringify!($lent), "_v3")]
                    pub fn $lent($($argument: $kind),*) -> $answer;
                )*
            }
        }

        $(
            pub fn $safe($($number: $numbers),*) -> $told {
                #[cfg(avx2)]
                if processor::uses_avx2() {
                    return v3::$safe($($number),*);
                }
                baseline::$safe($($number),*)
            }
        )*

        $(
            /// # Safety
            ///
            /// As for the call of this name in the header.
            #[allow(clippy::too_many_arguments)]
            pub unsafe fn $lent($($argument: $kind),*) -> $answer {
                #[cfg(avx2)]
                if processor::uses_avx2() {
                    // SAFETY: the two archives have the same calls.
                    return unsafe { v3::$lent($($argument),*) };
                }
                // SAFETY: the caller's.
                unsafe { baseline::$lent($($argument),*) }
            }
        )*
    };
}

calls! {
    safe {
        pub fn jibrufath_cells(l1: u64, l2: u64, l3: u64, w: u64) -> u64;
        pub fn jibrufath_cube_bytes(l1: u64, l2: u64, l3: u64, w: u64) -> u64;
        pub fn jibrufath_capacity(l1: u64, l2: u64, l3: u64, w: u64) -> u64;
        pub fn jibrufath_pack_bytes(l1: u64, l2: u64, l3: u64, w: u64) -> u64;
        pub fn jibrufath_mul(a: u8, b: u8) -> u8;
        pub fn jibrufath_inverse(a: u8) -> u8;
        pub fn jibrufath_pow(i: u8) -> u8;
    }
    unsafe {
        pub fn jibrufath_needs(pack: *const u8, pack_len: u64, needs: *mut [u64; 16]) -> u64;

        pub fn jibrufath_write_pack(
            job: *const u8,
            job_len: u64,
            cube: *mut u8,
            cube_len: u64,
            output: *mut u8,
            output_len: u64,
        ) -> u64;

        pub fn jibrufath_receive_pack(
            air: *const u8,
            air_len: u64,
            cube: *mut u8,
            cube_len: u64,
            flags: *mut u8,
            flags_len: u64,
            file: *mut u8,
            file_len: u64,
            counts: *mut [u64; 16],
        ) -> u64;

        pub fn jibrufath_text_bytes(air: *const u8, air_len: u64) -> u64;

        pub fn jibrufath_text_pack_bytes(text: *const u8, text_len: u64) -> u64;

        pub fn jibrufath_write_text(air: *const u8, air_len: u64, text: *mut u8, text_len: u64) -> u64;

        pub fn jibrufath_read_text(text: *const u8, text_len: u64, air: *mut u8, air_len: u64) -> u64;

        pub fn jibrufath_write_plan(
            closures: *const u8,
            closures_len: u64,
            fibres: *const u8,
            fibres_len: u64,
            splices: *const u8,
            splices_len: u64,
            output: *mut u8,
            output_len: u64,
        ) -> u64;

        pub fn jibrufath_measure_plan(file: *const u8, file_len: u64, entries: *mut [u64; 3]) -> u64;

        pub fn jibrufath_read_plan(
            file: *const u8,
            file_len: u64,
            closures: *mut u8,
            closures_len: u64,
            fibres: *mut u8,
            fibres_len: u64,
            splices: *mut u8,
            splices_len: u64,
            entries: *mut [u64; 3],
        ) -> u64;

        pub fn jibrufath_receive_plan(
            air: *const u8,
            air_len: u64,
            cube: *mut u8,
            cube_len: u64,
            flags: *mut u8,
            flags_len: u64,
            file: *mut u8,
            file_len: u64,
            closures: *mut u8,
            closures_len: u64,
            fibres: *mut u8,
            fibres_len: u64,
            splices: *mut u8,
            splices_len: u64,
            counts: *mut [u64; 16],
            entries: *mut [u64; 3],
        ) -> u64;

        pub fn jibrufath_encode(
            data: *const u8,
            data_len: u64,
            cube: *mut u8,
            cube_len: u64,
            l1: u64,
            l2: u64,
            l3: u64,
            w: u64,
        ) -> u64;

        pub fn jibrufath_extract(
            cube: *const u8,
            cube_len: u64,
            data: *mut u8,
            data_len: u64,
            l1: u64,
            l2: u64,
            l3: u64,
            w: u64,
        ) -> u64;

        pub fn jibrufath_is_code_cube(
            cube: *const u8,
            cube_len: u64,
            l1: u64,
            l2: u64,
            l3: u64,
            w: u64,
        ) -> u64;

        pub fn jibrufath_fill(
            cube: *mut u8,
            cube_len: u64,
            flags: *mut u8,
            flags_len: u64,
            l1: u64,
            l2: u64,
            l3: u64,
            w: u64,
        ) -> u64;

        pub fn jibrufath_scan(
            flags: *const u8,
            flags_len: u64,
            l1: u64,
            l2: u64,
            l3: u64,
            w: u64,
            axis: u64,
            line: u64,
            counts: *mut [u64; 2],
        ) -> u64;

        pub fn jibrufath_mend_axis(
            cube: *mut u8,
            cube_len: u64,
            l1: u64,
            l2: u64,
            l3: u64,
            w: u64,
            axis: u64,
        ) -> u64;

        pub fn jibrufath_mend(
            cube: *const u8,
            cube_len: u64,
            flags: *const u8,
            flags_len: u64,
            second: *mut u8,
            second_len: u64,
            l1: u64,
            l2: u64,
            l3: u64,
            w: u64,
        ) -> u64;
    }
}
