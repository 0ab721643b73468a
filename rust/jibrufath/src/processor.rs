//! Which instructions of the processor the calls use.
//!
//! On x86-64 there are two archives of the same proved library: one for every such processor, and one for those with AVX2 (x86-64-v3).
//! Each thread uses the fastest that the processor has, and both give the same answers and the same bytes. The feature `baseline` leaves
//! the second archive out.

use std::cell::Cell;

/// The instructions that an archive is compiled for.
#[derive(Clone, Copy, Debug, PartialEq, Eq)]
pub enum Instructions {
    /// Those that every processor of its kind has; on x86-64 up to SSE2.
    Baseline,
    /// Those of x86-64-v3, AVX2 among them.
    Avx2,
}

thread_local! {
    /// What the calls of this thread use.
    static IN_USE: Cell<Instructions> = Cell::new(fastest());
}

impl Instructions {
    /// Those that this processor has and that are linked, the fastest last.
    pub fn available() -> &'static [Instructions] {
        match fastest() {
            Instructions::Baseline => &[Instructions::Baseline],
            Instructions::Avx2 => &[Instructions::Baseline, Instructions::Avx2],
        }
    }

    /// Those that the calls of this thread use.
    pub fn in_use() -> Instructions {
        IN_USE.get()
    }

    /// Does the work with these in use, in this thread. To measure, and to compare what both give.
    ///
    /// ```
    /// use jibrufath::processor::Instructions;
    /// use jibrufath::{Shape, write};
    ///
    /// for &instructions in Instructions::available() {
    ///     let pack = instructions.with(|| write(Shape::new(5, 4, 3, 16), b"a broadcast"));
    ///     assert_eq!(pack, write(Shape::new(5, 4, 3, 16), b"a broadcast"));
    /// }
    /// ```
    ///
    /// # Panics
    ///
    /// If they are not [available](Instructions::available).
    pub fn with<T>(self, work: impl FnOnce() -> T) -> T {
        assert!(
            Instructions::available().contains(&self),
            "{self:?} is not available"
        );
        let _before = PutBack(IN_USE.replace(self));
        work()
    }
}

/// Puts back what was in use, also where the work panics.
struct PutBack(Instructions);

impl Drop for PutBack {
    fn drop(&mut self) {
        IN_USE.set(self.0);
    }
}

/// The fastest that the processor has. The standard library asks the processor once.
fn fastest() -> Instructions {
    #[cfg(avx2)]
    if is_x86_feature_detected!("avx2")
        && is_x86_feature_detected!("bmi1")
        && is_x86_feature_detected!("bmi2")
        && is_x86_feature_detected!("f16c")
        && is_x86_feature_detected!("fma")
        && is_x86_feature_detected!("lzcnt")
        && is_x86_feature_detected!("movbe")
    {
        return Instructions::Avx2;
    }
    Instructions::Baseline
}

/// Whether the calls of this thread use AVX2.
#[cfg(avx2)]
pub(crate) fn uses_avx2() -> bool {
    Instructions::in_use() == Instructions::Avx2
}
