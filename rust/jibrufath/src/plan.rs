//! Splice plans: which fibres of which closures are spliced to each other, as a file that a pack carries.
//!
//! A plan has three sections in a fixed order, each after its count of entries in four bytes: closures, fibres and splices. A
//! closure is its number, in ascending order. A fibre is the number of its closure, which is listed, and its own number, 1 to 288;
//! fibres ascend by closure and number. A splice is two indexes of fibres, from 0, in the same closure, the first lower; first
//! indexes ascend, and each fibre is in at most one splice. All numbers are low byte first, and nothing follows the splices.
//!
//! What is written is read back to the same plan, and what is read is written back to the same bytes:
//!
//! ```
//! use jibrufath::plan::{Closure, Fibre, Plan, Splice};
//!
//! // In closure 700 fibre 12 is spliced to fibre 15.
//! let plan = Plan {
//!     closures: vec![Closure { number: 700 }],
//!     fibres: vec![Fibre { closure: 700, number: 12 }, Fibre { closure: 700, number: 15 }],
//!     splices: vec![Splice { first: 0, second: 1 }],
//! };
//! let file = plan.to_bytes()?;
//! assert_eq!(Plan::from_bytes(&file)?, plan);
//! # Ok::<(), jibrufath::Error>(())
//! ```
//!
//! [`receive`] gives the plan out of the packets of its file, and gives none while a cell is left:
//!
//! ```
//! use jibrufath::plan::{Plan, receive};
//! use jibrufath::{AirPack, Shape, packets, write};
//! # use jibrufath::plan::{Closure, Fibre, Splice};
//! # let plan = Plan {
//! #     closures: vec![Closure { number: 700 }],
//! #     fibres: vec![Fibre { closure: 700, number: 12 }, Fibre { closure: 700, number: 15 }],
//! #     splices: vec![Splice { first: 0, second: 1 }],
//! # };
//!
//! let shape = Shape::new(5, 4, 3, 16);
//! let pack = write(shape, &plan.to_bytes()?)?;
//!
//! // The first 24 of the 60 packets are lost.
//! let mut air = AirPack::new(shape)?;
//! for packet in packets(&pack)?.skip(24) {
//!     air.push(packet)?;
//! }
//! assert_eq!(receive(air.as_bytes())?.into_file(), Some(plan));
//! # Ok::<(), jibrufath::Error>(())
//! ```
//!
//! The other calls work in lent memory, on lists of entries as bytes: 2 a closure, 4 a fibre and 8 a splice, as they stand in a
//! file. Where a plan is refused, [`Refusal::Entry`] says at which offset of its file: that of the first entry or count that breaks
//! a rule or is cut, or of the first byte left over.

mod entries;
mod received;

pub use entries::{Closure, Fibre, Plan, Splice};
pub use received::{PlanReceived, receive, receive_plan, receive_within};

use crate::Refusal;
use crate::ffi::{jibrufath_measure_plan, jibrufath_read_plan, jibrufath_write_plan};
use crate::refusal::answer;

/// How many entries a plan has in each of its sections.
///
/// ```
/// use jibrufath::plan::{PlanCounts, measure_plan};
///
/// // Three counts, and no entry.
/// assert_eq!(measure_plan(&[0; 12]), Ok(PlanCounts::default()));
/// ```
#[derive(Clone, Copy, Debug, Default, PartialEq, Eq, Hash)]
pub struct PlanCounts {
    /// The closures.
    pub closures: usize,
    /// The fibres.
    pub fibres: usize,
    /// The splices.
    pub splices: usize,
}

impl PlanCounts {
    fn new(counts: [u64; 3]) -> PlanCounts {
        let [closures, fibres, splices] = counts.map(|count| count as usize);
        PlanCounts {
            closures,
            fibres,
            splices,
        }
    }

    /// The length of a plan's file with so many entries: what [`write_plan`] is lent.
    ///
    /// ```
    /// use jibrufath::plan::PlanCounts;
    ///
    /// let entries = PlanCounts { closures: 1, fibres: 2, splices: 1 };
    /// assert_eq!(entries.file_bytes(), 12 + 2 + 2 * 4 + 8);
    /// ```
    pub fn file_bytes(self) -> usize {
        let counts = 3 * 4;
        counts
            + self.closures * Closure::BYTES
            + self.fibres * Fibre::BYTES
            + self.splices * Splice::BYTES
    }
}

/// Writes the file of a plan whose entries stand in lists.
///
/// `output` has 12 bytes and those of the three lists, and holds the file afterwards. What it held before does not matter.
///
/// # Errors
///
/// [`Refusal::SliceLength`], also where a list ends inside an entry; then [`Refusal::Entry`], with the offset that the entry would
/// have in the file. A refusal changes no byte.
///
/// ```
/// use jibrufath::Refusal;
/// use jibrufath::plan::{Closure, Fibre, Splice, write_plan};
///
/// let closures = Closure { number: 700 }.to_bytes();
/// let fibres = [12, 15].map(|number| Fibre { closure: 700, number }.to_bytes()).concat();
/// let splices = Splice { first: 0, second: 1 }.to_bytes();
/// let mut file = [0; 12 + 2 + 8 + 8];
/// write_plan(&closures, &fibres, &splices, &mut file)?;
/// assert_eq!(file[..6], [1, 0, 0, 0, 0xBC, 0x02]);
///
/// // A splice of a fibre with itself.
/// let refused = write_plan(&closures, &fibres, &[0; 8], &mut file);
/// assert_eq!(refused, Err(Refusal::Entry { offset: 22 }));
/// # Ok::<(), Refusal>(())
/// ```
pub fn write_plan(
    closures: &[u8],
    fibres: &[u8],
    splices: &[u8],
    output: &mut [u8],
) -> Result<(), Refusal> {
    // SAFETY: the slices are borrowed for the call, which is proved to stay inside them for any bytes.
    let word = unsafe {
        jibrufath_write_plan(
            closures.as_ptr(),
            closures.len() as u64,
            fibres.as_ptr(),
            fibres.len() as u64,
            splices.as_ptr(),
            splices.len() as u64,
            output.as_mut_ptr(),
            output.len() as u64,
        )
    };
    answer(word).map(|_| ())
}

/// Says how many entries a plan has, and so how long the lists are that [`read_plan`] is lent.
///
/// # Errors
///
/// [`Refusal::Entry`].
///
/// ```
/// use jibrufath::Refusal;
/// use jibrufath::plan::{PlanCounts, measure_plan};
///
/// let file = [1, 0, 0, 0, 0xBC, 0x02, 0, 0, 0, 0, 0, 0, 0, 0];
/// let entries = measure_plan(&file)?;
/// assert_eq!(entries, PlanCounts { closures: 1, fibres: 0, splices: 0 });
///
/// // Without its last byte the count of splices, at offset 10, is cut.
/// assert_eq!(measure_plan(&file[..13]), Err(Refusal::Entry { offset: 10 }));
/// # Ok::<(), Refusal>(())
/// ```
pub fn measure_plan(file: &[u8]) -> Result<PlanCounts, Refusal> {
    let mut counts = [0; 3];
    answer(call_measure(file, &mut counts))?;
    Ok(PlanCounts::new(counts))
}

fn call_measure(file: &[u8], counts: &mut [u64; 3]) -> u64 {
    // SAFETY: the slice and the counts are borrowed for the call, which is proved to stay inside them for any bytes.
    unsafe { jibrufath_measure_plan(file.as_ptr(), file.len() as u64, counts) }
}

/// Reads the file of a plan to lists.
///
/// Each list has at least the bytes of its section's entries, and begins with them afterwards; the rest of it is kept.
///
/// # Errors
///
/// [`Refusal::Entry`], whatever is lent; then [`Refusal::SliceLength`] where a list is too short. A refusal changes no byte.
///
/// ```
/// use jibrufath::Refusal;
/// use jibrufath::plan::{PlanCounts, read_plan};
///
/// let file = [1, 0, 0, 0, 0xBC, 0x02, 0, 0, 0, 0, 0, 0, 0, 0];
/// let mut closures = [0xAA; 4];
/// let entries = read_plan(&file, &mut closures, &mut [], &mut [])?;
/// assert_eq!(entries, PlanCounts { closures: 1, fibres: 0, splices: 0 });
/// assert_eq!(closures, [0xBC, 0x02, 0xAA, 0xAA]);
///
/// assert_eq!(read_plan(&file, &mut [0], &mut [], &mut []), Err(Refusal::SliceLength));
/// # Ok::<(), Refusal>(())
/// ```
pub fn read_plan(
    file: &[u8],
    closures: &mut [u8],
    fibres: &mut [u8],
    splices: &mut [u8],
) -> Result<PlanCounts, Refusal> {
    let mut counts = [0; 3];
    answer(call_read(file, [closures, fibres, splices], &mut counts))?;
    Ok(PlanCounts::new(counts))
}

fn call_read(file: &[u8], lists: [&mut [u8]; 3], counts: &mut [u64; 3]) -> u64 {
    let [closures, fibres, splices] = lists;
    // SAFETY: the slices and the counts are borrowed for the call, which is proved to stay inside them for any bytes.
    unsafe {
        jibrufath_read_plan(
            file.as_ptr(),
            file.len() as u64,
            closures.as_mut_ptr(),
            closures.len() as u64,
            fibres.as_mut_ptr(),
            fibres.len() as u64,
            splices.as_mut_ptr(),
            splices.len() as u64,
            counts,
        )
    }
}

#[cfg(test)]
mod tests {
    use super::*;

    /// The counts are written by every call, and are 0 with a refusal.
    #[test]
    fn counts_are_written_whole() {
        let plan = [1, 0, 0, 0, 7, 0, 1, 0, 0, 0, 7, 0, 1, 0, 0, 0, 0, 0];
        for (file, lent, measured, read) in [
            (&plan[..], 8, (0, [1, 1, 0]), (0, [1, 1, 0])),
            (&plan[..], 3, (0, [1, 1, 0]), (4, [0; 3])),
            (
                &plan[..17],
                8,
                (18 + 14 * 256, [0; 3]),
                (18 + 14 * 256, [0; 3]),
            ),
            (&[], 0, (18, [0; 3]), (18, [0; 3])),
        ] {
            let mut counts = [u64::MAX; 3];
            let word = call_measure(file, &mut counts);
            assert_eq!((word, counts), measured);
            let mut lists = [(); 3].map(|()| vec![0; lent]);
            let lists = lists.each_mut().map(Vec::as_mut_slice);
            let mut counts = [u64::MAX; 3];
            let word = call_read(file, lists, &mut counts);
            assert_eq!((word, counts), read);
        }
    }
}
