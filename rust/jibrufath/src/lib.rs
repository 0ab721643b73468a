//! A packet cube for one-way broadcast: what a receiver has no way to ask for again, it works out.
//!
//! A cube is a block of cells in three axes, each cell a packet of W bytes. Every line of cells along every axis
//! carries two parity packets, so that lost or damaged packets follow from the others. This crate is a safe wrapper over
//! the proved static library: every call takes any numbers and any slices, and ends in an answer or in a [`Refusal`].
//!
//! [`write()`] turns a file into a pack of packets, and [`receive`] any list of them back into the file, or into the cells
//! that are left:
//!
//! ```
//! use jibrufath::{AirPack, Shape, packets, receive, write};
//!
//! let shape = Shape::new(5, 4, 3, 16);
//! let pack = write(shape, b"a broadcast")?;
//!
//! // The last 20 of the 60 packets are lost.
//! let mut air = AirPack::new(shape)?;
//! for packet in packets(&pack)?.take(40) {
//!     air.push(packet)?;
//! }
//! let reception = receive(air.as_bytes())?;
//! assert_eq!(reception.into_file().as_deref(), Some(&b"a broadcast"[..]));
//! # Ok::<(), jibrufath::Error>(())
//! ```
//!
//! A short file in a big cube need not send its empty cells: [`Shape::used_by`] makes a [`Header`] that leaves them out.
//!
//! [`mod@text`] has the text twin of an air pack, a line for each packet, and the way back. [`plan`] has splice plans, as files and
//! as packs whose file is one.
//!
//! [`write()`], [`receive`], [`AirPack`], [`job_pack`], [`text::to_text`], [`text::from_text`], [`plan::Plan`] and
//! [`plan::receive`] allocate, and say by their [`Error`] where the system has no memory. All other calls allocate nothing: the
//! caller lends all memory, with the lengths that [`Shape`], [`needs()`], [`text::text_bytes`], [`text::text_pack_bytes`] or
//! [`plan::measure_plan`] gives.
//!
//! The build script proves and builds the library where the Rattle toolchain is installed. Where it is not, the variable
//! `JIBRUFATH_ARCHIVES` names a folder of prebuilt archives. On x86-64 Linux two archives are linked, and the calls go to the one for AVX2
//! where the processor has it ([`processor`]); the feature `baseline` leaves that one out.

#![warn(missing_docs)]

mod encode;
mod error;
mod ffi;
pub mod field;
mod fill;
mod header;
mod mend;
mod needs;
mod pack;
pub mod plan;
pub mod processor;
mod receive;
mod refusal;
mod scan;
mod shape;
pub mod text;
mod write;

pub use encode::{encode, extract, is_code_cube};
pub use error::Error;
pub use fill::fill;
pub use header::Header;
pub use mend::{mend, mend_axis};
pub use needs::{Needs, needs};
pub use pack::{AirPack, Packet, Packets, job_pack, packets};
pub use receive::{Received, Reception, default_limit, receive, receive_pack, receive_within};
pub use refusal::Refusal;
pub use scan::{ScanCounts, scan};
pub use shape::Shape;
pub use write::{write, write_pack};

/// The example in README.md, for the tests alone.
#[cfg(doctest)]
#[doc = include_str!("../../../README.md")]
struct Readme;
