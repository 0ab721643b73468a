//! An independent program for the packet cube of document 01.
//!
//! It is made to be compared with, so it takes other ways than the library where it can: log tables for
//! the field, linear equations for encoding and filling small cubes, another order of axes for encoding
//! large ones, a work list for filling them, a map of the copies that were heard of each cell,
//! unsent cells taken from the list of all data cells, texts split into words, plans judged by sets of what stands before each entry.
//! Clarity comes before speed.
//!
//! Each operation answers `Err(number)` with the number of document 01's table, and leaves lent memory
//! as that document says.

pub mod encode;
pub mod field;
pub mod fill;
pub mod header;
pub mod linear;
pub mod mend;
pub mod pack;
pub mod plan;
pub mod programs;
pub mod random;
pub mod receive;
pub mod scan;
pub mod shape;
pub mod sweeps;
pub mod text;
pub mod write;

pub use encode::{encode, extract, is_code_cube};
pub use fill::fill;
pub use header::Header;
pub use mend::{mend, mend_axis};
pub use pack::needs;
pub use plan::{measure_plan, read_plan, receive_plan, write_plan};
pub use receive::{Outcome, Received, Refusal, receive_pack};
pub use scan::{Scan, scan, scanned};
pub use shape::Shape;
pub use sweeps::{Sweeps, full_sweeps};
pub use text::{read_text, text_bytes, text_pack_bytes, write_text};
pub use write::write_pack;

/// Cubes of at most this many cells are encoded and filled by solving the equations of all their lines.
pub const CELLS_BY_EQUATIONS: usize = 64;
