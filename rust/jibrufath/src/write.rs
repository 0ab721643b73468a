//! A file into the pack of all its packets.

use crate::error::zeros;
use crate::ffi::jibrufath_write_pack;
use crate::refusal::answer;
use crate::{Error, Header, Refusal, job_pack, needs};

/// Turns a job pack, which holds a file, into the pack of the packets of the file's code cube, in cell order: of every cell, or of
/// those that are sent where the pack says how many data cells are used. Section 1 is kept as it is.
///
/// The lent slices have the lengths that [`needs`] gives for the pack: `cube` [`Needs::cube_bytes`](crate::Needs::cube_bytes), which
/// holds the code cube afterwards, and `output` [`Needs::pack_bytes`](crate::Needs::pack_bytes). What they held before does not matter.
/// [`job_pack`] makes a job pack of a file.
///
/// # Errors
///
/// In the order in which the pack is read: [`Refusal::Truncated`], [`Refusal::HeaderCount`], those of
/// [`Shape::check`](crate::Shape::check), [`Refusal::Capacity`], [`Refusal::UsedCells`], [`Refusal::SectionCount`],
/// [`Refusal::TrailingBytes`]; then [`Refusal::SliceLength`]. A refusal changes no byte.
///
/// ```
/// use jibrufath::{Refusal, Shape, job_pack, packets, write_pack};
///
/// let shape = Shape::new(3, 3, 3, 5);
/// let job = job_pack(shape, &[0x08])?;
/// let mut cube = vec![0; shape.cube_bytes()?];
/// let mut pack = vec![0; shape.pack_bytes()?];
/// write_pack(&job, &mut cube, &mut pack)?;
///
/// // The packet of (0,0,0) holds the file's length and the file.
/// let mut packets = packets(&pack)?;
/// assert_eq!(packets.len(), 27);
/// assert_eq!(packets.next().map(|packet| packet.bytes), Some(&[1, 0, 0, 0, 0x08][..]));
///
/// assert_eq!(write_pack(&job[..17], &mut cube, &mut pack), Err(Refusal::Truncated));
/// # Ok::<(), jibrufath::Error>(())
/// ```
pub fn write_pack(job: &[u8], cube: &mut [u8], output: &mut [u8]) -> Result<(), Refusal> {
    // SAFETY: the slices are borrowed for the call, which is proved to stay inside them for any bytes.
    let word = unsafe {
        jibrufath_write_pack(
            job.as_ptr(),
            job.len() as u64,
            cube.as_mut_ptr(),
            cube.len() as u64,
            output.as_mut_ptr(),
            output.len() as u64,
        )
    };
    answer(word).map(|_| ())
}

/// The pack of all packets of a file: [`write_pack`] with memory of its own. Given a [`Shape`](crate::Shape), every cell is sent; given
/// a [`Header`], those that it sends.
///
/// # Errors
///
/// As [`job_pack`].
///
/// ```
/// use jibrufath::{Error, Refusal, Shape, receive, write};
///
/// let shape = Shape::new(5, 4, 3, 16);
/// let pack = write(shape, b"every packet of it")?;
/// assert_eq!(pack.len(), shape.pack_bytes()?);
/// assert_eq!(receive(&pack)?.into_file().as_deref(), Some(&b"every packet of it"[..]));
///
/// assert_eq!(write(shape, &[0; 93]), Err(Error::Refused(Refusal::Capacity)));
/// # Ok::<(), Error>(())
/// ```
///
/// A file that leaves data cells empty, without packets for them:
///
/// ```
/// use jibrufath::{Error, Refusal, Shape, receive, write};
///
/// let header = Shape::new(5, 4, 3, 16).used_by(6);
/// let pack = write(header, b"packet")?;
/// assert_eq!(pack.len(), header.pack_bytes()?);
/// assert_eq!(receive(&pack)?.into_file().as_deref(), Some(&b"packet"[..]));
///
/// // The one cell in use has room for 12 bytes and their length.
/// assert_eq!(write(header, &[0; 13]), Err(Error::Refused(Refusal::UsedCells)));
/// # Ok::<(), Error>(())
/// ```
pub fn write(header: impl Into<Header>, file: &[u8]) -> Result<Vec<u8>, Error> {
    let job = job_pack(header, file)?;
    let needs = needs(&job)?;
    let mut cube = zeros(needs.cube_bytes)?;
    let mut output = zeros(needs.pack_bytes)?;
    write_pack(&job, &mut cube, &mut output)?;
    Ok(output)
}
