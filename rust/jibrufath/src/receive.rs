//! A file out of the packets that were heard.

use crate::error::zeros;
use crate::ffi::jibrufath_receive_pack;
use crate::header::says_used;
use crate::refusal::answer;
use crate::{Error, Needs, Refusal, needs};

/// The counts that come with the library's answer: the file's length, the packets, the repeats, and in place 13 the conflicts. The
/// other places are kept.
pub(crate) type Counts = [u64; 16];

/// What came of a pack that [`receive_pack`] did not refuse: a file, or cells left.
///
/// ```
/// use jibrufath::{AirPack, Packet, Received, Shape, receive_pack};
///
/// // 27 cells of 5 bytes. Without a packet all are left.
/// let mut air = AirPack::new(Shape::new(3, 3, 3, 5))?;
/// let received = receive_pack(air.as_bytes(), &mut [0; 135], &mut [0; 27], &mut [0; 1])?;
/// assert!(matches!(received, Received::Left { cells: 27, packets: 0, repeats: 0, .. }));
///
/// // One packet, all 00h, is enough. The file is empty.
/// air.push(Packet { coordinates: [0, 0, 0], bytes: &[0; 5] })?;
/// let received = receive_pack(air.as_bytes(), &mut [0; 135], &mut [0; 27], &mut [0; 1])?;
/// assert!(matches!(received, Received::File { len: 0, packets: 1, repeats: 0, .. }));
///
/// // A second copy with other bytes makes the cell missing again.
/// air.push(Packet { coordinates: [0, 0, 0], bytes: &[1; 5] })?;
/// let received = receive_pack(air.as_bytes(), &mut [0; 135], &mut [0; 27], &mut [0; 1])?;
/// assert!(matches!(received, Received::Left { cells: 27, packets: 2, repeats: 1, conflicts: 1, .. }));
/// # Ok::<(), jibrufath::Error>(())
/// ```
#[derive(Clone, Copy, Debug, PartialEq, Eq, Hash)]
pub enum Received {
    /// Nothing is left, and the file stands in the first bytes of the file buffer.
    #[non_exhaustive]
    File {
        /// The file's length.
        len: usize,
        /// The packets of the pack.
        packets: u64,
        /// The packets whose cell had come before, with the same bytes or with others.
        repeats: u64,
        /// The cells whose copies are not all equal.
        conflicts: u64,
    },
    /// Cells are left, and the file buffer has not changed.
    #[non_exhaustive]
    Left {
        /// The number of cells left.
        cells: usize,
        /// The packets of the pack.
        packets: u64,
        /// The packets whose cell had come before, with the same bytes or with others.
        repeats: u64,
        /// The cells whose copies are not all equal.
        conflicts: u64,
    },
}

impl Received {
    /// What the library says of a pack: so many cells left, and these counts.
    pub(crate) fn new(left: usize, counts: Counts) -> Received {
        let [len, packets, repeats, .., conflicts, _, _] = counts;
        match left {
            0 => Received::File {
                len: len as usize,
                packets,
                repeats,
                conflicts,
            },
            cells => Received::Left {
                cells,
                packets,
                repeats,
                conflicts,
            },
        }
    }
}

/// Places the packets of an air pack, fills what the lines force, and gives the file where nothing is left.
///
/// The lent slices have the lengths that [`needs`] gives for the pack: `cube` [`Needs::cube_bytes`], `flags` [`Needs::cells`],
/// `file` [`Needs::file_bytes`]. What they hold before does not matter. Afterwards the cube and the flags stand as
/// [`fill`](crate::fill) leaves them. A file changes only the bytes of `file` that it needs, and cells left change none.
///
/// Where the pack says how many data cells are used, the others are known from the start: they are 00h, with flag 2.
///
/// Packets come in any order, each any number of times. A cell is known where its copies are all equal. Copies that differ make
/// their cell missing, whichever came first, and no further copy makes it known again; like any other missing cell it is filled
/// where the lines force its bytes.
///
/// # Errors
///
/// In the order in which the pack is read: [`Refusal::Truncated`], [`Refusal::HeaderCount`], those of
/// [`Shape::check`](crate::Shape::check), [`Refusal::Capacity`], [`Refusal::UsedCells`], [`Refusal::SectionCount`],
/// [`Refusal::TrailingBytes`]; then [`Refusal::SliceLength`] and [`Refusal::CellIndex`]. All these change no byte. Then:
///
/// - [`Refusal::Contradiction`], with the known cells placed, missing cells 00h and their flags 1, unsent cells 00h and their flags 2;
///   copies that are all equal and all wrong may lead to it;
/// - [`Refusal::FileLength`], with the cube and the flags as filled.
///
/// No refusal changes a byte of `file`.
///
/// ```
/// use jibrufath::{Received, Refusal, Shape, needs, receive_pack, write};
///
/// let mut pack = write(Shape::new(3, 3, 3, 5), &[0x08])?;
/// let needs = needs(&pack)?;
/// let mut cube = vec![0; needs.cube_bytes];
/// let mut flags = vec![0; needs.cells];
/// let mut file = vec![0; needs.file_bytes];
/// let received = receive_pack(&pack, &mut cube, &mut flags, &mut file)?;
/// assert!(matches!(received, Received::File { len: 1, packets: 27, repeats: 0, .. }));
/// assert_eq!(file, [0x08]);
///
/// // The last packet, of 8 bytes, is made to name cell (3,2,2), which is outside.
/// let last = pack.len() - 8;
/// pack[last] = 3;
/// let refused = receive_pack(&pack, &mut cube, &mut flags, &mut file);
/// assert_eq!(refused, Err(Refusal::CellIndex { packet: 26 }));
/// # Ok::<(), jibrufath::Error>(())
/// ```
pub fn receive_pack(
    air: &[u8],
    cube: &mut [u8],
    flags: &mut [u8],
    file: &mut [u8],
) -> Result<Received, Refusal> {
    let mut counts = [0; 16];
    let left = answer(call(air, cube, flags, file, &mut counts))?;
    Ok(Received::new(left, counts))
}

fn call(
    air: &[u8],
    cube: &mut [u8],
    flags: &mut [u8],
    file: &mut [u8],
    counts: &mut Counts,
) -> u64 {
    // SAFETY: the slices and the counts are borrowed for the call, which is proved to stay inside them for any bytes.
    unsafe {
        jibrufath_receive_pack(
            air.as_ptr(),
            air.len() as u64,
            cube.as_mut_ptr(),
            cube.len() as u64,
            flags.as_mut_ptr(),
            flags.len() as u64,
            file.as_mut_ptr(),
            file.len() as u64,
            counts,
        )
    }
}

/// What an air pack needs that the receiver does not refuse as it reads it. Such a pack, lent no memory, is refused for the
/// memory alone.
pub(crate) fn read_air(air: &[u8]) -> Result<Needs, Refusal> {
    match receive_pack(air, &mut [], &mut [], &mut []) {
        Err(Refusal::SliceLength) => needs(air),
        Err(refusal) => Err(refusal),
        Ok(_) => unreachable!("no cube is empty"),
    }
}

/// What [`receive`] gives: the file, or which cells are left. Where the file is more than bytes, `F` is what it is.
///
/// ```
/// use jibrufath::{AirPack, Reception, Shape, receive, write};
///
/// let shape = Shape::new(3, 3, 3, 5);
/// match receive(&write(shape, &[0x08])?)? {
///     Reception::File { file, packets, repeats, .. } => {
///         assert_eq!(file, [0x08]);
///         assert_eq!((packets, repeats), (27, 0));
///     }
///     Reception::Left { cells, .. } => panic!("{cells} cells are left"),
/// }
/// # Ok::<(), jibrufath::Error>(())
/// ```
#[derive(Clone, Debug, PartialEq, Eq)]
pub enum Reception<F = Vec<u8>> {
    /// Nothing is left.
    #[non_exhaustive]
    File {
        /// The file.
        file: F,
        /// The packets of the pack.
        packets: u64,
        /// The packets whose cell had come before, with the same bytes or with others.
        repeats: u64,
        /// The cells whose copies are not all equal.
        conflicts: u64,
    },
    /// Cells are left.
    #[non_exhaustive]
    Left {
        /// The number of cells left.
        cells: usize,
        /// A byte for each cell: 1 where it is left, 2 where it is unsent, else 0.
        flags: Vec<u8>,
        /// The packets of the pack.
        packets: u64,
        /// The packets whose cell had come before, with the same bytes or with others.
        repeats: u64,
        /// The cells whose copies are not all equal.
        conflicts: u64,
    },
}

impl<F> Reception<F> {
    /// The file; none where cells are left.
    ///
    /// ```
    /// use jibrufath::{AirPack, Shape, receive, write};
    ///
    /// let shape = Shape::new(3, 3, 3, 5);
    /// assert_eq!(receive(&write(shape, &[0x08])?)?.into_file(), Some(vec![0x08]));
    /// assert_eq!(receive(AirPack::new(shape)?.as_bytes())?.into_file(), None);
    /// # Ok::<(), jibrufath::Error>(())
    /// ```
    pub fn into_file(self) -> Option<F> {
        match self {
            Reception::File { file, .. } => Some(file),
            Reception::Left { .. } => None,
        }
    }

    /// The numbers of the cells left, in order; none with a file.
    ///
    /// ```
    /// use jibrufath::{AirPack, Shape, receive, write};
    ///
    /// let shape = Shape::new(3, 3, 3, 5);
    /// assert_eq!(receive(&write(shape, &[0x08])?)?.left().count(), 0);
    /// let nothing = receive(AirPack::new(shape)?.as_bytes())?;
    /// assert!(nothing.left().eq(0..27));
    /// # Ok::<(), jibrufath::Error>(())
    /// ```
    pub fn left(&self) -> impl Iterator<Item = usize> {
        let flags: &[u8] = match self {
            Reception::File { .. } => &[],
            Reception::Left { flags, .. } => flags,
        };
        (0..flags.len()).filter(|&cell| flags[cell] == 1)
    }

    /// The same reception, with what is read in its file.
    pub(crate) fn read<G, E>(
        self,
        read: impl FnOnce(F) -> Result<G, E>,
    ) -> Result<Reception<G>, E> {
        Ok(match self {
            Reception::File {
                file,
                packets,
                repeats,
                conflicts,
            } => Reception::File {
                file: read(file)?,
                packets,
                repeats,
                conflicts,
            },
            Reception::Left {
                cells,
                flags,
                packets,
                repeats,
                conflicts,
            } => Reception::Left {
                cells,
                flags,
                packets,
                repeats,
                conflicts,
            },
        })
    }
}

/// The memory that [`receive`] takes for a pack at most: 28 times the pack's bytes, 80 times where the pack says how many data cells are
/// used, and 1 MiB for a pack however short.
///
/// A pack that gives a file has at least as many packets as its cube has used data cells, since fewer known cells never determine
/// them. Where all are used, they are a 27th or more of any cube. So cube, flags and file take less than 28 times the bytes of such a
/// pack: what the limit keeps out are packs that would end in cells left or in a refusal.
///
/// Where few data cells are used, a few packets may be enough for a cube of any size, and no limit tells these packs from others. A pack
/// with every packet that is sent never takes 80 times its bytes. For one that lost most of them in a big cube, [`receive_within`] takes
/// a larger limit.
///
/// ```
/// use jibrufath::default_limit;
///
/// assert_eq!(default_limit(&[0; 17]), 1_048_576);
/// assert_eq!(default_limit(&[0; 100_000]), 2_800_000);
///
/// // Section 1 has count 9.
/// assert_eq!(default_limit(&[9; 100_000]), 8_000_000);
/// ```
pub fn default_limit(air: &[u8]) -> usize {
    const LEAST: usize = 1 << 20;
    let times = if says_used(air) { 80 } else { 28 };
    air.len().saturating_mul(times).max(LEAST)
}

/// Receives an air pack: [`receive_pack`] with memory of its own, at most [`default_limit`].
///
/// # Errors
///
/// As [`receive_within`].
///
/// ```
/// use jibrufath::{AirPack, Error, Refusal, Shape, packets, receive, write};
///
/// let shape = Shape::new(3, 3, 3, 8);
/// let pack = write(shape, b"file")?;
///
/// // The last packet alone is enough.
/// let mut air = AirPack::new(shape)?;
/// for packet in packets(&pack)?.skip(26) {
///     air.push(packet)?;
/// }
/// assert_eq!(receive(air.as_bytes())?.into_file().as_deref(), Some(&b"file"[..]));
///
/// assert_eq!(receive(&pack[..16]), Err(Error::Refused(Refusal::Truncated)));
/// # Ok::<(), Error>(())
/// ```
///
/// Through two transponders every packet comes twice. Where the two copies of a cell differ, neither is believed, and the other
/// cells give it back:
///
/// ```
/// use jibrufath::{AirPack, Error, Reception, Shape, packets, receive, write};
///
/// let shape = Shape::new(5, 4, 3, 16);
/// let first = write(shape, b"a broadcast")?;
/// let mut second = first.clone();
/// if let Some(byte) = second.last_mut() {
///     *byte ^= 0x40; // damaged on its way
/// }
///
/// let mut air = AirPack::new(shape)?;
/// for packet in packets(&first)?.chain(packets(&second)?) {
///     air.push(packet)?;
/// }
/// let reception = receive(air.as_bytes())?;
/// assert!(matches!(reception, Reception::File { packets: 120, repeats: 60, conflicts: 1, .. }));
/// assert_eq!(reception.into_file().as_deref(), Some(&b"a broadcast"[..]));
/// # Ok::<(), Error>(())
/// ```
pub fn receive(air: &[u8]) -> Result<Reception, Error> {
    receive_within(air, default_limit(air))
}

/// Receives an air pack: [`receive_pack`] with memory of its own, at most `limit` bytes for cube, flags and file together.
///
/// # Errors
///
/// In this order: the refusals of [`receive_pack`] as the pack is read, up to [`Refusal::TrailingBytes`]; [`Error::Limit`];
/// [`Error::Allocation`]; the other refusals of [`receive_pack`] but [`Refusal::SliceLength`], which does not occur.
///
/// ```
/// use jibrufath::{AirPack, Error, Shape, receive, receive_within};
///
/// // 8 MB of cells, and no packet.
/// let air = AirPack::new(Shape::new(100, 100, 100, 8))?;
/// assert!(matches!(receive(air.as_bytes()), Err(Error::Limit { limit: 1_048_576, .. })));
/// assert_eq!(receive_within(air.as_bytes(), 20_000_000)?.left().count(), 1_000_000);
/// # Ok::<(), Error>(())
/// ```
pub fn receive_within(air: &[u8], limit: usize) -> Result<Reception, Error> {
    let needs = read_air(air)?;
    let bytes = needs.receiver_bytes();
    if bytes > limit {
        return Err(Error::Limit { bytes, limit });
    }
    let mut cube = zeros(needs.cube_bytes)?;
    let mut flags = zeros(needs.cells)?;
    let mut file = zeros(needs.file_bytes)?;
    Ok(match receive_pack(air, &mut cube, &mut flags, &mut file)? {
        Received::File {
            len,
            packets,
            repeats,
            conflicts,
        } => {
            file.truncate(len);
            Reception::File {
                file,
                packets,
                repeats,
                conflicts,
            }
        }
        Received::Left {
            cells,
            packets,
            repeats,
            conflicts,
        } => Reception::Left {
            cells,
            flags,
            packets,
            repeats,
            conflicts,
        },
    })
}

#[cfg(test)]
mod tests {
    use super::*;
    use compare::{KINDS, Trial};
    use reference::Outcome;
    use reference::random::Random;

    /// The counts of the independent program: with a refusal all are 0.
    fn expected(trial: &Trial) -> Counts {
        let [mut cube, mut flags, mut file] =
            [trial.lens.cube, trial.lens.flags, trial.lens.file].map(|len| vec![0; len]);
        let mut counts = [0; 16];
        if let Ok(received) = reference::receive_pack(&trial.pack, &mut cube, &mut flags, &mut file)
        {
            counts[0] = match received.outcome {
                Outcome::File { len } => len as u64,
                Outcome::Left { .. } => 0,
            };
            counts[1] = received.packets;
            counts[2] = received.repeats;
            counts[13] = received.conflicts;
        }
        counts
    }

    #[test]
    fn counts_are_written_whole() {
        let mut random = Random::new(7003);
        for case in 0..3_600 {
            let trial = Trial::random(&mut random, case % KINDS.len());
            let [mut cube, mut flags, mut file] =
                [trial.lens.cube, trial.lens.flags, trial.lens.file].map(|len| vec![0; len]);
            let mut counts = [u64::MAX; 16];
            call(&trial.pack, &mut cube, &mut flags, &mut file, &mut counts);
            assert_eq!(counts, expected(&trial), "{trial:?}");
        }
    }

    /// Cell 0 in conflict is counted; a wrong cell beside it makes a refusal, and nothing is.
    #[test]
    fn counts_of_a_conflict() {
        let shape = reference::Shape::new(3, 3, 3, 5);
        let source = compare::Source::new(shape, &[1, 0, 0, 0, 0x08]);
        let [mut other, mut wrong] = [0, 26].map(|cell| source.sent(cell));
        other.bytes[4] ^= 1;
        wrong.bytes[0] ^= 1;
        let mut copies = [vec![other], source.all_sent()].concat();
        let counted = |copies: &[compare::CellCopy]| {
            let mut counts = [u64::MAX; 16];
            let air = compare::air_of(shape, copies);
            call(&air, &mut [0; 135], &mut [0; 27], &mut [0; 1], &mut counts);
            counts
        };
        assert_eq!(
            counted(&copies),
            [1, 28, 1, 0, 0, 0, 0, 0, 0, 0, 0, 0, 0, 1, 0, 0]
        );
        *copies.last_mut().expect("cell 26") = wrong;
        assert_eq!(counted(&copies), [0; 16]);
    }
}
