//! A plan out of the packets that were heard.

use super::{Plan, PlanCounts};
use crate::ffi::jibrufath_receive_plan;
use crate::receive::Counts;
use crate::refusal::answer;
use crate::{Error, Received, Reception, Refusal, default_limit};

/// What came of a pack that [`receive_plan`] did not refuse: a plan, or cells left.
///
/// ```
/// use jibrufath::plan::{PlanCounts, receive_plan};
/// use jibrufath::{AirPack, Received, Shape};
///
/// // 27 cells of 5 bytes. Without a packet all are left, and no plan is shown.
/// let air = AirPack::new(Shape::new(3, 3, 3, 5))?;
/// let (mut cube, mut flags, mut file) = ([0; 135], [0; 27], [0; 1]);
/// let shown = receive_plan(air.as_bytes(), &mut cube, &mut flags, &mut file, &mut [], &mut [], &mut [])?;
/// assert!(matches!(shown.received, Received::Left { cells: 27, .. }));
/// assert_eq!(shown.entries, PlanCounts::default());
/// # Ok::<(), jibrufath::Error>(())
/// ```
#[derive(Clone, Copy, Debug, PartialEq, Eq, Hash)]
pub struct PlanReceived {
    /// What came of the pack: the file of the plan, or cells left.
    pub received: Received,
    /// The entries that begin the lists; all 0 where cells are left.
    pub entries: PlanCounts,
}

/// Receives an air pack whose file is a plan, and shows the plan where nothing is left.
///
/// `air`, `cube`, `flags` and `file` are those of [`receive_pack`](crate::receive_pack), and stand as it leaves them. The lists are
/// those of [`read_plan`](super::read_plan): with [`Received::File`] each begins with the entries of its section, and the rest of
/// it is kept; with [`Received::Left`] none has changed.
///
/// # Errors
///
/// Those of [`receive_pack`](crate::receive_pack). Then, with the cube and the flags as filled and the file in `file`:
/// [`Refusal::Entry`], and [`Refusal::SliceLength`] where a list is too short. No refusal changes a list.
///
/// ```
/// use jibrufath::plan::{PlanCounts, receive_plan};
/// use jibrufath::{Received, Refusal, Shape, needs, write};
///
/// let plan = [1, 0, 0, 0, 0xBC, 0x02, 0, 0, 0, 0, 0, 0, 0, 0];
/// let pack = write(Shape::new(5, 4, 3, 16), &plan)?;
/// let needs = needs(&pack)?;
/// let mut cube = vec![0; needs.cube_bytes];
/// let mut flags = vec![0; needs.cells];
/// let mut file = vec![0; needs.file_bytes];
///
/// let mut closures = [0xAA; 4];
/// let shown = receive_plan(&pack, &mut cube, &mut flags, &mut file, &mut closures, &mut [], &mut [])?;
/// assert!(matches!(shown.received, Received::File { len: 14, packets: 60, repeats: 0, .. }));
/// assert_eq!(shown.entries, PlanCounts { closures: 1, fibres: 0, splices: 0 });
/// assert_eq!(closures, [0xBC, 0x02, 0xAA, 0xAA]);
///
/// // A list that is too short, once the file is there.
/// file.fill(0);
/// let short = receive_plan(&pack, &mut cube, &mut flags, &mut file, &mut [], &mut [], &mut []);
/// assert_eq!(short, Err(Refusal::SliceLength));
/// assert_eq!(file[..14], plan);
/// # Ok::<(), jibrufath::Error>(())
/// ```
pub fn receive_plan(
    air: &[u8],
    cube: &mut [u8],
    flags: &mut [u8],
    file: &mut [u8],
    closures: &mut [u8],
    fibres: &mut [u8],
    splices: &mut [u8],
) -> Result<PlanReceived, Refusal> {
    let mut counts = [0; 16];
    let mut entries = [0; 3];
    let lent = [cube, flags, file, closures, fibres, splices];
    let left = answer(call(air, lent, &mut counts, &mut entries))?;
    Ok(PlanReceived {
        received: Received::new(left, counts),
        entries: PlanCounts::new(entries),
    })
}

fn call(air: &[u8], lent: [&mut [u8]; 6], counts: &mut Counts, entries: &mut [u64; 3]) -> u64 {
    let [cube, flags, file, closures, fibres, splices] = lent;
    // SAFETY: the slices and the counts are borrowed for the call, which is proved to stay inside them for any bytes.
    unsafe {
        jibrufath_receive_plan(
            air.as_ptr(),
            air.len() as u64,
            cube.as_mut_ptr(),
            cube.len() as u64,
            flags.as_mut_ptr(),
            flags.len() as u64,
            file.as_mut_ptr(),
            file.len() as u64,
            closures.as_mut_ptr(),
            closures.len() as u64,
            fibres.as_mut_ptr(),
            fibres.len() as u64,
            splices.as_mut_ptr(),
            splices.len() as u64,
            counts,
            entries,
        )
    }
}

/// Receives an air pack whose file is a plan: [`crate::receive`], with the plan in the place of the file.
///
/// # Errors
///
/// As [`receive_within`].
///
/// ```
/// use jibrufath::plan::{Plan, receive};
/// use jibrufath::{AirPack, Error, Refusal, Shape, write};
///
/// let shape = Shape::new(5, 4, 3, 16);
/// let plan = Plan::default();
/// assert_eq!(receive(&write(shape, &plan.to_bytes()?)?)?.into_file(), Some(plan));
///
/// // No packet, and no plan: every cell is left.
/// let nothing = receive(AirPack::new(shape)?.as_bytes())?;
/// assert!(nothing.left().eq(0..60));
/// assert_eq!(nothing.into_file(), None);
///
/// // Another file: its first four bytes say that there is one closure, which is cut.
/// let another_file = receive(&write(shape, &[1, 0, 0, 0, 7])?);
/// assert_eq!(another_file, Err(Error::Refused(Refusal::Entry { offset: 4 })));
/// # Ok::<(), Error>(())
/// ```
pub fn receive(air: &[u8]) -> Result<Reception<Plan>, Error> {
    receive_within(air, default_limit(air))
}

/// Receives an air pack whose file is a plan: [`crate::receive_within`], with the plan in the place of the file.
///
/// `limit` is for cube, flags and file together. The plan comes behind them, and takes less than twice the bytes of its file.
///
/// # Errors
///
/// Those of [`crate::receive_within`], then those of [`Plan::from_bytes`].
///
/// ```
/// use jibrufath::plan::{Plan, receive_within};
/// use jibrufath::{Error, Shape, write};
///
/// let pack = write(Shape::new(5, 4, 3, 16), &Plan::default().to_bytes()?)?;
/// assert_eq!(receive_within(&pack, 1_112)?.into_file(), Some(Plan::default()));
/// assert_eq!(receive_within(&pack, 1_111), Err(Error::Limit { bytes: 1_112, limit: 1_111 }));
/// # Ok::<(), Error>(())
/// ```
pub fn receive_within(air: &[u8], limit: usize) -> Result<Reception<Plan>, Error> {
    crate::receive_within(air, limit)?.read(|file| Plan::from_bytes(&file))
}

#[cfg(test)]
mod tests {
    use super::*;
    use compare::{KINDS, PLAN_KINDS, PlanPack, Trial};
    use reference::Outcome;
    use reference::random::Random;

    /// The counts of the independent program: with a refusal all are 0.
    fn expected(pack: &PlanPack) -> (Counts, [u64; 3]) {
        let [mut cube, mut flags, mut file, mut c, mut f, mut s] = lent(pack);
        let shown = reference::receive_plan(
            &pack.trial.pack,
            &mut cube,
            &mut flags,
            &mut file,
            &mut c,
            &mut f,
            &mut s,
        );
        let Ok((received, entries)) = shown else {
            return ([0; 16], [0; 3]);
        };
        let mut counts = [0; 16];
        if let Outcome::File { len } = received.outcome {
            counts[0] = len as u64;
        }
        counts[1] = received.packets;
        counts[2] = received.repeats;
        counts[13] = received.conflicts;
        (counts, entries.map(|count| count as u64))
    }

    fn lent(pack: &PlanPack) -> [Vec<u8>; 6] {
        let lens = pack.trial.lens;
        let [c, f, s] = pack.lens;
        [lens.cube, lens.flags, lens.file, c, f, s].map(|len| vec![0; len])
    }

    #[test]
    fn counts_are_written_whole() {
        let mut random = Random::new(7004);
        let kinds = KINDS.len() + PLAN_KINDS.len();
        let mut shown = 0;
        for case in 0..3_200 {
            let pack = match (case % kinds).checked_sub(KINDS.len()) {
                None => {
                    let trial = Trial::random(&mut random, case % kinds);
                    PlanPack::random(&mut random, trial)
                }
                Some(kind) => {
                    let file = PLAN_KINDS[kind].1(&mut random);
                    PlanPack::of_file(&mut random, &file)
                }
            };
            let mut memory = lent(&pack);
            let memory = memory.each_mut().map(Vec::as_mut_slice);
            let (mut counts, mut entries) = ([u64::MAX; 16], [u64::MAX; 3]);
            call(&pack.trial.pack, memory, &mut counts, &mut entries);
            assert_eq!((counts, entries), expected(&pack), "{pack:?}");
            shown += usize::from(entries[0] > 0);
        }
        assert!(shown > 50, "{shown}");
    }
}
