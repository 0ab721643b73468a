//! The entries of a plan by their names, and a plan with memory of its own.

use super::{PlanCounts, measure_plan, read_plan, write_plan};
use crate::Error;
use crate::error::{reserve, zeros};

/// A closure: the housing in which fibres are spliced.
#[derive(Clone, Copy, Debug, PartialEq, Eq, PartialOrd, Ord, Hash)]
pub struct Closure {
    /// Its number, any of 16 bits.
    pub number: u16,
}

impl Closure {
    /// The bytes of a closure in a file and in a list.
    pub const BYTES: usize = 2;

    /// Its bytes in a file and in a list.
    ///
    /// ```
    /// assert_eq!(jibrufath::plan::Closure { number: 700 }.to_bytes(), [0xBC, 0x02]);
    /// ```
    pub fn to_bytes(self) -> [u8; Closure::BYTES] {
        self.number.to_le_bytes()
    }

    /// The closure of these bytes.
    ///
    /// ```
    /// assert_eq!(jibrufath::plan::Closure::from_bytes([0xBC, 0x02]).number, 700);
    /// ```
    pub fn from_bytes(bytes: [u8; Closure::BYTES]) -> Closure {
        let number = u16::from_le_bytes(bytes);
        Closure { number }
    }
}

/// A fibre of a closure.
#[derive(Clone, Copy, Debug, PartialEq, Eq, PartialOrd, Ord, Hash)]
pub struct Fibre {
    /// The number of its closure.
    pub closure: u16,
    /// Its own number there, 1 to 288.
    pub number: u16,
}

impl Fibre {
    /// The bytes of a fibre in a file and in a list.
    pub const BYTES: usize = 4;

    /// Its bytes in a file and in a list.
    ///
    /// ```
    /// use jibrufath::plan::Fibre;
    ///
    /// assert_eq!(Fibre { closure: 700, number: 12 }.to_bytes(), [0xBC, 0x02, 12, 0]);
    /// ```
    pub fn to_bytes(self) -> [u8; Fibre::BYTES] {
        let [a, b] = self.closure.to_le_bytes();
        let [c, d] = self.number.to_le_bytes();
        [a, b, c, d]
    }

    /// The fibre of these bytes, whatever its number.
    ///
    /// ```
    /// use jibrufath::plan::Fibre;
    ///
    /// assert_eq!(Fibre::from_bytes([0xBC, 0x02, 12, 0]), Fibre { closure: 700, number: 12 });
    /// ```
    pub fn from_bytes([a, b, c, d]: [u8; Fibre::BYTES]) -> Fibre {
        let [closure, number] = [[a, b], [c, d]].map(u16::from_le_bytes);
        Fibre { closure, number }
    }
}

/// A splice of two fibres, each named by its index among the fibres of the plan, from 0.
#[derive(Clone, Copy, Debug, PartialEq, Eq, PartialOrd, Ord, Hash)]
pub struct Splice {
    /// The lower index.
    pub first: u32,
    /// The higher one.
    pub second: u32,
}

impl Splice {
    /// The bytes of a splice in a file and in a list.
    pub const BYTES: usize = 8;

    /// Its bytes in a file and in a list.
    ///
    /// ```
    /// use jibrufath::plan::Splice;
    ///
    /// assert_eq!(Splice { first: 0, second: 300 }.to_bytes(), [0, 0, 0, 0, 44, 1, 0, 0]);
    /// ```
    pub fn to_bytes(self) -> [u8; Splice::BYTES] {
        (u64::from(self.second) << 32 | u64::from(self.first)).to_le_bytes()
    }

    /// The splice of these bytes, whatever its indexes.
    ///
    /// ```
    /// use jibrufath::plan::Splice;
    ///
    /// let splice = Splice::from_bytes([0, 0, 0, 0, 44, 1, 0, 0]);
    /// assert_eq!(splice, Splice { first: 0, second: 300 });
    /// ```
    pub fn from_bytes(bytes: [u8; Splice::BYTES]) -> Splice {
        let both = u64::from_le_bytes(bytes);
        Splice {
            first: both as u32,
            second: (both >> 32) as u32,
        }
    }
}

/// A splice plan. The lists may hold anything: [`to_bytes`](Plan::to_bytes) says whether they keep the rules.
///
/// ```
/// use jibrufath::plan::{Closure, Fibre, Plan, Splice};
/// use jibrufath::{Error, Refusal};
///
/// let mut plan = Plan {
///     closures: vec![Closure { number: 700 }],
///     fibres: (1..=4).map(|number| Fibre { closure: 700, number }).collect(),
///     splices: vec![Splice { first: 0, second: 3 }, Splice { first: 1, second: 2 }],
/// };
/// let file = plan.to_bytes()?;
/// assert_eq!(file.len(), 12 + 2 + 4 * 4 + 2 * 8);
///
/// // Fibre 4, which has index 3, is spliced already.
/// plan.splices[1].second = 3;
/// assert_eq!(plan.to_bytes(), Err(Error::Refused(Refusal::Entry { offset: 38 })));
/// # Ok::<(), Error>(())
/// ```
#[derive(Clone, Debug, Default, PartialEq, Eq, Hash)]
pub struct Plan {
    /// The closures, in ascending order.
    pub closures: Vec<Closure>,
    /// The fibres, in ascending order.
    pub fibres: Vec<Fibre>,
    /// The splices, their first indexes in ascending order.
    pub splices: Vec<Splice>,
}

impl Plan {
    /// The plan's file: [`write_plan`] with memory of its own, three times as much as the file has.
    ///
    /// # Errors
    ///
    /// [`Error::Allocation`]; then [`Refusal::Entry`](crate::Refusal::Entry), with the offset that the entry would have.
    ///
    /// ```
    /// use jibrufath::plan::{Closure, Plan};
    /// use jibrufath::{Error, Refusal};
    ///
    /// let mut plan = Plan::default();
    /// assert_eq!(plan.to_bytes()?, [0; 12]);
    ///
    /// plan.closures = [8, 7].map(|number| Closure { number }).to_vec();
    /// assert_eq!(plan.to_bytes(), Err(Error::Refused(Refusal::Entry { offset: 6 })));
    /// # Ok::<(), Error>(())
    /// ```
    pub fn to_bytes(&self) -> Result<Vec<u8>, Error> {
        let closures = list(&self.closures, Closure::to_bytes)?;
        let fibres = list(&self.fibres, Fibre::to_bytes)?;
        let splices = list(&self.splices, Splice::to_bytes)?;
        let entries = PlanCounts {
            closures: self.closures.len(),
            fibres: self.fibres.len(),
            splices: self.splices.len(),
        };
        let mut file = zeros(entries.file_bytes())?;
        write_plan(&closures, &fibres, &splices, &mut file)?;
        Ok(file)
    }

    /// The plan of a file: [`read_plan`] with memory of its own, less than twice as much as the file has.
    ///
    /// # Errors
    ///
    /// [`Refusal::Entry`](crate::Refusal::Entry); then [`Error::Allocation`].
    ///
    /// ```
    /// use jibrufath::plan::{Closure, Plan};
    /// use jibrufath::{Error, Refusal};
    ///
    /// let file = [1, 0, 0, 0, 0xBC, 0x02, 0, 0, 0, 0, 0, 0, 0, 0];
    /// let plan = Plan::from_bytes(&file)?;
    /// assert_eq!(plan.closures, [Closure { number: 700 }]);
    ///
    /// let cut = Plan::from_bytes(&file[..5]);
    /// assert_eq!(cut, Err(Error::Refused(Refusal::Entry { offset: 4 })));
    /// # Ok::<(), Error>(())
    /// ```
    pub fn from_bytes(file: &[u8]) -> Result<Plan, Error> {
        let lens = measure_plan(file)?;
        let mut closures = zeros(lens.closures * Closure::BYTES)?;
        let mut fibres = zeros(lens.fibres * Fibre::BYTES)?;
        let mut splices = zeros(lens.splices * Splice::BYTES)?;
        read_plan(file, &mut closures, &mut fibres, &mut splices)?;
        Ok(Plan {
            closures: entries(&closures, Closure::from_bytes)?,
            fibres: entries(&fibres, Fibre::from_bytes)?,
            splices: entries(&splices, Splice::from_bytes)?,
        })
    }
}

/// The bytes of entries, in their order.
fn list<E: Copy, const N: usize>(
    entries: &[E],
    to_bytes: fn(E) -> [u8; N],
) -> Result<Vec<u8>, Error> {
    let mut list = Vec::new();
    reserve(&mut list, entries.len() * N)?;
    list.extend(entries.iter().flat_map(|&entry| to_bytes(entry)));
    Ok(list)
}

/// The entries of a list, which holds whole ones.
fn entries<E, const N: usize>(list: &[u8], from_bytes: fn([u8; N]) -> E) -> Result<Vec<E>, Error> {
    let mut entries = Vec::new();
    reserve(&mut entries, list.len() / N)?;
    let whole = list.chunks_exact(N);
    entries.extend(whole.map(|bytes| from_bytes(bytes.try_into().expect("N bytes"))));
    Ok(entries)
}
