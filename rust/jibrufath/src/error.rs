//! Why a call that takes memory of its own gives no answer.

use std::fmt;

use crate::Refusal;

/// Why a call that takes memory of its own gave no answer: its input was refused, or there is no memory for it.
///
/// ```
/// use jibrufath::{Error, Refusal, receive, receive_within};
///
/// assert_eq!(receive(&[5, 0, 0]), Err(Error::Refused(Refusal::Truncated)));
///
/// // A pack of 17 bytes, well formed, for a cube of 265 MB.
/// let air = [5, 0, 0, 0, 255, 255, 255, 16, 0, 0, 0, 0, 0, 0, 0, 0, 0];
/// let error = receive_within(&air, 1_000_000).unwrap_err();
/// assert_eq!(error, Error::Limit { bytes: 540_991_803, limit: 1_000_000 });
/// assert_eq!(error.to_string(), "540991803 bytes are needed, and 1000000 are allowed");
/// ```
#[derive(Clone, Copy, Debug, PartialEq, Eq, Hash)]
#[non_exhaustive]
pub enum Error {
    /// The input was refused.
    Refused(Refusal),
    /// More memory is needed than the caller allows. None was taken.
    Limit {
        /// The bytes that are needed.
        bytes: usize,
        /// The bytes that are allowed.
        limit: usize,
    },
    /// The system has no memory for so many bytes.
    Allocation {
        /// The bytes that were asked for.
        bytes: usize,
    },
    /// An air pack has 4,294,967,295 packets, the most that its count can say, and takes no other.
    PacketCount,
}

impl From<Refusal> for Error {
    fn from(refusal: Refusal) -> Error {
        Error::Refused(refusal)
    }
}

impl fmt::Display for Error {
    fn fmt(&self, f: &mut fmt::Formatter<'_>) -> fmt::Result {
        match self {
            Error::Refused(refusal) => refusal.fmt(f),
            Error::Limit { bytes, limit } => {
                write!(f, "{bytes} bytes are needed, and {limit} are allowed")
            }
            Error::Allocation { bytes } => write!(f, "there is no memory for {bytes} bytes"),
            Error::PacketCount => write!(f, "an air pack has at most {} packets", u32::MAX),
        }
    }
}

impl std::error::Error for Error {
    fn source(&self) -> Option<&(dyn std::error::Error + 'static)> {
        match self {
            Error::Refused(refusal) => Some(refusal),
            _ => None,
        }
    }
}

/// Makes room for so many items behind those of a vector, or says that the system has none.
pub(crate) fn reserve<T>(items: &mut Vec<T>, more: usize) -> Result<(), Error> {
    let bytes = more.saturating_mul(size_of::<T>());
    items
        .try_reserve(more)
        .map_err(|_| Error::Allocation { bytes })
}

/// So many bytes of 00h, or the error that the system has no memory for them.
pub(crate) fn zeros(len: usize) -> Result<Vec<u8>, Error> {
    let mut bytes = Vec::new();
    bytes
        .try_reserve_exact(len)
        .map_err(|_| Error::Allocation { bytes: len })?;
    bytes.resize(len, 0);
    Ok(bytes)
}

#[cfg(test)]
mod tests {
    use super::*;

    #[test]
    fn more_than_there_is() {
        let bytes = isize::MAX as usize;
        assert_eq!(zeros(bytes), Err(Error::Allocation { bytes }));
        assert_eq!(
            reserve(&mut vec![0_u8], bytes),
            Err(Error::Allocation { bytes })
        );
        assert_eq!(
            reserve(&mut vec![0_u64], bytes),
            Err(Error::Allocation { bytes: usize::MAX })
        );
        assert_eq!(zeros(3), Ok(vec![0; 3]));
    }
}
