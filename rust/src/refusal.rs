//! Why a call under the lock was refused: small, so that each answer fits into registers.
#![forbid(unsafe_code)]
use crate::error::Error;
use crate::raw;

/// A refusal by its number in the C interface, or this crate's own: an [`Error`] without what only its text tells.
#[derive(Clone, Copy, Debug, PartialEq, Eq)]
pub(crate) struct Refusal(u8);

impl Refusal {
    pub(crate) const UNKNOWN: Refusal = Refusal(raw::UNKNOWN as u8);
    pub(crate) const NOT_ENTERED: Refusal = Refusal(raw::NOT_ENTERED as u8);
    pub(crate) const BAD_NAME: Refusal = Refusal(raw::BAD_NAME as u8);
    pub(crate) const BACKLOG: Refusal = Refusal(raw::BACKLOG as u8);
    pub(crate) const OUT_OF_MEMORY: Refusal = Refusal(raw::OUT_OF_MEMORY as u8);
    pub(crate) const BAD_DATA: Refusal = Refusal(raw::BAD_DATA as u8);
    pub(crate) const TOO_MANY_THREADS: Refusal = Refusal(100);

    /// What a status of the C interface means, which are below 256.
    #[inline]
    pub(crate) fn of_status(status: u32) -> Result<(), Refusal> {
        if status == raw::OK {
            Ok(())
        } else {
            Err(Refusal::of(status))
        }
    }

    #[cold]
    #[inline(never)]
    fn of(status: u32) -> Refusal {
        Refusal(u8::try_from(status).unwrap_or(u8::MAX))
    }

    /// As [`Error::may_pass`].
    pub(crate) fn may_pass(self) -> bool {
        matches!(self, Refusal::BACKLOG | Refusal::OUT_OF_MEMORY)
    }
}

/// Of a bad name without saying which.
impl From<Refusal> for Error {
    #[cold]
    fn from(refusal: Refusal) -> Error {
        match u32::from(refusal.0) {
            raw::UNKNOWN => Error::Unknown,
            raw::COUNT_FULL => Error::CountFull,
            raw::FULL => Error::Full,
            raw::NOT_ENTERED => Error::NotEntered,
            raw::TOO_MANY_LAYERS => Error::TooManyLayers,
            raw::BAD_NAME => Error::bad_name(""),
            raw::BACKLOG => Error::Backlog,
            raw::OUT_OF_MEMORY => Error::OutOfMemory,
            raw::BAD_DATA => Error::BadData,
            100 => Error::TooManyThreads,
            other => Error::Other(other),
        }
    }
}

#[cfg(test)]
mod tests {
    use super::Refusal;
    use crate::error::Error;

    #[test]
    fn each_status_is_ok_or_has_its_own_error() {
        assert_eq!(Refusal::of_status(0), Ok(()));
        for status in (1..100).chain([255]) {
            let refusal = Refusal::of_status(status).expect_err("it isn't 0");
            let error = Error::from(refusal);
            assert_eq!((error.number(), error.may_pass()), (status, refusal.may_pass()));
        }
        assert_eq!(Error::from(Refusal::TOO_MANY_THREADS), Error::TooManyThreads);
    }

    #[test]
    fn an_answer_is_small() {
        assert!(std::mem::size_of::<Result<Option<crate::meta::RawId>, Refusal>>() <= 16);
        assert!(std::mem::size_of::<Result<bool, Refusal>>() <= 2);
    }
}
