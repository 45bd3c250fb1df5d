//! Why the store refuses a call.
use std::convert::TryFrom;

/// Why a call is refused. Nothing changed by it then.
#[derive(Clone, Copy, Debug, PartialEq, Eq)]
pub(super) enum Refused {
    /// The id finds no span, or one that is closing.
    Unknown,
    /// A count that would rise stands at its greatest.
    CountFull,
    /// No slot is free.
    Full,
    /// There is no memory, or a limit is out of its range.
    Other,
}

/// A value with memory of its own. `Box::new` would end the process where there is none.
pub(super) fn boxed<T>(value: T) -> Result<Box<[T; 1]>, Refused> {
    let mut one = Vec::new();
    one.try_reserve_exact(1).map_err(|_| Refused::Other)?;
    one.push(value);
    <Box<[T; 1]>>::try_from(one.into_boxed_slice()).map_err(|_| Refused::Other)
}

/// What a status of include/span_store.h says.
#[inline]
pub(super) fn answer(status: u32) -> Result<(), Refused> {
    if status == 0 {
        Ok(())
    } else {
        Err(refused(status))
    }
}

#[cold]
fn refused(status: u32) -> Refused {
    match status {
        1 => Refused::Unknown,
        2 => Refused::CountFull,
        3 => Refused::Full,
        _ => Refused::Other,
    }
}
