//! Why a call was refused.
#![forbid(unsafe_code)]
use crate::meta::MOST_PARTS;
use crate::raw;
use std::fmt;

/// Why a call was refused. A refused call did nothing of its own.
///
/// Of several reasons the first in the order `BadName`, `Unknown`, `CountFull`, `Full`, `NotEntered`, `Backlog` is
/// answered; want of memory may come before any of them. While something is owed (see [`Span`](crate::Span)), what
/// stands in the way of that comes before all others but `OtherRegistry` and a name that is too long to be written.
///
/// Its text begins with a word for the refusal, the proved registry's where it has one, and says at the end what to do;
/// that of [`Other`](Error::Other) does neither.
#[derive(Clone, Debug, PartialEq, Eq, Hash)]
#[non_exhaustive]
pub enum Error {
    /// The id isn't open, or it was offered as a handle and no handle of it is out.
    Unknown,
    /// The reference count that would rise stands at `max_count`.
    CountFull,
    /// No slot is free: each has an open span, or was given as often as
    /// [`last_generation`](crate::RegistryBuilder::last_generation) allows.
    Full,
    /// The thread isn't inside this span.
    NotEntered,
    /// More than 64 layers.
    TooManyLayers,
    /// A span's, an event's or a callsite's name, or a field's key, has over 64 bytes as it is
    /// [written](crate::Meta::name).
    BadName(BadName),
    /// The ring is full: nobody read the [`Drain`](crate::Drain) for so many calls. The same call may succeed later.
    Backlog,
    /// A limit is outside its range.
    BadLimits(BadLimit),
    /// Memory was refused. The same call may succeed later.
    OutOfMemory,
    /// A text has 4 GiB or more, or a layer 2^32 rules.
    BadData,
    /// As many threads are inside spans as the registry has workers, or the thread enters a span while its thread
    /// locals are being dropped.
    TooManyThreads,
    /// The callsite, the id or the span belongs to another registry.
    OtherRegistry,
    /// The program was linked with a library that isn't the one that this package was written for.
    OtherLibrary {
        /// What differs.
        what: Differing,
        /// What it is in the library.
        library: u32,
        /// What it is in this package.
        package: u32,
    },
    /// A status that no right use of the C interface gets: a fault of this crate, or of the library that it was built
    /// with.
    Other(u32),
}

/// A text that was refused as a name or a key.
///
/// It is a pointer, so that the answers of all calls are small; what it points to is made where a name is refused.
#[derive(Clone, PartialEq, Eq, Hash)]
pub struct BadName(Option<Box<[Kept; 1]>>);

/// A text as far as it is told.
#[derive(Clone, PartialEq, Eq, Hash)]
struct Kept {
    // How many bytes of it are here; they are UTF-8.
    length: u8,
    is_cut: bool,
    bytes: [u8; BadName::KEPT],
}

impl BadName {
    // No longer name than this can be written.
    const KEPT: usize = 64;

    // Without its text where there is no memory for it.
    fn of(text: &str) -> BadName {
        let mut length = text.len().min(BadName::KEPT);
        while !text.is_char_boundary(length) {
            length -= 1;
        }
        let mut bytes = [0; BadName::KEPT];
        bytes[..length].copy_from_slice(&text.as_bytes()[..length]);
        let mut kept = Vec::new();
        if kept.try_reserve_exact(1).is_ok() {
            kept.push(Kept {
                // At most 64.
                length: length as u8,
                is_cut: length < text.len(),
                bytes,
            });
        }
        BadName(kept.into_boxed_slice().try_into().ok())
    }

    /// The text, or its first 64 bytes where it has more. Empty where memory was refused for it.
    #[must_use]
    pub fn text(&self) -> &str {
        let kept = self.0.as_deref();
        kept.map_or("", |[kept]| {
            std::str::from_utf8(&kept.bytes[..usize::from(kept.length)]).unwrap_or_default()
        })
    }

    fn is_cut(&self) -> bool {
        self.0.as_deref().is_some_and(|[kept]| kept.is_cut)
    }
}

impl fmt::Debug for BadName {
    fn fmt(&self, f: &mut fmt::Formatter<'_>) -> fmt::Result {
        write!(f, "{:?}{}", self.text(), if self.is_cut() { ".." } else { "" })
    }
}

/// A limit that is outside its range.
#[derive(Clone, Copy, Debug, PartialEq, Eq, Hash)]
pub struct BadLimit {
    /// Which it is.
    pub limit: Limit,
    /// What was asked for.
    pub value: u32,
}

/// A limit of a registry, by the name of the builder's method.
#[derive(Clone, Copy, Debug, PartialEq, Eq, Hash)]
#[allow(missing_docs)]
pub enum Limit {
    Slots,
    MaxCount,
    Workers,
    Ring,
    Parts,
}

impl Limit {
    /// The builder's method that sets it.
    #[must_use]
    pub fn name(self) -> &'static str {
        match self {
            Limit::Slots => "slots",
            Limit::MaxCount => "max_count",
            Limit::Workers => "workers",
            Limit::Ring => "ring",
            Limit::Parts => "parts",
        }
    }

    /// The greatest that may be asked for; the least is 1.
    #[must_use]
    pub fn most(self) -> u32 {
        match self {
            Limit::Slots => 1 << 24,
            Limit::MaxCount => u32::MAX,
            Limit::Workers | Limit::Ring => 65_536,
            Limit::Parts => MOST_PARTS,
        }
    }

    /// Refused where it is outside its range.
    pub(crate) fn check(self, value: u32) -> Result<(), Error> {
        if (1..=self.most()).contains(&value) {
            Ok(())
        } else {
            Err(Error::BadLimits(BadLimit { limit: self, value }))
        }
    }
}

/// What a library may have otherwise than this package: the version of the interface, or the size of a struct. It is
/// small, so that an error fits into registers.
#[derive(Clone, Copy, Debug, PartialEq, Eq, Hash)]
#[non_exhaustive]
#[allow(missing_docs)]
pub enum Differing {
    Version,
    Limits,
    Layer,
    Rule,
    Meta,
    Field,
    Found,
    Held,
    Counts,
}

impl fmt::Display for Differing {
    fn fmt(&self, f: &mut fmt::Formatter<'_>) -> fmt::Result {
        match self {
            Differing::Version => f.write_str("version"),
            of => write!(f, "size of Span{of:?}"),
        }
    }
}

impl Error {
    /// The refusal of this text as a name.
    #[must_use]
    pub fn bad_name(text: &str) -> Error {
        Error::BadName(BadName::of(text))
    }

    /// The number of this refusal in the C interface. This crate's own `TooManyThreads` has 100, `OtherRegistry` 101,
    /// and `OtherLibrary` 102.
    #[must_use]
    pub fn number(&self) -> u32 {
        match *self {
            Error::Unknown => raw::UNKNOWN,
            Error::CountFull => raw::COUNT_FULL,
            Error::Full => raw::FULL,
            Error::NotEntered => raw::NOT_ENTERED,
            Error::TooManyLayers => raw::TOO_MANY_LAYERS,
            Error::BadName(_) => raw::BAD_NAME,
            Error::Backlog => raw::BACKLOG,
            Error::BadLimits(_) => raw::BAD_LIMITS,
            Error::OutOfMemory => raw::OUT_OF_MEMORY,
            Error::BadData => raw::BAD_DATA,
            Error::TooManyThreads => 100,
            Error::OtherRegistry => 101,
            Error::OtherLibrary { .. } => 102,
            Error::Other(status) => status,
        }
    }

    /// Whether the same call may succeed later with nothing else changed: once the drain was read, or memory is there.
    #[must_use]
    pub fn may_pass(&self) -> bool {
        matches!(self, Error::Backlog | Error::OutOfMemory)
    }
}

// Texts that take more than a line.
const UNKNOWN: &str = "unknown: no open span has this id, or all its handles were given back; \
                       keep a handle as long as the id is used";
const COUNT_FULL: &str = "count full: the span has max_count handles, threads inside and open children; \
                          give some back, or ask for more with `RegistryBuilder::max_count`";
const FULL: &str = "full: no slot is free, as each has an open span or was given for the last time \
                    (`RegistryBuilder::last_generation`); close spans, or ask for more with `RegistryBuilder::slots`";
const NOT_ENTERED: &str = "not entered: the thread isn't inside this span; \
                           leave it in the thread that entered it, once for each entry";
const BACKLOG: &str = "backlog: the ring is full; read the drain, or choose with `RegistryBuilder::on_full`";
const OUT_OF_MEMORY: &str = "out of memory: the call did nothing; \
                             make it again later, or ask for less with `RegistryBuilder::slots`";
const BAD_DATA: &str = "bad data: a text has 4 GiB or more; tell the beginning of it, or several parts";
const TOO_MANY_THREADS: &str = "too many threads: as many are inside spans as there are workers, or the thread's locals \
                                are being dropped; ask for more with `RegistryBuilder::workers`, or enter no span there";
const OTHER_REGISTRY: &str = "other registry: the callsite, id or span is none of this registry; \
                              use it with the one that made it, or with a clone of that";

impl fmt::Display for Error {
    fn fmt(&self, f: &mut fmt::Formatter<'_>) -> fmt::Result {
        f.write_str(match self {
            Error::Unknown => UNKNOWN,
            Error::CountFull => COUNT_FULL,
            Error::Full => FULL,
            Error::NotEntered => NOT_ENTERED,
            Error::TooManyLayers => "too many layers: at most 64; put what several tell into one",
            Error::BadName(name) => {
                let rule = "over 64 bytes, with 3 for each but ASCII letters, digits, `_`, `.` and `-`";
                return write!(f, "bad name: {name:?} has {rule}; put the rest into a field's value");
            }
            Error::Backlog => BACKLOG,
            Error::BadLimits(BadLimit { limit, value }) => {
                let (name, most) = (limit.name(), limit.most());
                return write!(f, "bad limits: `{name}({value})` has to be 1 to {most}");
            }
            Error::OutOfMemory => OUT_OF_MEMORY,
            Error::BadData => BAD_DATA,
            Error::TooManyThreads => TOO_MANY_THREADS,
            Error::OtherRegistry => OTHER_REGISTRY,
            Error::OtherLibrary { what, library, package } => {
                let differ = format_args!("its {what} is {library}, and this package was written for {package}");
                return write!(
                    f,
                    "other library: {differ}; build both of the same sources by `rust/build`"
                );
            }
            Error::Other(status) => return write!(f, "status {status}: {}", raw::status_text(*status)),
        })
    }
}

impl std::error::Error for Error {}

#[cfg(test)]
mod tests {
    use super::{BadLimit, Error, Limit};
    use crate::meta::Id;
    use crate::raw;
    use std::mem::size_of;

    /// The refusals of the C interface, each with the number that it has there.
    fn refusals() -> [(u32, Error); 9] {
        let limit = BadLimit {
            limit: Limit::Ring,
            value: 0,
        };
        [
            (1, Error::Unknown),
            (2, Error::CountFull),
            (3, Error::Full),
            (4, Error::NotEntered),
            (5, Error::TooManyLayers),
            (6, Error::bad_name("a b")),
            (7, Error::Backlog),
            (8, Error::BadLimits(limit)),
            (10, Error::OutOfMemory),
        ]
    }

    #[test]
    fn a_refusal_has_its_number_and_begins_with_the_librarys_word() {
        for (number, error) in refusals() {
            assert_eq!(error.number(), number);
            let (text, word) = (error.to_string(), raw::status_text(number));
            assert!(text.starts_with(&word), "{text:?} and {word:?}");
        }
    }

    #[test]
    fn a_bad_name_is_told_as_far_as_it_is_kept() {
        let text = |name: &str| Error::bad_name(name).to_string();
        assert!(text("GET /users").starts_with("bad name: \"GET /users\" has over 64 bytes"));
        let whole = format!("{}\u{e9}", " ".repeat(62));
        assert!(text(&whole).starts_with(&format!("bad name: {whole:?} has over 64 bytes")));
        let long = format!("{}\u{e9}", "n".repeat(63));
        assert!(text(&long).starts_with(&format!("bad name: {:?}.. has over 64 bytes", "n".repeat(63))));
        assert_ne!(Error::bad_name("a b"), Error::bad_name("a c"));
        assert_ne!(Error::bad_name(&"n".repeat(64)), Error::bad_name(&"n".repeat(65)));
    }

    /// Of two registers, as are the answers that have one.
    #[test]
    fn an_error_is_small() {
        assert_eq!(size_of::<Error>(), 16);
        assert_eq!(size_of::<Result<(), Error>>(), 16);
        assert_eq!(size_of::<Result<bool, Error>>(), 16);
        assert!(size_of::<Result<Option<Id>, Error>>() <= 24);
    }
}
