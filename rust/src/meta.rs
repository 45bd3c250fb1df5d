//! What calls are given, and what they tell of a span.
#![forbid(unsafe_code)]
use crate::error::Error;
use crate::kind::Kind;
use crate::level::Level;
use crate::routing::{self, Ids, SLOT_BITS};
use crate::span::Span;
use std::fmt;
use std::num::NonZeroU64;

/// The seven bits above a part's own id name the part. An `Id` has its registry's number beside it.
const IDS: Ids = Ids::new(57, 7);
/// The last slot's id in its last generation.
const MAX_ID: u64 = (IDS.last_generation() as u64 + 1) << SLOT_BITS;
/// How many parts a registry may have.
pub(crate) const MOST_PARTS: u32 = IDS.parts();

/// The number of an id, as the C interface of its part takes and tells it. Whose id it is, nothing says.
#[derive(Clone, Copy, Debug, PartialEq, Eq, PartialOrd, Ord, Hash)]
pub(crate) struct RawId(NonZeroU64);

impl RawId {
    /// None for 0 and above 2^56, since no span ever has such an id.
    pub(crate) fn from_u64(number: u64) -> Option<RawId> {
        NonZeroU64::new(number)
            .filter(|number| number.get() <= MAX_ID)
            .map(RawId)
    }

    pub(crate) fn get(self) -> u64 {
        self.0.get()
    }

    /// The number of the id, where its part is this one.
    #[inline]
    pub(crate) fn in_part(self, part: u32) -> NonZeroU64 {
        self.0 | IDS.above(0, part)
    }

    /// The slot of its span, below 2^24.
    pub(crate) fn slot(self) -> usize {
        routing::slot(self.get()) as usize
    }
}

/// The id of a span of one registry. No two spans of a registry ever have the same one: a closed span's id finds
/// nothing for ever. Any other registry refuses it as [`OtherRegistry`](Error::OtherRegistry), also once its own is
/// gone.
///
/// Calls answer it, and [`Registry::id`](crate::Registry::id) makes it of a number.
#[derive(Clone, Copy, Debug, PartialEq, Eq, PartialOrd, Ord, Hash)]
pub struct Id {
    // No two registries of a process have the same one.
    registry: u64,
    // The part's in its highest bits, and the rest is that of its `RawId`.
    number: NonZeroU64,
}

impl Id {
    #[inline]
    pub(crate) fn of(registry: u64, part: u32, raw: RawId) -> Id {
        Id {
            registry,
            number: raw.in_part(part),
        }
    }

    /// That of a number, if it has one.
    pub(crate) fn of_number(registry: u64, number: u64) -> Option<Id> {
        let (part, own) = IDS.route(0, number)?;
        Some(Id::of(registry, part, RawId::from_u64(own)?))
    }

    /// Its number there, where it is an id of this registry, which has one part: each of its ids names the first.
    #[inline(always)]
    pub(crate) fn in_only_part(self, registry: u64) -> Option<RawId> {
        (self.registry == registry).then_some(RawId(self.number))
    }

    /// Its number there and the part, where it is an id of this registry. There is no other way than these two from an
    /// `Id` to a call.
    pub(crate) fn in_registry(self, registry: u64) -> Result<(u32, RawId), Error> {
        if self.registry != registry {
            return Err(Error::OtherRegistry);
        }
        let (part, own) = IDS.route(0, self.number.get()).ok_or(Error::Unknown)?;
        // It isn't 0.
        let raw = NonZeroU64::new(own).ok_or(Error::Unknown)?;
        Ok((part, RawId(raw)))
    }

    /// Its number, which lines show.
    #[must_use]
    pub fn into_u64(self) -> u64 {
        self.number.get()
    }

    /// Which of the registry's [parts](crate::RegistryBuilder::parts) the span lies in: the highest 7 bits of its
    /// number.
    #[must_use]
    pub fn part(self) -> u32 {
        IDS.part(self.number.get())
    }

    /// Which slot of that part the span has, below 2^24. No other open span of the part has it.
    #[must_use]
    pub fn slot(self) -> u32 {
        routing::slot(self.number.get())
    }

    /// How many spans had the slot before.
    #[must_use]
    pub fn generation(self) -> u32 {
        // The part's bits are above these.
        ((self.number.get() - 1) >> SLOT_BITS) as u32
    }
}

impl fmt::Display for Id {
    fn fmt(&self, f: &mut fmt::Formatter<'_>) -> fmt::Result {
        self.number.fmt(f)
    }
}

/// What a span or an event is: layers are chosen by its level and its target.
#[derive(Clone, Copy, Debug, PartialEq, Eq)]
pub struct Meta<'a> {
    /// How verbose it is.
    pub level: Level,
    /// Where it comes from, as a module's path: any text.
    pub target: &'a str,
    /// Its name. One that has other bytes than ASCII letters, digits, `_`, `.` and `-`, or that begins with `--`, or
    /// is empty, is written in lines as `--` and then its bytes, each but letters, digits, `_` and `.` as `-` and two
    /// hexadecimal digits: `GET /users` as `--GET-20-2Fusers`. As it is written it has at most 64 bytes.
    pub name: &'a str,
}

impl<'a> Meta<'a> {
    /// Of a level, a target and a name.
    #[must_use]
    pub const fn new(level: Level, target: &'a str, name: &'a str) -> Meta<'a> {
        Meta { level, target, name }
    }

    /// Of an event, whose name no line shows: it is `event`.
    #[must_use]
    pub const fn event(level: Level, target: &'a str) -> Meta<'a> {
        Meta::new(level, target, "event")
    }
}

/// Fields in order, each a key, which is written as [a name](Meta::name) is, and a value, which is any text.
pub type Fields<'a> = &'a [(&'a str, &'a str)];

/// Fields with the kinds of their values; those that have none are texts.
#[derive(Clone, Copy, Debug)]
pub(crate) struct Given<'a> {
    pub(crate) fields: Fields<'a>,
    pub(crate) kinds: &'a [Kind],
}

impl<'a> From<Fields<'a>> for Given<'a> {
    fn from(fields: Fields<'a>) -> Given<'a> {
        Given { fields, kinds: &[] }
    }
}

impl Given<'_> {
    pub(crate) const NONE: Given<'static> = Given {
        fields: &[],
        kinds: &[],
    };
}

/// The parent of a new span or an event.
#[derive(Clone, Copy, Debug, PartialEq, Eq)]
pub enum Parent {
    /// None.
    Root,
    /// The thread's current span; none where it isn't inside any. An event's is, to each layer, the innermost that the
    /// layer admits.
    Current,
    /// This one, of the same registry.
    Of(Id),
}

/// A parent, as the C interface takes it.
#[derive(Clone, Copy, Debug, PartialEq, Eq)]
pub(crate) enum RawParent {
    Root,
    Current,
    Of(RawId),
}

impl From<Id> for Parent {
    fn from(id: Id) -> Parent {
        Parent::Of(id)
    }
}

/// `None` is no parent: a new span is a root.
impl From<Option<Id>> for Parent {
    fn from(id: Option<Id>) -> Parent {
        id.map_or(Parent::Root, Parent::Of)
    }
}

/// A disabled span is no parent: a new one is a root.
impl From<&Span> for Parent {
    fn from(span: &Span) -> Parent {
        span.id().map_or(Parent::Root, Parent::Of)
    }
}

/// The span's id; none of a disabled one.
impl From<&Span> for Option<Id> {
    fn from(span: &Span) -> Option<Id> {
        span.id()
    }
}

/// An open span, as [`Registry::find`](crate::Registry::find) tells of it.
#[derive(Clone, Copy, Debug, PartialEq, Eq)]
#[non_exhaustive]
pub struct Found {
    /// None for a root.
    pub parent: Option<Id>,
    /// How many handles are out.
    pub handles: u32,
    /// How many threads are inside.
    pub entries: u32,
    /// Handles, threads inside, and open children: it closes when this falls to 0.
    pub count: u32,
    /// Its level.
    pub level: Level,
}

/// What happened so far, and what is held now; of several [parts](crate::RegistryBuilder::parts) the sums, each part at
/// a moment of its own.
#[derive(Clone, Copy, Debug, PartialEq, Eq)]
#[non_exhaustive]
pub struct Counts {
    /// Open spans: as many as were made and haven't closed.
    pub open: u32,
    /// Spans made.
    pub made: u64,
    /// Spans closed.
    pub closed: u64,
    /// Accepted calls.
    pub calls: u64,
    /// Handles and entries of all open spans; entries of the same thread in the same span count once.
    pub held: u64,
    /// Exits and closes of dropped guards and spans, and ends of threads, that are still to be done.
    pub owed: usize,
    /// How many threads may be inside spans of a part at once.
    pub workers: u32,
    /// How many threads have called and not ended; in each part that they called, where there are several.
    pub threads: u32,
}

impl Counts {
    /// With those of another part.
    pub(crate) fn and(self, other: Counts) -> Counts {
        Counts {
            open: self.open + other.open,
            made: self.made + other.made,
            closed: self.closed + other.closed,
            calls: self.calls + other.calls,
            held: self.held + other.held,
            owed: self.owed + other.owed,
            workers: self.workers,
            threads: self.threads + other.threads,
        }
    }
}

#[cfg(test)]
mod tests {
    use super::{Id, RawId, MAX_ID, MOST_PARTS};
    use crate::error::Error;

    #[test]
    fn an_id_has_its_part_in_the_seven_bits_that_no_core_uses() {
        assert_eq!(MOST_PARTS, 128);
        for raw in [1, 1 << 24, 1 << 55, MAX_ID].map(|number| RawId::from_u64(number).expect("a core's")) {
            for part in 0..MOST_PARTS {
                let id = Id::of(7, part, raw);
                assert_eq!(id.into_u64(), raw.get() | u64::from(part) << 57);
                assert_eq!((id.part(), id.in_registry(7)), (part, Ok((part, raw))));
                assert_eq!(id.in_registry(8), Err(Error::OtherRegistry));
                assert_eq!(Id::of_number(7, id.into_u64()), Some(id));
                let above = u64::from(part) << 57;
                let own = (u64::from(id.generation()) << 24) + u64::from(id.slot()) + 1;
                assert_eq!(above + own, id.into_u64());
            }
        }
        let no_ids = [0, MAX_ID + 1, 1 << 57, (5 << 57) + MAX_ID + 1, u64::MAX];
        assert_eq!(no_ids.map(|number| Id::of_number(7, number)), [None; 5]);
    }
}
