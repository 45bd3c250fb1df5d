//! What lines lack of which a tree can be built: kept beside the ring, a call at a time, until its lines are read.
#![forbid(unsafe_code)]
use crate::by_slot::BySlot;
use crate::kinds::Kinds;
use crate::level::Level;
use crate::meta::{Meta, RawId};
use crate::noted::{Blocks, Kept, Known, Named, Of, What};
use crate::packed::reserve;
use crate::refusal::Refusal;
use std::collections::VecDeque;
use std::mem;
use std::sync::{Mutex, MutexGuard, PoisonError};
use std::time::Instant;

/// Of a callsite that isn't known.
const NOTHING: &Meta<'_> = &Meta::event(Level::Trace, "");

/// An accepted call, which put one batch into the ring.
#[derive(Debug)]
struct Call {
    // How many were accepted by then.
    number: u64,
    // Nanoseconds since the registry was built.
    at: u64,
    kept: Kept,
}

/// A span that was told of.
struct Told {
    parent: Option<RawId>,
    known: Known,
}

/// What is known of a span or an event.
#[derive(Clone, Copy, Debug)]
pub(crate) struct Noted<'a> {
    /// A span's.
    pub(crate) parent: Option<RawId>,
    /// Its name is as it was given.
    pub(crate) meta: Meta<'a>,
    /// Of its fields, in order.
    pub(crate) kinds: &'a Kinds,
}

/// The calls whose lines weren't read. Who has the lock of the registry, or of the ring, may take this one, and never
/// the other way round.
pub(crate) struct Notes {
    begin: Instant,
    book: Mutex<Book>,
}

#[derive(Default)]
pub(crate) struct Book {
    // By their numbers: what is made at one has no texts of its own.
    callsites: Vec<Named>,
    calls: VecDeque<Call>,
    spans: BySlot<Told>,
    // The call of which a line was read last, and the spans whose close its lines told.
    read: u64,
    closed: Vec<RawId>,
    blocks: Blocks,
}

impl Notes {
    /// Of a part of a registry that was built then.
    pub(crate) fn new(begin: Instant) -> Notes {
        Notes {
            begin,
            book: Mutex::default(),
        }
    }

    /// No code of the program's runs under this lock.
    pub(crate) fn book(&self) -> MutexGuard<'_, Book> {
        self.book.lock().unwrap_or_else(PoisonError::into_inner)
    }

    /// What a callsite with this meta, whose name is as lines write it, is known by, and room for it.
    pub(crate) fn callsite(&self, meta: &Meta<'_>) -> Result<Named, Refusal> {
        reserve(&mut self.book().callsites, 1)?;
        Named::of(meta, String::new())
    }

    /// The callsite was added that room was made for last. They are numbered in ascending order.
    pub(crate) fn add_callsite(&self, named: Named) {
        self.book().callsites.push(named);
    }

    /// What is to be kept of a call that does this, and room for it.
    pub(crate) fn kept(&self, what: What<'_>) -> Result<Kept, Refusal> {
        let mut book = self.book();
        book.calls.try_reserve(1).map_err(|_| Refusal::OUT_OF_MEMORY)?;
        Kept::of(what, &mut book.blocks)
    }

    /// The call of this number did this.
    pub(crate) fn add(&self, number: u64, kept: Kept) {
        // It takes centuries to overflow.
        let at = self.begin.elapsed().as_nanos() as u64;
        self.book().calls.push_back(Call { number, at, kept });
    }

    /// The call wasn't done, or put nothing into the ring.
    pub(crate) fn give_back(&self, kept: Kept) {
        self.book().give_back(kept);
    }

    /// Nobody reads any longer.
    pub(crate) fn clear(&self) {
        let mut book = self.book();
        let callsites = mem::take(&mut book.callsites);
        *book = Book {
            callsites,
            ..Book::default()
        };
    }
}

impl Book {
    /// All calls before this one are done with, and their lines are read. Whether this one is known.
    pub(crate) fn goes_to(&mut self, number: u64) -> bool {
        while self.calls.front().is_some_and(|call| call.number < number) {
            if let Some(call) = self.calls.pop_front() {
                self.keep(call.kept);
            }
        }
        self.calls.front().is_some_and(|call| call.number == number)
    }

    /// When the call was made that comes first now.
    pub(crate) fn at(&self) -> u64 {
        self.calls.front().map_or(0, |call| call.at)
    }

    /// The event that it told.
    pub(crate) fn event(&self) -> Option<Noted<'_>> {
        let known = self.calls.front()?.kept.known()?;
        Some(self.noted(None, known))
    }

    /// The kinds of the fields that it recorded.
    pub(crate) fn recorded(&self) -> Option<&Kinds> {
        match &self.calls.front()?.kept {
            Kept::Record(_, kinds) => Some(kinds),
            _ => None,
        }
    }

    /// Whether nothing is kept of any call whose lines weren't read.
    pub(crate) fn is_empty(&self) -> bool {
        self.calls.is_empty()
    }

    /// A line of the call of this number is read. The span that it made is known from here on, and those whose close was
    /// told by the lines of calls before are not. False where nothing is kept of it any longer: then it doesn't come
    /// first, but a later one does, whose lines were thrown away once this one was taken out.
    #[must_use]
    pub(crate) fn reads(&mut self, number: u64) -> bool {
        let is_first = self.goes_to(number);
        if number > self.read {
            self.read = number;
            self.let_closed_go();
        }
        if is_first {
            self.keep_first();
        }
        is_first
    }

    fn keep_first(&mut self) {
        let first = self.calls.front_mut().map(|call| &mut call.kept);
        if let Some(kept @ Kept::Span { .. }) = first {
            let kept = mem::replace(kept, Kept::Other);
            self.keep(kept);
        }
    }

    /// The line that is read tells that this span closed: once all of its call are, nothing tells of it any more.
    pub(crate) fn is_closed(&mut self, id: RawId) {
        // Without room, it is kept until its slot has another one.
        if reserve(&mut self.closed, 1).is_ok() {
            self.closed.push(id);
        }
    }

    /// A span that was told of, until its close was told too, or its slot has another one.
    pub(crate) fn span(&self, id: RawId) -> Option<Noted<'_>> {
        let told = self.spans.get(id)?;
        Some(self.noted(told.parent, &told.known))
    }

    fn noted<'a>(&'a self, parent: Option<RawId>, known: &'a Known) -> Noted<'a> {
        let meta = match &known.of {
            Of::Callsite(number) => self.callsites.get(*number as usize).map_or(*NOTHING, Named::meta),
            Of::Own(named) => named.meta(),
        };
        let kinds = &known.kinds;
        Noted { parent, meta, kinds }
    }

    fn keep(&mut self, kept: Kept) {
        match kept {
            Kept::Span { id, parent, known } => {
                let earlier = self.spans.put(id, Told { parent, known });
                self.let_go(earlier);
            }
            Kept::Record(id, kinds) => {
                if let Some(told) = self.spans.get_mut(id) {
                    told.known.kinds.append(&kinds);
                }
            }
            other => self.give_back(other),
        }
    }

    fn give_back(&mut self, kept: Kept) {
        if let Kept::Made(known) | Kept::Span { known, .. } = kept {
            self.blocks.give_back(known);
        }
    }

    fn let_closed_go(&mut self) {
        while let Some(id) = self.closed.pop() {
            let told = self.spans.take(id);
            self.let_go(told);
        }
    }

    fn let_go(&mut self, told: Option<Told>) {
        if let Some(told) = told {
            self.blocks.give_back(told.known);
        }
    }
}

#[cfg(test)]
mod tests {
    use super::Notes;
    use crate::kind::Kind;
    use crate::level::Level;
    use crate::meta::{Given, Meta, RawId};
    use crate::noted::{Source, What};
    use crate::refusal::Refusal;
    use std::time::Instant;

    fn id(number: u64) -> RawId {
        RawId::from_u64(number).expect("not 0")
    }

    // As the registry makes them: what is noted is made before the call, and added once that is done.
    fn call(notes: &Notes, number: u64, what: What<'_>, made: Option<(u64, Option<u64>)>) -> Result<(), Refusal> {
        let mut kept = notes.kept(what)?;
        if let Some((span, parent)) = made {
            kept = kept.of_span(id(span), parent.map(id));
        }
        notes.add(number, kept);
        Ok(())
    }

    #[test]
    fn what_is_made_at_a_callsite_has_its_texts() -> Result<(), Refusal> {
        let notes = Notes::new(Instant::now());
        for meta in [Meta::event(Level::Info, "app"), Meta::new(Level::Warn, "db", "--a-20b")] {
            notes.add_callsite(notes.callsite(&meta)?);
        }
        for (number, callsite) in [(1, 1), (2, 0), (3, 2)] {
            call(
                &notes,
                number,
                What::Made(Source::Callsite(callsite), &Given::NONE),
                None,
            )?;
        }
        let known = [
            Meta::new(Level::Warn, "db", "a b"),
            Meta::event(Level::Info, "app"),
            Meta::event(Level::Trace, ""),
        ];
        for (number, meta) in (1..).zip(known) {
            let mut book = notes.book();
            assert!(book.goes_to(number));
            assert_eq!(book.event().map(|noted| noted.meta), Some(meta));
        }
        // Where nobody reads, callsites stay known: others may follow them.
        notes.clear();
        let book = notes.book();
        assert_eq!((book.callsites.len(), book.calls.len()), (2, 0));
        Ok(())
    }

    #[test]
    fn a_span_is_known_until_the_lines_of_its_close_are_read() -> Result<(), Refusal> {
        let notes = Notes::new(Instant::now());
        let meta = Meta::new(Level::Info, "app", "a");
        let given = Given {
            fields: &[("k", "1"), ("l", "2")],
            kinds: &[Kind::Integer, Kind::Text],
        };
        call(&notes, 1, What::Made(Source::Meta(&meta), &given), Some((5, None)))?;
        call(&notes, 2, What::Record(id(5), &given), None)?;
        call(&notes, 3, What::Other, None)?;
        call(&notes, 4, What::Other, None)?;
        let mut book = notes.book();
        assert!(book.goes_to(1) && book.span(id(5)).is_none());
        assert!(book.reads(1));
        assert_eq!(book.span(id(5)).map(|noted| noted.meta), Some(meta));
        assert!(book.goes_to(2) && book.recorded().is_some() && book.event().is_none());
        // Of two layers. Who calls may have thrown the next call's lines away in between.
        for first in [3, 4] {
            assert!(book.goes_to(first));
            assert_eq!(book.reads(3), first == 3);
            let kinds = book
                .span(id(5))
                .map(|noted| noted.kinds.iter().take(5).collect::<Vec<_>>());
            let wanted = [Kind::Integer, Kind::Text, Kind::Integer, Kind::Text, Kind::Text];
            assert_eq!(kinds.as_deref(), Some(&wanted[..]));
            book.is_closed(id(5));
        }
        assert!(book.reads(4) && book.span(id(5)).is_none() && !book.is_empty());
        assert!(!book.goes_to(5) && book.is_empty());
        Ok(())
    }

    #[test]
    fn a_refused_call_gives_its_block_back() -> Result<(), Refusal> {
        let notes = Notes::new(Instant::now());
        let meta = Meta::new(Level::Info, "app", "a");
        let address = || -> Result<*const u8, Refusal> {
            let kept = notes.kept(What::Made(Source::Meta(&meta), &Given::NONE))?;
            let address = kept
                .known()
                .map(|known| notes.book().noted(None, known).meta.name.as_ptr());
            notes.give_back(kept);
            Ok(address.expect("an event"))
        };
        assert_eq!(address()?, address()?);
        Ok(())
    }
}
