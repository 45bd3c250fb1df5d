//! What lies under the lock: the proved registry, what is owed to it, and which threads have which numbers.
#![forbid(unsafe_code)]
mod carrying;
mod open;

use crate::carried::Carried;
use crate::level::Level;
use crate::lost::{Lost, TARGET};
use crate::meta::{Counts, Fields, Given, Meta, RawId, RawParent};
use crate::noted::{Kept, Source, What};
use crate::origins::Origins;
use crate::owed::{Debt, Owed, Owing};
use crate::packed::{packed, Packed, Texts};
use crate::raw::{Core, SpanFound};
use crate::refusal::Refusal;
use crate::ring::Ring;
use crate::seats::{Caller, Seats};
use crate::site::Site;
use crate::stamps::{Answer, Sent};
use std::sync::Arc;

/// Says what a call does, which may be made again: so what is captured is copied. What seldom runs is lent a copy that
/// is made there: were it lent this itself, all of it would stand in memory before each call.
trait Saying<'a>: Fn() -> What<'a> + Copy {}
impl<'a, F: Fn() -> What<'a> + Copy> Saying<'a> for F {}

/// A call of the core.
trait Sending<T>: Fn(&mut Core) -> Result<T, Refusal> + Copy {}
impl<T, F: Fn(&mut Core) -> Result<T, Refusal> + Copy> Sending<T> for F {}

/// It begins in a line of the processors' caches of its own: threads that wait look at the lock's word again and again,
/// which would take from the one that has the lock what it works on.
#[repr(align(128))]
pub(crate) struct State {
    core: Core,
    // Workers are numbered from 0 on here and in the core, and from this one on where they are told.
    first_worker: u32,
    ring: Arc<Ring>,
    // What the core said of a span.
    said: Packed,
    owing: Owing,
    // The core has one worker more, the outsider, which is inside of no span.
    seats: Seats,
    origins: Origins,
    carried: Carried,
    // Whether batches have notes or stamps.
    has_more: bool,
}

impl State {
    /// Of a part whose first worker lines tell by this number.
    pub(crate) fn new(mut core: Core, ring: Arc<Ring>, debt: Arc<Debt>, first_worker: u32) -> Result<State, Refusal> {
        let workers = core.counts().workers - 1;
        Ok(State {
            core,
            first_worker,
            origins: Origins::default(),
            has_more: ring.notes().is_some() || ring.stamps().is_some(),
            ring,
            said: Packed::default(),
            owing: Owing::new(workers as usize, debt)?,
            seats: Seats::new(workers)?,
            carried: Carried::default(),
        })
    }

    /// Does what is owed, in order, up to the first that can't be done now.
    #[inline]
    pub(crate) fn settle(&mut self) -> Result<(), Refusal> {
        if self.owes() {
            self.pay_all()
        } else {
            Ok(())
        }
    }

    #[cold]
    fn pay_all(&mut self) -> Result<(), Refusal> {
        while let Some(next) = self.owing.first() {
            match self.pay(next) {
                Err(refusal) if refusal.may_pass() => return Err(refusal),
                _ => self.owing.done(),
            }
        }
        Ok(())
    }

    fn pay(&mut self, payment: Owed) -> Result<(), Refusal> {
        match payment {
            Owed::Exit { worker, id } => self.give_back_entry(worker, id).map(drop),
            Owed::Close { worker, id } => self.try_close(worker, id).map(drop),
            Owed::Leave { worker } => self.leave(worker),
        }
    }

    /// Does this after all that is owed, or owes it too.
    #[inline]
    pub(crate) fn exit_or_owe(&mut self, worker: u32, id: RawId) -> Result<(), Refusal> {
        match self.settle().and_then(|()| self.exit(worker, id)) {
            Err(refusal) if refusal.may_pass() => self.owing.owe_exit(worker, id),
            result => result.map(drop),
        }
    }

    /// Does this after all that is owed, or owes it too.
    #[inline(always)]
    pub(crate) fn close_or_owe(&mut self, worker: u32, id: RawId) -> Result<(), Refusal> {
        match self.settle().and_then(|()| self.try_close(worker, id)) {
            Err(refusal) if refusal.may_pass() => self.owe_close(worker, id),
            result => result.map(drop),
        }
    }

    #[cold]
    fn owe_close(&mut self, worker: u32, id: RawId) -> Result<(), Refusal> {
        let handles = self.core.find(id).map_or(0, |found| found.handles);
        self.owing.owe_close(worker, id, handles)
    }

    /// The thread leaves all spans, after all that is owed or as it is owed too, and its number is free then.
    pub(crate) fn thread_ends(&mut self, caller: Caller) -> Result<(), Refusal> {
        let Some(worker) = self.seats.ends(caller) else {
            return Ok(());
        };
        match self.settle().and_then(|()| self.leave(worker)) {
            Err(refusal) if refusal.may_pass() => self.owing.owe_end(worker),
            result => result,
        }
    }

    fn leave(&mut self, worker: u32) -> Result<(), Refusal> {
        while let Some(id) = self.core.current_span(worker)? {
            self.give_back_entry(worker, id)?;
        }
        self.owing.left_all(worker);
        self.seats.free(worker);
        Ok(())
    }

    /// As which worker a thread without a number makes a call: by one that it takes, or as the outsider.
    pub(crate) fn number(&mut self, caller: Caller) -> Result<u32, Refusal> {
        Ok(self.seats.of_or_free(caller))
    }

    /// As which worker it may enter a span: by a number that it takes, also an idle thread's.
    pub(crate) fn number_to_enter(&mut self, caller: Caller) -> Result<u32, Refusal> {
        self.seats.entering(caller)
    }

    /// As which worker a thread gives back what it drops, for which it takes no number.
    #[inline]
    pub(crate) fn worker_or_outsider(&self, caller: Caller) -> u32 {
        self.worker_of(caller).unwrap_or_else(|| self.seats.outsider())
    }

    /// How lines show a worker.
    pub(crate) fn as_told(&self, worker: u32) -> u32 {
        self.first_worker + worker
    }

    /// The number that the thread has.
    #[inline]
    pub(crate) fn worker_of(&self, caller: Caller) -> Option<u32> {
        self.seats.of(caller)
    }

    // A call that takes a place of the ring: where lines may be thrown away for one, they are. `what` says what it does.
    #[inline(always)]
    fn placed<'a, T: Answer>(&mut self, what: impl Saying<'a>, call: impl Sending<T>) -> Result<T, Refusal> {
        match self.sent(what, call) {
            Ok(answer) => Ok(answer),
            Err(refusal) => {
                let again = (what, call);
                Ok(self.placed_later(refusal, &again)?)
            }
        }
    }

    // It was refused for this. It is made again where lines were thrown away.
    #[cold]
    #[inline(never)]
    fn placed_later<'a, T: Answer>(
        &mut self,
        refusal: Refusal,
        &(what, call): &(impl Saying<'a>, impl Sending<T>),
    ) -> Result<T, Refusal> {
        let mut result = Err(refusal);
        while matches!(result, Err(Refusal::BACKLOG)) && self.ring.makes_place() {
            result = self.sent(what, call);
        }
        result
    }

    // A call that may put a batch into the ring.
    #[inline(always)]
    fn sent<'a, T: Answer>(&mut self, what: impl Saying<'a>, call: impl Sending<T>) -> Result<T, Refusal> {
        if self.has_more {
            let these = (what, call);
            Ok(self.sent_with_more(&these)?)
        } else {
            call(&mut self.core)
        }
    }

    // The same, with a note and a stamp of the batch, where these are kept.
    #[cold]
    fn sent_with_more<'a, T: Answer>(
        &mut self,
        &(what, call): &(impl Saying<'a>, impl Sending<T>),
    ) -> Result<T, Refusal> {
        let kept = self.ring.notes().map(|notes| notes.kept(what())).transpose()?;
        if let Some(stamps) = self.ring.stamps() {
            stamps.begin();
        }
        let answer = call(&mut self.core);
        let sent = answer.as_ref().map_or(Sent::Nothing, Answer::sent);
        if let Some(stamps) = self.ring.stamps() {
            stamps.end(sent != Sent::Nothing);
        }
        if let Some(kept) = kept {
            self.note(kept, sent);
        }
        answer
    }

    // There is room for it.
    fn note(&mut self, kept: Kept, sent: Sent) {
        let is_told = sent != Sent::Nothing && !self.ring.is_unread();
        let kept = match sent {
            Sent::Span(id) if is_told => {
                let parent = self.core.find(id).and_then(|found| RawId::from_u64(found.parent));
                kept.of_span(id, parent)
            }
            _ => kept,
        };
        let number = if is_told { self.calls() } else { 0 };
        match self.ring.notes() {
            Some(notes) if is_told => notes.add(number, kept),
            Some(notes) => notes.give_back(kept),
            None => {}
        }
    }

    #[inline]
    pub(crate) fn new_span(
        &mut self,
        worker: u32,
        meta: &Meta<'_>,
        parent: RawParent,
        given: &Given<'_>,
        texts: Texts<'_>,
    ) -> Result<Option<RawId>, Refusal> {
        self.owing.reserve_span()?;
        self.origins.reserve_span()?;
        let id = self.placed(
            move || What::Made(Source::Meta(meta), given),
            move |core| core.new_span(worker, parent, meta, texts),
        )?;
        if let Some(id) = id {
            self.made(id, None);
        }
        Ok(id)
    }

    /// Its number.
    pub(crate) fn add_callsite(&mut self, meta: &Meta<'_>, site: Option<&'static Site>) -> Result<u32, Refusal> {
        let State {
            core, origins, ring, ..
        } = self;
        let notes = ring.notes();
        let named = notes.map(|notes| notes.callsite(meta)).transpose()?;
        let number = packed(&[meta.name, meta.target], &[], |texts| {
            origins.add(site, || core.add_callsite(meta, texts))
        })?;
        if let (Some(notes), Some(named)) = (notes, named) {
            notes.add_callsite(named);
        }
        Ok(number)
    }

    /// The number of the callsite of a place in the program, if it was added.
    pub(crate) fn callsite_number(&self, site: &'static Site) -> Option<u32> {
        self.origins.number(site)
    }

    #[inline(always)]
    pub(crate) fn new_span_at(
        &mut self,
        worker: u32,
        callsite: u32,
        parent: RawParent,
        given: &Given<'_>,
        texts: Texts<'_>,
    ) -> Result<Option<RawId>, Refusal> {
        self.owing.reserve_span()?;
        self.origins.reserve_span()?;
        let id = self.placed(
            move || What::Made(Source::Callsite(callsite), given),
            move |core| core.new_span_at(worker, parent, callsite, texts),
        )?;
        if let Some(id) = id {
            self.made(id, Some(callsite));
        }
        Ok(id)
    }

    #[inline(always)]
    fn made(&mut self, id: RawId, callsite: Option<u32>) {
        self.owing.made(id);
        self.origins.made(id, callsite);
    }

    pub(crate) fn clone_span(&mut self, worker: u32, id: RawId) -> Result<(), Refusal> {
        self.owing.reserve_handle()?;
        self.placed(|| What::Other, move |core| core.clone_span(worker, id))?;
        self.owing.cloned();
        Ok(())
    }

    #[inline(always)]
    pub(crate) fn enter(&mut self, worker: u32, id: RawId) -> Result<bool, Refusal> {
        self.owing.reserve_entry(worker)?;
        let first = self.placed(|| What::Other, move |core| core.enter(worker, id))?;
        self.seats.entered(worker);
        self.owing.entered(worker, id);
        Ok(first)
    }

    #[inline(always)]
    pub(crate) fn exit(&mut self, worker: u32, id: RawId) -> Result<bool, Refusal> {
        let closed = self.give_back_entry(worker, id)?;
        self.owing.left(worker, id);
        Ok(closed)
    }

    #[inline(always)]
    fn give_back_entry(&mut self, worker: u32, id: RawId) -> Result<bool, Refusal> {
        let closed = if self.carried.is_nothing() {
            self.placed(|| What::Other, move |core| core.exit(worker, id))?
        } else {
            self.closing(Core::exit_closing, worker, id)?
        };
        self.seats.left(worker);
        self.owing.given_back();
        Ok(closed)
    }

    #[inline(always)]
    pub(crate) fn try_close(&mut self, worker: u32, id: RawId) -> Result<bool, Refusal> {
        let closed = if self.carried.is_nothing() {
            self.placed(|| What::Other, move |core| core.try_close(worker, id))?
        } else {
            self.closing(Core::try_close_closing, worker, id)?
        };
        self.owing.given_back();
        Ok(closed)
    }

    pub(crate) fn record(
        &mut self,
        worker: u32,
        id: RawId,
        given: &Given<'_>,
        texts: Texts<'_>,
    ) -> Result<(), Refusal> {
        self.placed(
            move || What::Record(id, given),
            move |core| core.record(worker, id, texts),
        )
    }

    pub(crate) fn event(
        &mut self,
        worker: u32,
        meta: &Meta<'_>,
        parent: RawParent,
        message: &str,
        given: &Given<'_>,
        texts: Texts<'_>,
    ) -> Result<(), Refusal> {
        self.placed(
            move || What::Made(Source::Meta(meta), given),
            move |core| core.event(worker, parent, meta, message, texts),
        )
    }

    pub(crate) fn event_at(
        &mut self,
        worker: u32,
        callsite: u32,
        parent: RawParent,
        message: &str,
        given: &Given<'_>,
        texts: Texts<'_>,
    ) -> Result<(), Refusal> {
        self.placed(
            move || What::Made(Source::Callsite(callsite), given),
            move |core| core.event_at(worker, parent, callsite, message, texts),
        )
    }

    /// Tells something of the registry itself, as the outsider, if the ring has room: nothing is thrown away for it.
    fn tell_of_itself(&mut self, message: &str, fields: Fields<'_>) -> Result<(), Refusal> {
        let meta = Meta::event(Level::Warn, TARGET);
        let outsider = self.seats.outsider();
        let given = Given::from(fields);
        packed(&[meta.name, meta.target, message], fields, |texts| {
            self.sent(
                || What::Made(Source::Meta(&meta), &given),
                |core| core.event(outsider, RawParent::Root, &meta, message, texts),
            )
        })
    }

    /// Tells what was lost, as the outsider, if the ring has room. It takes memory, unlike the losses themselves.
    pub(crate) fn tell(&mut self, news: Lost) -> Result<(), Refusal> {
        if news.is_nothing() {
            // It was told before its thread said so.
            return Ok(());
        }
        let counts: Vec<(&str, String)> = news
            .reasons()
            .map(|(reason, count)| (reason, count.to_string()))
            .collect();
        let fields: Vec<(&str, &str)> = counts.iter().map(|(reason, count)| (*reason, &**count)).collect();
        self.tell_of_itself("lost", &fields)
    }

    pub(crate) fn current_span(&mut self, worker: u32) -> Result<Option<RawId>, Refusal> {
        self.core.current_span(worker)
    }

    pub(crate) fn find(&mut self, id: RawId) -> Option<SpanFound> {
        self.core.find(id)
    }

    /// Whether some layer admits it: the proved registry's own answer.
    pub(crate) fn wants(&mut self, level: Level, target: &str) -> Result<bool, Refusal> {
        self.core.wants(level, target)
    }

    /// The same of a callsite.
    pub(crate) fn callsite_wants(&mut self, callsite: u32) -> Result<bool, Refusal> {
        self.core.callsite_wants(callsite)
    }

    pub(crate) fn counts(&mut self) -> Counts {
        let counts = self.core.counts();
        Counts {
            open: counts.open,
            made: counts.made,
            closed: counts.closed,
            calls: counts.calls,
            held: counts.held,
            owed: self.owing.len(),
            workers: self.seats.all(),
            threads: self.seats.taken(),
        }
    }

    /// How many calls were accepted: each put a batch into the ring.
    pub(crate) fn calls(&mut self) -> u64 {
        let calls = self.core.counts().calls;
        debug_assert!(self.ring.stamps().is_none_or(|stamps| stamps.sent() == calls));
        calls
    }

    /// The same, with those at most that are owed.
    pub(crate) fn calls_by_now(&mut self) -> u64 {
        self.calls() + self.owing.calls()
    }

    #[inline]
    fn owes(&self) -> bool {
        self.owing.len() > 0
    }

    pub(crate) fn debt(&self) -> &Arc<Debt> {
        self.owing.debt()
    }
}
