//! The parts of a registry: what registries, spans and the drain share, and to which of them a call goes.
#![forbid(unsafe_code)]
use crate::at::At;
use crate::meta::{Counts, Meta};
use crate::part::{Common, Part};
use crate::refusal::Refusal;
use crate::routing;
use crate::site::Site;
use crate::state::State;
use crate::workers;
use std::iter;
use std::sync::{Arc, PoisonError};

/// One or more proved registries, each with its lock. A tree of spans lies in one of them.
#[derive(Clone)]
pub(crate) struct Parts {
    first: Arc<Part>,
    others: Arc<[Arc<Part>]>,
    common: Arc<Common>,
}

impl Parts {
    /// The first one, and the others in order.
    pub(crate) fn of(first: Arc<Part>, others: Vec<Arc<Part>>) -> Parts {
        Parts {
            common: Arc::clone(first.common()),
            first,
            others: others.into(),
        }
    }

    pub(crate) fn common(&self) -> &Arc<Common> {
        &self.common
    }

    /// How many they are.
    #[inline]
    pub(crate) fn count(&self) -> u32 {
        // At most 128.
        1 + self.others.len() as u32
    }

    #[inline]
    pub(crate) fn are_several(&self) -> bool {
        !self.others.is_empty()
    }

    /// In order.
    pub(crate) fn all(&self) -> impl Iterator<Item = &Arc<Part>> {
        iter::once(&self.first).chain(&*self.others)
    }

    /// The only one.
    #[inline(always)]
    pub(crate) fn only(&self) -> At<'_> {
        At::only(&self.first)
    }

    /// That of this place.
    #[inline(always)]
    pub(crate) fn at(&self, place: u32) -> At<'_> {
        if self.are_several() {
            At::one_of(self, place)
        } else {
            self.only()
        }
    }

    /// The same, for what is no call.
    #[inline]
    pub(crate) fn part(&self, place: u32) -> &Arc<Part> {
        match place {
            0 => &self.first,
            place => self.others.get(place as usize - 1).unwrap_or(&self.first),
        }
    }

    /// That of the thread's roots.
    #[inline(always)]
    pub(crate) fn home(&self) -> At<'_> {
        if self.are_several() {
            At::one_of(self, routing::home(self.count()))
        } else {
            self.only()
        }
    }

    /// That of the innermost span that the thread is inside of, else that of its roots.
    #[inline(always)]
    pub(crate) fn inside(&self) -> At<'_> {
        if self.are_several() {
            self.inside_of_several()
        } else {
            self.only()
        }
    }

    fn inside_of_several(&self) -> At<'_> {
        let innermost = workers::innermost(&self.common);
        At::one_of(self, innermost.unwrap_or_else(|| routing::home(self.count())))
    }

    /// Does what other parts than this one owe.
    #[inline(never)]
    pub(crate) fn settle_others(&self, part: &Part) -> Result<(), Refusal> {
        if !self.common.owes() {
            return Ok(());
        }
        part.until_placed(|| {
            let mut others = self.all().filter(|other| other.owes() && other.place() != part.place());
            others.try_for_each(|other| other.with(State::settle))
        })
    }

    /// Does what is owed, or waits until it is done.
    pub(crate) fn settle(&self) -> Result<(), Refusal> {
        let mut all = self.all();
        all.try_for_each(|part| part.until_placed(|| part.with(State::settle)))
    }

    /// Those of all parts. What is owed and can't be done now counts as not done.
    pub(crate) fn counts(&self) -> Counts {
        let counts = |part: &Arc<Part>| part.settled(State::counts);
        let others = self.others.iter().map(counts);
        others.fold(counts(&self.first), Counts::and)
    }

    /// Adds a callsite, which has the same number in all parts.
    pub(crate) fn add_callsite(&self, meta: &Meta<'_>) -> Result<u32, Refusal> {
        let _adding = self.common.adding().lock().unwrap_or_else(PoisonError::into_inner);
        self.add(meta, None)
    }

    /// The number of the callsite of a place in the program, which is added with this meta at its first call.
    pub(crate) fn callsite_of(&self, site: &'static Site, meta: &Meta<'_>) -> Result<u32, Refusal> {
        let _adding = self.common.adding().lock().unwrap_or_else(PoisonError::into_inner);
        // What the last one has, all have.
        let last = self.others.last().unwrap_or(&self.first);
        match last.with(|state| state.callsite_number(site)) {
            Some(number) => Ok(number),
            None => self.add(meta, Some(site)),
        }
    }

    // One that a part refused before is missing there and in those behind it. Nobody was told its number, so whatever
    // is added may have that there.
    fn add(&self, meta: &Meta<'_>, site: Option<&'static Site>) -> Result<u32, Refusal> {
        let number = self.first.with(|state| state.add_callsite(meta, site))?;
        for part in &*self.others {
            while part.with(|state| state.add_callsite(meta, site))? < number {}
        }
        Ok(number)
    }
}
