//! Which spans are open, under the lock.
#![forbid(unsafe_code)]
use super::State;
use crate::meta::RawId;
use crate::open::Open;
use crate::packed::reserve;
use crate::refusal::Refusal;
use std::collections::HashSet;

impl State {
    /// Each span that is open, by ascending slot.
    pub(crate) fn open_spans(&mut self) -> Result<Vec<Open>, Refusal> {
        let ids = self.core.open_ids()?;
        let mut open = Vec::new();
        reserve(&mut open, ids.len())?;
        for id in ids {
            open.push(self.open_id(id)?);
        }
        Ok(open)
    }

    /// A span, the spans at it or below it that keep it open, and those between them and it.
    pub(crate) fn why_open(&mut self, id: RawId) -> Result<Vec<Open>, Refusal> {
        let mut seen = HashSet::from([id.get()]);
        let mut open = vec![self.open_span(id)?];
        for holder in self.core.holders_of(id)? {
            let mut at = holder.id;
            // Each span between is looked at once.
            while seen.insert(at) {
                let span = self.open_id(at)?;
                at = span.found.parent;
                open.push(span);
            }
        }
        open.sort_unstable_by_key(|span| span.id.slot());
        Ok(open)
    }

    fn open_id(&mut self, id: u64) -> Result<Open, Refusal> {
        self.open_span(RawId::from_u64(id).ok_or(Refusal::UNKNOWN)?)
    }

    /// A span, if it is open.
    pub(crate) fn open_span(&mut self, id: RawId) -> Result<Open, Refusal> {
        let found = self.core.find(id).ok_or(Refusal::UNKNOWN)?;
        // All workers' stacks are looked through, so not for a span that none is inside of.
        let mut inside = if found.entries > 0 {
            self.core.workers_inside(id)?
        } else {
            Vec::new()
        };
        inside.iter_mut().for_each(|worker| *worker += self.first_worker);
        let names = self.core.details(id, &mut self.said);
        let details = names.and_then(|names| self.origins.details(id, names, &self.said));
        // A long text is not kept until the next call.
        self.said.give_back();
        Ok(Open {
            id,
            found,
            details: details?,
            inside,
        })
    }

    /// Tells of these that they are open, as the outsider, up to the first for which the ring has no room. How many.
    pub(crate) fn tell_open(&mut self, part: u32, spans: &[Open]) -> Result<usize, Refusal> {
        for (told, span) in spans.iter().enumerate() {
            let fields = span.fields(part);
            let fields: Vec<(&str, &str)> = fields.iter().map(|(key, value)| (*key, &**value)).collect();
            match self.tell_of_itself("open", &fields) {
                Err(Refusal::BACKLOG) => return Ok(told),
                told => told?,
            }
        }
        Ok(spans.len())
    }
}
