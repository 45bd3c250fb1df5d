//! The registry: spans, who holds them, and what the layers are told of each call.
use crate::field::{is_name, Fields};
use crate::id::{Id, MOST_SLOTS};
use crate::layer::{Kind, LayerSet, Layers, Level};
use crate::note::Note;
use crate::outlet::{Batch, Call, Outlet, Reply};
use crate::spans::{Span, Spans};
use crate::stack::Stack;
use std::sync::Arc;

/// Why a call is refused. A refused call changes nothing.
#[derive(Clone, Copy, Debug)]
pub enum Refusal {
    Unknown,
    CountFull,
    Full,
    NotEntered,
    BadName,
    Backlog,
}

impl Refusal {
    pub fn text(self) -> &'static str {
        match self {
            Refusal::Unknown => "unknown",
            Refusal::CountFull => "count full",
            Refusal::Full => "full",
            Refusal::NotEntered => "not entered",
            Refusal::BadName => "bad name",
            Refusal::Backlog => "backlog",
        }
    }
}

#[derive(Clone, Copy)]
pub struct Limits {
    pub slots: u32,
    pub last_generation: u32,
    pub max_count: u32,
    pub workers: u32,
}

impl Default for Limits {
    fn default() -> Limits {
        Limits {
            slots: 1024,
            last_generation: u32::MAX,
            max_count: u32::MAX,
            workers: 4,
        }
    }
}

impl Limits {
    pub fn are_in_range(&self) -> bool {
        (1..=MOST_SLOTS).contains(&self.slots) && self.max_count >= 1 && (1..=256).contains(&self.workers)
    }
}

/// A name, a target and a level, lent for a call.
#[derive(Clone, Copy)]
pub struct Meta<'a> {
    pub name: &'a str,
    pub target: &'a str,
    pub level: Level,
}

#[derive(Clone, Copy)]
pub enum ParentOf {
    Root,
    Current,
    Of(Id),
}

/// The registry. `O` is where its batches go.
pub struct Registry<O> {
    pub limits: Limits,
    pub layers: Layers,
    pub outlet: O,
    spans: Spans,
    stacks: Vec<Stack>,
    /// Room to work in, for paths.
    places: Vec<u32>,
}

impl<O: Outlet> Registry<O> {
    pub fn new(limits: Limits, outlet: O) -> Registry<O> {
        Registry {
            limits,
            layers: Layers::default(),
            outlet,
            spans: Spans::new(limits.slots, limits.last_generation),
            stacks: (0..limits.workers).map(|_| Stack::default()).collect(),
            places: Vec::new(),
        }
    }

    pub fn find(&self, id: Id) -> Option<&Span> {
        self.spans.get(id)
    }

    pub fn open_spans(&self) -> usize {
        self.spans.len()
    }

    pub fn last_entry(&self, worker: u32) -> Option<Id> {
        self.stack(worker).last()
    }

    /// Makes a span, unless there are layers and none of them admits it.
    pub fn new_span(
        &mut self,
        worker: u32,
        meta: Meta<'_>,
        fields: Fields,
        parent: ParentOf,
    ) -> Result<Option<Id>, Refusal> {
        if !is_name(meta.name) || !fields.have_names() {
            return Err(Refusal::BadName);
        }
        let admitted = self.layers.admitting(meta.target, meta.level);
        if admitted.is_empty() && !self.layers.is_empty() {
            return Ok(None);
        }
        let parent = self.found_parent(worker, parent)?;
        if !self.spans.has_free_slot() {
            return Err(Refusal::Full);
        }
        self.need_room()?;
        if let Some(span) = parent.and_then(|id| self.spans.get_mut(id)) {
            span.children += 1;
        }
        let name: Arc<str> = meta.name.into();
        let span = Span {
            name: name.clone(),
            fields: fields.clone(),
            admitted,
            parent,
            handles: 1,
            entries: 0,
            children: 0,
        };
        let id = self.spans.insert(span);
        let notes = self.notes(worker, Kind::New, id, admitted, &fields);
        let call = Call::New {
            name,
            target: meta.target.into(),
            level: meta.level,
            fields,
            parent,
        };
        self.put(worker, call, Reply::Made(id), notes);
        Ok(Some(id))
    }

    pub fn clone_span(&mut self, worker: u32, id: Id) -> Result<(), Refusal> {
        let span = self.with_handle(id)?;
        self.need_count(span)?;
        self.need_room()?;
        if let Some(span) = self.spans.get_mut(id) {
            span.handles += 1;
        }
        self.put(worker, Call::Clone(id), Reply::Cloned, Vec::new());
        Ok(())
    }

    /// Answers whether the entry is no duplicate.
    pub fn enter(&mut self, worker: u32, id: Id) -> Result<bool, Refusal> {
        let span = self.with_handle(id)?;
        let again = span.entries > 0 && self.stack(worker).has(id);
        if !again {
            self.need_count(span)?;
        }
        let admitted = span.admitted;
        self.need_room()?;
        if let Some(span) = self.spans.get_mut(id).filter(|_| !again) {
            span.entries += 1;
        }
        self.stacks[worker as usize].push(id, again);
        let notes = self.notes(worker, Kind::Enter, id, admitted, &Fields::default());
        self.put(worker, Call::Enter(id), Reply::Entered(!again), notes);
        Ok(!again)
    }

    /// Answers whether the span closed.
    pub fn exit(&mut self, worker: u32, id: Id) -> Result<bool, Refusal> {
        let span = self.find(id).ok_or(Refusal::Unknown)?;
        let (place, again) = self.stack(worker).last_of(id).ok_or(Refusal::NotEntered)?;
        let admitted = span.admitted;
        self.need_room()?;
        self.stacks[worker as usize].remove(place);
        let mut notes = self.notes(worker, Kind::Exit, id, admitted, &Fields::default());
        let closed = if again {
            Box::default()
        } else {
            if let Some(span) = self.spans.get_mut(id) {
                span.entries -= 1;
            }
            self.close_unheld(worker, id, &mut notes)
        };
        let is_closed = !closed.is_empty();
        self.put(worker, Call::Exit(id), Reply::Exited(closed), notes);
        Ok(is_closed)
    }

    /// Gives a handle back. Answers whether the span closed.
    pub fn close(&mut self, worker: u32, id: Id) -> Result<bool, Refusal> {
        self.with_handle(id)?;
        self.need_room()?;
        if let Some(span) = self.spans.get_mut(id) {
            span.handles -= 1;
        }
        let mut notes = Vec::new();
        let closed = self.close_unheld(worker, id, &mut notes);
        let is_closed = !closed.is_empty();
        self.put(worker, Call::Close(id), Reply::Closed(closed), notes);
        Ok(is_closed)
    }

    pub fn record(&mut self, worker: u32, id: Id, fields: Fields) -> Result<(), Refusal> {
        if !fields.have_names() {
            return Err(Refusal::BadName);
        }
        let admitted = self.with_handle(id)?.admitted;
        self.need_room()?;
        if let Some(span) = self.spans.get_mut(id) {
            span.fields.append(&fields);
        }
        let notes = self.notes(worker, Kind::Record, id, admitted, &fields);
        self.put(worker, Call::Record(id, fields), Reply::Recorded, notes);
        Ok(())
    }

    pub fn event(
        &mut self,
        worker: u32,
        target: &str,
        level: Level,
        message: &str,
        fields: Fields,
    ) -> Result<(), Refusal> {
        if !fields.have_names() {
            return Err(Refusal::BadName);
        }
        self.need_room()?;
        let message: Arc<str> = message.into();
        let told = self
            .layers
            .admitting(target, level)
            .and(self.layers.wanting(Kind::Event));
        let mut notes = Vec::with_capacity(told.len());
        for layer in told.iter() {
            let id = self.contextual_span(worker, layer);
            notes.push(Note {
                layer,
                worker,
                kind: Kind::Event,
                id,
                path: id.map_or_else(Box::default, |id| self.spans.path(layer, id, &mut self.places)),
                fields: fields.clone(),
                told: Some((level, message.clone())),
            });
        }
        let call = Call::Event {
            target: target.into(),
            level,
            message,
            fields,
        };
        self.put(worker, call, Reply::Told, notes);
        Ok(())
    }

    fn stack(&self, worker: u32) -> &Stack {
        &self.stacks[worker as usize]
    }

    /// The topmost span of the worker that the layer admits.
    fn contextual_span(&self, worker: u32, layer: u32) -> Option<Id> {
        let is_admitted = |id: &Id| self.find(*id).is_some_and(|span| span.admitted.has(layer));
        self.stack(worker).walk().find(is_admitted)
    }

    fn with_handle(&self, id: Id) -> Result<&Span, Refusal> {
        self.find(id).filter(|span| span.handles > 0).ok_or(Refusal::Unknown)
    }

    /// Refuses where the span may have no reference more.
    fn need_count(&self, span: &Span) -> Result<(), Refusal> {
        if span.count() < u64::from(self.limits.max_count) {
            Ok(())
        } else {
            Err(Refusal::CountFull)
        }
    }

    fn need_room(&mut self) -> Result<(), Refusal> {
        if self.outlet.has_room() {
            Ok(())
        } else {
            Err(Refusal::Backlog)
        }
    }

    /// The parent that a new span gets, which may have a child more.
    fn found_parent(&self, worker: u32, parent: ParentOf) -> Result<Option<Id>, Refusal> {
        let parent = match parent {
            ParentOf::Root => None,
            ParentOf::Current => self.stack(worker).walk().next(),
            ParentOf::Of(id) => Some(id),
        };
        if let Some(id) = parent {
            self.need_count(self.find(id).ok_or(Refusal::Unknown)?)?;
        }
        Ok(parent)
    }

    fn put(&mut self, worker: u32, call: Call, reply: Reply, notes: Vec<Note>) {
        self.outlet.put(Batch {
            worker,
            call,
            reply,
            notes: notes.into_boxed_slice(),
        });
    }

    /// What the layers are told of a span that they admit.
    fn notes(&mut self, worker: u32, kind: Kind, id: Id, admitted: LayerSet, fields: &Fields) -> Vec<Note> {
        let told = admitted.and(self.layers.wanting(kind));
        let mut notes = Vec::with_capacity(told.len());
        self.tell(&mut notes, worker, kind, id, told, fields);
        notes
    }

    fn tell(&mut self, notes: &mut Vec<Note>, worker: u32, kind: Kind, id: Id, told: LayerSet, fields: &Fields) {
        for layer in told.iter() {
            let path = self.spans.path(layer, id, &mut self.places);
            notes.push(Note {
                layer,
                worker,
                kind,
                id: Some(id),
                path,
                fields: fields.clone(),
                told: None,
            });
        }
    }

    /// Closes the span if nothing holds it any longer, then its parent if it held that alone, and so on. Answers what
    /// closed, child first.
    fn close_unheld(&mut self, worker: u32, id: Id, notes: &mut Vec<Note>) -> Box<[Id]> {
        let wanting = self.layers.wanting(Kind::Close);
        let (mut closed, mut next) = (Vec::new(), Some(id));
        while let Some(id) = next {
            let Some(span) = self.find(id).filter(|span| span.count() == 0) else {
                break;
            };
            let (told, fields, parent) = (span.admitted.and(wanting), span.fields.clone(), span.parent);
            notes.reserve_exact(told.len());
            self.tell(notes, worker, Kind::Close, id, told, &fields);
            self.spans.remove(id);
            if let Some(parent) = parent.and_then(|id| self.spans.get_mut(id)) {
                parent.children -= 1;
            }
            closed.push(id);
            next = parent;
        }
        closed.into_boxed_slice()
    }
}
