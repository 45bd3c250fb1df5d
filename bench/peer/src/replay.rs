//! The run of a script: its lines one after another, then the tidying.
use crate::id::Id;
use crate::layer::{Layer, MOST_LAYERS};
use crate::operation::{self, Act, Event, Named, NewSpan, Operation, ParentNamed, Reason, Stage};
use crate::outlet::Shown;
use crate::registry::{Limits, Meta, ParentOf, Refusal, Registry};
use crate::text::push_number;
use std::borrow::Cow;
use std::collections::HashMap;
use std::fmt;
use std::io::{Read, Write};
use std::marker::PhantomData;
use std::mem;

const MOST_BYTES: u64 = 1 << 24;

/// The text is written where it is so long, and at the end.
const WRITTEN_AT: usize = 1 << 16;

/// Why a run ends early.
pub enum Fault {
    /// The number of the line, from 1, and what is wrong with it.
    Script(usize, Reason),
    Read,
    Write,
}

impl fmt::Display for Fault {
    fn fmt(&self, f: &mut fmt::Formatter<'_>) -> fmt::Result {
        match self {
            Fault::Script(line, reason) => write!(f, "line {line}: {reason}"),
            Fault::Read => f.write_str("device: read failed"),
            Fault::Write => f.write_str("device: write failed"),
        }
    }
}

/// Runs the script that the input gives, and writes what it answers; `outlets` says what is kept of its calls.
pub fn replay<O: Shown>(input: impl Read, output: impl Write, _outlets: PhantomData<O>) -> Result<(), Fault> {
    let mut script = Vec::new();
    input
        .take(MOST_BYTES + 1)
        .read_to_end(&mut script)
        .map_err(|_| Fault::Read)?;
    if script.len() as u64 > MOST_BYTES {
        return Err(Fault::Script(0, Reason::TooLong));
    }
    let mut run = Run {
        registry: Registry::new(Limits::default(), O::default()),
        labels: HashMap::new(),
        stage: Stage::Start,
        text: Vec::with_capacity(2 * WRITTEN_AT),
        output,
    };
    let ended = run.whole(&script);
    let flushed = match ended {
        Err(Fault::Write) => Ok(()),
        _ => run.flush(),
    };
    // The process ends, and its memory goes with it: nothing is freed piece by piece.
    mem::forget(run.registry);
    mem::forget(run.labels);
    flushed.and(ended)
}

fn is_blank(line: &[u8]) -> bool {
    line.iter().all(|byte| matches!(byte, b' ' | b'\t' | b'\r'))
}

struct Run<'a, O, W: Write> {
    registry: Registry<O>,
    labels: HashMap<Cow<'a, str>, Id>,
    stage: Stage,
    /// What isn't written yet.
    text: Vec<u8>,
    output: W,
}

/// An answer but for its mark.
enum Answer {
    Plain(&'static str),
    Id(Id),
    Layer(usize),
}

fn closed_or_open(is_closed: bool) -> &'static str {
    if is_closed {
        "closed"
    } else {
        "open"
    }
}

impl<'a, O: Shown, W: Write> Run<'a, O, W> {
    fn whole(&mut self, script: &'a [u8]) -> Result<(), Fault> {
        for (place, line) in script.split(|byte| *byte == b'\n').enumerate() {
            if !is_blank(line) {
                self.line(line).map_err(|reason| Fault::Script(place + 1, reason))?;
                self.write_full()?;
            }
        }
        self.tidy()
    }

    fn write_full(&mut self) -> Result<(), Fault> {
        if self.text.len() >= WRITTEN_AT {
            self.output.write_all(&self.text).map_err(|_| Fault::Write)?;
            self.text.clear();
        }
        Ok(())
    }

    fn flush(&mut self) -> Result<(), Fault> {
        self.output.write_all(&self.text).map_err(|_| Fault::Write)?;
        self.output.flush().map_err(|_| Fault::Write)
    }

    fn line(&mut self, line: &'a [u8]) -> Result<(), Reason> {
        match operation::read(line, &mut self.stage, self.registry.limits.workers)? {
            Operation::Limits(limits) => self.limits(limits),
            Operation::Layer(layer) => self.layer(layer),
            Operation::New(new) => self.new_span(new)?,
            Operation::Act { act, span, worker } => {
                let id = self.id_of(&span)?;
                self.act(act, id, worker);
            }
            Operation::Record { span, fields, worker } => {
                let id = self.id_of(&span)?;
                let result = self.registry.record(worker, id, fields);
                self.answer(result.map(|()| Answer::Plain("recorded")));
            }
            Operation::Event(event) => self.event(event),
            Operation::Find(span) => {
                let id = self.id_of(&span)?;
                self.find(id);
            }
        }
        Ok(())
    }

    fn id_of(&self, span: &Named<'_>) -> Result<Id, Reason> {
        match span {
            Named::Id(id) => Ok(*id),
            Named::Label(label) => self.labels.get(label).copied().ok_or(Reason::NoSuchLabel),
        }
    }

    fn limits(&mut self, limits: Limits) {
        if !limits.are_in_range() {
            self.text.extend_from_slice(b"! bad limits\n");
            return;
        }
        self.registry = Registry::new(limits, O::default());
        self.answer(Ok(Answer::Plain("limits")));
    }

    fn layer(&mut self, layer: Layer) {
        let number = self.registry.layers.len();
        if number == MOST_LAYERS {
            self.text.extend_from_slice(b"! too many layers\n");
            return;
        }
        self.registry.outlet.add_form(layer.form);
        self.registry.layers.push(layer.spans, layer.rule);
        self.answer(Ok(Answer::Layer(number)));
    }

    fn new_span(&mut self, new: NewSpan<'a>) -> Result<(), Reason> {
        let parent = match &new.parent {
            ParentNamed::Root => ParentOf::Root,
            ParentNamed::Current => ParentOf::Current,
            ParentNamed::Of(span) => ParentOf::Of(self.id_of(span)?),
        };
        let meta = Meta {
            name: &new.name,
            target: &new.target,
            level: new.level,
        };
        let label = new.label.as_ref().unwrap_or(&new.name);
        let bound = self.labels.get_mut(label);
        if bound
            .as_ref()
            .is_some_and(|id| self.registry.find(**id).is_some_and(|span| span.handles > 0))
        {
            return Err(Reason::LabelTaken);
        }
        let made = self.registry.new_span(new.worker, meta, new.fields, parent);
        if let Ok(Some(id)) = made {
            match bound {
                Some(place) => *place = id,
                None => {
                    self.labels.insert(new.label.unwrap_or(new.name), id);
                }
            }
        }
        self.answer(made.map(|id| id.map_or(Answer::Plain("not wanted"), Answer::Id)));
        Ok(())
    }

    fn act(&mut self, act: Act, id: Id, worker: u32) {
        let result = match act {
            Act::Clone => self.registry.clone_span(worker, id).map(|()| "cloned"),
            Act::Close => self.registry.close(worker, id).map(closed_or_open),
            Act::Exit => self.registry.exit(worker, id).map(closed_or_open),
            Act::Enter => self
                .registry
                .enter(worker, id)
                .map(|first| if first { "entered" } else { "again" }),
        };
        self.answer(result.map(Answer::Plain));
    }

    fn event(&mut self, event: Event<'_>) {
        let result = self
            .registry
            .event(event.worker, &event.target, event.level, &event.message, event.fields);
        self.answer(result.map(|()| Answer::Plain("told")));
    }

    fn find(&mut self, id: Id) {
        let Some(span) = self.registry.find(id) else {
            return self.answer(Err(Refusal::Unknown));
        };
        let (name, parent, count) = (&span.name, span.parent.map_or(0, Id::get), span.count());
        let (handles, entries) = (span.handles, span.entries);
        let answer = format!("= {name} parent {parent} handles {handles} entries {entries} count {count}\n");
        self.text.extend_from_slice(answer.as_bytes());
    }

    /// Writes the lines of the notes that came since the last answer, and then the answer.
    fn answer(&mut self, result: Result<Answer, Refusal>) {
        let text = &mut self.text;
        self.registry.outlet.show(text);
        text.extend_from_slice(if result.is_ok() { b"= " } else { b"! " });
        match result {
            Ok(Answer::Plain(answer)) => text.extend_from_slice(answer.as_bytes()),
            Ok(Answer::Id(id)) => push_number(text, id.get()),
            Ok(Answer::Layer(number)) => {
                text.extend_from_slice(b"layer ");
                push_number(text, number as u64);
            }
            Err(refusal) => text.extend_from_slice(refusal.text().as_bytes()),
        }
        text.push(b'\n');
    }

    /// Leaves what workers are still in, closes what labels still have handles of, and tells what is left.
    fn tidy(&mut self) -> Result<(), Fault> {
        for worker in 0..self.registry.limits.workers {
            while let Some(id) = self.registry.last_entry(worker) {
                self.act(Act::Exit, id, worker);
                self.write_full()?;
            }
        }
        let mut labels: Vec<_> = self.labels.drain().collect();
        labels.sort_unstable_by(|(first, _), (second, _)| first.cmp(second));
        for (_, id) in labels {
            while self.registry.find(id).is_some_and(|span| span.handles > 0) {
                self.act(Act::Close, id, 0);
                self.write_full()?;
            }
        }
        self.text.extend_from_slice(b"left ");
        push_number(&mut self.text, self.registry.open_spans() as u64);
        self.text.push(b'\n');
        Ok(())
    }
}
