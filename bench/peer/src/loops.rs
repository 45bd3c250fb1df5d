//! Loops of calls in one thread, as `call_loops call-costs` makes them: on the registry alone, or on one behind a `Mutex`.
use crate::field::{Field, Fields};
use crate::layer::{Form, Level, Rule, EVERY_KIND};
use crate::outlet::{Batch, Lines};
use crate::registry::{Limits, Meta, ParentOf, Refusal, Registry};
use crate::ring::{ring, Receiver};
use crate::storm::Sending;
use std::sync::{Mutex, PoisonError};

const PLACES: usize = 8;
const META: Meta<'static> = Meta {
    name: "request",
    target: "app",
    level: Level::Info,
};

/// How many layers there are, how many fields each span and event has, how deep the spans of the rounds stand, and how
/// many rounds are made.
#[derive(Clone, Copy)]
pub struct Shape {
    pub layers: u32,
    pub fields: u32,
    pub depth: u32,
    pub rounds: u32,
}

impl Shape {
    fn fields(&self) -> Fields {
        let field = || Field {
            key: "key".into(),
            value: "a value".into(),
        };
        let fields: Vec<_> = (0..self.fields).map(|_| field()).collect();
        fields.into()
    }
}

/// What came of a loop.
pub struct Made {
    pub calls: u64,
    pub lines: usize,
}

fn opened(shape: &Shape) -> (Registry<Sending>, Receiver<Batch>, Lines) {
    let (sender, receiver) = ring(PLACES);
    let limits = Limits {
        workers: 1,
        ..Limits::default()
    };
    let mut registry = Registry::new(limits, Sending { sender, calls: 0 });
    let mut lines = Lines::default();
    for _ in 0..shape.layers {
        registry
            .layers
            .push(EVERY_KIND, Rule::from([(Box::default(), Level::Trace)]));
        lines.forms.push(Form::Compact);
    }
    (registry, receiver, lines)
}

/// Writes the lines of all that stands in the ring, keeps none of them, and answers how many they were.
fn take_all(receiver: &mut Receiver<Batch>, lines: &mut Lines) -> usize {
    while let Some(batch) = receiver.pop() {
        lines.add(&batch);
    }
    let written = lines.all.len();
    lines.all.clear();
    written
}

/// The loop, where `with` gives each call the registry.
fn run(
    shape: &Shape,
    mut receiver: Receiver<Batch>,
    mut lines: Lines,
    mut with: impl FnMut(&mut dyn FnMut(&mut Registry<Sending>) -> Result<(), Refusal>) -> Result<(), Refusal>,
) -> Result<usize, Refusal> {
    let (mut id, mut written) = (None, 0);
    for _ in 1..shape.depth {
        with(&mut |registry| {
            id = registry.new_span(0, META, shape.fields(), ParentOf::Current)?;
            Ok(())
        })?;
        let Some(id) = id else { continue };
        with(&mut |registry| registry.enter(0, id).map(drop))?;
        written += take_all(&mut receiver, &mut lines);
    }
    for _ in 0..shape.rounds {
        with(&mut |registry| {
            id = registry.new_span(0, META, shape.fields(), ParentOf::Current)?;
            Ok(())
        })?;
        let Some(id) = id else { continue };
        with(&mut |registry| registry.enter(0, id).map(drop))?;
        with(&mut |registry| registry.event(0, "app", Level::Info, "a message", shape.fields()))?;
        with(&mut |registry| registry.exit(0, id).map(drop))?;
        with(&mut |registry| registry.close(0, id).map(drop))?;
        written += take_all(&mut receiver, &mut lines);
    }
    Ok(written)
}

fn made(registry: &Registry<Sending>, lines: usize) -> Made {
    Made {
        calls: registry.outlet.calls,
        lines,
    }
}

/// The loop on a registry that only this thread has.
pub fn on_core(shape: &Shape) -> Result<Made, Refusal> {
    let (mut registry, receiver, lines) = opened(shape);
    let lines = run(shape, receiver, lines, |call| call(&mut registry))?;
    Ok(made(&registry, lines))
}

/// The same loop on a registry behind a lock, which each call takes.
pub fn on_registry(shape: &Shape) -> Result<Made, Refusal> {
    let (registry, receiver, lines) = opened(shape);
    let registry = Mutex::new(registry);
    let lines = run(shape, receiver, lines, |call| {
        call(&mut registry.lock().unwrap_or_else(PoisonError::into_inner))
    })?;
    let registry = registry.into_inner().unwrap_or_else(PoisonError::into_inner);
    Ok(made(&registry, lines))
}

/// A chain of so many spans, each under the one before, whose handle is given back at once; an event inside the last one,
/// which closes then with all others. The one layer is told of the event alone.
pub fn chain(length: u32) -> Result<Made, Refusal> {
    let (sender, mut receiver) = ring(PLACES);
    let limits = Limits {
        workers: 1,
        slots: 1 << 20,
        ..Limits::default()
    };
    let mut registry = Registry::new(limits, Sending { sender, calls: 0 });
    registry.layers.push(0, Rule::from([(Box::default(), Level::Trace)]));
    let mut lines = Lines::default();
    lines.forms.push(Form::Compact);
    let (mut last, mut written) = (None, 0);
    for _ in 0..length {
        let parent = last.map_or(ParentOf::Root, ParentOf::Of);
        let made = registry.new_span(0, META, Fields::default(), parent)?;
        if let Some(id) = last {
            registry.close(0, id)?;
        }
        last = made;
        written += take_all(&mut receiver, &mut lines);
    }
    if let Some(id) = last {
        registry.enter(0, id)?;
        registry.event(0, "app", Level::Info, "a message", Fields::default())?;
        registry.exit(0, id)?;
        registry.close(0, id)?;
    }
    written += take_all(&mut receiver, &mut lines);
    Ok(made(&registry, written))
}
