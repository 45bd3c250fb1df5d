//! Programs of calls at random, each with its own layers and filters: for each seed a line with what the layers heard,
//! as a sum. Both registries have to print the same lines.
//!
//!     random FIRST_SEED PROGRAMS
//!     random SEED whole           prints what was heard, in place of its sum
//!
//! Left out is where the original is known to fail: every call is made under the registry's own dispatcher, callbacks
//! make no spans, and no exit closes a span (which holds its parent for ever there). Ids that ended are used, too:
//! what panics then is caught, and its text is heard.
use programs::{child, lock, new, record, registry, root, site, Dice};
use std::collections::hash_map::DefaultHasher;
use std::hash::{Hash, Hasher};
use std::panic::{catch_unwind, AssertUnwindSafe};
use std::sync::atomic::{AtomicU64, Ordering};
use std::sync::{Arc, Mutex};
use tracing::{dispatcher, Dispatch, Subscriber};
use tracing_core::span::{Attributes, Id, Record};
use tracing_core::{Event, Metadata};
use tracing_subscriber::filter::{filter_fn, DynFilterFn, LevelFilter};
use tracing_subscriber::layer::Context;
use tracing_subscriber::prelude::*;
use tracing_subscriber::registry::{LookupSpan, SpanRef};
use tracing_subscriber::{Layer, Registry};

type Log = Arc<Mutex<Vec<String>>>;

/// The number of a span in its data, which tells when it is dropped.
struct Serial(u64, Log);
impl Drop for Serial {
    fn drop(&mut self) {
        lock(&self.1).push(format!("data of {} dropped", self.0));
    }
}

/// Gives each span a number, and is below all other layers.
struct Numbers(AtomicU64, Log);
impl<S: Subscriber + for<'a> LookupSpan<'a>> Layer<S> for Numbers {
    fn on_new_span(&self, _: &Attributes<'_>, id: &Id, ctx: Context<'_, S>) {
        let serial = Serial(self.0.fetch_add(1, Ordering::Relaxed), self.1.clone());
        ctx.span(id).expect("it is new").extensions_mut().insert(serial);
    }
}

struct Tell(Log, &'static str);

fn label<'a, S: LookupSpan<'a>>(span: &SpanRef<'a, S>) -> String {
    let serial = span.extensions().get::<Serial>().map_or("?".to_owned(), |serial| serial.0.to_string());
    format!("{}{serial}", span.name())
}

fn path<S: Subscriber + for<'a> LookupSpan<'a>>(ctx: &Context<'_, S>, id: &Id) -> String {
    let whole = |span: SpanRef<'_, S>| span.scope().map(|span| label(&span)).collect::<Vec<_>>().join("<");
    ctx.span(id).map_or("none".to_owned(), whole)
}

impl<S: Subscriber + for<'a> LookupSpan<'a>> Layer<S> for Tell {
    fn on_new_span(&self, _: &Attributes<'_>, id: &Id, ctx: Context<'_, S>) {
        lock(&self.0).push(format!("{} new {}", self.1, path(&ctx, id)));
    }
    fn on_record(&self, id: &Id, _: &Record<'_>, ctx: Context<'_, S>) {
        lock(&self.0).push(format!("{} record {}", self.1, path(&ctx, id)));
    }
    fn on_follows_from(&self, id: &Id, follows: &Id, ctx: Context<'_, S>) {
        lock(&self.0).push(format!("{} {} follows {}", self.1, path(&ctx, id), path(&ctx, follows)));
    }
    fn on_event(&self, event: &Event<'_>, ctx: Context<'_, S>) {
        let of = ctx.event_span(event).map_or("none".to_owned(), |span| label(&span));
        let current = ctx.lookup_current().map_or("none".to_owned(), |span| label(&span));
        lock(&self.0).push(format!("{} event of {of} in {current}", self.1));
    }
    fn on_enter(&self, id: &Id, ctx: Context<'_, S>) {
        lock(&self.0).push(format!("{} enter {}", self.1, path(&ctx, id)));
    }
    fn on_exit(&self, id: &Id, ctx: Context<'_, S>) {
        lock(&self.0).push(format!("{} exit {}", self.1, path(&ctx, id)));
    }
    fn on_close(&self, id: Id, ctx: Context<'_, S>) {
        lock(&self.0).push(format!("{} close {}", self.1, path(&ctx, &id)));
    }
}

/// A layer with a filter, as the dice have it.
fn layer<S>(log: &Log, name: &'static str, dice: &mut Dice) -> Box<dyn Layer<S> + Send + Sync>
where
    S: Subscriber + for<'a> LookupSpan<'a>,
{
    let tell = Tell(log.clone(), name);
    match dice.below(6) {
        0 => tell.with_filter(filter_fn(|metadata| metadata.name() != "a")).boxed(),
        1 => tell.with_filter(filter_fn(|metadata| metadata.name() != "b" && metadata.name() != "c")).boxed(),
        2 => tell.with_filter(LevelFilter::INFO).boxed(),
        3 => {
            // Only what lies in no span `d`.
            let outside = |_: &Metadata<'_>, ctx: &Context<'_, S>| {
                ctx.lookup_current().map_or(true, |span| span.scope().all(|span| span.name() != "d"))
            };
            tell.with_filter(DynFilterFn::new(outside)).boxed()
        }
        _ => tell.boxed(),
    }
}

fn stack(log: &Log, dice: &mut Dice) -> Dispatch {
    let base = Registry::default().with(Numbers(AtomicU64::new(0), log.clone()));
    match dice.below(3) {
        0 => base.with(vec![layer(log, "A", dice), layer(log, "B", dice)]).into(),
        1 => base.with(vec![layer(log, "A", dice)]).with(layer(log, "B", dice)).into(),
        _ => base.with(layer(log, "A", dice)).with(layer(log, "B", dice)).with(layer(log, "C", dice)).into(),
    }
}

struct Program {
    dispatch: Dispatch,
    log: Log,
    dice: Dice,
    handles: Vec<Id>,
    entered: Vec<Id>,
    ended: Vec<Id>,
}

impl Program {
    fn any(&mut self, of: fn(&Program) -> &Vec<Id>) -> Option<Id> {
        let length = of(self).len() as u64;
        if length == 0 {
            return None;
        }
        let at = self.dice.below(length) as usize;
        Some(of(self)[at].clone())
    }

    fn say(&self, text: String) {
        lock(&self.log).push(text);
    }

    fn label(&self, id: &Id) -> String {
        registry(&self.dispatch).span(id).map_or("none".to_owned(), |span| label(&span))
    }

    fn make(&mut self) {
        let sites = [site!("a"), site!("b"), site!("c"), site!("d")];
        let site = sites[self.dice.below(4) as usize];
        let parent = self.any(|program| &program.handles);
        // As a callsite does it: what no layer's filter wants isn't made.
        let is_wanted = self.dispatch.enabled(site);
        if !is_wanted {
            return self.say(format!("{} isn't wanted", site.name()));
        }
        let id = match (self.dice.below(4), parent) {
            (0, _) => root(&self.dispatch, site),
            (1, Some(parent)) => child(&self.dispatch, site, &parent),
            _ => new(&self.dispatch, site),
        };
        self.handles.push(id);
    }

    fn close_one(&mut self) {
        if self.handles.is_empty() {
            return;
        }
        let at = self.dice.below(self.handles.len() as u64) as usize;
        let id = self.handles.swap_remove(at);
        let is_closed = self.dispatch.try_close(id.clone());
        self.say(format!("closed: {is_closed}"));
        if is_closed {
            self.ended.push(id);
        }
    }

    fn leave_one(&mut self) {
        if let Some(at) = (!self.entered.is_empty()).then(|| self.dice.below(self.entered.len() as u64) as usize) {
            let at = if self.dice.below(2) == 0 { self.entered.len() - 1 } else { at };
            let id = self.entered.remove(at);
            if !self.handles.contains(&id) {
                let twin = self.dispatch.clone_span(&id);
                self.handles.push(twin);
            }
            self.dispatch.exit(&id);
        }
    }

    /// A call with an id that may have ended.
    fn use_ended(&mut self) {
        let Some(id) = self.any(|program| &program.ended) else { return };
        let is_there = registry(&self.dispatch).span(&id).is_some();
        let what = self.dice.below(4);
        let dispatch = self.dispatch.clone();
        let answer = catch_unwind(AssertUnwindSafe(|| match what {
            // What isn't there can't be held; what still is (it is entered) would be held once too often.
            _ if is_there => true,
            0 => dispatch.clone_span(&id) == id,
            1 => dispatch.try_close(id.clone()),
            2 => {
                record(&dispatch, site!("a"), &id);
                true
            }
            _ => child(&dispatch, site!("a"), &id) == id,
        }));
        self.say(format!("{what} with an ended id: {:?}", answer.map_err(|_| "panics")));
    }

    fn step(&mut self) {
        match self.dice.below(16) {
            0..=3 => self.make(),
            4..=6 => self.close_one(),
            7 | 8 => {
                if let Some(id) = self.any(|program| &program.handles) {
                    self.dispatch.enter(&id);
                    self.entered.push(id);
                }
            }
            9 | 10 => self.leave_one(),
            11 => {
                if let Some(id) = self.any(|program| &program.handles) {
                    let twin = self.dispatch.clone_span(&id);
                    self.handles.push(twin);
                }
            }
            12 => tracing::info!("told"),
            13 => {
                let current = self.dispatch.current_span();
                let label = current.id().map_or("none".to_owned(), |id| self.label(id));
                self.say(format!("current {label}, known {}", current.is_known()));
            }
            14 => {
                let (first, second) = (self.any(|program| &program.handles), self.any(|program| &program.handles));
                if let (Some(first), Some(second)) = (first, second) {
                    self.dispatch.record_follows_from(&first, &second);
                    record(&self.dispatch, site!("a"), &first);
                    // An exit of what may not be entered.
                    let is_entered = self.entered.contains(&first);
                    if !is_entered {
                        self.dispatch.exit(&first);
                    }
                }
            }
            _ => self.use_ended(),
        }
    }

    fn run(&mut self) {
        let steps = 10 + self.dice.below(150);
        for _ in 0..steps {
            self.step();
        }
        while !self.entered.is_empty() {
            self.leave_one();
        }
        while !self.handles.is_empty() {
            self.close_one();
        }
        let left = self.ended.iter().filter(|id| registry(&self.dispatch).span(id).is_some()).count();
        self.say(format!("{left} are left"));
    }
}

fn heard(seed: u64) -> Vec<String> {
    let log = Log::default();
    let mut dice = Dice::new(seed);
    let dispatch = stack(&log, &mut dice);
    dispatcher::with_default(&dispatch, || {
        let (dispatch, log) = (dispatch.clone(), log.clone());
        Program { dispatch, log, dice, handles: Vec::new(), entered: Vec::new(), ended: Vec::new() }.run();
    });
    drop(dispatch);
    let heard = std::mem::take(&mut *lock(&log));
    heard
}

fn main() {
    std::panic::set_hook(Box::new(|_| {}));
    let words: Vec<String> = std::env::args().skip(1).collect();
    let first: u64 = words[0].parse().expect("a seed");
    if words[1] == "whole" {
        return heard(first).iter().for_each(|line| println!("{line}"));
    }
    let programs: u64 = words[1].parse().expect("how many programs");
    for seed in first..first + programs {
        let heard = heard(seed);
        let mut sum = DefaultHasher::new();
        heard.hash(&mut sum);
        println!("{seed} => {} lines, {:016x}", heard.len(), sum.finish());
    }
}
