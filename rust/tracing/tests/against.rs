//! Calls at random: after each `ProvedSubscriber` tells what the real registry tells a layer; and by several threads.
mod common;
use common::{alone, assert_clean, many, over};
use span_registry::{Drain, Layer as Lines, Note, NoteKind, OnFull};
use std::collections::HashMap;
use std::sync::{Arc, Mutex};
use std::{mem, thread};
use tracing::dispatcher::with_default;
use tracing::field::Empty;
use tracing::span::{Attributes, EnteredSpan, Id, Record};
use tracing::{info, info_span, Dispatch, Event, Span, Subscriber};
use tracing_span_registry::ProvedSubscriber;
use tracing_subscriber::layer::{Context, Layer};
use tracing_subscriber::prelude::*;
use tracing_subscriber::registry::LookupSpan;

/// How many calls a program has.
const CALLS: usize = 200;

/// What was told: its kind, of which span, and that one's parent, or which it follows. Spans are numbered as they are
/// made, from 1; 0 is none.
type Told = (NoteKind, usize, usize);

/// The numbers of ids.
#[derive(Default)]
struct Numbers(HashMap<u64, usize>, usize);

impl Numbers {
    fn made(&mut self, id: u64) -> usize {
        self.1 += 1;
        self.0.insert(id, self.1);
        self.1
    }

    fn of(&self, id: Option<u64>) -> usize {
        id.map_or(0, |id| self.0[&id])
    }
}

/// What a layer of the real registry hears.
#[derive(Clone, Default)]
struct Hears(Arc<Mutex<(Numbers, Vec<Told>)>>);

impl Hears {
    fn hear(&self, kind: NoteKind, id: Option<u64>, other: Option<u64>) {
        let (numbers, told) = &mut *self.0.lock().expect("no panic");
        told.push((kind, numbers.of(id), numbers.of(other)));
    }
}

impl<S: Subscriber + for<'a> LookupSpan<'a>> Layer<S> for Hears {
    fn on_new_span(&self, _: &Attributes<'_>, id: &Id, context: Context<'_, S>) {
        let parent = context.span(id).expect("it is made").parent().map(|parent| parent.id().into_u64());
        self.0.lock().expect("no panic").0.made(id.into_u64());
        self.hear(NoteKind::New, Some(id.into_u64()), parent);
    }

    fn on_record(&self, id: &Id, _: &Record<'_>, _: Context<'_, S>) {
        self.hear(NoteKind::Record, Some(id.into_u64()), None);
    }

    fn on_follows_from(&self, id: &Id, follows: &Id, _: Context<'_, S>) {
        self.hear(NoteKind::Record, Some(id.into_u64()), Some(follows.into_u64()));
    }

    fn on_event(&self, event: &Event<'_>, context: Context<'_, S>) {
        self.hear(NoteKind::Event, context.event_span(event).map(|span| span.id().into_u64()), None);
    }

    fn on_enter(&self, id: &Id, _: Context<'_, S>) {
        self.hear(NoteKind::Enter, Some(id.into_u64()), None);
    }

    fn on_exit(&self, id: &Id, _: Context<'_, S>) {
        self.hear(NoteKind::Exit, Some(id.into_u64()), None);
    }

    fn on_close(&self, id: Id, _: Context<'_, S>) {
        self.hear(NoteKind::Close, Some(id.into_u64()), None);
    }
}

/// What a note says of the same.
fn told_by(note: &Note, numbers: &mut Numbers) -> Told {
    let [id, parent] = [note.id, note.parent].map(|id| id.map(|id| id.into_u64()));
    let field = |key: &str| note.fields.iter().find(|field| field.key == key);
    let of_field = |key: &str| field(key).map(|field| field.value.parse().expect("an id"));
    match note.kind {
        NoteKind::New => (note.kind, numbers.made(id.expect("a span's")), numbers.of(parent)),
        NoteKind::Event => (note.kind, numbers.of(of_field("parent").or(parent)), 0),
        NoteKind::Record => (note.kind, numbers.of(id), numbers.of(of_field("follows_from"))),
        _ => (note.kind, numbers.of(id), 0),
    }
}

fn notes(drain: &mut Drain, numbers: &mut Numbers) -> Vec<Told> {
    std::iter::from_fn(|| drain.note()).map(|note| told_by(&note, numbers)).collect()
}

/// Numbers by xorshift, the same ones for each seed.
struct Dice(u64);

impl Dice {
    fn below(&mut self, most: usize) -> usize {
        self.0 ^= self.0 << 13;
        self.0 ^= self.0 >> 7;
        self.0 ^= self.0 << 17;
        (self.0 >> 11) as usize % most
    }

    fn taken<T>(&mut self, from: &mut Vec<T>) -> Option<T> {
        (!from.is_empty()).then(|| from.swap_remove(self.below(from.len())))
    }

    fn one<'a>(&mut self, of: &'a [Span]) -> Option<&'a Span> {
        (!of.is_empty()).then(|| &of[self.below(of.len())])
    }
}

/// One call, or none where there is no span for it.
fn call(dice: &mut Dice, spans: &mut Vec<Span>, entered: &mut Vec<EnteredSpan>) {
    match dice.below(12) {
        0 => spans.push(info_span!("contextual", later = Empty)),
        1 => spans.push(info_span!(parent: None, "root", later = Empty)),
        2 => {
            let parent = dice.one(spans).cloned();
            spans.extend(parent.map(|parent| info_span!(parent: &parent, "child", later = Empty)));
        }
        3 => spans.extend(dice.one(spans).cloned()),
        4 | 5 => drop(dice.taken(spans)),
        6 => entered.extend(dice.one(spans).map(|span| span.clone().entered())),
        7 => drop(dice.taken(entered)),
        8 => spans.extend(Some(Span::current()).filter(|current| !current.is_disabled())),
        9 => info!("contextual"),
        10 => dice.one(spans).iter().for_each(|span| info!(parent: *span, "of a span")),
        _ => {
            if let [Some(span), Some(other)] = [dice.one(spans), dice.one(spans)] {
                span.record("later", 1).follows_from(other);
            }
        }
    }
}

/// What is told after each call of a program, and after its end.
fn told(dispatch: &Dispatch, seed: u64, mut read: impl FnMut() -> Vec<Told>) -> Vec<Vec<Told>> {
    let (mut dice, mut spans, mut entered) = (Dice(seed), Vec::new(), Vec::new());
    with_default(dispatch, || {
        let mut told = Vec::new();
        for _ in 0..CALLS {
            call(&mut dice, &mut spans, &mut entered);
            told.push(read());
        }
        drop((entered, spans));
        told.push(read());
        told
    })
}

#[test]
fn programs_at_random_are_told_as_by_the_real_registry() {
    let _alone = alone();
    let mut closed = 0;
    for seed in 1..=many(500) as u64 {
        let hears = Hears::default();
        let real = Dispatch::new(tracing_subscriber::registry().with(hears.clone()));
        let theirs = told(&real, seed, || mem::take(&mut hears.0.lock().expect("no panic").1));
        let builder = ProvedSubscriber::builder().layer(Lines::tree()).slots(4096).parts(1 + (seed % 3) as u32);
        let (subscriber, dispatch, mut drain) = over(builder);
        let mut numbers = Numbers::default();
        let ours = told(&dispatch, seed, || notes(&mut drain, &mut numbers));
        for (at, (theirs, ours)) in theirs.iter().zip(&ours).enumerate() {
            assert_eq!(theirs, ours, "seed {seed}, call {at}");
        }
        closed += ours.iter().flatten().filter(|(kind, ..)| *kind == NoteKind::Close).count();
        assert_clean(&subscriber);
    }
    assert!(closed > many(500) * 20, "{closed} closed");
}

/// Calls of one of the threads, which share spans by the pool.
fn share(seed: u64, calls: usize, pool: &Mutex<Vec<Span>>) {
    let (mut dice, mut spans, mut entered) = (Dice(seed), Vec::new(), Vec::new());
    for _ in 0..calls {
        call(&mut dice, &mut spans, &mut entered);
        let mut pool = pool.lock().expect("no panic");
        if dice.below(4) == 0 {
            pool.extend(dice.taken(&mut spans));
            spans.extend(dice.taken(&mut pool));
        }
    }
}

/// Each span that is told of is new, and then closes once, with no child open; so do all of them.
fn assert_each_closes_after_its_children(told: Vec<Told>) {
    // Of each open span its parent and how many children are open.
    let mut open: HashMap<usize, (usize, usize)> = HashMap::from([(0, (0, 0))]);
    for (kind, id, parent) in told {
        assert!(kind == NoteKind::New || open.contains_key(&id), "{kind:?} of {id}");
        match kind {
            NoteKind::New => {
                open.get_mut(&parent).expect("the parent is open").1 += 1;
                assert_eq!(open.insert(id, (parent, 0)), None);
            }
            NoteKind::Close => {
                let (parent, children) = open.remove(&id).expect("it is open");
                assert_eq!(children, 0, "{id}");
                open.get_mut(&parent).expect("the parent is open").1 -= 1;
            }
            _ => {}
        }
    }
    assert_eq!(open, HashMap::from([(0, (0, 0))]));
}

#[test]
fn of_threads_at_random_each_span_closes_once_and_after_its_children() {
    let _alone = alone();
    run_threads(1);
    run_threads(3);
}

fn run_threads(parts: u32) {
    let builder = ProvedSubscriber::builder().layer(Lines::tree()).on_full(OnFull::Wait).slots(1 << 16).parts(parts);
    let (subscriber, dispatch, mut drain) = over(builder);
    let (pool, mut numbers, mut told) = (Mutex::new(Vec::new()), Numbers::default(), Vec::new());
    thread::scope(|scope| {
        let shares = |seed| with_default(&dispatch, || share(seed, many(20_000), &pool));
        let threads: Vec<_> = (1..=4).map(|seed| scope.spawn(move || shares(seed))).collect();
        while threads.iter().any(|thread| !thread.is_finished()) {
            told.extend(notes(&mut drain, &mut numbers));
            thread::yield_now();
        }
    });
    told.extend(notes(&mut drain, &mut numbers));
    for span in mem::take(&mut *pool.lock().expect("no panic")) {
        drop(span);
        told.extend(notes(&mut drain, &mut numbers));
    }
    assert_each_closes_after_its_children(told);
    assert!(numbers.1 > many(20_000), "{} spans", numbers.1);
    assert_clean(&subscriber);
}
