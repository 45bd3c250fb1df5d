//! A thread that makes calls at random, and tells what their lines have to be but for the worker's number.
use span_registry::{retry, Id, Level, Meta, Parent, Registry, Span};
use std::collections::HashSet;
use std::sync::mpsc::{Receiver, Sender, SyncSender, TrySendError};
use std::sync::Barrier;
use std::time::Instant;

/// So many steps each thread makes, however slow the machine is.
const LEAST: u64 = 2_000;

/// A handle of its own.
pub struct Held {
    span: Span,
    id: Id,
    path: String,
}

/// Each line but those of closes is told to the checker; before a handle is dropped or made, an event says so. Its
/// first line in each part but that of its roots says whose it is.
pub struct Caller {
    registry: Registry,
    // Its number in the part of its roots.
    worker: u32,
    // Those where it is known.
    parts: HashSet<u32>,
    tell: Sender<String>,
    inbox: Receiver<Held>,
    others: Vec<SyncSender<Held>>,
    held: Vec<Held>,
    random: u64,
    sent: u64,
}

impl Caller {
    pub fn new(
        registry: Registry,
        worker: u32,
        home: u32,
        tell: Sender<String>,
        inbox: Receiver<Held>,
        others: Vec<SyncSender<Held>>,
        seed: usize,
    ) -> Caller {
        let random = 0x9e37_79b9_7f4a_7c15 ^ ((seed as u64 + 1) << 32);
        Caller {
            registry,
            worker,
            parts: HashSet::from([home]),
            tell,
            inbox,
            others,
            held: Vec::new(),
            random,
            sent: 0,
        }
    }

    /// How many handles it has sent to others.
    pub fn run(mut self, until: Instant, all_stopped: &Barrier) -> u64 {
        let mut steps = 0;
        while steps < LEAST || Instant::now() < until {
            self.step(&[]);
            steps += 1;
        }
        all_stopped.wait();
        while self.receive() {}
        while let Some(held) = self.held.pop() {
            self.release(held, &[]);
        }
        self.sent
    }

    fn below(&mut self, bound: usize) -> usize {
        self.random ^= self.random << 13;
        self.random ^= self.random >> 7;
        self.random ^= self.random << 17;
        (self.random >> 33) as usize % bound
    }

    fn tell(&self, line: String) {
        self.tell.send(line).expect("the checker is there");
    }

    fn step(&mut self, inside: &[&Held]) {
        match self.below(10) {
            0..=2 if self.held.len() < 12 => self.make(inside),
            3 if self.held.len() < 12 => self.clone_one(inside),
            4 => self.record(),
            5 => self.event("m", inside),
            6 => self.release_one(inside),
            7 => self.send(),
            8 => drop(self.receive()),
            _ => self.enter(inside),
        }
    }

    fn take(&mut self) -> Option<Held> {
        let place = match self.held.len() {
            0 => return None,
            count => self.below(count),
        };
        Some(self.held.swap_remove(place))
    }

    fn make(&mut self, inside: &[&Held]) {
        let name = ["a", "b.c", "d-e_f"][self.below(3)];
        let under = self.take();
        let (parent, above) = match (self.below(3), current(inside), &under) {
            (0, _, Some(held)) if held.path.len() < 20 => (Parent::Of(held.id), Some(held)),
            (1, Some(held), _) if held.path.len() < 20 => (Parent::Current, Some(held)),
            _ => (Parent::Root, None),
        };
        let path = above.map_or_else(|| name.to_owned(), |held| format!("{}:{name}", held.path));
        let above = above.map_or(0, |held| held.id.into_u64()).to_string();
        let meta = Meta::new(Level::Info, "app", name);
        let span = retry(|| self.registry.span(&meta, parent, &[("p", &above)])).expect("new");
        let id = span.id().expect("the layer wants it");
        self.tell(format!("new {id} {path} p={above}"));
        self.held.extend(under);
        self.held.push(Held { span, id, path });
    }

    fn clone_one(&mut self, inside: &[&Held]) {
        let Some(held) = self.take() else { return };
        self.event(&format!("own {}", held.id), inside);
        let span = retry(|| held.span.try_clone()).expect("clone");
        self.held.push(Held {
            span,
            id: held.id,
            path: held.path.clone(),
        });
        self.held.push(held);
    }

    fn record(&mut self) {
        let Some(held) = self.take() else { return };
        let value = self.below(1000).to_string();
        self.put(&held, "r", &value);
        self.held.push(held);
    }

    fn put(&self, held: &Held, key: &str, value: &str) {
        retry(|| held.span.try_record(&[(key, value)])).expect("record");
        self.tell(format!("record {} {} {key}={value}", held.id, held.path));
    }

    fn event(&self, message: &str, inside: &[&Held]) {
        let meta = Meta::event(Level::Info, "app");
        retry(|| self.registry.event(&meta, message, &[])).expect("event");
        let seen = current(inside).map_or_else(|| "0 -".to_owned(), |held| format!("{} {}", held.id, held.path));
        self.tell(format!("event {seen} INFO {message}"));
    }

    fn release_one(&mut self, inside: &[&Held]) {
        if let Some(held) = self.take() {
            self.release(held, inside);
        }
    }

    fn release(&self, held: Held, inside: &[&Held]) {
        self.event(&format!("drop {}", held.id), inside);
        drop(held.span);
    }

    fn send(&mut self) {
        let other = self.below(self.others.len());
        let Some(held) = self.take() else { return };
        match self.others[other].try_send(held) {
            Ok(()) => self.sent += 1,
            Err(TrySendError::Full(held) | TrySendError::Disconnected(held)) => self.held.push(held),
        }
    }

    // Whether there was something to receive.
    fn receive(&mut self) -> bool {
        let Ok(held) = self.inbox.try_recv() else { return false };
        if self.parts.insert(held.id.part()) {
            self.put(&held, "by", &self.worker.to_string());
        }
        self.held.push(held);
        true
    }

    // Enters a span that it holds, or once more one that it is inside of, and does some steps there.
    fn enter(&mut self, inside: &[&Held]) {
        if inside.len() >= 4 {
            return;
        }
        if !inside.is_empty() && self.below(3) == 0 {
            let again = inside[self.below(inside.len())];
            return self.steps_inside(again, inside);
        }
        if let Some(held) = self.take() {
            self.steps_inside(&held, inside);
            self.held.push(held);
        }
    }

    fn steps_inside(&mut self, held: &Held, inside: &[&Held]) {
        let _guard = retry(|| held.span.try_enter()).expect("enter");
        self.tell(format!("enter {} {}", held.id, held.path));
        let deeper = [inside, &[held]].concat();
        for _ in 0..self.below(6) {
            self.step(&deeper);
        }
        self.tell(format!("exit {} {}", held.id, held.path));
    }
}

/// The innermost that doesn't repeat one further out.
fn current<'a>(inside: &[&'a Held]) -> Option<&'a Held> {
    let is_first = |place: &usize| inside[..*place].iter().all(|held| held.id != inside[*place].id);
    let place = (0..inside.len()).rev().find(is_first)?;
    Some(inside[place])
}
