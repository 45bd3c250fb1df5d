//! Random calls of several threads, one after another, beside one registry in plain Rust for each part: each answer,
//! each line, and what is found of each span have to be the same, and the lines are in the order of all calls.
use crate::plain::{self, Plain, PlainDrain};
use crate::{home, info, of_parts, WORKERS};
use span_registry::{Drain, Error, FmtSpan, Form, Id, Layer, Level, Meta, Parent, Registry, Targets};
use std::collections::{HashMap, VecDeque};
use std::sync::mpsc::{channel, Sender};
use std::thread::{self, JoinHandle};

const RUNS: u64 = 12;
const CALLS: usize = 200;
const THREADS: usize = 4;

const TARGETS: [&str; 3] = ["app", "app::db", "lib"];
const VALUES: [&str; 3] = ["", "1", "\",\"id\":1,\n"];

/// A thread that does what it is sent.
struct Caller {
    jobs: Sender<Box<dyn FnOnce() + Send>>,
    thread: JoinHandle<()>,
}

impl Caller {
    fn new() -> Caller {
        let (jobs, inbox) = channel::<Box<dyn FnOnce() + Send>>();
        let thread = thread::spawn(move || inbox.iter().for_each(|job| job()));
        Caller { jobs, thread }
    }

    fn does<T: Send + 'static>(&self, job: impl FnOnce() -> T + Send + 'static) -> T {
        let (answer, answered) = channel();
        let job = move || answer.send(job()).expect("it is awaited");
        self.jobs.send(Box::new(job)).expect("the thread is there");
        answered.recv().expect("no panic")
    }
}

struct Random(u64);

impl Random {
    fn below(&mut self, bound: usize) -> usize {
        self.0 ^= self.0 << 13;
        self.0 ^= self.0 >> 7;
        self.0 ^= self.0 << 17;
        (self.0 >> 33) as usize % bound
    }

    fn number(&mut self, bound: usize) -> u32 {
        self.below(bound) as u32
    }

    fn of<T: Copy>(&mut self, list: &[T]) -> T {
        list[self.below(list.len())]
    }

    fn fields(&mut self) -> Vec<(&'static str, &'static str)> {
        let count = self.below(3);
        (0..count).map(|_| (self.of(&["k", "id"]), self.of(&VALUES))).collect()
    }
}

/// A span, as its part knows it.
type Known = (u32, u64);

/// What the threads do, in plain Rust.
struct Model {
    parts: Vec<(Plain, PlainDrain)>,
    // The part of each thread's roots.
    homes: Vec<u32>,
    // What each thread has entered and not left, the outermost first.
    inside: Vec<Vec<Known>>,
    // Of each part, which thread has which of its workers' numbers: the first that called has the first one.
    seats: Vec<Vec<usize>>,
    // The parts of the accepted calls that weren't read.
    unread: VecDeque<u32>,
}

impl Model {
    fn current(&self, thread: usize) -> Option<Known> {
        let inside = &self.inside[thread];
        let is_first = |place: &usize| !inside[..*place].contains(&inside[*place]);
        let place = (0..inside.len()).rev().find(is_first)?;
        Some(inside[place])
    }

    fn part_inside(&self, thread: usize) -> u32 {
        self.current(thread).map_or(self.homes[thread], |(part, _)| part)
    }

    /// A call of that part, which is accepted or not.
    fn call<T>(
        &mut self,
        part: u32,
        thread: usize,
        call: impl FnOnce(&mut Plain, u32) -> Result<T, plain::Refusal>,
    ) -> Result<T, plain::Refusal> {
        let seats = &mut self.seats[part as usize];
        if !seats.contains(&thread) {
            seats.push(thread);
        }
        let plain = &mut self.parts[part as usize].0;
        let before = plain.calls;
        let answer = call(plain, thread as u32);
        if plain.calls > before {
            self.unread.push_back(part);
        }
        answer
    }

    /// The lines of the calls since they were last read, in order.
    fn lines(&mut self) -> Vec<String> {
        let mut lines = Vec::new();
        while let Some(part) = self.unread.pop_front() {
            let (seats, drain) = (&self.seats[part as usize], &mut self.parts[part as usize].1);
            let mut tell = |layer: usize, text: String| lines.push(told(part, seats, layer, &text));
            assert!(drain.tell_one(&mut tell), "each call that is counted has its batch");
        }
        lines
    }
}

/// A part's line, as it is told of the part.
fn told(part: u32, seats: &[usize], layer: usize, text: &str) -> String {
    let id = |id: &str| match id.parse() {
        Ok(0) => 0,
        id => u64::from(part) << 57 | id.expect("an id"),
    };
    let worker = |thread: &str| {
        let thread: usize = thread.parse().expect("a thread");
        let seat = seats.iter().position(|&it| it == thread).expect("it called");
        part * WORKERS + seat as u32
    };
    if let Some(text) = text.strip_prefix('{') {
        let (head, rest) = text.split_once("],\"id\":").expect("a key");
        let (number, rest) = rest.split_once(',').expect("a key");
        let (rest, thread) = rest.rsplit_once(':').expect("a key");
        let worker = worker(thread.strip_suffix('}').expect("an end"));
        return format!("L{layer} {{{head}],\"id\":{},{rest}:{worker}}}", id(number));
    }
    let words: Vec<&str> = text.splitn(4, ' ').collect();
    let (number, worker) = (id(words[1]), worker(&words[2][1..]));
    format!("L{layer} {} {number} w{worker} {}", words[0], words[3])
}

struct Pair {
    random: Random,
    registry: Registry,
    drain: Drain,
    model: Model,
    callers: Vec<Caller>,
    ids: Vec<Known>,
    crossed: u64,
}

fn layer(random: &mut Random) -> (Layer, plain::Layer) {
    let is_json = random.below(2) == 0;
    let form = if is_json { Form::Json } else { Form::Compact };
    let pairs: Vec<(&str, Level)> = (0..1 + random.below(2))
        .map(|_| (random.of(&TARGETS[..2]), random.of(&Level::ALL[1..])))
        .collect();
    let add = |targets: Targets, (prefix, level): &(&str, Level)| targets.with_target(*prefix, *level);
    let rules = pairs
        .iter()
        .map(|&(prefix, level)| (prefix.to_owned(), level as u32))
        .collect();
    let targets = pairs.iter().fold(Targets::new(), add);
    let layer = Layer::new(form).with_span_events(FmtSpan::FULL).with_targets(targets);
    (
        layer,
        plain::Layer {
            is_json,
            kinds: 15,
            rules,
        },
    )
}

impl Pair {
    fn new(parts: u32, seed: u64) -> Pair {
        let mut random = Random(0x9e37_79b9_7f4a_7c15 ^ (seed + 1) << 20 ^ u64::from(parts) << 50);
        let limits = plain::Limits {
            slots: 2 + random.number(8),
            last_generation: random.number(4),
            max_count: 1 + random.number(6),
            workers: THREADS as u32,
            ring: 1 + random.number(16),
        };
        let count = random.below(3);
        let layers: Vec<_> = (0..count).map(|_| layer(&mut random)).collect();
        let builder = of_parts(parts)
            .slots(limits.slots)
            .last_generation(limits.last_generation)
            .max_count(limits.max_count)
            .ring(limits.ring);
        let with = |builder: span_registry::RegistryBuilder, (ours, _): &(Layer, _)| builder.layer(ours.clone());
        let (registry, drain) = layers.iter().fold(builder, with).build().expect("it fits");
        let theirs = || layers.iter().map(|(_, theirs)| theirs);
        let copy = |layer: &plain::Layer| plain::Layer {
            rules: layer.rules.clone(),
            ..*layer
        };
        let plain = |_| Plain::new(limits, theirs().map(copy).collect()).expect("few layers");
        let callers: Vec<Caller> = (0..THREADS).map(|_| Caller::new()).collect();
        let mut seats = vec![Vec::new(); parts as usize];
        let at_home = |(thread, caller): (usize, &Caller)| {
            let there = registry.clone();
            let part = caller.does(move || home(&there));
            seats[part as usize].push(thread);
            part
        };
        let homes = callers.iter().enumerate().map(at_home).collect();
        let model = Model {
            parts: (0..parts).map(plain).collect(),
            homes,
            inside: vec![Vec::new(); THREADS],
            seats,
            unread: VecDeque::new(),
        };
        Pair {
            random,
            registry,
            drain,
            model,
            callers,
            ids: (0..parts).map(|part| (part, 1)).collect(),
            crossed: 0,
        }
    }

    fn id(&self, (part, own): Known) -> Id {
        self.registry.id(u64::from(part) << 57 | own).expect("a part's")
    }

    /// The same call of the registry in a thread.
    fn ours<T: Send + 'static>(
        &self,
        thread: usize,
        call: impl FnOnce(&Registry) -> Result<T, Error> + Send + 'static,
    ) -> Result<T, u32> {
        let registry = self.registry.clone();
        self.callers[thread]
            .does(move || call(&registry))
            .map_err(|error| error.number())
    }

    fn step(&mut self) {
        let thread = self.random.below(THREADS);
        match self.random.below(9) {
            0 | 1 => self.make(thread),
            2 => self.event(thread),
            3 => self.record(thread),
            kind => self.of_an_id(thread, kind),
        }
        if self.random.below(6) == 0 {
            self.read();
        }
    }

    fn make(&mut self, thread: usize) {
        let (target, level) = (self.random.of(&TARGETS), self.random.of(&Level::ALL));
        let (name, fields) = (self.random.of(&["a", "b.c"]), self.random.fields());
        let under = self.random.of(&self.ids);
        let (ours, part, theirs) = match self.random.below(3) {
            0 => (Parent::Root, self.model.homes[thread], plain::Parent::Root),
            1 => (Parent::Current, self.model.part_inside(thread), plain::Parent::Current),
            _ => (Parent::Of(self.id(under)), under.0, plain::Parent::Of(under.1)),
        };
        let plain_fields = owned(&fields);
        let at_callsite = self.random.below(2) == 0;
        let made = self.ours(thread, move |registry| {
            let meta = Meta::new(level, target, name);
            if at_callsite {
                registry.new_span_at(&registry.callsite(&meta)?, ours, &fields)
            } else {
                registry.new_span(&meta, ours, &fields)
            }
        });
        let meta = plain::Meta {
            level: level as u32,
            name,
            target,
        };
        let wanted = self.model.call(part, thread, |plain, worker| {
            plain.new_span(worker, theirs, &meta, plain_fields)
        });
        let full = wanted.map(|own| own.map(|own| u64::from(part) << 57 | own));
        assert_eq!(made.map(|id| id.map(Id::into_u64)), full);
        if let Ok(Some(own)) = wanted {
            self.ids.push((part, own));
        }
    }

    fn event(&mut self, thread: usize) {
        let (target, level) = (self.random.of(&TARGETS), self.random.of(&Level::ALL));
        let (message, fields) = (self.random.of(&VALUES), self.random.fields());
        let plain_fields = owned(&fields);
        let part = self.model.part_inside(thread);
        let told = self.ours(thread, move |registry| {
            registry.event(&Meta::new(level, target, "event"), message, &fields)
        });
        let meta = plain::Meta {
            level: level as u32,
            name: "event",
            target,
        };
        let wanted = self.model.call(part, thread, |plain, worker| {
            plain.event(worker, &meta, message, &plain_fields)
        });
        assert_eq!(told, wanted);
    }

    fn record(&mut self, thread: usize) {
        let (known, fields) = (self.random.of(&self.ids), self.random.fields());
        let (id, plain_fields) = (self.id(known), owned(&fields));
        let recorded = self.ours(thread, move |registry| registry.record(id, &fields));
        let wanted = self.model.call(known.0, thread, |plain, worker| {
            plain.record(worker, known.1, plain_fields)
        });
        assert_eq!(recorded, wanted);
    }

    fn of_an_id(&mut self, thread: usize, kind: usize) {
        // Mostly one that may be entered or left.
        let inside = &self.model.inside[thread];
        let known = match kind {
            6 | 7 if !inside.is_empty() => inside[self.random.below(inside.len())],
            _ => self.random.of(&self.ids),
        };
        let id = self.id(known);
        self.crossed += u64::from(known.0 != self.model.homes[thread]);
        let ours = self.ours(thread, move |registry| match kind {
            4 => registry.clone_span(id).map(|()| true),
            5 => registry.enter(id),
            6 | 7 => registry.exit(id),
            _ => registry.try_close(id),
        });
        let theirs = self.model.call(known.0, thread, |plain, worker| match kind {
            4 => plain.clone_span(known.1).map(|()| true),
            5 => plain.enter(worker, known.1),
            6 | 7 => plain.exit(worker, known.1),
            _ => plain.try_close(worker, known.1),
        });
        assert_eq!(ours, theirs, "kind {kind} of {known:?}");
        let inside = &mut self.model.inside[thread];
        match (kind, theirs) {
            (5, Ok(_)) => inside.push(known),
            (6 | 7, Ok(_)) => {
                let place = inside.iter().rposition(|&it| it == known).expect("it is inside");
                inside.remove(place);
            }
            _ => {}
        }
    }

    fn read(&mut self) {
        let told: Vec<String> = self
            .drain
            .lines()
            .map(|line| format!("L{} {}", line.layer, line.text))
            .collect();
        assert_eq!(told, self.model.lines());
        self.compare();
    }

    fn compare(&self) {
        let mut open = HashMap::new();
        for (part, (plain, _)) in (0..).zip(&self.model.parts) {
            for &(of, own) in self.ids.iter().filter(|(of, _)| *of == part) {
                let found = self.registry.find(self.id((of, own)));
                let found = found.map(|found| {
                    let parent = found.parent.map(Id::into_u64);
                    (parent, found.handles, found.entries, found.count, found.level as u32)
                });
                let wanted = plain.find(own).map(|span| {
                    let parent = span.parent.map(|parent| u64::from(part) << 57 | parent);
                    (parent, span.handles, span.entries, span.count, span.level)
                });
                assert_eq!(found, wanted, "span {own} of part {part}");
                if let Some(wanted) = wanted {
                    open.insert(u64::from(part) << 57 | own, (wanted.1, wanted.2));
                }
            }
        }
        let listed = self.registry.open_spans().expect("there is memory");
        let listed = listed
            .iter()
            .map(|span| (span.id.into_u64(), (span.handles, span.entries)));
        let listed: HashMap<u64, (u32, u32)> = listed.collect();
        assert_eq!(listed, open);
        let (counts, parts) = (self.registry.counts(), &self.model.parts);
        let sum = |of: fn(&Plain) -> u64| parts.iter().map(|(plain, _)| of(plain)).sum::<u64>();
        assert_eq!(
            (counts.made, counts.closed, counts.calls, u64::from(counts.open)),
            (
                sum(|plain| plain.made),
                sum(|plain| plain.closed),
                sum(|plain| plain.calls),
                sum(|plain| plain.open().count() as u64)
            )
        );
        let held = sum(|plain| plain.open().map(|span| u64::from(span.handles + span.entries)).sum());
        let seats: usize = self.model.seats.iter().map(Vec::len).sum();
        assert_eq!((counts.held, counts.threads as usize), (held, seats));
        for thread in 0..THREADS {
            let current = self.ours(thread, Registry::current_span);
            assert_eq!(current, Ok(self.model.current(thread).map(|known| self.id(known))));
        }
    }

    /// Ends the threads, which leave all spans.
    fn end(mut self) -> (u64, u64) {
        self.read();
        for caller in self.callers.drain(..) {
            drop(caller.jobs);
            caller.thread.join().expect("no panic");
            self.drain.lines().for_each(drop);
        }
        let counts = self.registry.counts();
        let listed = self.registry.open_spans().expect("there is memory");
        assert!(listed.iter().all(|span| span.entries == 0), "{listed}");
        assert_eq!((counts.threads, counts.owed), (0, 0), "{counts:?}");
        (counts.calls, self.crossed)
    }
}

fn owned(fields: &[(&str, &str)]) -> plain::Fields {
    fields
        .iter()
        .map(|&(key, value)| (key.to_owned(), value.to_owned()))
        .collect()
}

fn of(parts: u32) {
    let (mut accepted, mut crossed) = (0, 0);
    for seed in 0..RUNS {
        let mut pair = Pair::new(parts, seed);
        (0..CALLS).for_each(|_| pair.step());
        let (calls, across) = pair.end();
        (accepted, crossed) = (accepted + calls, crossed + across);
    }
    assert!(
        accepted > RUNS * CALLS as u64 / 10,
        "only {accepted} calls were accepted"
    );
    assert_eq!(
        crossed == 0,
        parts == 1,
        "{crossed} calls of other parts than the thread's own"
    );
}

#[test]
fn random_calls_answer_the_same_in_one_part() {
    of(1);
}

#[test]
fn random_calls_answer_the_same_in_two_parts() {
    of(2);
}

#[test]
fn random_calls_answer_the_same_in_four_parts() {
    of(4);
}

#[test]
fn random_calls_answer_the_same_in_seven_parts() {
    of(7);
}

#[test]
fn the_threads_have_several_homes() {
    let pair = Pair::new(4, 0);
    let mut homes = pair.model.homes.clone();
    homes.sort_unstable();
    homes.dedup();
    assert!(homes.len() > 1, "{homes:?}");
    let there = pair.registry.clone();
    let made = pair.callers[0].does(move || there.new_span(&info("a"), Parent::Root, &[]));
    assert!(made.is_ok());
}
