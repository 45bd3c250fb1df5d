//! The same random calls on the proved registry and on one in plain Rust, which was written from the rules alone: each
//! answer, each line and what is found of each span have to be the same.
mod common;
#[path = "../examples/border/plain/mod.rs"]
#[allow(dead_code)]
mod plain;

use plain::{Plain, PlainDrain};
use span_registry::{Callsite, Drain, Error, FmtSpan, Form, Id, Layer, Level, Meta, Parent, Registry, Targets};

const RUNS: u64 = 400;
const CALLS: usize = 150;
const NAMES: [&str; 4] = ["a", "b.c", "d_e-f", common::LONG];
const TARGETS: [&str; 5] = ["app", "app::db", "apple", "lib", ""];
const VALUES: [&str; 4] = ["", "1", "x\ny\\z", "\"ä\u{1}\" \r"];

struct Random(u64);

impl Random {
    fn below(&mut self, bound: usize) -> usize {
        self.0 ^= self.0 << 13;
        self.0 ^= self.0 >> 7;
        self.0 ^= self.0 << 17;
        (self.0 >> 33) as usize % bound
    }

    fn number(&mut self, bound: usize) -> u32 {
        u32::try_from(self.below(bound)).expect("small")
    }

    fn of<T: Copy>(&mut self, list: &[T]) -> T {
        list[self.below(list.len())]
    }

    // Mostly a good one.
    fn name(&mut self) -> &'static str {
        let last = if self.below(8) == 0 { NAMES.len() } else { 3 };
        self.of(&NAMES[..last])
    }

    fn fields(&mut self) -> Vec<(&'static str, &'static str)> {
        let count = self.below(3);
        (0..count).map(|_| (self.name(), self.of(&VALUES))).collect()
    }
}

/// Both registries, and every id that one of them gave.
struct Pair {
    random: Random,
    registry: Registry,
    drain: Drain,
    plain: Plain,
    plain_drain: PlainDrain,
    ids: Vec<u64>,
}

fn layers(random: &mut Random) -> Vec<(Layer, plain::Layer)> {
    let count = random.below(4);
    (0..count).map(|_| layer(random)).collect()
}

fn layer(random: &mut Random) -> (Layer, plain::Layer) {
    let is_json = random.below(2) == 0;
    let kinds = [FmtSpan::NEW, FmtSpan::ENTER, FmtSpan::EXIT, FmtSpan::CLOSE];
    let bits = random.number(16);
    let mut wanted = FmtSpan::NONE;
    for (place, kind) in kinds.into_iter().enumerate() {
        if bits >> place & 1 == 1 {
            wanted |= kind;
        }
    }
    let pairs: Vec<_> = (0..random.below(4))
        .map(|_| (random.of(&TARGETS), random.of(&Level::ALL)))
        .collect();
    let add = |targets: Targets, (prefix, level): &(&str, Level)| targets.with_target(*prefix, *level);
    let targets = pairs.iter().fold(Targets::new(), add);
    let rules = pairs
        .iter()
        .map(|&(prefix, level)| (prefix.to_owned(), level as u32))
        .collect();
    let form = if is_json { Form::Json } else { Form::Compact };
    let layer = Layer::new(form).with_span_events(wanted).with_targets(targets);
    (
        layer,
        plain::Layer {
            is_json,
            kinds: bits,
            rules,
        },
    )
}

impl Pair {
    fn new(seed: u64) -> Pair {
        let mut random = Random(0x9e37_79b9_7f4a_7c15 ^ (seed + 1) << 20);
        let limits = plain::Limits {
            slots: 1 + random.number(8),
            last_generation: random.number(4),
            max_count: 1 + random.number(6),
            workers: 1,
            ring: 1 + random.number(16),
        };
        let (ours, theirs): (Vec<_>, Vec<_>) = layers(&mut random).into_iter().unzip();
        let builder = Registry::builder()
            .slots(limits.slots)
            .last_generation(limits.last_generation)
            .max_count(limits.max_count)
            .workers(1)
            .ring(limits.ring);
        let (registry, drain) = ours
            .into_iter()
            .fold(builder, |builder, layer| builder.layer(layer))
            .build()
            .expect("fits");
        let (plain, plain_drain) = Plain::new(limits, theirs).expect("few layers");
        Pair {
            random,
            registry,
            drain,
            plain,
            plain_drain,
            ids: vec![1],
        }
    }

    fn step(&mut self) {
        let (ours, theirs) = match self.random.below(8) {
            0 => self.make(),
            1 => self.event(),
            2 => self.record(),
            kind => self.of_an_id(kind),
        };
        assert_eq!(ours.map_err(|error| error.number()), theirs);
        if let Ok(id @ 1..) = theirs {
            self.ids.push(id);
        }
        if self.random.below(6) == 0 {
            self.read();
        }
        self.compare();
    }

    // A call is made by its meta, or at a callsite. What has a bad name gets no callsite: it is refused as the call is.
    fn callsite(&mut self, meta: &Meta<'_>) -> Option<Result<Callsite, Error>> {
        (self.random.below(2) == 0).then(|| self.registry.callsite(meta))
    }

    fn make(&mut self) -> (Result<u64, Error>, Result<u64, plain::Refusal>) {
        let (name, target, level) = (
            self.random.name(),
            self.random.of(&TARGETS),
            self.random.of(&Level::ALL),
        );
        let fields = self.random.fields();
        let under = self.random.of(&self.ids);
        let (parent, in_plain) = match self.random.below(3) {
            0 => (Parent::Root, plain::Parent::Root),
            1 => (Parent::Current, plain::Parent::Current),
            _ => (
                Parent::Of(self.registry.id(under).expect("not 0")),
                plain::Parent::Of(under),
            ),
        };
        let meta = Meta::new(level, target, name);
        let ours = match self.callsite(&meta) {
            Some(made) => made.and_then(|callsite| self.registry.new_span_at(&callsite, parent, &fields)),
            None => self.registry.new_span(&meta, parent, &fields),
        };
        let meta = plain::Meta {
            level: level as u32,
            name,
            target,
        };
        let theirs = self.plain.new_span(0, in_plain, &meta, owned(&fields));
        (
            ours.map(|id| id.map_or(0, Id::into_u64)),
            theirs.map(|id| id.unwrap_or(0)),
        )
    }

    fn event(&mut self) -> (Result<u64, Error>, Result<u64, plain::Refusal>) {
        let (name, target, level) = (
            self.random.name(),
            self.random.of(&TARGETS),
            self.random.of(&Level::ALL),
        );
        let (message, fields) = (self.random.of(&VALUES), self.random.fields());
        let meta = Meta::new(level, target, name);
        let ours = match self.callsite(&meta) {
            Some(made) => made.and_then(|callsite| self.registry.event_at(&callsite, message, &fields)),
            None => self.registry.event(&meta, message, &fields),
        };
        let meta = plain::Meta {
            level: level as u32,
            name,
            target,
        };
        let theirs = self.plain.event(0, &meta, message, &owned(&fields));
        (ours.map(|()| 0), theirs.map(|()| 0))
    }

    fn record(&mut self) -> (Result<u64, Error>, Result<u64, plain::Refusal>) {
        let (id, fields) = (self.random.of(&self.ids), self.random.fields());
        let ours = self.registry.record(self.registry.id(id).expect("not 0"), &fields);
        (ours.map(|()| 0), self.plain.record(0, id, owned(&fields)).map(|()| 0))
    }

    fn of_an_id(&mut self, kind: usize) -> (Result<u64, Error>, Result<u64, plain::Refusal>) {
        let number = self.random.of(&self.ids);
        let id = self.registry.id(number).expect("not 0");
        let (ours, theirs) = match kind {
            3 => (
                self.registry.clone_span(id).map(|()| true),
                self.plain.clone_span(number).map(|()| true),
            ),
            4 => (self.registry.enter(id), self.plain.enter(0, number)),
            5 => (self.registry.exit(id), self.plain.exit(0, number)),
            _ => (self.registry.try_close(id), self.plain.try_close(0, number)),
        };
        let number_of = |error: &Error| error.number();
        assert_eq!(
            ours.as_ref().copied().map_err(number_of),
            theirs,
            "kind {kind} of {number}"
        );
        (ours.map(|_| 0), theirs.map(|_| 0))
    }

    fn read(&mut self) {
        let ours: Vec<_> = self.drain.lines().map(|line| (line.layer, line.text)).collect();
        let mut theirs = Vec::new();
        self.plain_drain.tell_all(|layer, text| theirs.push((layer, text)));
        assert_eq!(ours, theirs);
        assert_eq!(self.drain.counts().batches, self.plain_drain.batches);
    }

    fn compare(&self) {
        for &number in &self.ids {
            let ours = self.registry.find(self.registry.id(number).expect("not 0"));
            let ours = ours.map(|found| {
                (
                    found.parent.map(Id::into_u64),
                    found.handles,
                    found.entries,
                    found.count,
                    found.level as u32,
                )
            });
            let theirs = self.plain.find(number);
            let theirs = theirs.map(|span| (span.parent, span.handles, span.entries, span.count, span.level));
            assert_eq!(ours, theirs, "span {number}");
        }
        let counts = self.registry.counts();
        let (plain, open) = (&self.plain, self.plain.open().count());
        assert_eq!(
            (counts.made, counts.closed, counts.calls),
            (plain.made, plain.closed, plain.calls)
        );
        assert_eq!(counts.open as usize, open);
        assert_eq!(
            counts.held,
            self.plain
                .open()
                .map(|span| u64::from(span.handles + span.entries))
                .sum()
        );
        assert_eq!(
            self.registry.current_span(),
            Ok(self.plain.current(0).and_then(|number| self.registry.id(number)))
        );
    }
}

fn owned(fields: &[(&str, &str)]) -> plain::Fields {
    fields
        .iter()
        .map(|&(key, value)| (key.to_owned(), value.to_owned()))
        .collect()
}

#[test]
fn random_calls_answer_the_same() {
    let mut accepted = 0;
    for seed in 0..RUNS {
        let mut pair = Pair::new(seed);
        (0..CALLS).for_each(|_| pair.step());
        pair.read();
        accepted += pair.registry.counts().calls;
    }
    assert!(
        accepted > RUNS * CALLS as u64 / 10,
        "only {accepted} calls were accepted"
    );
}
