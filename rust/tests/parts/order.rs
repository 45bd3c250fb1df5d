//! The order of the lines of several parts, while several threads call at once.
use crate::{compact, of_parts, root, roots};
use span_registry::{retry, try_event, Drain, FmtSpan, Layer, Level, OnFull, Registry, Span};
use std::collections::HashMap;
use std::sync::atomic::{AtomicBool, AtomicU64, Ordering};
use std::thread;

const THREADS: u64 = 6;
const EVENTS: u64 = 4000;

/// Numbers that rise by time.
static CLOCK: AtomicU64 = AtomicU64::new(1);

fn now() -> u64 {
    CLOCK.fetch_add(1, Ordering::SeqCst)
}

struct Random(u64);

impl Random {
    fn below(&mut self, bound: usize) -> usize {
        self.0 ^= self.0 << 13;
        self.0 ^= self.0 >> 7;
        self.0 ^= self.0 << 17;
        (self.0 >> 33) as usize % bound
    }
}

/// Events in spans of all parts. By when each began, when it ended.
fn calls(registry: &Registry, spans: &[Span], thread: u64) -> HashMap<u64, u64> {
    let mut random = Random(thread << 20 | 7);
    let mut ended = HashMap::new();
    while (ended.len() as u64) < EVENTS {
        let span = &spans[random.below(spans.len())];
        let _inside = retry(|| span.try_enter()).expect("nothing but the ring is full");
        for _ in 0..1 + random.below(3) {
            let begun = now();
            retry(|| try_event!(registry, Level::Info, { thread = thread }, "{begun}")).expect("as above");
            ended.insert(begun, now());
        }
    }
    ended
}

/// When each line's event began, in order.
fn begun(text: &str) -> u64 {
    let (_, rest) = text.split_once(" INFO ").expect("an event");
    rest.split(' ')
        .next()
        .and_then(|number| number.parse().ok())
        .expect("a number")
}

/// Each line once, and none before one of a call that ended before its own began.
fn check(told: &[u64], ended: &HashMap<u64, u64>) {
    assert_eq!(told.len(), ended.len());
    let mut latest = 0;
    for begun in told {
        let end = ended
            .get(begun)
            .unwrap_or_else(|| panic!("{begun} is told twice, or wasn't called"));
        assert!(
            *end > latest,
            "what began at {latest} was told before what ended at {end}"
        );
        latest = latest.max(*begun);
    }
    let mut once = told.to_vec();
    once.sort_unstable();
    once.dedup();
    assert_eq!(once.len(), told.len());
}

fn reads(mut drain: Drain, stop: &AtomicBool) -> Vec<u64> {
    let mut told = Vec::new();
    loop {
        let was_stopped = stop.load(Ordering::Acquire);
        let before = told.len();
        told.extend(drain.lines().map(|line| begun(&line.text)));
        if was_stopped && told.len() == before {
            return told;
        }
        thread::yield_now();
    }
}

fn run(parts: u32, ring: u32, on_full: OnFull) {
    let layer = Layer::compact().with_span_events(FmtSpan::NONE);
    let builder = of_parts(parts).ring(ring).on_full(on_full).layer(layer);
    let (registry, mut drain) = builder.build().expect("it fits");
    let spans = roots(&registry, parts);
    // The batches of the roots.
    assert_eq!(drain.line(), None);
    let stop = AtomicBool::new(false);
    let (told, ended) = thread::scope(|scope| {
        let reading = scope.spawn(|| reads(drain, &stop));
        let calling: Vec<_> = (0..THREADS)
            .map(|thread| {
                let (registry, spans) = (&registry, &spans);
                scope.spawn(move || calls(registry, spans, thread))
            })
            .collect();
        let ended = calling.into_iter().flat_map(|thread| thread.join().expect("no panic"));
        let ended: HashMap<u64, u64> = ended.collect();
        stop.store(true, Ordering::Release);
        (reading.join().expect("no panic"), ended)
    });
    assert!(ended.len() as u64 >= THREADS * EVENTS);
    check(&told, &ended);
}

#[test]
fn no_line_comes_before_one_of_a_call_that_ended_before() {
    run(2, 1024, OnFull::Refuse);
    run(4, 65_536, OnFull::Refuse);
    run(7, 16, OnFull::Wait);
    run(4, 1, OnFull::Refuse);
}

/// A part in which nothing happens holds nothing up.
#[test]
fn an_idle_part_holds_nothing_up() {
    let (registry, mut drain) = compact(5).build().expect("it fits");
    for turn in 0..100 {
        drop(root(&registry, "a"));
        assert_eq!(drain.lines().count(), 2, "turn {turn}");
    }
}

/// A line whose write failed is the next one, though others have come in the other part.
#[test]
fn a_line_that_was_not_written_stays_the_next_one() {
    struct Failing;
    impl std::io::Write for Failing {
        fn write(&mut self, _bytes: &[u8]) -> std::io::Result<usize> {
            Err(std::io::Error::other("on purpose"))
        }

        fn flush(&mut self) -> std::io::Result<()> {
            Ok(())
        }
    }
    let (registry, mut drain) = compact(3).build().expect("it fits");
    let first = roots(&registry, 3);
    assert!(drain.write_to(&mut Failing).is_err());
    drop(first);
    assert!(drain.write_to(&mut Failing).is_err());
    let texts: Vec<String> = drain.lines().map(|line| line.text).collect();
    let kinds: Vec<&str> = texts.iter().filter_map(|text| text.split(' ').next()).collect();
    assert_eq!(kinds, ["new", "new", "new", "close", "close", "close"]);
}

/// A drain that is told to stop ends, though other threads go on in one of the parts.
#[test]
fn a_drain_that_is_stopped_ends_whatever_others_do() {
    let (registry, guard) = of_parts(4)
        .ring(64)
        .layer(Layer::compact())
        .spawn_writer(std::io::sink())
        .expect("it fits");
    let stop = AtomicBool::new(false);
    thread::scope(|scope| {
        for _ in 0..2 {
            scope.spawn(|| {
                while !stop.load(Ordering::Acquire) {
                    drop(root(&registry, "a"));
                }
            });
        }
        thread::sleep(std::time::Duration::from_millis(30));
        let lines = guard.finish();
        stop.store(true, Ordering::Release);
        assert!(lines.is_ok_and(|lines| lines > 0));
    });
    assert_eq!(registry.counts().open, 0);
}
