//! A stand-in for criterion, as much of it as tracing-subscriber's own benches call: a line for each bench, with the
//! nanoseconds of a round, the least of so many samples. The variable SAMPLES says how many, each of some 10 ms.
use std::fmt::Display;
use std::hint::black_box;
use std::marker::PhantomData;
use std::time::{Duration, Instant};

const SAMPLE: Duration = Duration::from_millis(10);
/// How many answers are kept until the clock stands.
const KEPT: u64 = 1000;

pub mod measurement {
    /// Time on the clock.
    pub struct WallTime;
}

#[derive(Default)]
pub struct Criterion(());

impl Criterion {
    pub fn benchmark_group(&mut self, name: &str) -> BenchmarkGroup<'_, measurement::WallTime> {
        BenchmarkGroup { name: name.to_owned(), of: PhantomData }
    }
}

/// Benches whose names begin alike.
pub struct BenchmarkGroup<'a, M> {
    name: String,
    of: PhantomData<(&'a mut Criterion, M)>,
}

pub struct BenchmarkId(String);

impl BenchmarkId {
    pub fn new(name: &str, parameter: impl Display) -> Self {
        BenchmarkId(format!("{name}/{parameter}"))
    }
}

pub enum Throughput {
    Elements(u64),
}

impl<M> BenchmarkGroup<'_, M> {
    pub fn throughput(&mut self, _: Throughput) {}

    pub fn finish(self) {}

    pub fn bench_function(&mut self, name: &str, mut bench: impl FnMut(&mut Bencher)) {
        let mut bencher = Bencher { samples: samples(), least: f64::INFINITY };
        bench(&mut bencher);
        println!("{}/{name} {:.2} ns", self.name, bencher.least);
    }

    pub fn bench_with_input<I>(&mut self, id: BenchmarkId, input: &I, mut bench: impl FnMut(&mut Bencher, &I)) {
        self.bench_function(&id.0, |bencher| bench(bencher, input));
    }
}

fn samples() -> u32 {
    std::env::var("SAMPLES").map_or(20, |text| text.parse().expect("a number"))
}

pub struct Bencher {
    samples: u32,
    least: f64,
}

impl Bencher {
    /// `time` says how long so many rounds take.
    pub fn iter_custom(&mut self, mut time: impl FnMut(u64) -> Duration) {
        let mut rounds = 1;
        // As many as take a sample's time.
        loop {
            let took = time(rounds);
            if took * 2 >= SAMPLE || rounds >= 1 << 30 {
                break;
            }
            let more = SAMPLE.as_nanos() / took.as_nanos().max(1);
            rounds *= (more as u64).clamp(2, 100);
        }
        for _ in 0..self.samples {
            self.least = self.least.min(time(rounds).as_nanos() as f64 / rounds as f64);
        }
    }

    /// What a round answers is dropped in the round.
    pub fn iter<O>(&mut self, mut round: impl FnMut() -> O) {
        self.iter_custom(|rounds| {
            let start = Instant::now();
            for _ in 0..rounds {
                drop(black_box(round()));
            }
            start.elapsed()
        });
    }

    /// What rounds answer is dropped when the clock stands.
    pub fn iter_with_large_drop<O>(&mut self, mut round: impl FnMut() -> O) {
        self.iter_custom(|rounds| {
            let mut took = Duration::ZERO;
            let mut kept = Vec::with_capacity(KEPT as usize);
            for done in (0..rounds).step_by(KEPT as usize) {
                let start = Instant::now();
                kept.extend((done..rounds.min(done + KEPT)).map(|_| black_box(round())));
                took += start.elapsed();
                kept.clear();
            }
            took
        });
    }
}

#[macro_export]
macro_rules! criterion_group {
    ($name:ident, $($bench:path),+ $(,)?) => {
        fn $name() {
            let mut criterion = $crate::Criterion::default();
            $($bench(&mut criterion);)+
        }
    };
}

#[macro_export]
macro_rules! criterion_main {
    ($($group:path),+ $(,)?) => {
        fn main() {
            $($group();)+
        }
    };
}
