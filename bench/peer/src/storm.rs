//! Workers in threads on one registry, and a thread that writes the lines.
use crate::field::Fields;
use crate::layer::{Form, Level, Rule, EVERY_KIND};
use crate::outlet::{Batch, Lines, Outlet};
use crate::registry::{Limits, Meta, ParentOf, Refusal, Registry};
use crate::ring::{ring, Receiver, Sender};
use std::fmt;
use std::sync::atomic::{AtomicBool, Ordering};
use std::sync::{Mutex, MutexGuard, PoisonError};
use std::thread;

const PLACES: usize = 65536;
const LOOKS_BEFORE_YIELDING: u32 = 64;

/// What has happened when all workers are back.
#[derive(Default)]
pub struct Report {
    pub workers: u32,
    pub rounds: u32,
    pub made: u64,
    pub closed: u64,
    pub calls: u64,
    pub lines: u64,
    pub refused: u64,
    pub left: u64,
}

impl fmt::Display for Report {
    fn fmt(&self, f: &mut fmt::Formatter<'_>) -> fmt::Result {
        writeln!(f, "workers {}\nrounds {}", self.workers, self.rounds)?;
        writeln!(f, "made {}\nclosed {}\ncalls {}", self.made, self.closed, self.calls)?;
        writeln!(f, "lines {}\nrefused {}\nleft {}", self.lines, self.refused, self.left)
    }
}

/// Sends the batches into a ring, and counts what they tell.
pub struct Sending {
    pub sender: Sender<Batch>,
    pub calls: u64,
}

impl Outlet for Sending {
    fn has_room(&mut self) -> bool {
        self.sender.has_room()
    }

    fn put(&mut self, batch: Batch) {
        self.calls += 1;
        // There is room, as `has_room` has said.
        let _ = self.sender.push(batch);
    }
}

type Shared = Mutex<Registry<Sending>>;

fn locked(registry: &Shared) -> MutexGuard<'_, Registry<Sending>> {
    registry.lock().unwrap_or_else(PoisonError::into_inner)
}

/// How many spans a worker made, and how many its calls closed.
#[derive(Default)]
struct Done {
    made: u64,
    closed: u64,
}

fn meta(name: &'static str) -> Meta<'static> {
    Meta {
        name,
        target: "app",
        level: Level::Info,
    }
}

/// The nine calls of a round, so many times.
fn work(registry: &Shared, worker: u32, rounds: u32) -> Result<Done, Refusal> {
    let mut done = Done::default();
    for _ in 0..rounds {
        let job = locked(registry).new_span(worker, meta("job"), Fields::default(), ParentOf::Root)?;
        let Some(job) = job else { continue };
        locked(registry).clone_span(worker, job)?;
        locked(registry).enter(worker, job)?;
        locked(registry).event(worker, "app", Level::Info, "tick", Fields::default())?;
        let step = locked(registry).new_span(worker, meta("step"), Fields::default(), ParentOf::Current)?;
        done.made += 1 + u64::from(step.is_some());
        if let Some(step) = step {
            done.closed += u64::from(locked(registry).close(worker, step)?);
        }
        done.closed += u64::from(locked(registry).exit(worker, job)?);
        done.closed += u64::from(locked(registry).close(worker, job)?);
        done.closed += u64::from(locked(registry).close(worker, job)?);
    }
    Ok(done)
}

/// Writes the lines of what the ring gives, until all are done and the ring is empty.
fn drain(mut receiver: Receiver<Batch>, layers: u32, all_done: &AtomicBool) -> Lines {
    let mut lines = Lines::default();
    for _ in 0..layers {
        lines.forms.push(Form::Compact);
    }
    let mut looks = 0;
    loop {
        // What was sent before the end is seen by a look that comes after it.
        let was_done = all_done.load(Ordering::Acquire);
        while let Some(batch) = receiver.pop() {
            lines.add(&batch);
            looks = 0;
        }
        if was_done {
            return lines;
        }
        looks += 1;
        if looks < LOOKS_BEFORE_YIELDING {
            std::hint::spin_loop();
        } else {
            thread::yield_now();
        }
    }
}

/// Runs so many workers so many rounds, with so many layers that are told of everything.
pub fn storm(workers: u32, rounds: u32, layers: u32) -> Result<Report, Refusal> {
    let (sender, receiver) = ring(PLACES);
    let limits = Limits {
        workers,
        ..Limits::default()
    };
    let mut registry = Registry::new(limits, Sending { sender, calls: 0 });
    for _ in 0..layers {
        registry
            .layers
            .push(EVERY_KIND, Rule::from([(Box::default(), Level::Trace)]));
    }
    let registry = Mutex::new(registry);
    let all_done = AtomicBool::new(false);
    let (ended, lines) = thread::scope(|scope| {
        let drain = scope.spawn(|| drain(receiver, layers, &all_done));
        let registry = &registry;
        let workers: Vec<_> = (0..workers)
            .map(|worker| scope.spawn(move || work(registry, worker, rounds)))
            .collect();
        let ended: Vec<_> = workers
            .into_iter()
            .map(|worker| worker.join().expect("workers don't panic"))
            .collect();
        all_done.store(true, Ordering::Release);
        (ended, drain.join().expect("the drain doesn't panic"))
    });
    let registry = registry.into_inner().unwrap_or_else(PoisonError::into_inner);
    let mut report = Report {
        workers,
        rounds,
        calls: registry.outlet.calls,
        lines: lines.all.len() as u64,
        left: registry.open_spans() as u64,
        ..Report::default()
    };
    for done in ended {
        let done = done?;
        report.made += done.made;
        report.closed += done.closed;
    }
    Ok(report)
}
