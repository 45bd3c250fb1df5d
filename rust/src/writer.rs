//! A thread that writes the lines, and its guard.
#![forbid(unsafe_code)]
use crate::builder::RegistryBuilder;
use crate::drain::Drain;
use crate::error::Error;
use crate::parts::Parts;
use crate::registry::Registry;
use crate::ring::OnFull;
use crate::workers;
use std::fmt;
use std::io::{self, Write};
use std::panic::{catch_unwind, resume_unwind, AssertUnwindSafe};
use std::sync::atomic::{AtomicBool, Ordering};
use std::sync::{Arc, Condvar, Mutex, MutexGuard, PoisonError};
use std::thread::{self, Builder, JoinHandle};

/// What is asked of a thread that writes, and how far it is.
#[derive(Default)]
pub(crate) struct Asked {
    is_stopped: AtomicBool,
    // Whether a flush was asked for since the thread last looked. It changes under the lock.
    is_flush: AtomicBool,
    progress: Mutex<Progress>,
    has_changed: Condvar,
}

#[derive(Default)]
struct Progress {
    // How many flushes were asked for, and how many of them, the first ones, are done.
    asked: u64,
    done: u64,
    // Whether none will be done any longer, and whether that is for a failure.
    is_over: bool,
    has_failed: bool,
}

impl Asked {
    /// Whether there is anything to be done but to write what comes.
    pub(crate) fn is_something(&self) -> bool {
        self.is_stopped() || self.is_flush.load(Ordering::Acquire)
    }

    pub(crate) fn is_stopped(&self) -> bool {
        self.is_stopped.load(Ordering::Acquire)
    }

    /// How many flushes were asked for so far; none where all of them are done.
    pub(crate) fn flushes(&self) -> Option<u64> {
        let progress = self.progress();
        self.is_flush.store(false, Ordering::Release);
        (progress.done < progress.asked).then_some(progress.asked)
    }

    /// So many of the flushes, the first ones, are done.
    pub(crate) fn are_done(&self, flushes: u64) {
        self.progress().done = flushes;
        self.has_changed.notify_all();
    }

    fn ends(&self, has_failed: bool) {
        let mut progress = self.progress();
        (progress.is_over, progress.has_failed) = (true, has_failed);
        self.has_changed.notify_all();
    }

    fn progress(&self) -> MutexGuard<'_, Progress> {
        self.progress.lock().unwrap_or_else(PoisonError::into_inner)
    }

    // Asks for a flush and waits for it.
    fn flush(&self) -> io::Result<()> {
        let mut progress = self.progress();
        progress.asked += 1;
        let number = progress.asked;
        self.is_flush.store(true, Ordering::Release);
        while progress.done < number && !progress.is_over {
            progress = self.changed(progress);
        }
        if progress.has_failed {
            Err(failed())
        } else if progress.done < number && self.is_stopped() {
            Err(io::Error::other("the writer was stopped"))
        } else {
            // It was done, or the registry is gone and all lines are out.
            Ok(())
        }
    }

    fn asks_for_the_end(&self) {
        self.is_stopped.store(true, Ordering::Release);
    }

    // Asks for the end and waits for it.
    fn stop(&self) -> io::Result<()> {
        self.asks_for_the_end();
        let mut progress = self.progress();
        while !progress.is_over {
            progress = self.changed(progress);
        }
        if progress.has_failed {
            Err(failed())
        } else {
            Ok(())
        }
    }

    fn changed<'a>(&self, progress: MutexGuard<'a, Progress>) -> MutexGuard<'a, Progress> {
        self.has_changed.wait(progress).unwrap_or_else(PoisonError::into_inner)
    }
}

/// A thread writes the lines as they come, until this is dropped. By then all lines of the calls that were accepted
/// before are written and flushed, whatever spans are still open and whatever other threads go on to do, unless a
/// write fails, memory is refused, or the writer itself drops this, which doesn't wait for its own end. Then layers
/// that admit `WARN` of the target `span_registry` are told which spans are open, as by [`Drain::run_until`]. Drop it
/// where nothing is held that the writer waits for, as standard output's lock.
///
/// Where a write fails or panics, the rest is read and thrown away, so that no call waits for a writer that is gone,
/// and [`finish`](Guard::finish) tells the failure. The thread also ends where the registry, its clones and its spans
/// are gone. Once it ended, nobody reads: lines are thrown away, and counted as [`Lost::lines`](crate::Lost::lines).
#[must_use = "the writer ends where its guard is dropped"]
pub struct Guard {
    parts: Parts,
    asked: Arc<Asked>,
    writing: Option<JoinHandle<io::Result<u64>>>,
}

impl fmt::Debug for Guard {
    fn fmt(&self, f: &mut fmt::Formatter<'_>) -> fmt::Result {
        f.debug_struct("Guard").field("writing", &self.writing).finish()
    }
}

impl Guard {
    pub(crate) fn parts(&self) -> &Parts {
        &self.parts
    }

    /// Waits until all lines of the calls that were accepted before are written and flushed, and the writer goes on.
    /// Call it where nothing is held that the writer waits for. Want of memory is told by [`finish`](Guard::finish).
    ///
    /// # Errors
    /// Where a write or a flush failed or panicked, now or before, which [`finish`](Guard::finish) tells, where the
    /// writer was [stopped](Registry::shutdown) before, and where the writer itself calls it.
    ///
    /// ```
    /// # fn main() -> Result<(), Box<dyn std::error::Error>> {
    /// use span_registry::{event, Layer, Level, Registry};
    /// let (registry, guard) = Registry::builder().layer(Layer::compact()).spawn_writer(std::io::stdout())?;
    /// event!(registry, Level::Info, "that line is out");
    /// guard.flush()?;
    /// # Ok(())
    /// # }
    /// ```
    pub fn flush(&self) -> io::Result<()> {
        if self.writing.as_ref().is_some_and(is_this_thread) {
            return Err(waits_for_itself());
        }
        self.asked.flush()
    }

    /// The end of the writer, as a drop. It answers how many lines were written, or what a write or a flush failed with. Lines that are
    /// missing for want of memory are a failure of the kind [`OutOfMemory`](io::ErrorKind::OutOfMemory).
    ///
    /// # Errors
    /// What a write or a flush failed with, that it panicked, or [`OutOfMemory`](io::ErrorKind::OutOfMemory) where
    /// lines are missing for want of memory.
    pub fn finish(mut self) -> io::Result<u64> {
        self.stop()
    }

    fn stop(&mut self) -> io::Result<u64> {
        self.asked.asks_for_the_end();
        // The writer itself, which may have come to own this, doesn't wait for its own end.
        let writing = self.writing.take();
        let others = writing.filter(|writing| !is_this_thread(writing));
        let ended = others.map_or(Ok(Ok(0)), JoinHandle::join);
        ended.unwrap_or_else(|_| Err(io::Error::other("the writer panicked")))
    }
}

fn waits_for_itself() -> io::Error {
    io::Error::other("the writer can't wait for itself")
}

fn failed() -> io::Error {
    io::Error::other("the writer failed")
}

fn is_this_thread(writing: &JoinHandle<io::Result<u64>>) -> bool {
    writing.thread().id() == thread::current().id()
}

impl Drop for Guard {
    fn drop(&mut self) {
        // Nobody is there to be told of a failure: `finish` tells it.
        let _ended = self.stop();
    }
}

impl Drain {
    /// A thread that [runs](Drain::run_until) this until the guard is dropped. Where no thread can be made, the drain
    /// is gone.
    ///
    /// # Errors
    /// Where no thread can be made; the drain is gone then.
    pub fn spawn<W: Write + Send + 'static>(self, out: W) -> io::Result<Guard> {
        let asked = Arc::new(Asked::default());
        let (asked_there, parts) = (Arc::clone(&asked), self.parts().clone());
        let run = move || written(self, out, &asked_there);
        let writing = Builder::new().name("span-registry-writer".to_owned()).spawn(run)?;
        parts.common().is_written(Arc::clone(&asked));
        Ok(Guard {
            parts,
            asked,
            writing: Some(writing),
        })
    }
}

// What `finish` answers.
fn written(mut drain: Drain, mut out: impl Write, asked: &Asked) -> io::Result<u64> {
    let ended = catch_unwind(AssertUnwindSafe(|| drain.run_asked(&mut out, asked)));
    let has_failed = !matches!(ended, Ok(Ok(_)));
    if has_failed {
        asked.ends(has_failed);
        let _thrown_away = drain.run_until(&mut io::sink(), &asked.is_stopped);
    }
    let missed = drain.counts().missed;
    // Before the writer, whose own drop may make calls that would wait for this thread.
    drop(drain);
    asked.ends(has_failed);
    let lines = ended.unwrap_or_else(|panic| resume_unwind(panic))?;
    match missed {
        0 => Ok(lines),
        missed => Err(io::Error::new(
            io::ErrorKind::OutOfMemory,
            format!("lines written: {lines}, missing for want of memory: {missed}"),
        )),
    }
}

/// What is asked of the thread that writes, by who hasn't its [`Guard`], as where the registry is in a static.
impl Registry {
    /// As [`Guard::flush`].
    ///
    /// # Errors
    /// Those of [`Guard::flush`], and [`NotFound`](io::ErrorKind::NotFound) where no writer was spawned.
    ///
    /// ```
    /// # fn main() -> Result<(), Box<dyn std::error::Error>> {
    /// use span_registry::{event, Layer, Level, Registry};
    /// let (registry, _guard) = Registry::builder().layer(Layer::compact()).spawn_writer(std::io::stdout())?;
    /// event!(registry, Level::Info, "that line is out");
    /// registry.flush()?;
    /// # Ok(())
    /// # }
    /// ```
    pub fn flush(&self) -> io::Result<()> {
        let writer = self.writer()?;
        if workers::is_writing(self.parts().common()) {
            return Err(waits_for_itself());
        }
        writer.flush()
    }

    /// The end of the writer, as where its [`Guard`] is dropped: all lines of the calls that were accepted before it
    /// was first asked to end are written and flushed, and which spans are open is told. Nobody reads any longer then:
    /// lines are thrown away, and counted as [`Lost::lines`](crate::Lost::lines). [`Guard::finish`] still tells how
    /// many were written, and want of memory.
    ///
    /// # Errors
    /// Where a write or a flush failed or panicked, now or before; where the writer itself calls it, which ends then
    /// and isn't waited for; and [`NotFound`](io::ErrorKind::NotFound) where none was spawned.
    ///
    /// ```
    /// # fn main() -> Result<(), Box<dyn std::error::Error>> {
    /// use span_registry::{event, Layer, Level, Registry};
    /// let (registry, guard) = Registry::builder().layer(Layer::compact()).spawn_writer(std::io::stdout())?;
    /// event!(registry, Level::Info, "the last line");
    /// registry.shutdown()?;
    /// event!(registry, Level::Info, "nobody reads this");
    /// assert_eq!(guard.finish()?, 1);
    /// # Ok(())
    /// # }
    /// ```
    pub fn shutdown(&self) -> io::Result<()> {
        let writer = self.writer()?;
        if workers::is_writing(self.parts().common()) {
            writer.asks_for_the_end();
            return Err(waits_for_itself());
        }
        writer.stop()
    }

    fn writer(&self) -> io::Result<&Asked> {
        let none = || io::Error::new(io::ErrorKind::NotFound, "no writer was spawned");
        self.parts().common().writer().ok_or_else(none)
    }
}

impl RegistryBuilder {
    /// The registry, and the guard of a thread that writes all its lines. Give the guard a name: `_` drops it at once.
    /// Where nothing else was said by [`on_full`](RegistryBuilder::on_full), a call that finds the ring full waits.
    ///
    /// What was [lost](crate::Lost), and at the end the spans that are still open, is told at `WARN` of the target
    /// `span_registry`: a layer of `app=info` is told of neither, one of `app=info,span_registry=warn` of both.
    /// [`Guard::open_spans`] and [`Registry::lost`] answer it to the program, whatever the layers are.
    ///
    /// # Errors
    /// Those of [`build`](RegistryBuilder::build), and [`OutOfMemory`](Error::OutOfMemory) where no thread can be
    /// made.
    ///
    /// ```
    /// # fn main() -> Result<(), Box<dyn std::error::Error>> {
    /// use span_registry::{event, Layer, Level, Registry};
    /// let (registry, guard) = Registry::builder().layer(Layer::compact()).spawn_writer(std::io::stdout())?;
    /// event!(registry, Level::Info, "started");
    /// assert_eq!(guard.finish()?, 1);
    /// # Ok(())
    /// # }
    /// ```
    pub fn spawn_writer<W: Write + Send + 'static>(self, out: W) -> Result<(Registry, Guard), Error> {
        let (registry, drain) = self.or_on_full(OnFull::Wait).build()?;
        let guard = drain.spawn(out).map_err(|_| Error::OutOfMemory)?;
        Ok((registry, guard))
    }
}
