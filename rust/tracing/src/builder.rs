//! A subscriber before it is built, and the ways to have one.
#![forbid(unsafe_code)]
use crate::subscriber::ProvedSubscriber;
use span_registry::{Drain, Error, Guard, Layer, OnFull, Registry, RegistryBuilder};
use std::fmt;
use std::io::Write;
use std::sync::atomic::AtomicU64;
use tracing_core::dispatcher::{set_global_default, Dispatch};

/// How many spans may be open, and how many calls may wait for the writer, where nothing is said.
const SLOTS: u32 = 65_536;
const RING: u32 = 4096;

/// A [`ProvedSubscriber`] that is to be built. The range of a limit is looked at then.
#[derive(Clone, Debug)]
#[must_use = "it has to be built"]
pub struct SubscriberBuilder {
    registry: RegistryBuilder,
    slots: u32,
    parts: u32,
    is_silent: bool,
}

impl Default for SubscriberBuilder {
    fn default() -> SubscriberBuilder {
        let registry = Registry::builder().slots(SLOTS).ring(RING);
        SubscriberBuilder { registry, slots: SLOTS, parts: 1, is_silent: true }
    }
}

impl SubscriberBuilder {
    /// One more layer: its form, its targets and levels, and of which parts of a span's life it is told. At most 64.
    ///
    /// With no layer spans are made and nothing is told.
    pub fn layer(self, layer: Layer) -> SubscriberBuilder {
        SubscriberBuilder { registry: self.registry.layer(layer), is_silent: false, ..self }
    }

    /// How many spans may be open at once: 1 to 16777216, by default 65,536. Their memory is taken at once.
    pub fn slots(self, slots: u32) -> SubscriberBuilder {
        SubscriberBuilder { registry: self.registry.slots(slots), slots, ..self }
    }

    /// In so many parts, each with a lock of its own: 1 to 128, by default 1. Each has as many slots, and a ring, as is
    /// said: see [`RegistryBuilder::parts`].
    pub fn parts(self, parts: u32) -> SubscriberBuilder {
        SubscriberBuilder { registry: self.registry.parts(parts), parts, ..self }
    }

    /// How many threads may be inside spans at once: 1 to 65536, by default 256. Any number may call.
    pub fn workers(self, workers: u32) -> SubscriberBuilder {
        SubscriberBuilder { registry: self.registry.workers(workers), ..self }
    }

    /// How many calls may wait for the writer: 1 to 65536, by default 4096. A new span takes three places.
    pub fn ring(self, ring: u32) -> SubscriberBuilder {
        SubscriberBuilder { registry: self.registry.ring(ring), ..self }
    }

    /// What a call does that finds the ring full: it waits where a writer is spawned, and else is refused, if nothing
    /// is said.
    pub fn on_full(self, on_full: OnFull) -> SubscriberBuilder {
        SubscriberBuilder { registry: self.registry.on_full(on_full), ..self }
    }

    /// The greatest count of a span's clones, threads inside and open children: 1 to 4294967295, which is the default.
    /// A span is made with two.
    pub fn max_count(self, max_count: u32) -> SubscriberBuilder {
        SubscriberBuilder { registry: self.registry.max_count(max_count), ..self }
    }

    /// The subscriber, and the end from which its lines are read, which has to be read also where there is no layer.
    ///
    /// # Errors
    /// Those of [`RegistryBuilder::build`].
    pub fn build(self) -> Result<(ProvedSubscriber, Drain), Error> {
        let (parts, slots, is_silent) = (self.parts, self.slots, self.is_silent);
        let (registry, drain) = self.registry.build()?;
        Ok((ProvedSubscriber::new(registry, is_silent, room(parts, slots)?), drain))
    }

    /// The subscriber, and the guard of a thread that writes all its lines until that is dropped.
    ///
    /// # Errors
    /// Those of [`RegistryBuilder::spawn_writer`].
    pub fn spawn_writer<W: Write + Send + 'static>(self, out: W) -> Result<(ProvedSubscriber, Guard), Error> {
        let (parts, slots, is_silent) = (self.parts, self.slots, self.is_silent);
        let (registry, guard) = self.registry.spawn_writer(out)?;
        Ok((ProvedSubscriber::new(registry, is_silent, room(parts, slots)?), guard))
    }

    /// [`spawn_writer`](SubscriberBuilder::spawn_writer), and it is the default subscriber of all threads from now on.
    /// Give the guard a name: `_` drops it at once.
    ///
    /// # Errors
    /// Where it can't be built, or there is a default subscriber of all threads.
    pub fn init<W: Write + Send + 'static>(self, out: W) -> Result<(ProvedSubscriber, Guard), InitError> {
        let (subscriber, guard) = self.spawn_writer(out).map_err(InitError::Build)?;
        set_global_default(Dispatch::new(subscriber.clone())).map_err(|_| InitError::IsSet)?;
        Ok((subscriber, guard))
    }
}

// For each slot of each part.
fn room(parts: u32, slots: u32) -> Result<Vec<Vec<AtomicU64>>, Error> {
    (0..parts).map(|_| room_of_part(slots)).collect()
}

fn room_of_part(slots: u32) -> Result<Vec<AtomicU64>, Error> {
    let mut room = Vec::new();
    room.try_reserve_exact(slots as usize).map_err(|_| Error::OutOfMemory)?;
    room.extend((0..slots).map(|_| AtomicU64::new(0)));
    Ok(room)
}

/// Why there is no default subscriber by [`SubscriberBuilder::init`].
#[derive(Clone, Debug, PartialEq, Eq)]
#[non_exhaustive]
pub enum InitError {
    /// The registry could not be built.
    Build(Error),
    /// There is one already.
    IsSet,
}

impl fmt::Display for InitError {
    fn fmt(&self, f: &mut fmt::Formatter<'_>) -> fmt::Result {
        match self {
            InitError::Build(error) => error.fmt(f),
            InitError::IsSet => f.write_str("all threads have a default subscriber already"),
        }
    }
}

impl std::error::Error for InitError {}
