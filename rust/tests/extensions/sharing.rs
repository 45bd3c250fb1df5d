//! Calls at random, by one thread and by four: what is carried and what is open stay the same.
use crate::common::{assert_empty, compact, info};
use crate::id_of;
use span_registry::{event, Drain, Id, Level, OnFull, Parent, Registry, Span};
use std::collections::HashSet;
use std::sync::atomic::{AtomicU64, Ordering};
use std::sync::{Arc, Mutex, Weak};
use std::thread;

struct Random(u64);

impl Random {
    fn below(&mut self, bound: usize) -> usize {
        self.0 ^= self.0 << 13;
        self.0 ^= self.0 >> 7;
        self.0 ^= self.0 << 17;
        (self.0 >> 33) as usize % bound
    }
}

/// A value that knows whose it is, is counted, and logs in the end.
struct Counted {
    of: Id,
    alive: Arc<AtomicU64>,
    registry: Registry,
}

impl Drop for Counted {
    fn drop(&mut self) {
        self.alive.fetch_sub(1, Ordering::Relaxed);
        if self.of.slot() % 2 == 0 {
            event!(self.registry, Level::Info, { of = self.of }, "end");
        }
    }
}

/// What threads have in common.
struct World {
    registry: Registry,
    handles: Mutex<Vec<Span>>,
    made: Mutex<Vec<(Id, Weak<Counted>)>>,
    alive: Arc<AtomicU64>,
}

impl World {
    fn of(registry: Registry) -> World {
        World {
            registry,
            handles: Mutex::default(),
            made: Mutex::default(),
            alive: Arc::default(),
        }
    }

    fn value(&self, of: Id) -> Arc<Counted> {
        self.alive.fetch_add(1, Ordering::Relaxed);
        let value = Arc::new(Counted {
            of,
            alive: Arc::clone(&self.alive),
            registry: self.registry.clone(),
        });
        self.made.lock().expect("no panic").push((of, Arc::downgrade(&value)));
        value
    }

    fn keep(&self, span: Span) {
        self.handles.lock().expect("no panic").push(span);
    }

    /// A handle of some span that isn't anybody's any longer.
    fn taken(&self, random: &mut Random) -> Option<Span> {
        let mut handles = self.handles.lock().expect("no panic");
        let count = handles.len();
        (count > 0).then(|| handles.swap_remove(random.below(count)))
    }

    fn make(&self, random: &mut Random) {
        let parent = self.taken(random);
        let id = parent.as_ref().filter(|_| random.below(4) > 0).and_then(Span::id);
        if let Ok(span) = self
            .registry
            .span(&info("a"), id.map_or(Parent::Current, Parent::Of), &[])
        {
            let own = id_of(&span);
            assert!(random.below(4) == 0 || span.extensions().insert(self.value(own)) == Ok(true));
            self.keep(span);
        }
        parent.into_iter().for_each(|parent| self.keep(parent));
    }

    /// One of the calls. Those of the ring may be refused.
    fn step(&self, random: &mut Random) {
        let kind = random.below(10);
        if kind < 3 {
            return self.make(random);
        }
        let Some(span) = self.taken(random) else { return };
        let (id, extensions) = (id_of(&span), self.registry.extensions(id_of(&span)));
        match kind {
            3 | 4 => return drop(span),
            5 => span.in_scope(|| self.make(random)),
            6 => {
                // Where it is entered, the exit closes it.
                let is_inside = self.registry.enter(id).is_ok();
                drop(span);
                return assert!(!is_inside || self.registry.exit_or_owe(id).is_ok());
            }
            7 => span.try_clone().into_iter().for_each(|own| self.keep(own)),
            8 => assert!(extensions
                .replace(self.value(id))
                .is_ok_and(|old| old.is_none_or(|old| old.of == id))),
            _ if random.below(2) == 0 => drop(extensions.remove::<Counted>().expect("its handle is here")),
            _ => assert!(extensions
                .get::<Counted>()
                .is_ok_and(|got| got.is_none_or(|got| got.of == id))),
        }
        self.keep(span);
    }

    /// Nobody calls now: each value that is there is carried by an open span, each by its own.
    fn check(&self) {
        let mut made = self.made.lock().expect("no panic");
        let spans: HashSet<Id> = made.iter().map(|&(id, _)| id).collect();
        let carrying = spans
            .iter()
            .filter(|&&id| self.registry.extensions(id).contains::<Counted>() == Ok(true));
        let carrying: HashSet<Id> = carrying.copied().collect();
        made.retain(|(_, value)| value.strong_count() > 0);
        let there: HashSet<Id> = made.iter().map(|&(id, _)| id).collect();
        assert_eq!(
            (there, made.len(), self.alive.load(Ordering::Relaxed)),
            (carrying.clone(), carrying.len(), carrying.len() as u64)
        );
        assert!(made.iter().all(|&(id, _)| self.registry.find(id).is_some()));
    }

    fn end(self, mut drain: Drain) {
        while let Some(span) = self.taken(&mut Random(1)) {
            drop(span);
            drain.lines().for_each(drop);
        }
        self.check();
        assert_eq!(self.alive.load(Ordering::Relaxed), 0);
        assert_empty(&self.registry);
    }
}

#[test]
fn what_is_carried_is_what_open_spans_were_given() {
    for seed in 1..=40 {
        let mut random = Random(seed << 20 | 7);
        let (ring, parts) = ([1, 4, 64][random.below(3)], [1, 2][random.below(2)]);
        let (registry, mut drain) = compact().slots(40).parts(parts).ring(ring).build().expect("it fits");
        let world = World::of(registry);
        for _ in 0..300 {
            world.step(&mut random);
            world.check();
            if random.below(3) > 0 {
                drain.lines().for_each(drop);
            }
        }
        world.end(drain);
    }
}

#[test]
fn four_threads_carry_share_and_close() {
    for (parts, on_full) in [(1, OnFull::DropOldest), (3, OnFull::DropOldest), (1, OnFull::Refuse)] {
        let (registry, mut drain) = compact()
            .workers(4)
            .slots(500)
            .parts(parts)
            .on_full(on_full)
            .build()
            .expect("it fits");
        let world = World::of(registry);
        for round in 0..20 {
            thread::scope(|scope| {
                for thread in 1..=4 {
                    let world = &world;
                    scope.spawn(move || {
                        let mut random = Random(round << 20 | thread << 9 | 7);
                        (0..200).for_each(|_| world.step(&mut random));
                    });
                }
            });
            drain.lines().for_each(drop);
            world.registry.settle().expect("there is room");
            drain.lines().for_each(drop);
            world.check();
        }
        world.end(drain);
    }
}
