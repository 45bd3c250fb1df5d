//! The spans of a registry: proved stores with a lock each, and beside each the data of its spans, read without a lock.
//!
//! A thread's roots are made in the store that its seat names, and children in the store of their parent: so each tree
//! is in one store, with all that is proved of it. Where that store is full, a child is made in another one, as a root
//! there that has a handle of its parent, which is given back when the child ended.
use super::{
    numbers,
    places::{Clear, Places},
    raw::{Found, Held, Store},
    refused::{boxed, Refused},
    routing::{home, slot, Ids},
};
use crate::{filter::FilterMap, registry::extensions::ExtensionsInner, sync::RwLock};
use std::{
    fmt, mem,
    num::NonZeroU64,
    panic::RefUnwindSafe,
    sync::{
        atomic::{AtomicBool, AtomicIsize, AtomicUsize, Ordering},
        Mutex, OnceLock, PoisonError,
    },
};
use tracing_core::{dispatcher::WeakDispatch, span::Id, Metadata};

/// An id is, from its highest bits on: a bit that is 0, the registry's number (13 bits), the store's place in the
/// registry, and the store's own id.
const IDS: Ids = Ids::new(44, 6);
const LAST_GENERATION: u32 = IDS.last_generation();

/// How many seats threads take, and how many stores each has, which are opened as those before are full.
const SEATS: usize = 16;
const ROWS: usize = 4;
const STORES: usize = SEATS * ROWS;
const _: () = assert!(STORES == IDS.parts() as usize);
/// How many slots the stores of each row have. Their memory is asked for at once, and taken slot by slot.
const SLOTS: [u32; ROWS] = [1 << 16, 1 << 20, 1 << 20, 1 << 20];
/// How many handles and children may hold a span.
const GREATEST_COUNT: u32 = u32::MAX;

/// How often a registry looks whether it is in the default dispatcher, until it was.
pub(super) const MOST_LOOKS: isize = 4096;

/// What layers read of a span.
#[derive(Debug)]
pub(super) struct DataInner {
    pub(super) id: u64,
    pub(super) metadata: Option<&'static Metadata<'static>>,
    pub(super) parent: Option<Id>,
    /// The parent is in another store: this span has a handle of it.
    pub(super) is_apart: bool,
    pub(super) filter_map: FilterMap,
    pub(super) extensions: RwLock<ExtensionsInner>,
}

impl Default for DataInner {
    fn default() -> Self {
        DataInner {
            id: 0,
            metadata: None,
            parent: None,
            is_apart: false,
            filter_map: FilterMap::default(),
            // The crate's lock over parking_lot has no default.
            extensions: RwLock::new(ExtensionsInner::new()),
        }
    }
}

impl Clear for DataInner {
    /// Drops what layers keep there, and keeps the map's memory.
    fn clear(&mut self) {
        // This may run while the thread panics: a poisoned lock is no hindrance.
        match self.extensions.get_mut() {
            Ok(extensions) => extensions.clear(),
            Err(poisoned) => poisoned.into_inner().clear(),
        }
    }
}

impl<T: Clear + fmt::Debug> fmt::Debug for Held<'_, T> {
    fn fmt(&self, f: &mut fmt::Formatter<'_>) -> fmt::Result {
        (**self).fmt(f)
    }
}

/// A store and its spans' data; each has its own lines of the processors' caches.
#[repr(align(128))]
struct Part {
    store: Store,
    data: Places<DataInner>,
}

/// A span that is closing: nothing holds it any longer, and no child of it is there. Whoever has this value ends it,
/// when the layers were told: the value is made once for each span, can't be copied, and is given up by `Spans::end`
/// alone. What lets go of it in another way is a fault, which tests with debug assertions see.
#[must_use]
pub(super) struct Closing(NonZeroU64);

impl Closing {
    pub(super) fn id(&self) -> u64 {
        self.0.get()
    }
}

#[cfg(debug_assertions)]
impl Drop for Closing {
    fn drop(&mut self) {
        assert!(std::thread::panicking(), "a span that is closing was not ended");
    }
}

/// The part of an id, and its id in the store there.
struct Place<'a> {
    part: &'a Part,
    index: usize,
    own: u64,
}

/// A span that was made, which has no data yet.
struct Made<'a> {
    part: &'a Part,
    index: usize,
    own: u64,
    is_apart: bool,
}

pub(super) struct Spans {
    number: u64,
    parts: [OnceLock<Box<[Part; 1]>>; STORES],
    // The row in which a seat's store had room last, where the first one was full.
    rows: [AtomicUsize; SEATS],
    // The dispatcher of the whole stack of layers, once it was seen as a thread's default.
    pub(super) dispatch: Mutex<Option<WeakDispatch>>,
    // How often it is still looked for.
    pub(super) looks: AtomicIsize,
    // Whether a release went through a layer.
    pub(super) has_layers: AtomicBool,
    // Spans that are closing, and that the layers are still to be told of.
    pub(super) untold: Mutex<Vec<Closing>>,
}

// No panic of a layer's leaves a call of a store half done.
impl RefUnwindSafe for Spans {}

impl fmt::Debug for Spans {
    fn fmt(&self, f: &mut fmt::Formatter<'_>) -> fmt::Result {
        f.debug_struct("Spans").field("number", &self.number).finish()
    }
}

impl Drop for Spans {
    fn drop(&mut self) {
        // What waits for its end goes with its store.
        let untold = self.untold.get_mut().unwrap_or_else(PoisonError::into_inner);
        untold.drain(..).for_each(mem::forget);
        numbers::give_back(self.number);
    }
}

impl Spans {
    pub(super) fn new() -> Self {
        Spans {
            number: numbers::next().unwrap_or_else(|| {
                panic!("Unable to make another registry: {} are there", numbers::GREATEST);
            }),
            parts: std::array::from_fn(|_| OnceLock::new()),
            rows: std::array::from_fn(|_| AtomicUsize::new(1)),
            dispatch: Mutex::new(None),
            looks: AtomicIsize::new(MOST_LOOKS),
            has_layers: AtomicBool::new(false),
            untold: Mutex::new(Vec::new()),
        }
    }

    /// Whether an id names this registry.
    pub(super) fn is_own(&self, id: u64) -> bool {
        IDS.route(self.number, id).is_some()
    }

    #[inline]
    fn place(&self, id: u64) -> Option<Place<'_>> {
        let (index, own) = IDS.route(self.number, id)?;
        let index = index as usize;
        let [part] = &**self.parts[index].get()?;
        Some(Place { part, index, own })
    }

    /// The id of a store's own one.
    #[inline]
    fn full_id(&self, index: usize, own: u64) -> u64 {
        IDS.above(self.number, index as u32) | own
    }

    #[cold]
    fn open(&self, index: usize) -> Result<&Part, Refused> {
        let store = Store::new(SLOTS[index / SEATS], LAST_GENERATION, GREATEST_COUNT)?;
        let part = boxed(Part { store, data: Places::default() })?;
        Ok(&self.parts[index].get_or_init(|| part)[0])
    }

    /// A new span with one handle, under a parent that is open, or under none. `fill` writes its data.
    #[inline(always)]
    pub(super) fn add(&self, parent: Option<u64>, fill: impl Fn(&mut DataInner)) -> Result<u64, Refused> {
        let made = match parent {
            None => self.add_root()?,
            Some(parent) => {
                let place = self.place(parent).ok_or(Refused::Unknown)?;
                match place.part.store.add(place.own) {
                    Err(Refused::Full) => self.add_apart(parent)?,
                    own => Made { part: place.part, index: place.index, own: own?, is_apart: false },
                }
            }
        };
        let id = self.full_id(made.index, made.own);
        let filled = made.part.data.put(slot(made.own), id, |data| {
            data.id = id;
            data.is_apart = made.is_apart;
            data.parent = parent.map(Id::from_u64);
            fill(data);
        });
        match filled {
            Ok(()) => Ok(id),
            Err(why) => Err(self.take_back(made, parent, why)),
        }
    }

    #[inline(always)]
    fn add_root(&self) -> Result<Made<'_>, Refused> {
        let seat = home(SEATS as u32) as usize;
        let part = match self.parts[seat].get() {
            Some(part) => &part[0],
            None => self.open(seat)?,
        };
        match part.store.add(0) {
            Err(Refused::Full) => self.add_anywhere(seat),
            own => Ok(Made { part, index: seat, own: own?, is_apart: false }),
        }
    }

    /// In the seat's other stores, the one first where there was room before, else in any.
    #[cold]
    fn add_anywhere(&self, seat: usize) -> Result<Made<'_>, Refused> {
        let first = self.rows[seat].load(Ordering::Relaxed);
        let own = (first..ROWS).chain(1..ROWS).map(|row| row * SEATS + seat);
        for index in own.chain(0..STORES) {
            let part = match self.parts[index].get() {
                Some(part) => &part[0],
                None => self.open(index)?,
            };
            match part.store.add(0) {
                Err(Refused::Full) => {}
                own => {
                    if index % SEATS == seat {
                        self.rows[seat].store(index / SEATS, Ordering::Relaxed);
                    }
                    return Ok(Made { part, index, own: own?, is_apart: false });
                }
            }
        }
        Err(Refused::Full)
    }

    /// A root in another store, for which the parent is kept.
    #[cold]
    fn add_apart(&self, parent: u64) -> Result<Made<'_>, Refused> {
        self.keep(parent)?;
        match self.add_root() {
            Ok(made) => Ok(Made { is_apart: true, ..made }),
            Err(why) => {
                self.leave(parent);
                Err(why)
            }
        }
    }

    /// Gives up a span that nobody knows yet. Its parent may be closing by that, where others let go of it meanwhile.
    #[cold]
    fn take_back(&self, made: Made<'_>, parent: Option<u64>, why: Refused) -> Refused {
        let _is_closing = made.part.store.release(made.own);
        match (made.part.store.ended(made.own), parent) {
            (Ok(own), _) if own != 0 => {
                if let Some(parent) = self.closing(made.index, own) {
                    self.tell_and_close_up(parent, None);
                }
            }
            (_, Some(parent)) if made.is_apart => self.leave(parent),
            _ => {}
        }
        why
    }

    /// A store tells that this span of it is closing.
    #[inline]
    fn closing(&self, index: usize, own: u64) -> Option<Closing> {
        NonZeroU64::new(self.full_id(index, own)).map(Closing)
    }

    /// One more handle of a span that is open.
    #[inline]
    pub(super) fn keep(&self, id: u64) -> Result<(), Refused> {
        let place = self.place(id).ok_or(Refused::Unknown)?;
        place.part.store.keep(place.own)
    }

    /// Gives a handle back. A span that is closing now is answered once, and is to be ended.
    #[inline]
    pub(super) fn release(&self, id: u64) -> Result<Option<Closing>, Refused> {
        let place = self.place(id).ok_or(Refused::Unknown)?;
        let is_closing = place.part.store.release(place.own)?;
        Ok(if is_closing { NonZeroU64::new(id).map(Closing) } else { None })
    }

    /// Ends a span: its id finds nothing from now on, and its parent is let go of, which is answered where it is
    /// closing by that. Its data stays until the last reader, of which the one answered here is one, is gone.
    #[inline(always)]
    pub(super) fn end(&self, closing: Closing) -> (Option<Held<'_, DataInner>>, Option<Closing>) {
        let id = closing.id();
        mem::forget(closing);
        let Some(place) = self.place(id) else { return (None, None) };
        let data = place.part.data.take(slot(place.own), id);
        let ended = place.part.store.ended(place.own);
        debug_assert!(ended.is_ok() && data.is_some(), "a span ends once");
        let parent = match &data {
            Some(data) if data.is_apart => {
                let parent = data.parent.as_ref().map_or(0, Id::into_u64);
                self.release(parent).ok().flatten()
            }
            _ => match ended {
                Ok(0) | Err(_) => None,
                Ok(own) => self.closing(place.index, own),
            },
        };
        (data, parent)
    }

    /// What layers read of a span that is there, closing or not.
    #[inline]
    pub(super) fn data(&self, id: u64) -> Option<Held<'_, DataInner>> {
        let place = self.place(id)?;
        place.part.data.get(slot(place.own), id)
    }

    /// Shows each span that is there throughout, once, with what holds it in its store.
    pub(super) fn each(&self, mut show: impl FnMut(&DataInner, Found)) {
        for (index, part) in self.parts.iter().enumerate() {
            let Some([part]) = part.get().map(|part| &**part) else { continue };
            let mut own = 0;
            while let Ok(next @ 1..) = part.store.next(own) {
                own = next;
                let data = part.data.get(slot(own), self.full_id(index, own));
                if let (Some(data), Ok(found)) = (data, part.store.find(own)) {
                    show(&data, found);
                }
            }
        }
    }
}
