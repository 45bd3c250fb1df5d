//! What open spans carry of the program's own, under the lock, and how it leaves that.
#![forbid(unsafe_code)]
use crate::by_slot::BySlot;
use crate::meta::RawId;
use crate::packed::reserve;
use crate::refusal::Refusal;
use std::any::{Any, TypeId};
use std::mem;
use std::panic::{catch_unwind, AssertUnwindSafe};
use std::sync::Arc;

/// A value of a type of the program's.
pub(crate) type Value = Arc<dyn Any + Send + Sync>;

/// What a span carries, one of each type; and once it has closed, what others did that leave the lock with it.
#[derive(Default)]
pub(crate) struct Load {
    values: Vec<Value>,
    // It has room for one from the first value on: so that to close takes no memory.
    others: Vec<Load>,
}

impl Load {
    fn of(value: &Value) -> Result<Load, Refusal> {
        let mut load = Load::default();
        load.others.try_reserve_exact(1).map_err(|_| Refusal::OUT_OF_MEMORY)?;
        load.replace(value)?;
        Ok(load)
    }

    fn place(&self, kind: TypeId) -> Option<usize> {
        self.values.iter().position(|value| (**value).type_id() == kind)
    }

    fn replace(&mut self, value: &Value) -> Result<Option<Value>, Refusal> {
        if let Some(place) = self.place((**value).type_id()) {
            return Ok(Some(mem::replace(&mut self.values[place], Arc::clone(value))));
        }
        reserve(&mut self.values, 1)?;
        self.values.push(Arc::clone(value));
        Ok(None)
    }
}

/// One value after another, however many loads there are. Whoever closes a span, which may be any call, is spared the
/// panics of what that carried.
impl Drop for Load {
    fn drop(&mut self) {
        for value in self.values.drain(..) {
            let _panicked = catch_unwind(AssertUnwindSafe(|| drop(value)));
        }
        let mut next = self.others.pop();
        while let Some(mut load) = next {
            next = load.others.pop();
        }
    }
}

/// The loads of open spans, and of those that closed since the lock was taken.
#[derive(Default)]
pub(crate) struct Carried {
    loads: BySlot<Load>,
    // How many open spans have one.
    count: usize,
    closed: Option<Load>,
}

impl Carried {
    /// Whether no open span carries anything.
    #[inline]
    pub(crate) fn is_nothing(&self) -> bool {
        self.count == 0
    }

    /// Whether closed ones did.
    #[inline]
    pub(crate) fn has_closed(&self) -> bool {
        self.closed.is_some()
    }

    /// What these carried: to be dropped where the lock isn't held, since that may call the registry.
    pub(crate) fn take_closed(&mut self) -> Option<Load> {
        self.closed.take()
    }

    /// A span's value of this type.
    pub(crate) fn get(&self, id: RawId, kind: TypeId) -> Option<&Value> {
        let load = self.loads.get(id)?;
        load.place(kind).map(|place| &load.values[place])
    }

    /// An open span carries a value in place of the one of its type, which it answers.
    pub(crate) fn replace(&mut self, id: RawId, value: &Value) -> Result<Option<Value>, Refusal> {
        if let Some(load) = self.loads.get_mut(id) {
            return load.replace(value);
        }
        let load = Load::of(value)?;
        self.loads.reserve(id)?;
        self.loads.put(id, load);
        self.count += 1;
        Ok(None)
    }

    /// A span doesn't carry its value of this type any longer, which it answers.
    pub(crate) fn remove(&mut self, id: RawId, kind: TypeId) -> Option<Value> {
        let load = self.loads.get_mut(id)?;
        let value = load.values.remove(load.place(kind)?);
        if load.values.is_empty() {
            self.loads.take(id);
            self.count -= 1;
        }
        Some(value)
    }

    /// A span closed.
    pub(crate) fn close(&mut self, id: RawId) {
        if let Some(mut load) = self.loads.take(id) {
            load.others.extend(self.closed.take());
            self.closed = Some(load);
            self.count -= 1;
        }
    }

    /// Each span that isn't open closed.
    pub(crate) fn sweep(&mut self, mut is_open: impl FnMut(RawId) -> bool) {
        let mut slot = 0;
        while let Some(id) = self.loads.first_from(slot) {
            if !is_open(id) {
                self.close(id);
            }
            slot = id.slot() + 1;
        }
    }
}

#[cfg(test)]
mod tests {
    use super::{Carried, Value};
    use crate::meta::RawId;
    use crate::refusal::Refusal;
    use std::any::TypeId;
    use std::sync::{Arc, Mutex, Weak};

    fn id(number: u64) -> RawId {
        RawId::from_u64(number).expect("not 0")
    }

    fn numbers(carried: &Carried, id: RawId) -> (Option<u32>, Option<u64>) {
        let small = carried
            .get(id, TypeId::of::<u32>())
            .and_then(|value| value.downcast_ref());
        let great = carried
            .get(id, TypeId::of::<u64>())
            .and_then(|value| value.downcast_ref());
        (small.copied(), great.copied())
    }

    #[test]
    fn a_span_carries_one_of_each_type() -> Result<(), Refusal> {
        let (mut carried, a) = (Carried::default(), id(3));
        let values: [Value; 3] = [Arc::new(1_u32), Arc::new(2_u64), Arc::new(3_u32)];
        assert_eq!((carried.is_nothing(), numbers(&carried, a)), (true, (None, None)));
        assert!(carried.replace(a, &values[0])?.is_none() && carried.replace(a, &values[1])?.is_none());
        assert_eq!(
            (carried.is_nothing(), numbers(&carried, a)),
            (false, (Some(1), Some(2)))
        );
        assert_eq!(
            (numbers(&carried, id(4)), numbers(&carried, id((1 << 24) + 3))),
            ((None, None), (None, None))
        );
        let replaced = carried.replace(a, &values[2])?;
        assert!(replaced.is_some_and(|value| Arc::ptr_eq(&value, &values[0])));
        assert_eq!(numbers(&carried, a), (Some(3), Some(2)));
        for kind in [TypeId::of::<u32>(), TypeId::of::<u64>()] {
            assert!(!carried.is_nothing());
            assert!(carried.remove(a, kind).is_some() && carried.remove(a, kind).is_none());
        }
        assert!(carried.is_nothing() && !carried.has_closed() && carried.take_closed().is_none());
        assert_eq!(values.map(|value| Arc::strong_count(&value)), [1; 3]);
        Ok(())
    }

    #[test]
    fn what_closed_leaves_at_once_and_takes_no_memory() -> Result<(), Refusal> {
        const SPANS: u64 = 100_000;
        let mut carried = Carried::default();
        let mut kept: Vec<Weak<u64>> = Vec::new();
        for number in 1..=SPANS {
            let value = Arc::new(number);
            kept.push(Arc::downgrade(&value));
            carried.replace(id(number), &(value as Value))?;
        }
        carried.sweep(|id| id.get() == 7);
        carried.close(id(7));
        carried.close(id(7));
        assert!(carried.is_nothing() && carried.has_closed());
        assert!(kept.iter().all(|value| value.strong_count() == 1));
        // There are too many for one to be dropped within another.
        drop(carried.take_closed());
        assert!(!carried.has_closed() && kept.iter().all(|value| value.strong_count() == 0));
        Ok(())
    }

    /// It says when it is dropped, and then it panics.
    struct Last(u32, Arc<Mutex<Vec<u32>>>);

    impl Drop for Last {
        fn drop(&mut self) {
            self.1.lock().expect("no panic here").push(self.0);
            std::panic::resume_unwind(Box::new("on purpose"));
        }
    }

    #[test]
    fn each_value_is_dropped_though_all_panic() -> Result<(), Refusal> {
        let (mut carried, dropped) = (Carried::default(), Arc::default());
        for number in [1, 2, 3] {
            let last: Value = Arc::new(Last(number, Arc::clone(&dropped)));
            carried.replace(id(u64::from(number)), &last)?;
        }
        (1..=3).for_each(|number| carried.close(id(number)));
        drop(carried.take_closed());
        assert_eq!(*dropped.lock().expect("no panic here"), [3, 2, 1]);
        Ok(())
    }
}
