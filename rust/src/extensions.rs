//! What the program has spans carry: values of its own types.
#![forbid(unsafe_code)]
use crate::carried::Value;
use crate::error::Error;
use crate::meta::{Id, RawId};
use crate::refusal::Refusal;
use crate::registry::Registry;
use crate::state::State;
use std::any::{Any, TypeId};
use std::fmt;
use std::sync::Arc;

/// What a span carries: values of the program's own, one of each type, as [`Span::extensions`](crate::Span::extensions)
/// and [`Registry::extensions`] answer them. With a disabled span that succeeds, and it carries nothing.
///
/// The registry lets go of a value exactly when its span has closed, whatever closed it, and before the call ends that
/// did: a drop, an exit, the close of its last child, the end of a thread, or, where that was owed, the call that came
/// to it. Who has got an `Arc` of a value keeps that as long as they like.
///
/// Nothing of the program's runs under a lock, so a value's `Drop` may call the registry, and drop other spans. Where
/// it panics, the panic ends there, and the call goes on.
///
/// Values are shared, so one that is to change has a `Mutex` or an atomic inside. One that has a handle of its own span
/// keeps that open for ever, and one that has a clone of the registry keeps that until the span closes.
///
/// To carry a value may be refused for want of memory, and to let go of it takes none. No call takes a place in the
/// ring. As long as no open span carries anything, all calls are as quick as ever.
///
/// ```
/// # fn main() -> Result<(), span_registry::Error> {
/// # let (registry, mut drain) = span_registry::Registry::builder()
/// #     .layer(span_registry::Layer::compact()).build()?;
/// use span_registry::{event, span, Error, Level, Registry};
/// use std::sync::atomic::{AtomicU64, Ordering};
/// use std::sync::Arc;
///
/// /// How many rows a request read. At its end it says so.
/// struct Rows(AtomicU64, Registry);
///
/// impl Drop for Rows {
///     fn drop(&mut self) {
///         event!(self.1, target: "app", Level::Info, { rows = *self.0.get_mut() }, "read");
///     }
/// }
///
/// let request = span!(registry, target: "app", Level::Info, "request");
/// request.extensions().insert(Arc::new(Rows(AtomicU64::new(0), registry.clone())))?;
/// let id = request.id().expect("made");
/// if let Some(rows) = registry.extensions(id).get::<Rows>()? {
///     rows.0.fetch_add(3, Ordering::Relaxed);
/// }
/// drop(request);
/// assert_eq!(registry.extensions(id).contains::<Rows>(), Err(Error::Unknown));
/// # let lines: Vec<String> = drain.lines().map(|line| line.text).collect();
/// assert_eq!(lines, ["new 1 w0 request", "close 1 w0 request", "event 0 w0 - INFO read rows=3"]);
/// # Ok(())
/// # }
/// ```
#[derive(Clone, Copy)]
pub struct Extensions<'a> {
    // None of a disabled span.
    of: Option<(&'a Registry, Id)>,
}

impl<'a> Extensions<'a> {
    pub(crate) fn of(of: Option<(&'a Registry, Id)>) -> Extensions<'a> {
        Extensions { of }
    }

    /// The span carries a value, where it carries none of its type. Whether it does so now: false where it goes on
    /// carrying another one.
    ///
    /// # Errors
    /// [`OtherRegistry`](Error::OtherRegistry), [`Unknown`](Error::Unknown) where the span isn't open,
    /// [`OutOfMemory`](Error::OutOfMemory).
    pub fn insert<T: Any + Send + Sync>(&self, value: Arc<T>) -> Result<bool, Error> {
        let value: Value = value;
        let put = |state: &mut State, id| {
            let is_free = state.value(id, TypeId::of::<T>())?.is_none();
            if is_free {
                state.replace_value(id, &value)?;
            }
            Ok(is_free)
        };
        Ok(self.call(put)?.unwrap_or_default())
    }

    /// The span carries a value in place of the one of its type, which this answers.
    ///
    /// # Errors
    /// Those of [`insert`](Extensions::insert).
    pub fn replace<T: Any + Send + Sync>(&self, value: Arc<T>) -> Result<Option<Arc<T>>, Error> {
        let value: Value = value;
        Ok(typed(self.call(|state, id| state.replace_value(id, &value))?))
    }

    /// The value of this type that the span carries.
    ///
    /// # Errors
    /// [`OtherRegistry`](Error::OtherRegistry), [`Unknown`](Error::Unknown) where the span isn't open.
    pub fn get<T: Any + Send + Sync>(&self) -> Result<Option<Arc<T>>, Error> {
        let kind = TypeId::of::<T>();
        Ok(typed(self.call(|state, id| Ok(state.value(id, kind)?.cloned()))?))
    }

    /// Whether the span carries a value of this type.
    ///
    /// # Errors
    /// Those of [`get`](Extensions::get).
    pub fn contains<T: Any + Send + Sync>(&self) -> Result<bool, Error> {
        let kind = TypeId::of::<T>();
        let contains = self.call(|state, id| Ok(state.value(id, kind)?.is_some()))?;
        Ok(contains.unwrap_or_default())
    }

    /// The span doesn't carry its value of this type any longer, which this answers.
    ///
    /// # Errors
    /// Those of [`get`](Extensions::get).
    pub fn remove<T: Any + Send + Sync>(&self) -> Result<Option<Arc<T>>, Error> {
        let kind = TypeId::of::<T>();
        Ok(typed(self.call(|state, id| state.remove_value(id, kind))?))
    }

    // None of a disabled span.
    fn call<T>(&self, call: impl FnOnce(&mut State, RawId) -> Result<T, Refusal>) -> Result<Option<T>, Error> {
        let Some((registry, id)) = self.of else {
            return Ok(None);
        };
        let (at, id) = registry.own(id)?;
        Ok(Some(at.part.settled(|state| call(state, id))?))
    }
}

fn typed<T: Any + Send + Sync>(value: Option<Option<Value>>) -> Option<Arc<T>> {
    value.flatten()?.downcast().ok()
}

impl fmt::Debug for Extensions<'_> {
    fn fmt(&self, f: &mut fmt::Formatter<'_>) -> fmt::Result {
        let id = self.of.map(|(_, id)| id.into_u64());
        f.debug_tuple("Extensions").field(&id).finish()
    }
}

impl Registry {
    /// What a span carries of the program's own. Whether the id is one of an open span's, each of its calls says.
    #[must_use]
    pub fn extensions(&self, id: Id) -> Extensions<'_> {
        Extensions::of(Some((self, id)))
    }
}
