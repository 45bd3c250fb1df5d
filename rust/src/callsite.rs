//! Callsites: places of a program whose meta is handed over once.
#![forbid(unsafe_code)]
use crate::error::Error;
use crate::meta::{Fields, Given, Id, Meta, Parent, RawId};
use crate::names::{named, NO_NAME};
use crate::packed::packed;
use crate::part::Part;
use crate::registry::Registry;
use crate::span::Span;

/// A place of a program that makes spans or tells events again and again, as [`Registry::callsite`] answers it.
///
/// It is a number and may be copied to any thread. It belongs to the registry that made it and to the clones of that
/// one; any other refuses it as [`OtherRegistry`](Error::OtherRegistry).
#[derive(Clone, Copy, Debug, PartialEq, Eq, Hash)]
pub struct Callsite {
    // No two registries of a process have the same one.
    registry: u64,
    // Among the callsites of its registry.
    number: u32,
    is_enabled: bool,
}

impl Callsite {
    /// Whether some layer admits what is made at it, as [`enabled_at`](Registry::enabled_at) answered when the callsite
    /// was made, since rules never change. It takes no lock.
    ///
    /// Where it is false, no layer is told of an event, and spans are made only where there is no layer.
    ///
    /// ```
    /// # fn main() -> Result<(), span_registry::Error> {
    /// use span_registry::{Layer, Level, Meta, Registry};
    /// let (registry, _drain) = Registry::builder().layer(Layer::compact().with_max_level(Level::Info)).build()?;
    /// let dump = registry.callsite(&Meta::event(Level::Trace, "app::db"))?;
    /// assert!(!dump.is_enabled()); // so the text of a dump needn't be made
    /// # Ok(())
    /// # }
    /// ```
    #[must_use]
    pub fn is_enabled(self) -> bool {
        self.is_enabled
    }

    // Its number, where it is one of this registry.
    fn number_in(self, registry: &Registry) -> Result<u32, Error> {
        if self.registry == registry.number() {
            Ok(self.number)
        } else {
            Err(Error::OtherRegistry)
        }
    }
}

/// Spans and events at callsites. The calls by meta read, check and copy a name and a target each time; these don't.
impl Registry {
    /// A callsite with this meta, which is read, checked and copied here, once for all spans and events at it.
    ///
    /// It is kept until the registry is gone, so a program makes one for each place, and not for each span. Two with
    /// the same meta may be made. It needs no worker's number and no place in the ring, and is never refused as
    /// [`Backlog`](Error::Backlog).
    ///
    /// # Errors
    /// [`BadName`](Error::BadName), [`BadData`](Error::BadData), [`OutOfMemory`](Error::OutOfMemory),
    /// [`CountFull`](Error::CountFull) where there are 2^32 callsites; never [`Backlog`](Error::Backlog).
    ///
    /// ```
    /// # fn main() -> Result<(), span_registry::Error> {
    /// # let (registry, mut drain) = span_registry::Registry::builder()
    /// #     .layer(span_registry::Layer::compact()).build()?;
    /// use span_registry::{Level, Meta, Parent};
    /// let query = registry.callsite(&Meta::new(Level::Info, "app::db", "query"))?;
    /// for table in ["users", "groups"] {
    ///     let _query = registry.span_at(&query, Parent::Current, &[("table", table)])?;
    /// }
    /// # let lines: Vec<String> = drain.lines().map(|line| line.text).collect();
    /// # assert_eq!(lines[0], "new 1 w0 query table=users");
    /// # assert_eq!(lines.len(), 4);
    /// # Ok(())
    /// # }
    /// ```
    pub fn callsite(&self, meta: &Meta<'_>) -> Result<Callsite, Error> {
        let number = named(meta, &Given::NONE, move |meta, _| self.parts().add_callsite(meta))?;
        let callsite = Callsite {
            registry: self.number(),
            number,
            is_enabled: self.enabled(meta.level, meta.target),
        };
        // What the proved registry says counts, where it can be asked.
        let is_enabled = self.enabled_at(&callsite).unwrap_or(callsite.is_enabled);
        Ok(Callsite { is_enabled, ..callsite })
    }

    /// Whether some layer admits what is made at a callsite: the proved registry's own answer, under its lock.
    /// [`is_enabled`](Callsite::is_enabled) says the same, and [`enabled`](Registry::enabled) says it of any level and
    /// target; they take none.
    ///
    /// # Errors
    /// [`OtherRegistry`](Error::OtherRegistry).
    pub fn enabled_at(&self, callsite: &Callsite) -> Result<bool, Error> {
        let number = callsite.number_in(self)?;
        Ok(self.parts().home().part.with(|state| state.callsite_wants(number))?)
    }

    /// [`span`](Registry::span) with the meta of a callsite.
    ///
    /// # Errors
    /// Those of [`span`](Registry::span) but for the name, and [`OtherRegistry`](Error::OtherRegistry) for the
    /// callsite.
    pub fn span_at(&self, callsite: &Callsite, parent: Parent, fields: Fields<'_>) -> Result<Span, Error> {
        self.span_at_number(callsite.number_in(self)?, parent, &fields.into())
    }

    pub(crate) fn span_at_number(&self, number: u32, parent: Parent, fields: &Given<'_>) -> Result<Span, Error> {
        let span = self.made_at(number, parent, fields, |part, id| Span::of(self, part, id))?;
        Ok(span.unwrap_or_default())
    }

    /// [`new_span`](Registry::new_span) with the meta of a callsite.
    ///
    /// # Errors
    /// Those of [`span_at`](Registry::span_at).
    pub fn new_span_at(&self, callsite: &Callsite, parent: Parent, fields: Fields<'_>) -> Result<Option<Id>, Error> {
        let number = callsite.number_in(self)?;
        self.made_at(number, parent, &fields.into(), |part, id| self.id_of(part, id))
    }

    // What is told of the span that is made. Each way has a copy of its own.
    #[inline(always)]
    fn made_at<T>(
        &self,
        number: u32,
        parent: Parent,
        fields: &Given<'_>,
        told: impl FnOnce(&Part, RawId) -> T,
    ) -> Result<Option<T>, Error> {
        let (at, parent) = self.own_parent(parent)?;
        let made = named(NO_NAME, fields, move |_, given| {
            packed(&[], given.fields, |texts| {
                at.call(move |state, worker| state.new_span_at(worker, number, parent, given, texts))
            })
        })?;
        Ok(made.map(|id| told(at.part, id)))
    }

    /// [`event`](Registry::event) with the meta of a callsite.
    ///
    /// # Errors
    /// Those of [`event`](Registry::event) but for the name, and [`OtherRegistry`](Error::OtherRegistry) for the
    /// callsite.
    pub fn event_at(&self, callsite: &Callsite, message: &str, fields: Fields<'_>) -> Result<(), Error> {
        self.event_in_at(callsite, Parent::Current, message, fields)
    }

    /// [`event_in`](Registry::event_in) with the meta of a callsite.
    ///
    /// # Errors
    /// Those of [`event_in`](Registry::event_in) but for the name, and [`OtherRegistry`](Error::OtherRegistry) for the
    /// callsite.
    pub fn event_in_at(
        &self,
        callsite: &Callsite,
        parent: Parent,
        message: &str,
        fields: Fields<'_>,
    ) -> Result<(), Error> {
        self.event_at_number(callsite.number_in(self)?, parent, message, &fields.into())
    }

    pub(crate) fn event_at_number(
        &self,
        number: u32,
        parent: Parent,
        message: &str,
        fields: &Given<'_>,
    ) -> Result<(), Error> {
        let (at, parent) = self.own_parent(parent)?;
        named(NO_NAME, fields, move |_, given| {
            packed(&[message], given.fields, |texts| {
                at.call(move |state, worker| state.event_at(worker, number, parent, message, given, texts))
            })
        })
    }
}
