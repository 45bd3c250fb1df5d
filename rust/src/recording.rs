//! Fields that macros record of a span which is open already.
#![forbid(unsafe_code)]
use crate::error::Error;
use crate::meta::Id;
use crate::registry::Registry;
use crate::site::{given, Field};
use crate::span::Span;

/// A span that isn't disabled, of which fields are recorded. For the macros.
#[doc(hidden)]
#[derive(Debug)]
pub struct Recording<'a> {
    registry: &'a Registry,
    id: Id,
}

impl<'a> Recording<'a> {
    /// None where nothing is to be recorded: the span is disabled.
    #[must_use]
    pub fn of(span: &'a Span) -> Option<Recording<'a>> {
        let (registry, id) = span.own()?;
        Some(Recording::at(registry, id))
    }

    /// By the id of a span.
    #[must_use]
    pub fn at(registry: &'a Registry, id: Id) -> Recording<'a> {
        Recording { registry, id }
    }

    /// For `try_record!`.
    pub fn try_record<const N: usize>(&self, fields: [Field; N]) -> Result<(), Error> {
        given(fields, |given| self.registry.record_given(self.id, given))
    }

    /// For `record!`.
    pub fn record<const N: usize>(&self, fields: [Field; N]) {
        self.registry.or_lost(self.try_record(fields));
    }
}
