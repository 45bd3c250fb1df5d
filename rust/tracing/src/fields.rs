//! Fields with the kinds of their values.
#![forbid(unsafe_code)]
use crate::places::Place;
use span_registry::Kind;
use std::error::Error;
use std::fmt::{Debug, Display};
use tracing_core::field::{Field, Visit};

/// A key, a value's text and its kind, as the package's macros make them.
pub(crate) type Given = (&'static str, String, Kind);

/// What a visit collects: the fields in order, of an event without its message.
pub(crate) struct Fields {
    place: &'static Place,
    message: String,
    given: Vec<Given>,
}

impl Fields {
    pub(crate) fn at(place: &'static Place) -> Fields {
        Fields { place, message: String::new(), given: Vec::new() }
    }

    /// One more, which `tracing` doesn't have as a field.
    pub(crate) fn add(&mut self, key: &'static str, value: impl Display, kind: Kind) {
        self.given.push((key, value.to_string(), kind));
    }

    /// The message and the fields.
    pub(crate) fn taken(self) -> (String, Vec<Given>) {
        (self.message, self.given)
    }

    fn put(&mut self, field: &Field, text: String, kind: Kind) {
        if self.place.is_message(field.name()) {
            self.message = text;
        } else {
            self.given.push((self.place.key(field.name()), text, kind));
        }
    }
}

impl Visit for Fields {
    fn record_f64(&mut self, field: &Field, value: f64) {
        self.put(field, value.to_string(), Kind::Float);
    }

    fn record_i64(&mut self, field: &Field, value: i64) {
        self.put(field, value.to_string(), Kind::Integer);
    }

    fn record_u64(&mut self, field: &Field, value: u64) {
        self.put(field, value.to_string(), Kind::Integer);
    }

    fn record_i128(&mut self, field: &Field, value: i128) {
        self.put(field, value.to_string(), Kind::Integer);
    }

    fn record_u128(&mut self, field: &Field, value: u128) {
        self.put(field, value.to_string(), Kind::Integer);
    }

    fn record_bool(&mut self, field: &Field, value: bool) {
        self.put(field, value.to_string(), Kind::Bool);
    }

    fn record_str(&mut self, field: &Field, value: &str) {
        self.put(field, value.to_owned(), Kind::Text);
    }

    fn record_error(&mut self, field: &Field, value: &(dyn Error + 'static)) {
        self.put(field, value.to_string(), Kind::Text);
    }

    fn record_debug(&mut self, field: &Field, value: &dyn Debug) {
        self.put(field, format!("{value:?}"), Kind::Text);
    }
}
