//! A registry of spans for Rust programs, whose core is proved.
//!
//! Behind this crate is the static library `span_ffi`: the spans, their reference counts, the threads' stacks, the
//! layers' filters and texts, and the ring through which lines leave, all written in Rattle and proved. This crate
//! puts a lock round it, gives each thread its worker's number, and gives handles back when they are dropped. It has
//! no dependencies; `README.md` says what is proved and what is only tested.
//!
//! [`Registry`] makes spans and takes events, [`Span`] is a handle that gives itself back, and [`Drain`] is read for
//! the lines.
#![deny(missing_docs, unsafe_code)]

mod at;
mod builder;
mod by_slot;
mod callsite;
mod carried;
mod directives;
mod drain;
mod error;
mod extensions;
mod follows;
mod head;
mod instrument;
mod interest;
mod json;
mod key;
mod kind;
mod kinds;
mod level;
mod lock;
mod lost;
mod macros;
mod meta;
mod names;
mod note;
mod noted;
mod notes;
mod open;
mod origins;
mod owed;
mod packed;
mod part;
mod parts;
#[allow(unsafe_code)]
mod raw;
mod recording;
mod refusal;
mod registry;
mod ring;
mod routing;
mod said;
mod seats;
mod site;
mod span;
mod stamps;
mod state;
mod told;
mod workers;
mod writer;

pub use builder::{Layer, RegistryBuilder};
pub use callsite::Callsite;
pub use directives::{ParseError, Targets};
pub use drain::{Drain, DrainCounts, Line};
pub use error::{BadLimit, BadName, Differing, Error, Limit};
pub use extensions::Extensions;
pub use instrument::{Instrument, Instrumented};
pub use kind::Kind;
pub use level::{FmtSpan, Form, Level, ParseLevelError};
pub use lost::Lost;
pub use meta::{Counts, Fields, Found, Id, Meta, Parent};
pub use note::{Note, NoteField, NoteKind};
pub use open::{OpenSpan, OpenSpans};
pub use registry::{retry, Registry};
pub use ring::OnFull;
pub use span::{Entered, EnteredSpan, Span};
pub use writer::Guard;

/// For the macros.
#[doc(hidden)]
pub mod __private {
    pub use crate::key::Key;
    pub use crate::kind::{Asked, OfKind, OfText};
    pub use crate::recording::Recording;
    pub use crate::site::Site;
}

/// So that the page's program is run as a test.
#[cfg(doctest)]
#[doc = include_str!("../README.md")]
struct Readme;
