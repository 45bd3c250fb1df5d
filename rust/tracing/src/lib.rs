//! The proved registry under `tracing`, in two types; the crate's README says which to take when.
//!
//! [`ProvedSubscriber`] is a subscriber of its own, the whole proved way from the macros to lines. [`ProvedRegistry`]
//! is what the layers of tracing-subscriber stand on, for programs that can't patch that crate.
#![deny(missing_docs, unsafe_code)]

mod builder;
mod fields;
mod lost;
mod places;
mod registry;
mod subscriber;

pub use builder::{InitError, SubscriberBuilder};
pub use lost::Lost;
pub use registry::{Data, ProvedRegistry};
pub use subscriber::ProvedSubscriber;
