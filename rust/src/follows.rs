//! That a span follows from another.
#![forbid(unsafe_code)]
use crate::error::Error;
use crate::kind::Kind;
use crate::meta::{Given, Id};
use crate::packed::packed;
use crate::registry::Registry;
use std::fmt::Write;

/// The key of the field that tells it.
const KEY: &str = "follows_from";
/// The digits of the greatest id.
const LONGEST: usize = 20;

impl Registry {
    /// Tells that a span follows from another one, which may have closed: neither holds the other, and neither lies in
    /// the other.
    ///
    /// It is a [record](Registry::record) of the field `follows_from`, whose value is the other's
    /// [number](Id::into_u64), to layers in the form of trees an integer. A span that follows from several has the
    /// field as often.
    ///
    /// # Errors
    /// [`OtherRegistry`](Error::OtherRegistry) for either id, and of the span [`Unknown`](Error::Unknown),
    /// [`Backlog`](Error::Backlog), [`OutOfMemory`](Error::OutOfMemory).
    ///
    /// ```
    /// # fn main() -> Result<(), span_registry::Error> {
    /// # let (registry, mut drain) = span_registry::Registry::builder()
    /// #     .layer(span_registry::Layer::compact()).build()?;
    /// use span_registry::{Level, Meta, Parent};
    /// let ask = registry.new_span(&Meta::new(Level::Info, "app", "ask"), Parent::Root, &[])?.unwrap();
    /// let answer = registry.new_span(&Meta::new(Level::Info, "app", "answer"), Parent::Root, &[])?.unwrap();
    /// registry.try_close(ask)?;
    /// registry.follows_from(answer, ask)?;
    /// # let lines: Vec<String> = drain.lines().map(|line| line.text).collect();
    /// # assert_eq!(lines[3], "record 2 w0 answer follows_from=1");
    /// # Ok(())
    /// # }
    /// ```
    pub fn follows_from(&self, id: Id, followed: Id) -> Result<(), Error> {
        self.own(followed)?;
        let (at, id) = self.own(id)?;
        let mut number = String::new();
        let has_room = number.try_reserve_exact(LONGEST).is_ok();
        if !has_room || write!(number, "{followed}").is_err() {
            return Err(Error::OutOfMemory);
        }
        let fields = [(KEY, &*number)];
        let given = Given {
            fields: &fields,
            kinds: &[Kind::Integer],
        };
        let given = &given;
        Ok(packed(&[], given.fields, |texts| {
            at.call(move |state, worker| state.record(worker, id, given, texts))
        })?)
    }
}
