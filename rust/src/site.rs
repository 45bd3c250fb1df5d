//! The places in a program where its macros make spans and tell events.
#![forbid(unsafe_code)]
use crate::error::Error;
use crate::kind::Kind;
use crate::level::Level;
use crate::meta::{Given, Meta, Parent};
use crate::names::named;
use crate::registry::Registry;
use crate::span::Span;
use std::sync::atomic::{AtomicU64, Ordering};

/// A place in the program, of which each registry knows once whether a layer wants it, and by which number the proved
/// registry has it. For the macros.
#[doc(hidden)]
#[derive(Debug)]
pub struct Site {
    meta: Meta<'static>,
    is_of_spans: bool,
    file: &'static str,
    line: u32,
    // In the upper half the key of the registry that was looked up last, and in the lower the callsite's number there,
    // or UNWANTED.
    known: AtomicU64,
    // What stood there before, each where its registry's key says. So two registries, and mostly a few, may ask in
    // turn.
    earlier: [AtomicU64; EARLIER],
}

/// No registry's key.
pub(crate) const NO_KEY: u32 = 0;
const UNWANTED: u32 = u32::MAX;
const UNKNOWN: u64 = (NO_KEY as u64) << 32;
const EARLIER: usize = 4;

impl Site {
    /// A place of spans.
    #[must_use]
    pub const fn span(level: Level, target: &'static str, name: &'static str, file: &'static str, line: u32) -> Site {
        Site::new(Meta::new(level, target, name), true, file, line)
    }

    /// A place of events.
    #[must_use]
    pub const fn event(level: Level, target: &'static str, file: &'static str, line: u32) -> Site {
        Site::new(Meta::event(level, target), false, file, line)
    }

    const fn new(meta: Meta<'static>, is_of_spans: bool, file: &'static str, line: u32) -> Site {
        Site {
            meta,
            is_of_spans,
            file,
            line,
            known: AtomicU64::new(UNKNOWN),
            earlier: [const { AtomicU64::new(UNKNOWN) }; EARLIER],
        }
    }

    /// Its file and its line.
    pub(crate) fn place(&self) -> (&'static str, u32) {
        (self.file, self.line)
    }

    /// What is made here by this registry; none where no layer wants it. From the second call on that is a load and a
    /// branch, or two loads where another registry was looked up since.
    #[inline]
    pub fn wanted_by<'a>(&'static self, registry: &'a Registry) -> Option<Wanted<'a>> {
        let known = self.known.load(Ordering::Relaxed);
        let is_known = key_of(known) == registry.key() && registry.key() != NO_KEY;
        if is_known && known as u32 == UNWANTED {
            return None;
        }
        let callsite = if is_known {
            Ok(known as u32)
        } else {
            self.looked_up(registry)?
        };
        Some(Wanted { registry, callsite })
    }

    // Its callsite, or why it can have none.
    #[cold]
    fn looked_up(&'static self, registry: &Registry) -> Option<Result<u32, Error>> {
        let earlier = self.earlier_of(registry.key()).load(Ordering::Relaxed);
        if key_of(earlier) == registry.key() && registry.key() != NO_KEY {
            return (earlier as u32 != UNWANTED).then_some(Ok(earlier as u32));
        }
        if !self.is_wanted(registry) {
            self.keep(registry, UNWANTED);
            return None;
        }
        let callsite = self.callsite_in(registry);
        // A callsite's number that would say the same is not kept.
        if let Some(number) = callsite.as_ref().ok().copied().filter(|&number| number != UNWANTED) {
            self.keep(registry, number);
        }
        Some(callsite)
    }

    // Whether spans or events are made of it: where some layer's rule admits it, by the proved registry's own answer, and
    // spans where there is no layer.
    fn is_wanted(&self, registry: &Registry) -> bool {
        let Meta { level, target, .. } = self.meta;
        let interest = registry.parts().common().interest();
        // (all parts have the same rules)
        let asked = registry.parts().home().part.with(|state| state.wants(level, target));
        // (where memory is refused, the rules as they were given say it)
        asked.unwrap_or_else(|_| interest.admits(level, target)) || self.is_of_spans && interest.is_silent()
    }

    fn callsite_in(&'static self, registry: &Registry) -> Result<u32, Error> {
        named(&self.meta, &Given::NONE, move |meta, _| {
            registry.parts().callsite_of(self, meta)
        })
    }

    fn keep(&self, registry: &Registry, number: u32) {
        if registry.key() != NO_KEY {
            let known = (u64::from(registry.key()) << 32) | u64::from(number);
            let before = self.known.swap(known, Ordering::Relaxed);
            self.earlier_of(key_of(before)).store(before, Ordering::Relaxed);
        }
    }

    fn earlier_of(&self, key: u32) -> &AtomicU64 {
        &self.earlier[key as usize % EARLIER]
    }
}

// Of whose registry it is known.
#[inline]
fn key_of(known: u64) -> u32 {
    (known >> 32) as u32
}

/// A span or an event that some layer wants. For the macros.
#[doc(hidden)]
#[derive(Debug)]
pub struct Wanted<'a> {
    registry: &'a Registry,
    callsite: Result<u32, Error>,
}

/// A key, a value's text, and its kind.
pub(crate) type Field = (&'static str, String, Kind);

/// Makes a call with keys and values, and the kinds beside these.
pub(crate) fn given<T, const N: usize>(fields: [Field; N], call: impl FnOnce(&Given<'_>) -> T) -> T {
    let texts = fields.each_ref().map(|(key, value, _)| (*key, &**value));
    let kinds = fields.each_ref().map(|&(_, _, kind)| kind);
    call(&Given {
        fields: &texts,
        kinds: &kinds,
    })
}

impl Wanted<'_> {
    /// For `try_span!`.
    pub fn try_span<const N: usize>(self, parent: Parent, fields: [Field; N]) -> Result<Span, Error> {
        let callsite = self.callsite?;
        given(fields, |given| self.registry.span_at_number(callsite, parent, given))
    }

    /// For `span!`: a disabled span where it is refused.
    pub fn span<const N: usize>(self, parent: Parent, fields: [Field; N]) -> Span {
        let registry = self.registry;
        registry.or_lost(self.try_span(parent, fields)).unwrap_or_default()
    }

    /// For `try_event!`.
    pub fn try_event<const N: usize>(self, parent: Parent, message: &str, fields: [Field; N]) -> Result<(), Error> {
        let callsite = self.callsite?;
        given(fields, |given| {
            self.registry.event_at_number(callsite, parent, message, given)
        })
    }

    /// For `event!`.
    pub fn event<const N: usize>(self, parent: Parent, message: &str, fields: [Field; N]) {
        let registry = self.registry;
        registry.or_lost(self.try_event(parent, message, fields));
    }
}

#[cfg(test)]
mod tests {
    use super::{key_of, Site, EARLIER};
    use crate::{Error, Layer, Level, Registry};
    use std::sync::atomic::Ordering;

    fn registry(most: Level) -> Result<Registry, Error> {
        let layer = Layer::compact().with_max_level(most);
        let (registry, _drain) = Registry::builder().layer(layer).build()?;
        Ok(registry)
    }

    /// Whether it is answered without a look under its lock.
    fn is_known(site: &Site, registry: &Registry) -> bool {
        let all = [&site.known, site.earlier_of(registry.key())];
        all.map(|known| key_of(known.load(Ordering::Relaxed)))
            .contains(&registry.key())
    }

    #[test]
    fn two_registries_may_ask_in_turn() -> Result<(), Error> {
        static SITE: Site = Site::event(Level::Info, "app", file!(), line!());
        for _ in 0..3 * EARLIER {
            let (loud, quiet) = (registry(Level::Info)?, registry(Level::Warn)?);
            for turn in 0..3 {
                for (registry, is_wanted) in [(&loud, true), (&quiet, false)] {
                    assert_eq!(is_known(&SITE, registry), turn > 0);
                    assert_eq!(SITE.wanted_by(registry).is_some(), is_wanted);
                }
            }
            assert_eq!(key_of(SITE.known.load(Ordering::Relaxed)), quiet.key());
        }
        Ok(())
    }

    #[test]
    fn of_more_registries_than_are_known_each_is_told_its_own() -> Result<(), Error> {
        static SITE: Site = Site::event(Level::Info, "app", file!(), line!());
        let levels = [Level::Warn, Level::Info, Level::Error].into_iter().cycle();
        let all = levels.take(5 * EARLIER).map(|most| Ok((registry(most)?, most)));
        let registries = all.collect::<Result<Vec<_>, Error>>()?;
        for _ in 0..3 {
            for (registry, most) in &registries {
                assert_eq!(SITE.wanted_by(registry).is_some(), *most >= Level::Info);
                assert!(is_known(&SITE, registry));
            }
        }
        Ok(())
    }
}
