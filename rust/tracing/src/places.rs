//! The callsites of `tracing`, each as a place of the package's macros.
#![forbid(unsafe_code)]
use crate::fields::Given;
use span_registry::__private::{Recording, Site};
use span_registry::{Error, Id, Level, Parent, Registry, Span};
use std::borrow::Cow;
use std::collections::HashMap;
use std::sync::{LazyLock, PoisonError, RwLock};
use tracing_core::Metadata;

/// What is known of a callsite, in all registries of the process.
///
/// It calls what the package's macros call at their places: these keep the kinds of values, know file and line, and
/// count what is refused. Methods by ids don't.
pub(crate) struct Place {
    /// From 1 on.
    pub(crate) number: u32,
    pub(crate) metadata: &'static Metadata<'static>,
    /// A span's name where the registry has to be given another one.
    pub(crate) name: Option<&'static str>,
    site: Site,
    // The keys that the registry has to be given otherwise, each with that.
    renamed: Vec<(&'static str, &'static str)>,
}

/// Runs a call with a list of fields as an array, as the macros give them. `tracing` has at most 32 fields, and at
/// most two are added.
macro_rules! as_array {
    ($given:expr, |$array:ident| $call:expr) => {
        as_array!($given, |$array| $call, 0 1 2 3 4 5 6 7 8 9 10 11 12 13 14 15 16 17 18 19 20 21 22 23 24 25 26 27 28
            29 30 31 32 33)
    };
    ($given:expr, |$array:ident| $call:expr, $($count:literal)+) => {{
        let length = $given.len();
        let mut given = $given.into_iter();
        match length {
            $($count => {
                let $array: [Given; $count] = std::array::from_fn(|_| given.next().unwrap_or_default());
                $call
            })+
            _ => {
                let $array: [Given; 34] = std::array::from_fn(|_| given.next().unwrap_or_default());
                $call
            }
        }
    }};
}

impl Place {
    fn new(number: u32, metadata: &'static Metadata<'static>) -> Place {
        let (level, target) = (level_of(*metadata.level()), metadata.target());
        let (file, line) = (metadata.file().unwrap_or("-"), metadata.line().unwrap_or(0));
        let name = as_name(metadata.name());
        let is_renamed = metadata.is_span() && name != metadata.name();
        let site = if metadata.is_span() {
            Site::span(level, target, kept(name), file, line)
        } else {
            Site::event(level, target, file, line)
        };
        let keys = metadata.fields().iter().map(|field| field.name());
        let renamed = keys.filter_map(|key| match as_name(key.strip_prefix("r#").unwrap_or(key)) {
            name if name == key => None,
            name => Some((key, kept(name))),
        });
        Place { number, metadata, name: is_renamed.then_some(metadata.name()), site, renamed: renamed.collect() }
    }

    /// Whether some layer wants what is made here. From the second call of a registry on that is a load and a branch.
    pub(crate) fn is_wanted_by(&'static self, registry: &Registry) -> bool {
        self.site.wanted_by(registry).is_some()
    }

    /// A new span; a disabled one where it is refused, which the registry counts.
    pub(crate) fn span(&'static self, registry: &Registry, parent: Parent, given: Vec<Given>) -> Span {
        let Some(wanted) = self.site.wanted_by(registry) else { return Span::none() };
        as_array!(given, |fields| wanted.span(parent, fields))
    }

    /// Tells an event. The registry counts what is refused.
    pub(crate) fn event(&'static self, registry: &Registry, message: &str, given: Vec<Given>) {
        if let Some(wanted) = self.site.wanted_by(registry) {
            as_array!(given, |fields| wanted.event(Parent::Current, message, fields));
        }
    }

    /// Whether the field of this name is an event's message.
    pub(crate) fn is_message(&self, field: &str) -> bool {
        field == "message" && self.metadata.is_event()
    }

    /// The key of a field of this name.
    pub(crate) fn key(&self, field: &'static str) -> &'static str {
        self.renamed.iter().find(|(name, _)| *name == field).map_or(field, |(_, key)| key)
    }
}

/// Records fields of a span, as the package's macros do.
pub(crate) fn record(registry: &Registry, id: Id, given: Vec<Given>) -> Result<(), Error> {
    let recording = Recording::at(registry, id);
    as_array!(given, |fields| recording.try_record(fields))
}

#[derive(Default)]
struct Known {
    // By the metadata's address: callsites of no size, as tracing-log's, may share theirs.
    by_address: HashMap<usize, &'static Place>,
    by_number: Vec<&'static Place>,
}

static KNOWN: LazyLock<RwLock<Known>> = LazyLock::new(RwLock::default);

/// The place of a callsite. It is made at the first call and kept as long as the process, as `tracing`'s own are.
pub(crate) fn place(metadata: &'static Metadata<'static>) -> &'static Place {
    let address = std::ptr::from_ref(metadata) as usize;
    if let Some(place) = KNOWN.read().unwrap_or_else(PoisonError::into_inner).by_address.get(&address) {
        return place;
    }
    let mut known = KNOWN.write().unwrap_or_else(PoisonError::into_inner);
    if let Some(place) = known.by_address.get(&address) {
        return place;
    }
    let number = known.by_number.len() as u32 + 1;
    let place: &'static Place = Box::leak(Box::new(Place::new(number, metadata)));
    known.by_number.push(place);
    known.by_address.insert(address, place);
    place
}

/// The place of a number; none for 0.
pub(crate) fn numbered(number: u32) -> Option<&'static Place> {
    let at = (number as usize).checked_sub(1)?;
    KNOWN.read().unwrap_or_else(PoisonError::into_inner).by_number.get(at).copied()
}

/// The registry's level.
pub(crate) fn level_of(level: tracing_core::Level) -> Level {
    match level {
        tracing_core::Level::ERROR => Level::Error,
        tracing_core::Level::WARN => Level::Warn,
        tracing_core::Level::INFO => Level::Info,
        tracing_core::Level::DEBUG => Level::Debug,
        _ => Level::Trace,
    }
}

/// `tracing`'s level.
pub(crate) fn level_there(level: Level) -> tracing_core::Level {
    match level {
        Level::Error => tracing_core::Level::ERROR,
        Level::Warn => tracing_core::Level::WARN,
        Level::Info => tracing_core::Level::INFO,
        Level::Debug => tracing_core::Level::DEBUG,
        Level::Trace => tracing_core::Level::TRACE,
    }
}

/// A name that the registry takes: each other byte is a `_`, and what is beyond 64 is cut off.
fn as_name(text: &'static str) -> Cow<'static, str> {
    let is_taken = |byte: u8| byte.is_ascii_alphanumeric() || b"_.-".contains(&byte);
    if (1..=64).contains(&text.len()) && text.bytes().all(is_taken) {
        return Cow::Borrowed(text);
    }
    let name: String = text.bytes().take(64).map(|byte| if is_taken(byte) { char::from(byte) } else { '_' }).collect();
    Cow::Owned(if name.is_empty() { "_".to_owned() } else { name })
}

fn kept(name: Cow<'static, str>) -> &'static str {
    match name {
        Cow::Borrowed(name) => name,
        Cow::Owned(name) => name.leak(),
    }
}

#[cfg(test)]
mod tests {
    use super::{as_name, level_of, level_there};
    use span_registry::Level;

    #[test]
    fn each_text_becomes_a_name() {
        assert_eq!(as_name("http.method"), "http.method");
        assert_eq!(as_name("GET /users"), "GET__users");
        assert_eq!(as_name(""), "_");
        assert_eq!(as_name("\u{e9}"), "__");
        assert_eq!(as_name("n".repeat(65).leak()), "n".repeat(64));
    }

    #[test]
    fn each_level_is_the_same_there() {
        assert!(Level::ALL.into_iter().all(|level| level_of(level_there(level)) == level));
    }
}
