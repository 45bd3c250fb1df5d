//! What several tests need.
#![allow(dead_code)]
use span_registry::{Drain, Error, Fields, Id, Layer, Level, Meta, Note, Parent, Registry, RegistryBuilder, Span};

/// No name: it has 65 bytes.
pub const LONG: &str = "nnnnnnnnnnnnnnnnnnnnnnnnnnnnnnnnnnnnnnnnnnnnnnnnnnnnnnnnnnnnnnnnn";

/// A span or an event of the module `app` at INFO.
pub fn info(name: &str) -> Meta<'_> {
    Meta::new(Level::Info, "app", name)
}

/// The registry's id of this number.
pub fn id(registry: &Registry, number: u64) -> Id {
    registry.id(number).expect("not 0")
}

/// One worker and one compact layer that is told of everything.
pub fn compact() -> RegistryBuilder {
    Registry::builder().workers(1).layer(Layer::compact())
}

/// The texts of the lines at hand.
pub fn texts(drain: &mut Drain) -> Vec<String> {
    drain.lines().map(|line| line.text).collect()
}

/// The lines at hand as a script's answers have them: `L<layer> <text>`.
pub fn layered(drain: &mut Drain) -> Vec<String> {
    drain
        .lines()
        .map(|line| format!("L{} {}", line.layer, line.text))
        .collect()
}

/// Calls by ids at INFO in the module `app`, whose answers are plain numbers.
pub struct Ids(pub Registry);

impl Ids {
    pub fn id(&self, number: u64) -> Id {
        id(&self.0, number)
    }

    pub fn make(&self, name: &str) -> Result<u64, Error> {
        self.make_under(name, Parent::Current)
    }

    pub fn make_under(&self, name: &str, parent: Parent) -> Result<u64, Error> {
        Ok(self
            .0
            .new_span(&info(name), parent, &[])?
            .expect("a layer wants it")
            .into_u64())
    }

    pub fn close(&self, number: u64) -> Result<bool, Error> {
        self.0.try_close(self.id(number))
    }

    pub fn enter(&self, number: u64) -> Result<bool, Error> {
        self.0.enter(self.id(number))
    }

    pub fn exit(&self, number: u64) -> Result<bool, Error> {
        self.0.exit(self.id(number))
    }

    pub fn clone_span(&self, number: u64) -> Result<(), Error> {
        self.0.clone_span(self.id(number))
    }

    pub fn record(&self, number: u64, fields: Fields<'_>) -> Result<(), Error> {
        self.0.record(self.id(number), fields)
    }

    pub fn event(&self, message: &str) -> Result<(), Error> {
        self.0.event(&Meta::event(Level::Info, "app"), message, &[])
    }

    /// Parent (0: none), handles, entries, count.
    pub fn find(&self, number: u64) -> Option<(u64, u32, u32, u32)> {
        let found = self.0.find(self.id(number))?;
        Some((
            found.parent.map_or(0, Id::into_u64),
            found.handles,
            found.entries,
            found.count,
        ))
    }
}

/// A span in the module `app` at INFO under the current one.
pub fn span(registry: &Registry, name: &str) -> Span {
    registry.span(&info(name), Parent::Current, &[]).expect("not refused")
}

/// Nothing is open, held or owed, and each span that was made has closed.
pub fn assert_empty(registry: &Registry) {
    let counts = registry.counts();
    assert_eq!((counts.open, counts.held, counts.owed), (0, 0, 0), "{counts:?}");
    assert_eq!(counts.made, counts.closed, "{counts:?}");
}

/// What a layer in the compact form writes that is told the same as a layer in the form of trees.
pub fn as_compact(note: &Note) -> String {
    let escaped = |text: &str| text.replace('\\', "\\\\").replace('\n', "\\n").replace('\r', "\\r");
    let id = note.id.or(note.parent).map_or(0, Id::into_u64);
    let mut line = format!("{} {id} w{} {}", note.kind.name(), note.worker, note.path);
    if let Some(message) = &note.message {
        line += &format!(" {} {}", note.level, escaped(message));
    }
    for field in &note.fields {
        line += &format!(" {}={}", as_written(&field.key), escaped(&field.value));
    }
    line
}

/// How lines write a key.
fn as_written(key: &str) -> String {
    let is_itself = |byte: u8| byte.is_ascii_alphanumeric() || byte == b'_' || byte == b'.';
    if !key.is_empty() && !key.starts_with("--") && key.bytes().all(|byte| is_itself(byte) || byte == b'-') {
        return key.to_owned();
    }
    let written = |byte: u8| match byte {
        byte if is_itself(byte) => char::from(byte).to_string(),
        byte => format!("-{byte:02X}"),
    };
    format!("--{}", key.bytes().map(written).collect::<String>())
}
