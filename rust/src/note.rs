//! Lines from which a tree can be built.
#![forbid(unsafe_code)]
use crate::json::{put_escaped, put_number, put_value};
use crate::kind::Kind;
use crate::level::Level;
use crate::meta::Id;
use std::borrow::Cow;
use std::fmt;
use std::io::Write;
use std::time::Duration;

/// What a line tells.
#[derive(Clone, Copy, Debug, PartialEq, Eq, Hash)]
#[allow(missing_docs)]
pub enum NoteKind {
    New,
    Enter,
    Exit,
    Record,
    Event,
    Close,
}

impl NoteKind {
    // By their numbers in the C interface.
    const ALL: [NoteKind; 6] = [
        NoteKind::New,
        NoteKind::Record,
        NoteKind::Event,
        NoteKind::Enter,
        NoteKind::Exit,
        NoteKind::Close,
    ];

    /// That of a number: there is no other than these.
    pub(crate) fn of_number(number: u32) -> NoteKind {
        NoteKind::ALL.get(number as usize).copied().unwrap_or(NoteKind::Close)
    }

    /// Its name in lines.
    #[must_use]
    pub fn name(self) -> &'static str {
        match self {
            NoteKind::New => "new",
            NoteKind::Enter => "enter",
            NoteKind::Exit => "exit",
            NoteKind::Record => "record",
            NoteKind::Event => "event",
            NoteKind::Close => "close",
        }
    }
}

/// A field that a note tells.
#[derive(Clone, Debug, PartialEq, Eq, Hash)]
#[non_exhaustive]
pub struct NoteField {
    /// Its key.
    pub key: String,
    /// Of which kind its value is.
    pub kind: Kind,
    /// The value's text.
    pub value: String,
}

impl NoteField {
    pub(crate) fn empty() -> NoteField {
        NoteField {
            key: String::new(),
            kind: Kind::Text,
            value: String::new(),
        }
    }

    fn parts(&self) -> (Cow<'_, [u8]>, Kind, &[u8]) {
        (Cow::Borrowed(self.key.as_bytes()), self.kind, self.value.as_bytes())
    }
}

/// What a layer in the form of trees was told: see [`Drain::note`](crate::Drain::note).
///
/// Its text is the line that the layer writes, a JSON object with the keys `at`, `fields`, `id`, `kind`, `level`,
/// `message` of an event, `name`, `parent`, `path`, `target` and `worker`. `at` is in nanoseconds, fields are pairs
/// whose values are numbers, truths or strings, and an id of 0 is none.
#[derive(Clone, Debug, PartialEq, Eq, Hash)]
#[non_exhaustive]
pub struct Note {
    /// The number of the layer.
    pub layer: usize,
    /// What happened.
    pub kind: NoteKind,
    /// When the call was made, by the program's clock, since the registry was built. It never goes back from one note
    /// to the next of the same [part](crate::RegistryBuilder::parts).
    pub at: Duration,
    /// Which thread did it.
    pub worker: u32,
    /// The span; none of an event.
    pub id: Option<Id>,
    /// The span's parent, or the span in which the event was told: the nearest above that the layer admits.
    pub parent: Option<Id>,
    /// The level of the span or of the event.
    pub level: Level,
    /// The target of the span or of the event.
    pub target: String,
    /// The name of the span or of the event.
    pub name: String,
    /// The names from the root on as lines [write](crate::Meta::name) them, with colons between them; of an event
    /// those of its span, or `-`.
    pub path: String,
    /// Of an event.
    pub message: Option<String>,
    /// Those of a new span, of a record or of an event; all of them where a span closes.
    pub fields: Vec<NoteField>,
}

/// A note without texts, to be [read into](crate::Drain::note_into). It takes no memory.
impl Default for Note {
    fn default() -> Note {
        Note {
            layer: 0,
            kind: NoteKind::New,
            at: Duration::ZERO,
            worker: 0,
            id: None,
            parent: None,
            level: Level::Trace,
            target: String::new(),
            name: String::new(),
            path: String::new(),
            message: None,
            fields: Vec::new(),
        }
    }
}

/// A note's text, of its parts but for the fields.
pub(crate) struct Text<'a> {
    pub(crate) at: u128,
    pub(crate) id: u64,
    pub(crate) kind: NoteKind,
    pub(crate) level: Level,
    pub(crate) message: Option<&'a [u8]>,
    pub(crate) name: &'a [u8],
    pub(crate) parent: u64,
    pub(crate) path: &'a [u8],
    pub(crate) target: &'a [u8],
    pub(crate) worker: u32,
}

impl Text<'_> {
    /// Puts it behind others, with the keys, kinds and values of the fields.
    pub(crate) fn write<'f>(&self, fields: impl Iterator<Item = (Cow<'f, [u8]>, Kind, &'f [u8])>, out: &mut Vec<u8>) {
        out.extend_from_slice(b"{\"at\":");
        put_time(self.at, out);
        out.extend_from_slice(b",\"fields\":[");
        for (place, (key, kind, value)) in fields.enumerate() {
            out.extend_from_slice(if place == 0 { b"[\"" } else { b",[\"" });
            put_escaped(&key, out);
            out.extend_from_slice(b"\",");
            put_value(kind, value, out);
            out.push(b']');
        }
        out.extend_from_slice(b"],\"id\":");
        put_number(self.id, out);
        out.extend_from_slice(b",\"kind\":\"");
        out.extend_from_slice(self.kind.name().as_bytes());
        out.extend_from_slice(b"\",\"level\":\"");
        out.extend_from_slice(self.level.name().as_bytes());
        if let Some(message) = self.message {
            out.extend_from_slice(b"\",\"message\":\"");
            put_escaped(message, out);
        }
        out.extend_from_slice(b"\",\"name\":\"");
        put_escaped(self.name, out);
        out.extend_from_slice(b"\",\"parent\":");
        put_number(self.parent, out);
        out.extend_from_slice(b",\"path\":\"");
        put_escaped(self.path, out);
        out.extend_from_slice(b"\",\"target\":\"");
        put_escaped(self.target, out);
        out.extend_from_slice(b"\",\"worker\":");
        put_number(u64::from(self.worker), out);
        out.push(b'}');
    }
}

// In nanoseconds. A program may have put any time there.
fn put_time(at: u128, out: &mut Vec<u8>) {
    match u64::try_from(at) {
        Ok(at) => put_number(at, out),
        // It has room.
        Err(_) => drop(write!(out, "{at}")),
    }
}

impl fmt::Display for Note {
    fn fmt(&self, f: &mut fmt::Formatter<'_>) -> fmt::Result {
        let number = |id: Option<Id>| id.map_or(0, Id::into_u64);
        let parts = Text {
            at: self.at.as_nanos(),
            id: number(self.id),
            kind: self.kind,
            level: self.level,
            message: self.message.as_deref().map(str::as_bytes),
            name: self.name.as_bytes(),
            parent: number(self.parent),
            path: self.path.as_bytes(),
            target: self.target.as_bytes(),
            worker: self.worker,
        };
        let mut text = Vec::new();
        parts.write(self.fields.iter().map(NoteField::parts), &mut text);
        f.write_str(std::str::from_utf8(&text).map_err(|_| fmt::Error)?)
    }
}
