//! The next note of a layer in the form of trees, before it is handed out.
#![forbid(unsafe_code)]
use crate::interest::Interest;
use crate::kind::Kind;
use crate::kinds::Kinds;
use crate::level::Level;
use crate::meta::{Id, Meta, RawId};
use crate::names::{is_marked, read};
use crate::note::{Note, NoteField, NoteKind, Text};
use crate::notes::Book;
use crate::part::Part;
use crate::said::{text_of, Said};
use std::borrow::Cow;
use std::mem;
use std::time::Duration;

/// What a line has beside its texts takes so many bytes at most.
const BESIDE: usize = 200;

/// The memory of what an earlier note had and the one that was read in its place hasn't.
#[derive(Default)]
pub(crate) struct Spare {
    message: String,
    fields: Vec<NoteField>,
    // The most fields that one was read with: a note never lacks more, though the program's own may bring more.
    most: usize,
}

impl Spare {
    // So many fields, of any texts.
    fn resize(&mut self, fields: &mut Vec<NoteField>, count: usize) {
        self.most = self.most.max(count);
        while fields.len() > count {
            if self.fields.len() == self.most {
                fields.truncate(count);
            } else {
                self.fields.extend(fields.pop());
            }
        }
        while fields.len() < count {
            fields.push(self.fields.pop().unwrap_or_else(NoteField::empty));
        }
    }
}

/// What the proved registry says of it, and of what was kept beside the ring a copy, since the reader isn't the only one
/// who throws away what is kept. All in memory that is used for the next one.
pub(crate) struct Told {
    pub(crate) said: Said,
    at: u64,
    parent: Option<RawId>,
    level: Level,
    target: String,
    name: String,
    // Of its fields.
    kinds: Kinds,
}

impl Told {
    pub(crate) fn new() -> Told {
        Told {
            said: Said::default(),
            at: 0,
            parent: None,
            level: Level::Trace,
            target: String::new(),
            name: String::new(),
            kinds: Kinds::default(),
        }
    }

    fn kind(&self) -> NoteKind {
        NoteKind::of_number(self.said.note().kind)
    }

    fn id(&self) -> Option<RawId> {
        RawId::from_u64(self.said.note().id)
    }

    /// What is kept of the first call in the book, whose note it is, and of its span.
    pub(crate) fn complete(&mut self, book: &mut Book, interest: &Interest) {
        let (kind, id, layer) = (self.kind(), self.id(), self.said.note().layer as usize);
        let noted = match kind {
            NoteKind::Event => book.event(),
            _ => id.and_then(|id| book.span(id)),
        };
        self.at = book.at();
        self.parent = match kind {
            // The one that the layer admits.
            NoteKind::Event => id,
            _ => admitted(book, interest, layer, noted.and_then(|noted| noted.parent)),
        };
        self.put_meta(noted.map_or(Meta::event(Level::Trace, ""), |noted| noted.meta));
        let kinds = match kind {
            NoteKind::Record => book.recorded(),
            _ => noted.map(|noted| noted.kinds),
        };
        match kinds {
            Some(kinds) => self.kinds.copy(kinds),
            None => self.kinds.clear(),
        }
        if let (NoteKind::Close, Some(id)) = (kind, id) {
            book.is_closed(id);
        }
    }

    fn put_meta(&mut self, meta: Meta<'_>) {
        self.level = meta.level;
        self.target.clear();
        self.target.push_str(meta.target);
        self.name.clear();
        self.name.push_str(meta.name);
    }

    // Keys as they were given.
    fn fields(&self) -> impl Iterator<Item = (Cow<'_, [u8]>, Kind, &[u8])> {
        self.said
            .fields()
            .zip(self.kinds.iter())
            .map(|((key, value), kind)| (as_given(key), kind, value))
    }

    /// As a struct, of a line of this part: in the memory of an earlier one, and of those before it.
    pub(crate) fn note_into(&self, part: &Part, note: &mut Note, spare: &mut Spare) {
        let (said, registry) = (self.said.note(), part.common().number());
        let whole = |id: Option<RawId>| id.map(|id| Id::of(registry, part.place(), id));
        note.kind = self.kind();
        let is_event = note.kind == NoteKind::Event;
        note.layer = said.layer as usize;
        note.at = Duration::from_nanos(self.at);
        note.worker = part.first_worker() + said.worker;
        note.id = whole(self.id().filter(|_| !is_event));
        note.parent = whole(self.parent);
        note.level = self.level;
        put(self.target.as_bytes(), &mut note.target);
        put(self.name.as_bytes(), &mut note.name);
        put(self.said.path(), &mut note.path);
        if is_event {
            let message = note.message.get_or_insert_with(|| mem::take(&mut spare.message));
            put(self.said.message(), message);
        } else if let Some(message) = note.message.take() {
            spare.message = message;
        }
        spare.resize(&mut note.fields, self.said.count());
        for (field, (key, kind, value)) in note.fields.iter_mut().zip(self.fields()) {
            put(&key, &mut field.key);
            field.kind = kind;
            put(value, &mut field.value);
        }
    }

    /// The text of the same.
    pub(crate) fn text(&self, part: &Part) -> String {
        let room = BESIDE + self.said.room() + self.name.len() + self.target.len();
        let mut text = Vec::with_capacity(room);
        self.write(part, &mut text);
        String::from_utf8(text).unwrap_or_else(|error| text_of(error.as_bytes()).into_owned())
    }

    /// Puts that behind others.
    pub(crate) fn write(&self, part: &Part, out: &mut Vec<u8>) {
        let said = self.said.note();
        let whole = |id: Option<RawId>| id.map_or(0, |id| id.in_part(part.place()).get());
        let kind = self.kind();
        let is_event = kind == NoteKind::Event;
        Text {
            at: u128::from(self.at),
            id: whole(self.id().filter(|_| !is_event)),
            kind,
            level: self.level,
            message: is_event.then(|| self.said.message()),
            name: self.name.as_bytes(),
            parent: whole(self.parent),
            path: self.said.path(),
            target: self.target.as_bytes(),
            worker: part.first_worker() + said.worker,
        }
        .write(self.fields(), out);
    }
}

// The nearest of this one and those above it that the layer admits.
fn admitted(book: &Book, interest: &Interest, layer: usize, mut above: Option<RawId>) -> Option<RawId> {
    while let Some(span) = above.and_then(|id| book.span(id)) {
        if interest.layer_admits(layer, span.meta.level, span.meta.target) {
            return above;
        }
        above = span.parent;
    }
    None
}

// The key that is written so.
fn as_given(key: &[u8]) -> Cow<'_, [u8]> {
    if !is_marked(key) {
        return Cow::Borrowed(key);
    }
    // Keys are ASCII.
    let key = read(std::str::from_utf8(key).unwrap_or_default());
    Cow::Owned(key.into_owned().into_bytes())
}

fn put(said: &[u8], text: &mut String) {
    text.clear();
    text.push_str(&text_of(said));
}

#[cfg(test)]
mod tests {
    use super::{NoteField, Spare};

    #[test]
    fn no_more_is_spare_than_a_note_may_lack() {
        let mut spare = Spare::default();
        for count in [3, 5, 0, 4] {
            for _ in 0..100 {
                // The program brings a note of its own each time.
                let mut fields = vec![NoteField::empty(); 8];
                spare.resize(&mut fields, count);
                assert_eq!(fields.len(), count);
            }
        }
        assert_eq!(spare.fields.len(), 5);
        let mut fields = Vec::new();
        spare.resize(&mut fields, 5);
        assert_eq!((fields.len(), spare.fields.len()), (5, 0));
    }
}
