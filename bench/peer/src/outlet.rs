//! What leaves the registry: batches, and the lines of their notes.
use crate::field::Fields;
use crate::id::Id;
use crate::layer::{Form, Level};
use crate::note::Note;
use crate::text::push_number;
use std::mem;
use std::sync::Arc;

const LONG_TEXT: usize = 1 << 14;

/// An accepted call, with its arguments.
#[expect(
    dead_code,
    reason = "the history is kept, as tracerun keeps it, and not looked at again"
)]
pub enum Call {
    New {
        name: Arc<str>,
        target: Box<str>,
        level: Level,
        fields: Fields,
        parent: Option<Id>,
    },
    Clone(Id),
    Enter(Id),
    Exit(Id),
    Close(Id),
    Record(Id, Fields),
    Event {
        target: Box<str>,
        level: Level,
        message: Arc<str>,
        fields: Fields,
    },
}

/// What an accepted call answers.
#[expect(
    dead_code,
    reason = "the history is kept, as tracerun keeps it, and not looked at again"
)]
pub enum Reply {
    Made(Id),
    Cloned,
    /// Whether the entry is no duplicate.
    Entered(bool),
    /// The spans that closed, child first.
    Exited(Box<[Id]>),
    /// The spans that closed, child first.
    Closed(Box<[Id]>),
    Recorded,
    Told,
}

/// What an accepted call puts out.
#[expect(
    dead_code,
    reason = "the history is kept, as tracerun keeps it, and not looked at again"
)]
pub struct Batch {
    pub worker: u32,
    pub call: Call,
    pub reply: Reply,
    pub notes: Box<[Note]>,
}

/// Where batches go.
pub trait Outlet {
    /// Whether there is a place for one more batch.
    fn has_room(&mut self) -> bool;

    /// Takes a batch. `has_room` has answered true before.
    fn put(&mut self, batch: Batch);
}

/// The line of a note, and where the note stands in the history.
#[expect(
    dead_code,
    reason = "lines are kept, as tracerun keeps them, and of most only the text is looked at"
)]
pub struct Line {
    pub batch: u64,
    pub place: u32,
    pub layer: u32,
    pub text: Box<[u8]>,
}

/// The lines of the layers, written in the layers' forms.
#[derive(Default)]
pub struct Lines {
    pub forms: Vec<Form>,
    pub all: Vec<Line>,
    batches: u64,
    text: Vec<u8>,
}

impl Lines {
    /// Adds the lines of the next batch.
    pub fn add(&mut self, batch: &Batch) {
        for (place, note) in batch.notes.iter().enumerate() {
            note.write(self.forms[note.layer as usize], &mut self.text);
            let text = self.take_text();
            self.all.push(Line {
                batch: self.batches,
                place: place as u32,
                layer: note.layer,
                text,
            });
        }
        self.batches += 1;
    }

    /// The text that was written last. A long one isn't copied.
    fn take_text(&mut self) -> Box<[u8]> {
        if self.text.len() >= LONG_TEXT {
            return mem::take(&mut self.text).into_boxed_slice();
        }
        let text = self.text.as_slice().into();
        self.text.clear();
        text
    }
}

/// An outlet whose lines are written in between the calls.
pub trait Shown: Outlet + Default {
    fn add_form(&mut self, form: Form);

    /// Appends the lines that came since the last time, each with its layer in front.
    fn show(&mut self, text: &mut Vec<u8>);
}

fn push_layer(text: &mut Vec<u8>, layer: u32) {
    text.push(b'L');
    push_number(text, u64::from(layer));
    text.push(b' ');
}

/// Keeps all batches and their lines.
#[derive(Default)]
pub struct Kept {
    batches: Vec<Batch>,
    lines: Lines,
    /// How many lines were shown.
    shown: usize,
}

impl Shown for Kept {
    fn add_form(&mut self, form: Form) {
        self.lines.forms.push(form);
    }

    fn show(&mut self, text: &mut Vec<u8>) {
        for line in &self.lines.all[self.shown..] {
            push_layer(text, line.layer);
            text.extend_from_slice(&line.text);
            text.push(b'\n');
        }
        self.shown = self.lines.all.len();
    }
}

impl Outlet for Kept {
    fn has_room(&mut self) -> bool {
        true
    }

    fn put(&mut self, batch: Batch) {
        self.lines.add(&batch);
        self.batches.push(batch);
    }
}

/// Keeps nothing but the lines that were not shown yet.
#[derive(Default)]
pub struct Streamed {
    forms: Vec<Form>,
    lines: Vec<u8>,
}

impl Outlet for Streamed {
    fn has_room(&mut self) -> bool {
        true
    }

    fn put(&mut self, batch: Batch) {
        for note in &*batch.notes {
            push_layer(&mut self.lines, note.layer);
            note.write(self.forms[note.layer as usize], &mut self.lines);
            self.lines.push(b'\n');
        }
    }
}

impl Shown for Streamed {
    fn add_form(&mut self, form: Form) {
        self.forms.push(form);
    }

    fn show(&mut self, text: &mut Vec<u8>) {
        text.append(&mut self.lines);
    }
}
