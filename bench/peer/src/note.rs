//! What a layer is told, and how it is written.
use crate::field::Fields;
use crate::id::Id;
use crate::layer::{Form, Kind, Level};
use crate::text::{push_json, push_number, push_on_one_line};
use std::sync::Arc;

/// What a layer is told of one happening.
pub struct Note {
    pub layer: u32,
    pub worker: u32,
    pub kind: Kind,
    /// The span; of an event the span that it is told in, if there is one.
    pub id: Option<Id>,
    /// The names of the span and its ancestors that the layer admits, root first, joined by `:`.
    pub path: Box<str>,
    pub fields: Fields,
    /// An event's level and message.
    pub told: Option<(Level, Arc<str>)>,
}

impl Note {
    /// Appends the note's text, without an end of line.
    pub fn write(&self, form: Form, text: &mut Vec<u8>) {
        match form {
            Form::Compact => self.write_compact(text),
            Form::Json => self.write_json(text),
        }
    }

    fn id_number(&self) -> u64 {
        self.id.map_or(0, Id::get)
    }

    fn path_text(&self) -> &str {
        if self.path.is_empty() {
            "-"
        } else {
            &self.path
        }
    }

    fn write_compact(&self, text: &mut Vec<u8>) {
        text.extend_from_slice(self.kind.name().as_bytes());
        text.push(b' ');
        push_number(text, self.id_number());
        text.extend_from_slice(b" w");
        push_number(text, u64::from(self.worker));
        text.push(b' ');
        text.extend_from_slice(self.path_text().as_bytes());
        if let Some((level, message)) = &self.told {
            text.push(b' ');
            text.extend_from_slice(level.name().as_bytes());
            text.push(b' ');
            push_on_one_line(text, message);
        }
        for field in self.fields.as_slice() {
            text.push(b' ');
            text.extend_from_slice(field.key.as_bytes());
            text.push(b'=');
            push_on_one_line(text, &field.value);
        }
    }

    fn write_json(&self, text: &mut Vec<u8>) {
        text.extend_from_slice(b"{\"fields\":[");
        for (place, field) in self.fields.as_slice().iter().enumerate() {
            text.extend_from_slice(if place == 0 { b"[" } else { b",[" });
            push_json(text, &field.key);
            text.push(b',');
            push_json(text, &field.value);
            text.push(b']');
        }
        text.extend_from_slice(b"],\"id\":");
        push_number(text, self.id_number());
        text.extend_from_slice(b",\"kind\":");
        push_json(text, self.kind.name());
        if let Some((level, message)) = &self.told {
            text.extend_from_slice(b",\"level\":");
            push_json(text, level.name());
            text.extend_from_slice(b",\"message\":");
            push_json(text, message);
        }
        text.extend_from_slice(b",\"path\":");
        push_json(text, self.path_text());
        text.extend_from_slice(b",\"worker\":");
        push_number(text, u64::from(self.worker));
        text.push(b'}');
    }
}
