//! The fields of spans and events, and which names are good.
use std::sync::Arc;

const LONGEST_NAME: usize = 64;

/// Whether a text may be a span's name or a field's key.
pub fn is_name(text: &str) -> bool {
    (1..=LONGEST_NAME).contains(&text.len())
        && text
            .bytes()
            .all(|byte| byte.is_ascii_alphanumeric() || matches!(byte, b'_' | b'.' | b'-'))
}

/// A field's key and its value.
#[derive(Clone)]
pub struct Field {
    pub key: Box<str>,
    pub value: Box<str>,
}

/// A list of fields that its span, the call and the notes share. An empty one takes no memory.
#[derive(Clone, Default)]
pub struct Fields(Option<Arc<Vec<Field>>>);

impl Fields {
    pub fn as_slice(&self) -> &[Field] {
        self.0.as_ref().map_or(&[], |fields| fields.as_slice())
    }

    pub fn have_names(&self) -> bool {
        self.as_slice().iter().all(|field| is_name(&field.key))
    }

    /// Appends fields. Who shares the list keeps it as it was.
    pub fn append(&mut self, more: &Fields) {
        match &mut self.0 {
            Some(fields) => Arc::make_mut(fields).extend_from_slice(more.as_slice()),
            None => *self = more.clone(),
        }
    }
}

impl From<Vec<Field>> for Fields {
    fn from(fields: Vec<Field>) -> Fields {
        Fields((!fields.is_empty()).then(|| Arc::new(fields)))
    }
}
