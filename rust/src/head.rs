//! The next line of a part, where its drain has read it.
#![forbid(unsafe_code)]
use crate::level::Form;
use crate::meta::RawId;
use crate::part::Part;
use crate::raw::{Lines, Next};
use crate::said::text_of;
use crate::told::Told;
use std::io::Write;
use std::ops::Range;

/// The digits of the greatest id.
const LONGEST: usize = 20;

/// How the lines of a registry are read.
#[derive(Clone, Copy, Debug, PartialEq, Eq)]
pub(crate) enum Reading {
    /// As texts: no layer has the form of trees.
    Texts,
    /// As notes: each layer has that form.
    Notes,
    /// As notes those of the layers that have that form, and as texts the others.
    Both,
}

impl Reading {
    /// Of layers in these forms.
    pub(crate) fn of(forms: impl Iterator<Item = Form> + Clone) -> Reading {
        let is_tree = |form: Form| form == Form::Tree;
        match (forms.clone().any(is_tree), forms.clone().all(is_tree)) {
            (false, _) => Reading::Texts,
            (true, true) => Reading::Notes,
            (true, false) => Reading::Both,
        }
    }
}

pub(crate) struct Head {
    reading: Reading,
    // A line's bytes stand at its beginning, and it has room for a newline.
    buffer: Vec<u8>,
    /// The layer and length of a line that is in the buffer and wasn't handed out; the length of a note's isn't known.
    pub(crate) ready: Option<(usize, usize)>,
    /// Whether that is a note, which is here.
    pub(crate) is_note: bool,
    pub(crate) told: Told,
    // Where a note's line is written.
    text: Vec<u8>,
    /// The number of its batch in the part.
    pub(crate) batch: u64,
    /// The stamp of its batch, where lines are merged.
    pub(crate) stamp: u64,
    /// No line that isn't read has a lesser one.
    pub(crate) bound: u64,
    /// Whether the ring was empty at a look, and nothing was owed, since this was set to false. Where lines are merged.
    pub(crate) is_dry: bool,
}

impl Head {
    pub(crate) fn new(reading: Reading) -> Head {
        Head {
            reading,
            buffer: vec![0; 256],
            ready: None,
            is_note: false,
            told: Told::new(),
            text: Vec::new(),
            batch: 0,
            stamp: 0,
            bound: 0,
            is_dry: false,
        }
    }

    /// Reads the next line of the part, whose layers have these forms. Whether there is one.
    #[inline(always)]
    pub(crate) fn look(&mut self, part: &Part, forms: &[Form]) -> bool {
        let stamps = part.ring().stamps();
        let mut owes = true;
        if let Some(stamps) = stamps {
            // Both before the ring is looked at.
            owes = part.owes();
            self.bound = stamps.bound();
        }
        let is_numbered = stamps.is_some() || part.ring().notes().is_some();
        loop {
            let next = {
                let mut lines = part.ring().lines();
                let next = self.next(&mut lines, is_numbered, forms);
                if let Some(stamps) = stamps {
                    // While no other thread takes a batch out.
                    self.stamp = stamps.of(self.batch);
                }
                next
            };
            match next {
                Next::Line { layer, length } => {
                    self.ready = Some((layer as usize, length));
                    // Those that are in the ring come after this one.
                    self.bound = self.stamp;
                    return true;
                }
                Next::Long { length } => self.buffer.resize(length + 1, 0),
                Next::None => {
                    self.is_dry |= !owes;
                    return false;
                }
            }
        }
    }

    #[inline(always)]
    fn next(&mut self, lines: &mut Lines, is_numbered: bool, forms: &[Form]) -> Next {
        match self.reading {
            Reading::Texts => {
                let next = self.next_text(lines);
                if is_numbered {
                    self.batch = lines.counts().0;
                }
                next
            }
            Reading::Notes => self.next_note(lines),
            Reading::Both => self.next_of_both(lines, forms),
        }
    }

    #[inline(always)]
    fn next_text(&mut self, lines: &mut Lines) -> Next {
        let room = self.buffer.len() - 1;
        lines.next(&mut self.buffer[..room])
    }

    #[inline(never)]
    fn next_of_both(&mut self, lines: &mut Lines, forms: &[Form]) -> Next {
        let Some(note) = lines.peek_note() else {
            return Next::None;
        };
        if forms[note.layer as usize] == Form::Tree {
            return self.next_note(lines);
        }
        self.is_note = false;
        self.batch = note.batch + 1;
        self.next_text(lines)
    }

    #[inline(never)]
    fn next_note(&mut self, lines: &mut Lines) -> Next {
        self.is_note = self.told.said.read(lines);
        if !self.is_note {
            return Next::None;
        }
        let note = self.told.said.note();
        self.batch = note.batch + 1;
        debug_assert_eq!(self.batch, lines.counts().0);
        Next::Line {
            layer: note.layer,
            length: 0,
        }
    }

    /// The line, of so many bytes, that is ready.
    pub(crate) fn text(&self, part: &Part, length: usize) -> String {
        if self.is_note {
            self.told.text(part)
        } else {
            text_of(&self.buffer[..length]).into_owned()
        }
    }

    /// The same, with a newline behind it.
    #[inline(always)]
    pub(crate) fn with_newline(&mut self, part: &Part, length: usize) -> &[u8] {
        if self.is_note {
            return self.note_with_newline(part);
        }
        self.buffer[length] = b'\n';
        &self.buffer[..=length]
    }

    #[inline(never)]
    fn note_with_newline(&mut self, part: &Part) -> &[u8] {
        self.text.clear();
        self.told.write(part, &mut self.text);
        self.text.push(b'\n');
        &self.text
    }

    /// Puts the numbers in the line that its part has of its own, an id and a worker, as the registry knows them.
    pub(crate) fn put_part(&mut self, is_compact: bool, part: &Part) {
        self.number(is_compact, part.place(), part.first_worker());
    }

    fn number(&mut self, is_compact: bool, part: u32, first_worker: u32) {
        let Some((layer, length)) = self.ready else { return };
        let line = &self.buffer[..length];
        let places = if is_compact { of_compact(line) } else { of_json(line) };
        if let Some((id, worker)) = places {
            // It comes behind the id.
            let length = self.put_number(worker, length, |number| number + u64::from(first_worker));
            let in_part = |number| RawId::from_u64(number).map_or(number, |id| id.in_part(part).get());
            let length = self.put_number(id, length, in_part);
            self.ready = Some((layer, length));
        }
    }

    // Another number in place of the one that stands there; the length of the line then.
    fn put_number(&mut self, place: Range<usize>, length: usize, number: impl FnOnce(u64) -> u64) -> usize {
        let digits = std::str::from_utf8(&self.buffer[place.clone()]).unwrap_or_default();
        let Ok(old) = digits.parse() else { return length };
        let mut digits = [0; LONGEST];
        let mut rest = &mut digits[..];
        // It has room.
        let _written = write!(rest, "{}", number(old));
        let count = LONGEST - rest.len();
        let (end, behind) = (length - place.len() + count, place.start + count);
        self.buffer.resize(self.buffer.len().max(end + 1), 0);
        self.buffer.copy_within(place.end..length, behind);
        self.buffer[place.start..behind].copy_from_slice(&digits[..count]);
        end
    }
}

/// Where an id and a worker's number stand.
type Places = Option<(Range<usize>, Range<usize>)>;

// A compact line is a kind, an id, `w` and a worker's number, and more, with blanks between them.
fn of_compact(line: &[u8]) -> Places {
    let id = digits_from(line, 1 + line.iter().position(|&byte| byte == b' ')?)?;
    let worker = digits_from(line, id.end + " w".len())?;
    Some((id, worker))
}

// Of a JSON line the key `id`: no string has this, since each quote in one has a backslash before it. The worker's
// number is the last one.
fn of_json(line: &[u8]) -> Places {
    const KEY: &[u8] = b",\"id\":";
    let id = digits_from(
        line,
        KEY.len() + line.windows(KEY.len()).position(|bytes| bytes == KEY)?,
    )?;
    let worker = digits_from(line, 1 + line.iter().rposition(|&byte| byte == b':')?)?;
    (worker.start > id.end).then_some((id, worker))
}

fn digits_from(line: &[u8], start: usize) -> Option<Range<usize>> {
    let digits = line
        .get(start..)?
        .iter()
        .take_while(|byte| byte.is_ascii_digit())
        .count();
    (digits > 0).then_some(start..start + digits)
}

#[cfg(test)]
mod tests {
    use super::{Head, Reading};
    use crate::level::Form;

    fn with_part(is_compact: bool, line: &str, part: u32, first_worker: u32) -> String {
        let mut head = Head::new(Reading::Texts);
        head.buffer = line.as_bytes().to_vec();
        // The room for a newline.
        head.buffer.push(0);
        head.ready = Some((0, line.len()));
        head.number(is_compact, part, first_worker);
        let (_, length) = head.ready.expect("put");
        assert!(head.buffer.len() > length);
        String::from_utf8(head.buffer[..length].to_vec()).expect("texts")
    }

    #[test]
    fn lines_are_read_as_notes_where_all_are() {
        let table: [(&[Form], Reading); 6] = [
            (&[], Reading::Texts),
            (&[Form::Json, Form::Compact], Reading::Texts),
            (&[Form::Tree], Reading::Notes),
            (&[Form::Tree, Form::Tree], Reading::Notes),
            (&[Form::Tree, Form::Json], Reading::Both),
            (&[Form::Compact, Form::Tree], Reading::Both),
        ];
        for (forms, wanted) in table {
            assert_eq!(Reading::of(forms.iter().copied()), wanted);
        }
    }

    #[test]
    fn the_numbers_of_a_line_are_the_registrys() {
        assert_eq!(
            with_part(true, "new 1 w0 a k=1 2", 1, 257),
            "new 144115188075855873 w257 a k=1 2"
        );
        assert_eq!(
            with_part(true, "close 72057594037927936 w9 a", 127, 1),
            "close 18374686479671623680 w10 a"
        );
        assert_eq!(
            with_part(true, "event 0 w3 - INFO id 5 w7", 2, 8),
            "event 0 w11 - INFO id 5 w7"
        );
        let rest = "x".repeat(300);
        assert_eq!(
            with_part(true, &format!("exit 7 w0 {rest}"), 2, 0),
            format!("exit 288230376151711751 w0 {rest}")
        );
        let line = |id: &str, worker: &str| {
            let fields = r#"[["id","id"],[",\"id\":1",",\"id\":2,\"worker\":7}"]]"#;
            format!(r#"{{"fields":{fields},"id":{id},"kind":"new","path":"a","worker":{worker}}}"#)
        };
        assert_eq!(
            with_part(false, &line("5", "7"), 1, 100),
            line("144115188075855877", "107")
        );
        assert_eq!(with_part(false, &line("0", "99"), 1, 1), line("0", "100"));
    }

    #[test]
    fn what_is_no_line_stays_as_it_is() {
        for (is_compact, text) in [
            (true, ""),
            (true, "event"),
            (true, "event 1"),
            (true, "event 1 w"),
            (false, "{}"),
            (false, r#"{"fields":[],"id":1"#),
        ] {
            assert_eq!(with_part(is_compact, text, 3, 5), text);
        }
    }
}
