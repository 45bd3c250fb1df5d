//! The end from which lines are read.
#![forbid(unsafe_code)]
mod writing;

use crate::head::{Head, Reading};
use crate::level::Form;
use crate::note::Note;
use crate::notes::{Book, Notes};
use crate::part::Part;
use crate::parts::Parts;
use crate::state::State;
use crate::told::Spare;
use crate::workers;
use std::sync::MutexGuard;

/// A line that a layer was told.
#[derive(Clone, Debug, PartialEq, Eq, Hash)]
pub struct Line {
    /// The number of the layer, in the order of adding, from 0.
    pub layer: usize,
    /// Its text, without a newline.
    pub text: String,
}

/// What a drain has done so far.
#[derive(Clone, Copy, Debug, PartialEq, Eq)]
#[non_exhaustive]
pub struct DrainCounts {
    /// Batches taken out of the ring: one for each accepted call.
    pub batches: u64,
    /// Lines that are missing, because memory was refused for them.
    pub missed: u64,
}

/// The end from which lines are read, in the order of the calls; where the registry has several
/// [parts](crate::RegistryBuilder::parts), in that of their stamps. It may be used in a thread of its own.
///
/// It has to be read: [`OnFull`](crate::OnFull) says what calls do once the ring is full. Where it is dropped, lines
/// are thrown away from then on, and counted. Reading takes the registry's lock only where something is owed (see
/// [`Span`](crate::Span)) or a loss is to be told, or to wait for the end of a call of another part that may have a line
/// before the next one.
///
/// ```
/// # fn main() -> Result<(), Box<dyn std::error::Error>> {
/// use span_registry::{Layer, Level, Meta, Parent, Registry};
/// let (registry, mut drain) = Registry::builder().layer(Layer::json()).build()?;
/// let writing = std::thread::spawn(move || {
///     let mut out = Vec::new();
///     drain.run(&mut out).map(|_lines| out)
/// });
/// drop(registry.span(&Meta::new(Level::Info, "app", "a"), Parent::Current, &[])?);
/// drop(registry);
/// let out = String::from_utf8(writing.join().unwrap()?)?;
/// assert_eq!(out, concat!(
///     r#"{"fields":[],"id":1,"kind":"new","path":"a","worker":0}"#, "\n",
///     r#"{"fields":[],"id":1,"kind":"close","path":"a","worker":0}"#, "\n",
/// ));
/// # Ok(())
/// # }
/// ```
#[must_use = "lines are thrown away once it is dropped"]
pub struct Drain {
    parts: Parts,
    // Of each layer.
    forms: Vec<Form>,
    // Of each part.
    heads: Vec<Head>,
    // The part of the line that is handed out next.
    at: usize,
    // Of each part the last call whose lines are to be written at an end.
    last: Vec<u64>,
    // Of notes that were read into others.
    spare: Spare,
}

impl Drain {
    pub(crate) fn of(parts: Parts, forms: Vec<Form>) -> Drain {
        let reading = Reading::of(forms.iter().copied());
        Drain {
            heads: parts.all().map(|_| Head::new(reading)).collect(),
            last: parts.all().map(|_| 0).collect(),
            parts,
            forms,
            at: 0,
            spare: Spare::default(),
        }
    }

    pub(crate) fn parts(&self) -> &Parts {
        &self.parts
    }

    /// How many layers the registry has.
    #[must_use]
    pub fn layers(&self) -> usize {
        self.forms.len()
    }

    /// The next line; none where none is at hand now. It doesn't wait for one.
    pub fn line(&mut self) -> Option<Line> {
        let (layer, length) = self.next_ready(|_| true)?;
        let text = self.heads[self.at].text(self.part(self.at), length);
        self.heads[self.at].ready = None;
        Some(Line { layer, text })
    }

    /// What the next line tells of a layer in the [form of trees](Form::Tree); lines of other layers are passed over.
    /// None where none is at hand now. It doesn't wait for one.
    pub fn note(&mut self) -> Option<Note> {
        let mut note = Note::default();
        self.note_into(&mut note).then_some(note)
    }

    /// Reads the [note](Drain::note) that comes next in place of an earlier one, whose memory it uses: a program that
    /// writes its notes and keeps none allocates nothing for them. False where none is at hand now; then the earlier one
    /// stays.
    pub fn note_into(&mut self, note: &mut Note) -> bool {
        while self.next_ready(|_| true).is_some() {
            let head = &mut self.heads[self.at];
            head.ready = None;
            if head.is_note {
                let part = self.parts.part(self.at as u32);
                head.told.note_into(part, note, &mut self.spare);
                return true;
            }
        }
        false
    }

    /// The lines at hand, until there is none.
    pub fn lines(&mut self) -> impl Iterator<Item = Line> + '_ {
        std::iter::from_fn(|| self.line())
    }

    /// Whether the registry, its clones and its spans are gone. Lines may be left.
    #[must_use]
    pub fn is_over(&self) -> bool {
        self.parts.common().is_over()
    }

    /// What it has done so far.
    #[must_use]
    pub fn counts(&mut self) -> DrainCounts {
        let (mut batches, mut missed) = (0, 0);
        for part in self.parts.all() {
            let counts = part.ring().lines().counts();
            (batches, missed) = (batches + counts.0, missed + counts.1);
        }
        DrainCounts { batches, missed }
    }

    // Where the rings are empty, what is owed can be done, and what was lost told, and both may give lines. It is asked
    // before each look for a line whether to go on: batches without one may come for ever.
    fn next_ready(&mut self, goes_on: impl Fn(&Drain) -> bool) -> Option<(usize, usize)> {
        loop {
            if let Some(at) = self.first_ready() {
                self.at = at;
                return self.heads[at].ready;
            }
            if !goes_on(self) || !self.look() && !self.settles() {
                return None;
            }
        }
    }

    // The part whose line is the next one, where no part can bring one with a lesser stamp.
    #[inline]
    fn first_ready(&self) -> Option<usize> {
        match &*self.heads {
            [head] => head.ready.map(|_| 0),
            heads => {
                let (stamp, at) = least(heads)?;
                let is_beyond = |head: &Head| head.ready.is_some() || head.bound > stamp;
                heads.iter().all(is_beyond).then_some(at)
            }
        }
    }

    // Reads the next line of each part where it isn't read. Whether there is any.
    #[inline(always)]
    fn look(&mut self) -> bool {
        if self.parts.are_several() {
            self.look_at_all()
        } else {
            self.look_at(0)
        }
    }

    #[inline(never)]
    fn look_at_all(&mut self) -> bool {
        for at in 0..self.heads.len() {
            if self.heads[at].ready.is_none() {
                self.look_at(at);
            }
        }
        let Some((stamp, _)) = least(&self.heads) else {
            return false;
        };
        // Of the others, those which were looked at before that line came may bring one that comes before it.
        for at in 0..self.heads.len() {
            if self.heads[at].ready.is_none() && self.heads[at].bound <= stamp {
                let part = self.part(at);
                let passes = part.ring().stamps().is_none_or(|stamps| stamps.passes(stamp));
                if !passes {
                    // The call that may do so has the lock.
                    part.with(|_| ());
                }
                self.look_at(at);
            }
        }
        true
    }

    fn part(&self, at: usize) -> &Part {
        // At most 128.
        self.parts.part(at as u32)
    }

    #[inline(always)]
    fn look_at(&mut self, at: usize) -> bool {
        let part = self.parts.part(at as u32);
        let head = &mut self.heads[at];
        while head.look(part, &self.forms) {
            let is_whole = at == 0 && part.ring().notes().is_none();
            if is_whole || told(part, &self.forms, head) {
                return true;
            }
        }
        false
    }

    // Whether something was owed or lost, and some of it was done or told now.
    #[inline(always)]
    fn settles(&self) -> bool {
        if self.parts.are_several() {
            self.settles_all()
        } else {
            settles(self.parts.part(0))
        }
    }

    #[inline(never)]
    fn settles_all(&self) -> bool {
        // Each of them does.
        self.parts.all().filter(|part| settles(part)).count() > 0
    }
}

/// The least stamp of the lines that are read, and its part.
fn least(heads: &[Head]) -> Option<(u64, usize)> {
    let ready = heads.iter().enumerate().filter(|(_, head)| head.ready.is_some());
    ready.map(|(at, head)| (head.stamp, at)).min()
}

// Makes the line what is told of the part: a note by what was kept of its call, a text by the part's numbers. False
// where who calls threw away what was kept, with the lines that come next: then the note is lost as these are.
#[inline(never)]
fn told(part: &Part, forms: &[Form], head: &mut Head) -> bool {
    if let Some(notes) = part.ring().notes() {
        let book = book_at(part, notes, head.batch);
        if head.is_note {
            let Some(mut book) = book else {
                head.ready = None;
                part.common().losses().lose_line();
                return false;
            };
            head.told.complete(&mut book, part.common().interest());
        }
    }
    if part.place() > 0 && !head.is_note {
        let form = head.ready.map(|(layer, _)| forms[layer]);
        head.put_part(form == Some(Form::Compact), part);
    }
    true
}

// The book, of which the call of this number is the first. None where it isn't there any longer.
fn book_at<'a>(part: &Part, notes: &'a Notes, number: u64) -> Option<MutexGuard<'a, Book>> {
    let mut book = notes.book();
    let mut is_first = book.reads(number);
    if !is_first && book.is_empty() {
        drop(book);
        // The call still has the lock.
        part.with(|_| ());
        book = notes.book();
        is_first = book.reads(number);
    }
    is_first.then_some(book)
}

// Whether something was owed or lost, and some of it was done or told now.
#[inline]
fn settles(part: &Part) -> bool {
    (part.owes() || part.is_untold()) && settles_now(part)
}

#[cold]
fn settles_now(part: &Part) -> bool {
    let settle = |state: &mut State| {
        let before = state.calls();
        if state.settle().is_ok() {
            part.tell(state);
        }
        state.calls() > before
    };
    // What spans carried that close now may call the registry where it is dropped, and mustn't wait for this reader.
    workers::writing(part.common(), || part.with(settle))
}

/// From now on nobody reads.
impl Drop for Drain {
    fn drop(&mut self) {
        for (part, head) in self.parts.all().zip(&self.heads) {
            part.ring().is_left();
            if let Some(notes) = part.ring().notes() {
                notes.clear();
            }
            if self.parts.are_several() && head.ready.is_some() {
                // It was read to be merged, and no one asked for it.
                self.parts.common().losses().lose_line();
            }
        }
    }
}

impl std::fmt::Debug for Drain {
    fn fmt(&self, f: &mut std::fmt::Formatter<'_>) -> std::fmt::Result {
        f.debug_struct("Drain")
            .field("layers", &self.forms.len())
            .field("is_over", &self.is_over())
            .finish()
    }
}

#[cfg(test)]
mod tests {
    use super::{told, Drain};
    use crate::meta::RawId;
    use crate::{Error, Form, Layer, Level, Meta, OnFull, Parent, Registry};
    use std::sync::Arc;

    const LAYERS: [fn() -> Layer; 2] = [Layer::tree, Layer::compact];

    // The line that is taken out next, before what was kept of its call is looked for.
    fn take(drain: &mut Drain) {
        let part = Arc::clone(drain.parts.part(0));
        assert!(drain.heads[0].look(&part, &drain.forms));
    }

    #[test]
    fn a_note_has_nothing_of_the_call_that_was_thrown_away_behind_its_own() -> Result<(), Error> {
        for second in LAYERS {
            let builder = Registry::builder().workers(1).ring(1).on_full(OnFull::DropOldest);
            let (registry, mut drain) = builder.layer(Layer::tree()).layer(second()).build()?;
            let tell = |text| registry.event(&Meta::event(Level::Info, text), text, &[]);
            tell("a")?;
            take(&mut drain);
            tell("b")?;
            // There is no place for this one: the other line of `a` and the first one of `b` make it.
            tell("c")?;
            assert_eq!(registry.lost().lines(), 2);
            let part = Arc::clone(drain.parts.part(0));
            assert!(!told(&part, &drain.forms, &mut drain.heads[0]));
            assert_eq!((drain.heads[0].ready, registry.lost().lines()), (None, 3));
            // Each of the others has its own.
            let notes = std::iter::from_fn(|| drain.note()).map(|note| (note.message, note.target));
            let notes: Vec<_> = notes.filter(|(_, target)| target != "span_registry").collect();
            let of = |text: &str| (Some(text.to_owned()), text.to_owned());
            let wanted = if drain.forms[1] == Form::Tree {
                vec![of("b"), of("c"), of("c")]
            } else {
                vec![of("c")]
            };
            assert_eq!(notes, wanted);
        }
        Ok(())
    }

    #[test]
    fn of_a_span_whose_close_was_read_nothing_is_kept() -> Result<(), Error> {
        for second in LAYERS {
            let (registry, mut drain) = Registry::builder().layer(second()).layer(Layer::tree()).build()?;
            let span = registry.span(&Meta::new(Level::Info, "app", "a"), Parent::Root, &[])?;
            let id = span
                .id()
                .and_then(|id| RawId::from_u64(id.into_u64()))
                .expect("it is wanted");
            let part = Arc::clone(drain.parts.part(0));
            let is_known = || part.ring().notes().is_some_and(|notes| notes.book().span(id).is_some());
            drain.lines().for_each(drop);
            assert!(is_known());
            drop(span);
            // The next line says that the close's are read.
            registry.event(&Meta::event(Level::Info, "app"), "", &[])?;
            drain.lines().for_each(drop);
            assert!(!is_known());
        }
        Ok(())
    }

    #[test]
    fn a_text_that_was_taken_stays_whole() -> Result<(), Error> {
        let builder = Registry::builder().workers(1).ring(1).on_full(OnFull::DropOldest);
        let (registry, mut drain) = builder.layer(Layer::compact()).layer(Layer::tree()).build()?;
        let tell = |text| registry.event(&Meta::event(Level::Info, text), text, &[]);
        tell("a")?;
        take(&mut drain);
        tell("b")?;
        tell("c")?;
        let part = Arc::clone(drain.parts.part(0));
        assert!(told(&part, &drain.forms, &mut drain.heads[0]));
        assert_eq!(
            drain.line().map(|line| line.text).as_deref(),
            Some("event 0 w0 - INFO a")
        );
        let note = drain.note().expect("the other line of the second");
        assert_eq!((note.message.as_deref(), &*note.target), (Some("b"), "b"));
        Ok(())
    }
}
