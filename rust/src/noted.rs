//! What is noted of a call: what the call says of itself, and what is kept of that.
#![forbid(unsafe_code)]
use crate::kinds::Kinds;
use crate::level::Level;
use crate::meta::{Given, Meta, RawId};
use crate::names::read;
use crate::packed::reserve;
use crate::refusal::Refusal;

/// A block that is longer isn't kept for the next texts.
const KEPT: usize = 1024;

/// How many blocks are kept, so that a backlog that was read leaves at most a mebibyte.
const MOST_BLOCKS: usize = 1024;

/// What a call does.
#[derive(Clone, Copy, Debug)]
pub(crate) enum What<'a> {
    /// A span or an event with these fields.
    Made(Source<'a>, &'a Given<'a>),
    /// These fields are recorded.
    Record(RawId, &'a Given<'a>),
    Other,
}

/// What says the level, the target and the name of a span or an event.
#[derive(Clone, Copy, Debug)]
pub(crate) enum Source<'a> {
    /// A callsite, by its number.
    Callsite(u32),
    /// This, where the name is as lines write it.
    Meta(&'a Meta<'a>),
}

/// A level, a target and a name of its own.
#[derive(Debug)]
pub(crate) struct Named {
    level: Level,
    // How many bytes the name has, which comes first.
    name: usize,
    texts: String,
}

impl Named {
    /// Those of a meta whose name is as lines write it, in this block.
    pub(crate) fn of(meta: &Meta<'_>, mut block: String) -> Result<Named, Refusal> {
        let name = read(meta.name);
        block.clear();
        let bytes = name.len() + meta.target.len();
        // No more than that: a block that is too long isn't kept.
        block.try_reserve_exact(bytes).map_err(|_| Refusal::OUT_OF_MEMORY)?;
        block.push_str(&name);
        block.push_str(meta.target);
        Ok(Named {
            level: meta.level,
            name: name.len(),
            texts: block,
        })
    }

    /// The same, where the name is as it was given.
    pub(crate) fn meta(&self) -> Meta<'_> {
        let (name, target) = self.texts.split_at(self.name);
        Meta::new(self.level, target, name)
    }
}

/// Whose level, target and name a span or an event has.
#[derive(Debug)]
pub(crate) enum Of {
    /// A callsite's, by its number.
    Callsite(u32),
    Own(Named),
}

/// What is kept of a span or an event, with the kinds of its fields, in order.
#[derive(Debug)]
pub(crate) struct Known {
    pub(crate) of: Of,
    pub(crate) kinds: Kinds,
}

/// What is kept of a call.
#[derive(Debug)]
pub(crate) enum Kept {
    /// A new span, under this one.
    Span {
        id: RawId,
        parent: Option<RawId>,
        known: Known,
    },
    /// An event that was told, or a span before it has its id.
    Made(Known),
    /// Fields of these kinds were recorded.
    Record(RawId, Kinds),
    Other,
}

impl Kept {
    /// Of what a call does, with texts in one of these blocks.
    pub(crate) fn of(what: What<'_>, blocks: &mut Blocks) -> Result<Kept, Refusal> {
        Ok(match what {
            What::Made(source, given) => {
                let kinds = Kinds::of(given)?;
                let of = match source {
                    Source::Callsite(number) => Of::Callsite(number),
                    Source::Meta(meta) => Of::Own(Named::of(meta, blocks.take())?),
                };
                Kept::Made(Known { of, kinds })
            }
            What::Record(id, given) => Kept::Record(id, Kinds::of(given)?),
            What::Other => Kept::Other,
        })
    }

    /// The span that is made has this id.
    pub(crate) fn of_span(self, id: RawId, parent: Option<RawId>) -> Kept {
        match self {
            Kept::Made(known) => Kept::Span { id, parent, known },
            other => other,
        }
    }

    /// What is kept of the span or the event that was made.
    pub(crate) fn known(&self) -> Option<&Known> {
        match self {
            Kept::Span { known, .. } | Kept::Made(known) => Some(known),
            Kept::Record(..) | Kept::Other => None,
        }
    }
}

/// Blocks of memory for the texts of what has some of its own. They go from the calls to who reads, and come back: a
/// block is taken anew only where more is waiting to be read, or more spans are open, than ever before or than are kept.
#[derive(Default)]
pub(crate) struct Blocks(Vec<String>);

impl Blocks {
    fn take(&mut self) -> String {
        self.0.pop().unwrap_or_default()
    }

    /// This is not needed any longer.
    pub(crate) fn give_back(&mut self, known: Known) {
        if let Of::Own(Named { texts, .. }) = known.of {
            // Where there is no room for it, or there are enough, it goes.
            let fits = texts.capacity() <= KEPT && self.0.len() < MOST_BLOCKS;
            if fits && reserve(&mut self.0, 1).is_ok() {
                self.0.push(texts);
            }
        }
    }
}

#[cfg(test)]
mod tests {
    use super::{Blocks, Kept, Known, Named, Of, Source, What, KEPT};
    use crate::level::Level;
    use crate::meta::{Given, Meta};
    use crate::refusal::Refusal;

    fn known(meta: &Meta<'_>, blocks: &mut Blocks) -> Result<Known, Refusal> {
        match Kept::of(What::Made(Source::Meta(meta), &Given::NONE), blocks)? {
            Kept::Made(known) => Ok(known),
            other => panic!("{other:?}"),
        }
    }

    fn address(known: &Known) -> *const u8 {
        match &known.of {
            Of::Own(named) => named.texts.as_ptr(),
            Of::Callsite(_) => panic!("it has texts of its own"),
        }
    }

    #[test]
    fn names_are_as_they_were_given() -> Result<(), Refusal> {
        for (written, name) in [("a", "a"), ("--a-20b", "a b"), ("--", "")] {
            for target in ["", "app::db", "\u{e9}"] {
                let named = Named::of(&Meta::new(Level::Warn, target, written), "earlier".to_owned())?;
                assert_eq!(named.meta(), Meta::new(Level::Warn, target, name));
            }
        }
        Ok(())
    }

    #[test]
    fn blocks_are_used_again() -> Result<(), Refusal> {
        let mut blocks = Blocks::default();
        let meta = Meta::event(Level::Info, "app");
        let (first, other) = (known(&meta, &mut blocks)?, known(&meta, &mut blocks)?);
        let (block, of_other) = (address(&first), address(&other));
        blocks.give_back(first);
        let again = known(&meta, &mut blocks)?;
        assert_eq!(address(&again), block);
        blocks.give_back(other);
        assert_eq!(address(&known(&meta, &mut blocks)?), of_other);
        // Texts that grow don't make a block longer than they are.
        for length in [KEPT / 2, KEPT - "event".len()] {
            let target = "t".repeat(length);
            let grown = known(&Meta::event(Level::Info, &target), &mut blocks)?;
            blocks.give_back(grown);
            assert_eq!(blocks.0.len(), 1);
        }
        blocks.take();
        // What has none gives none back, and what is long isn't kept.
        let at_callsite = What::Made(Source::Callsite(0), &Given::NONE);
        if let Kept::Made(known) = Kept::of(at_callsite, &mut blocks)? {
            blocks.give_back(known);
        }
        let long = "t".repeat(KEPT + 1);
        let long = known(&Meta::event(Level::Info, &long), &mut blocks)?;
        blocks.give_back(long);
        assert!(blocks.0.is_empty());
        Ok(())
    }
}
