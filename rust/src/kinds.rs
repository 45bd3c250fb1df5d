//! The kinds of some values.
#![forbid(unsafe_code)]
use crate::kind::Kind;
use crate::meta::Given;
use crate::packed::reserve;
use crate::refusal::Refusal;

/// How many bits a kind takes.
const BITS: usize = 2;
/// By their bits.
const ALL: [Kind; 1 << BITS] = [Kind::Text, Kind::Integer, Kind::Float, Kind::Bool];
/// Of how many values a word has the kinds.
const IN_WORD: usize = u64::BITS as usize / BITS;

/// The kinds of values, in order. They take no memory where all values but the first 32 are texts.
#[derive(Debug, Default)]
pub(crate) struct Kinds {
    // Of so many values.
    count: usize,
    // Each word begins with its lowest bits. Where there is none, or no more, values are texts.
    few: u64,
    // In a block of its own, as it is seldom there.
    #[allow(clippy::box_collection)]
    more: Option<Box<Vec<u64>>>,
}

impl Kinds {
    /// Of these fields.
    pub(crate) fn of(given: &Given<'_>) -> Result<Kinds, Refusal> {
        let mut kinds = Kinds::default();
        if given.kinds.len() > IN_WORD {
            let more = kinds.more.get_or_insert_with(Box::default);
            reserve(more, (given.kinds.len() - 1) / IN_WORD)?;
        }
        given.kinds.iter().for_each(|&kind| kinds.push(kind));
        kinds.count = given.fields.len();
        Ok(kinds)
    }

    fn push(&mut self, kind: Kind) {
        let (word, place) = (self.count / IN_WORD, self.count % IN_WORD);
        self.count += 1;
        let bits = (kind as u64) << (place * BITS);
        if bits == 0 {
            return;
        }
        match word.checked_sub(1) {
            None => self.few |= bits,
            Some(at) => {
                let more = self.more.get_or_insert_with(Box::default);
                more.resize(more.len().max(word), 0);
                more[at] |= bits;
            }
        }
    }

    /// Puts those of more values behind these.
    pub(crate) fn append(&mut self, others: &Kinds) {
        if others.are_texts() {
            self.count += others.count;
        } else {
            others.iter().take(others.count).for_each(|kind| self.push(kind));
        }
    }

    fn are_texts(&self) -> bool {
        self.few == 0 && self.later().is_empty()
    }

    fn later(&self) -> &[u64] {
        self.more.as_ref().map_or(&[], |more| more)
    }

    /// Each, and then texts without end.
    pub(crate) fn iter(&self) -> impl Iterator<Item = Kind> + '_ {
        (0..).map(|place| self.get(place))
    }

    fn get(&self, place: usize) -> Kind {
        let word = match (place / IN_WORD).checked_sub(1) {
            None => self.few,
            Some(at) => self.later().get(at).copied().unwrap_or(0),
        };
        let bits = word >> (place % IN_WORD * BITS);
        ALL[bits as usize % ALL.len()]
    }

    /// Becomes as those, in the memory that these have.
    pub(crate) fn copy(&mut self, others: &Kinds) {
        self.clear();
        (self.count, self.few) = (others.count, others.few);
        if !others.later().is_empty() {
            self.more
                .get_or_insert_with(Box::default)
                .extend_from_slice(others.later());
        }
    }

    pub(crate) fn clear(&mut self) {
        (self.count, self.few) = (0, 0);
        if let Some(more) = &mut self.more {
            more.clear();
        }
    }
}

#[cfg(test)]
mod tests {
    use super::{Kinds, ALL, IN_WORD};
    use crate::kind::Kind;
    use crate::meta::Given;
    use crate::refusal::Refusal;

    fn kinds(fields: usize, kinds: &[Kind]) -> Result<Kinds, Refusal> {
        Kinds::of(&Given {
            fields: &vec![("", ""); fields],
            kinds,
        })
    }

    fn first(kinds: &Kinds, count: usize) -> Vec<Kind> {
        kinds.iter().take(count).collect()
    }

    #[test]
    fn each_kind_has_its_bits() {
        assert!(ALL.iter().enumerate().all(|(bits, &kind)| kind as usize == bits));
    }

    #[test]
    fn each_value_has_its_kind_and_the_others_are_texts() -> Result<(), Refusal> {
        for count in [0, 1, IN_WORD - 1, IN_WORD, IN_WORD + 1, 4 * IN_WORD + 3] {
            let given: Vec<Kind> = ALL.iter().rev().copied().cycle().take(count).collect();
            let told = kinds(count, &given)?;
            assert_eq!((told.count, first(&told, count)), (count, given));
            assert_eq!(told.iter().skip(count).take(100).collect::<Vec<_>>(), [Kind::Text; 100]);
        }
        Ok(())
    }

    #[test]
    fn those_behind_others_stand_where_their_values_do() -> Result<(), Refusal> {
        let (mut all, mut wanted) = (Kinds::default(), Vec::new());
        let parts: [(usize, &[Kind]); 6] = [
            (3, &[]),
            (2, &[Kind::Bool, Kind::Float]),
            (0, &[]),
            (IN_WORD, &[]),
            (4, &ALL),
            (1, &[Kind::Integer]),
        ];
        for (count, part) in parts.iter().cycle().take(40) {
            all.append(&kinds(*count, part)?);
            wanted.extend_from_slice(part);
            wanted.resize(wanted.len() + count - part.len(), Kind::Text);
        }
        assert_eq!((all.count, first(&all, wanted.len())), (wanted.len(), wanted.clone()));
        let mut copy = kinds(90, &[Kind::Bool; 90])?;
        copy.copy(&all);
        assert_eq!(first(&copy, wanted.len() + 9), first(&all, wanted.len() + 9));
        copy.clear();
        copy.append(&kinds(1, &[Kind::Float])?);
        assert_eq!(first(&copy, 3), [Kind::Float, Kind::Text, Kind::Text]);
        Ok(())
    }

    #[test]
    fn texts_and_few_others_take_no_memory() -> Result<(), Refusal> {
        let mut all = kinds(IN_WORD, &[Kind::Bool; IN_WORD])?;
        for _ in 0..1000 {
            all.append(&kinds(5, &[Kind::Text; 5])?);
        }
        assert_eq!((all.count, &all.more), (IN_WORD + 5000, &None));
        Ok(())
    }
}
