//! Where spans were made, which the proved registry doesn't know; and what lists of open spans tell of one, with what
//! that does.
#![forbid(unsafe_code)]
use crate::meta::RawId;
use crate::names::{is_marked, read};
use crate::packed::{copied, reserve, Names, Packed};
use crate::raw::SpanField;
use crate::refusal::Refusal;
use crate::site::Site;
use std::collections::HashMap;

/// A file and a line, where these are known.
pub(crate) type Place = Option<(&'static str, u32)>;

/// How many bytes of a span's texts are told at most.
const TOLD: usize = 4096;

/// What is known of an open span.
pub(crate) struct Details {
    pub(crate) name: String,
    pub(crate) target: String,
    pub(crate) place: Place,
    pub(crate) fields: Vec<(String, String)>,
    pub(crate) is_cut: bool,
}

#[derive(Default)]
pub(crate) struct Origins {
    // By the callsites' numbers.
    places: Vec<Place>,
    // The numbers of the places of macros, by their addresses.
    sites: HashMap<usize, u32>,
    // By slot, up to the greatest that was ever used: the callsite of its last span, where that was made at one.
    callsites: Vec<Option<u32>>,
}

impl Origins {
    /// Adds a callsite whose number is that of `add`, which is called once there is room.
    pub(crate) fn add(
        &mut self,
        site: Option<&'static Site>,
        add: impl FnOnce() -> Result<u32, Refusal>,
    ) -> Result<u32, Refusal> {
        reserve(&mut self.places, 1)?;
        self.sites.try_reserve(1).map_err(|_| Refusal::OUT_OF_MEMORY)?;
        let number = add()?;
        // Callsites are numbered in ascending order.
        self.places.push(site.map(Site::place));
        if let Some(site) = site {
            self.sites.insert(address(site), number);
        }
        Ok(number)
    }

    /// The number of a place that was added.
    pub(crate) fn number(&self, site: &'static Site) -> Option<u32> {
        self.sites.get(&address(site)).copied()
    }

    /// Room for one more span.
    #[inline(always)]
    pub(crate) fn reserve_span(&mut self) -> Result<(), Refusal> {
        reserve(&mut self.callsites, 1)
    }

    /// The span was made that room was made for last, at this callsite, if at one.
    #[inline(always)]
    pub(crate) fn made(&mut self, id: RawId, callsite: Option<u32>) {
        match self.callsites.get_mut(id.slot()) {
            Some(last) => *last = callsite,
            // The registry uses its slots in ascending order, so it is the next one, and there is room.
            None => self.callsites.push(callsite),
        }
    }

    /// What is known of an open span, of which the proved registry says these texts.
    pub(crate) fn details(&self, id: RawId, names: Names, said: &Packed) -> Result<Details, Refusal> {
        let callsite = self.callsites.get(id.slot()).copied().flatten();
        let place = callsite.and_then(|number| self.places.get(number as usize));
        // The names of a callsite count for nothing.
        let before = if callsite.is_none() { names.bytes() } else { 0 };
        let (told, is_cut) = fitting(before, said.fields());
        let mut texts = said.texts();
        let name = unmarked(taken(&mut texts, names.name)?);
        let target = taken(&mut texts, names.target)?;
        let mut fields = Vec::new();
        reserve(&mut fields, told.len())?;
        for field in told {
            let key = unmarked(taken(&mut texts, field.key_len as usize)?);
            fields.push((key, taken(&mut texts, field.value_len as usize)?));
        }
        Ok(Details {
            name,
            target: if before > TOLD { String::new() } else { target },
            place: place.copied().flatten(),
            fields,
            is_cut,
        })
    }
}

// The fields that are told behind so many bytes, and whether there is more: all up to the first that has no room. None
// has where what stands before them hasn't.
fn fitting(before: usize, fields: &[SpanField]) -> (&[SpanField], bool) {
    let mut left = TOLD.checked_sub(before);
    let has_room = |field: &&SpanField| {
        left = left.and_then(|left| left.checked_sub(field.bytes()));
        left.is_some()
    };
    let count = fields.iter().take_while(has_room).count();
    (&fields[..count], before > TOLD || count < fields.len())
}

fn address(site: &'static Site) -> usize {
    std::ptr::from_ref(site) as usize
}

// So many bytes of the beginning, which are taken away.
fn taken(texts: &mut &[u8], bytes: usize) -> Result<String, Refusal> {
    let (text, rest) = texts.split_at(bytes);
    *texts = rest;
    // The proved registry says texts.
    copied(std::str::from_utf8(text).unwrap_or_default())
}

// The name or key that is written so.
fn unmarked(written: String) -> String {
    if is_marked(&written) {
        read(&written).into_owned()
    } else {
        written
    }
}

#[cfg(test)]
mod tests {
    use super::{Details, Names, Origins, TOLD};
    use crate::level::Level;
    use crate::meta::{Fields, RawId};
    use crate::packed::Packed;
    use crate::refusal::Refusal;
    use crate::site::Site;

    fn id(number: u64) -> RawId {
        RawId::from_u64(number).expect("not 0")
    }

    fn details(origins: &Origins, number: u64, names: [&str; 2], fields: Fields<'_>) -> Result<Details, Refusal> {
        let mut said = Packed::default();
        said.pack(&names, fields)?;
        let [name, target] = names.map(str::len);
        origins.details(id(number), Names { name, target }, &said)
    }

    #[test]
    fn the_last_span_of_a_slot_has_its_place() -> Result<(), Refusal> {
        static SITE: Site = Site::span(Level::Info, "app", "a", "main.rs", 7);
        let mut origins = Origins::default();
        assert_eq!(origins.add(None, || Ok(0)), Ok(0));
        assert_eq!(origins.add(Some(&SITE), || Ok(1)), Ok(1));
        let refused = origins.add(None, || Err(Refusal::OUT_OF_MEMORY));
        assert_eq!(refused, Err(Refusal::OUT_OF_MEMORY));
        assert_eq!(origins.number(&SITE), Some(1));
        for (number, callsite) in [(1, Some(1)), (2, None), (3, Some(0)), ((1 << 24) + 2, Some(1))] {
            origins.reserve_span()?;
            origins.made(id(number), callsite);
            let told = details(&origins, number, ["a", "app"], &[("k", "v"), ("--", "")])?;
            assert_eq!((&*told.name, &*told.target), ("a", "app"));
            assert_eq!(told.place, (callsite == Some(1)).then_some(("main.rs", 7)));
            assert_eq!(
                told.fields,
                [("k", "v"), ("", "")].map(|(key, value)| (key.into(), value.into()))
            );
            assert!(!told.is_cut);
        }
        Ok(())
    }

    #[test]
    fn long_texts_are_cut() -> Result<(), Refusal> {
        let mut origins = Origins::default();
        origins.made(id(1), None);
        origins.made(id(2), Some(0));
        let long = "x".repeat(TOLD / 2);
        let fields = [("", &*long), ("", &long[2..]), ("", "y"), ("", "")];
        // Behind two bytes, and behind none.
        let told = [
            details(&origins, 1, ["a", "t"], &fields)?,
            details(&origins, 2, ["a", "t"], &fields)?,
        ];
        assert_eq!(
            told.each_ref().map(|told| (told.fields.len(), told.is_cut)),
            [(2, true), (4, false)]
        );
        let told = [
            details(&origins, 1, ["a", &long], &fields)?,
            details(&origins, 2, ["a", &long], &fields)?,
        ];
        assert_eq!(
            told.each_ref().map(|told| (told.fields.len(), told.is_cut)),
            [(0, true), (4, false)]
        );
        let long = "t".repeat(TOLD);
        let told = [
            details(&origins, 1, ["a", &long], &[])?,
            details(&origins, 2, ["a", &long], &[])?,
        ];
        assert_eq!(
            told.each_ref().map(|told| (told.target == long, told.is_cut)),
            [(false, true), (true, false)]
        );
        Ok(())
    }
}
