//! What the package itself asks of no registry, since it knows it already: the places of a stack, which layers admit a
//! span, how often the ring was full, above which level nothing is wanted. And that a span follows from another, of which it keeps the kind too.
#![cfg_attr(not(test), allow(dead_code))]
use super::{
    span_registry_entry, span_registry_follows_from, span_registry_layers_of, span_registry_max_level,
    span_registry_times_full, Core,
};
use crate::level::Level;
use crate::meta::RawId;
use crate::refusal::Refusal;

impl Core {
    /// The span at a place of a worker's stack, from the lowest on, if there is one; and how many places there are.
    pub(crate) fn entry(&mut self, worker: u32, place: usize) -> Result<(Option<RawId>, usize), Refusal> {
        let (mut id, mut depth) = (0, 0);
        // SAFETY: the handle is full and lent to this call alone, and both outputs are this call's.
        Refusal::of_status(unsafe { span_registry_entry(&mut self.handle, worker, place, &mut id, &mut depth) })?;
        Ok((RawId::from_u64(id), depth))
    }

    /// The layers that admit an open span: bit n is set where layer n does.
    pub(crate) fn layers_of(&mut self, id: RawId) -> Result<u64, Refusal> {
        let mut layers = 0;
        // SAFETY: the handle is full and lent to this call alone, and `layers` is this call's.
        Refusal::of_status(unsafe { span_registry_layers_of(&mut self.handle, id.get(), &mut layers) })?;
        Ok(layers)
    }

    /// How often a call was refused for want of a place in the ring.
    pub(crate) fn times_full(&mut self) -> u64 {
        let mut times = 0;
        // SAFETY: the handle is full and lent to this call alone, and `times` is this call's.
        let status = unsafe { span_registry_times_full(&mut self.handle, &mut times) };
        debug_assert_eq!(status, super::OK);
        times
    }

    /// Nothing is wanted at a level above this one: TRACE where there is no layer, else the most verbose one that a
    /// layer's rule has, also one that a later rule of the same prefix overrides; none where no layer has a rule.
    pub(crate) fn max_level(&mut self) -> Option<Level> {
        let mut levels = 0;
        // SAFETY: the handle is full and lent to this call alone, and `levels` is this call's.
        let status = unsafe { span_registry_max_level(&mut self.handle, &mut levels) };
        debug_assert_eq!(status, super::OK);
        Level::ALL.into_iter().take(levels as usize).next_back()
    }

    /// Tells that a span follows from the one of this number, by a record.
    pub(crate) fn follows_from(&mut self, worker: u32, id: RawId, followed: u64) -> Result<(), Refusal> {
        // SAFETY: the handle is full and lent to this call alone.
        Refusal::of_status(unsafe { span_registry_follows_from(&mut self.handle, worker, id.get(), followed) })
    }
}

#[cfg(test)]
mod tests {
    use super::super::{Closed, Core, Lines, SpanLimits, Start};
    use crate::level::Level;
    use crate::meta::{Meta, RawId, RawParent};
    use crate::packed::{packed, Names, Packed};
    use crate::refusal::Refusal;

    fn registry(ring: u32) -> (Core, Lines) {
        let limits = SpanLimits {
            slots: 16,
            last_generation: 9,
            max_count: 9,
            workers: 2,
            ring,
        };
        let start = Start {
            limits,
            layers: &[],
            rules: &[],
            texts: &[],
        };
        Core::new(&start).expect("the limits are in their ranges")
    }

    fn new_span(core: &mut Core, parent: RawParent, fields: &[(&str, &str)]) -> RawId {
        let meta = Meta {
            name: "name",
            target: "app::db",
            level: Level::Warn,
        };
        let made = packed(&[meta.name, meta.target], fields, |texts| {
            core.new_span(0, parent, &meta, texts)
        });
        made.expect("nothing stands against it").expect("there is no layer")
    }

    #[test]
    fn closed_spans_are_told_child_first() {
        let (mut core, _lines) = registry(64);
        let parent = new_span(&mut core, RawParent::Root, &[]);
        let child = new_span(&mut core, RawParent::Of(parent), &[]);
        let told = |closed: Closed| closed.ids().map(|ids| ids.collect::<Vec<_>>());
        assert_eq!(core.try_close_closing(0, parent).map(told), Ok(Some(vec![])));
        assert_eq!(core.enter(1, child), Ok(true));
        assert_eq!(core.try_close_closing(0, child).map(told), Ok(Some(vec![])));
        assert_eq!(core.exit_closing(0, child).map(told), Err(Refusal::NOT_ENTERED));
        assert_eq!(core.exit_closing(1, child).map(told), Ok(Some(vec![child, parent])));
        assert_eq!(core.try_close_closing(0, child).map(told), Err(Refusal::UNKNOWN));
    }

    #[test]
    fn a_span_is_told_as_it_was_made() {
        let (mut core, _lines) = registry(64);
        let long = "é".repeat(300);
        let few = [("key", "value"), ("empty", "")];
        let many: Vec<(&str, &str)> = (0..20).map(|_| ("key", long.as_str())).collect();
        let (mut told, mut wanted) = (Packed::default(), Packed::default());
        // The buffer has no room, then more than enough, and then what the last one left.
        for fields in [&[], &many[..], &few[..], &few[..]] {
            let id = new_span(&mut core, RawParent::Root, fields);
            assert_eq!(core.details(id, &mut told), Ok(Names { name: 4, target: 7 }));
            wanted.pack(&["name", "app::db"], fields).expect("there is memory");
            assert_eq!((told.texts(), told.fields()), (wanted.texts(), wanted.fields()));
            assert_eq!(packed(&[], &[("later", "")], |texts| core.record(0, id, texts)), Ok(()));
            assert_eq!(core.details(id, &mut told), Ok(Names { name: 4, target: 7 }));
            assert_eq!(told.fields().len(), fields.len() + 1);
            assert!(told.texts().ends_with(b"later"));
            assert_eq!(core.try_close(0, id), Ok(true));
            assert_eq!(core.details(id, &mut told), Err(Refusal::UNKNOWN));
        }
    }

    #[test]
    fn a_stack_has_a_place_for_each_entry() {
        let (mut core, _lines) = registry(64);
        let first = new_span(&mut core, RawParent::Root, &[]);
        let second = new_span(&mut core, RawParent::Root, &[]);
        for id in [first, second, first] {
            core.enter(1, id).expect("nothing stands against it");
        }
        let places = [Some(first), Some(second), Some(first), None];
        for (place, id) in places.into_iter().enumerate() {
            assert_eq!(core.entry(1, place), Ok((id, 3)));
        }
        assert_eq!(core.entry(0, 0), Ok((None, 0)));
    }

    #[test]
    fn a_registry_without_layers_has_no_bit_and_no_line() {
        let (mut core, mut lines) = registry(64);
        let id = new_span(&mut core, RawParent::Root, &[]);
        assert_eq!(core.layers_of(id), Ok(0));
        assert_eq!(core.try_close(0, id), Ok(true));
        assert_eq!(core.layers_of(id), Err(Refusal::UNKNOWN));
        assert_eq!((lines.skip_batch(), lines.counts()), (0, (2, 0)));
    }

    #[test]
    fn a_span_follows_from_any_number() {
        let (mut core, _lines) = registry(64);
        let id = new_span(&mut core, RawParent::Root, &[]);
        for followed in [0, id.get(), u64::MAX] {
            assert_eq!(core.follows_from(1, id, followed), Ok(()));
        }
        assert_eq!(core.try_close(0, id), Ok(true));
        assert_eq!(core.follows_from(1, id, 7), Err(Refusal::UNKNOWN));
    }

    #[test]
    fn each_want_of_a_place_is_counted() {
        let (mut core, _lines) = registry(1);
        let id = new_span(&mut core, RawParent::Root, &[]);
        for times in 0..3 {
            assert_eq!(core.times_full(), times);
            assert_eq!(core.try_close(0, id), Err(Refusal::BACKLOG));
        }
    }
}
