//! Limits and layers of a registry, before it is built.
#![forbid(unsafe_code)]
use crate::directives::Targets;
use crate::drain::Drain;
use crate::error::{Error, Limit};
use crate::interest::Interest;
use crate::level::{FmtSpan, Form, Level};
use crate::lost::Losses;
use crate::notes::Notes;
use crate::packed::{length, reserve};
use crate::part::{Common, Part};
use crate::parts::Parts;
use crate::raw::{Core, SpanLayer, SpanLimits, SpanRule, Start};
use crate::registry::Registry;
use crate::ring::{OnFull, Ring};
use crate::stamps::{Clock, Stamps};
use crate::state::State;
use std::sync::Arc;
use std::time::Instant;

/// Who is told of spans and events: in which form, of which parts of a span's life, and of which targets and levels.
///
/// It is told of everything, as long as nothing else is said.
#[derive(Clone, Debug, PartialEq, Eq)]
pub struct Layer {
    form: Form,
    kinds: FmtSpan,
    targets: Targets,
}

impl Layer {
    /// In this form.
    #[must_use]
    pub fn new(form: Form) -> Layer {
        Layer {
            form,
            kinds: FmtSpan::FULL,
            targets: Targets::new().with_default(Level::Trace),
        }
    }

    /// In the compact form.
    #[must_use]
    pub fn compact() -> Layer {
        Layer::new(Form::Compact)
    }

    /// In JSON: fields, id, kind, path and worker, of an event its level and message too. Parents, targets, times and
    /// the kinds of values are told by [`tree`](Layer::tree) alone.
    #[must_use]
    pub fn json() -> Layer {
        Layer::new(Form::Json)
    }

    /// In JSON from which trees can be built: with parents, targets, levels, times and the kinds of values. See
    /// [`Note`](crate::Note). It takes the reader least where each layer of the registry has this form: beside others
    /// each line is first asked whose it is.
    #[must_use]
    pub fn tree() -> Layer {
        Layer::new(Form::Tree)
    }

    /// Told of these parts of a span's life.
    #[must_use]
    pub fn with_span_events(self, kinds: FmtSpan) -> Layer {
        Layer { kinds, ..self }
    }

    /// Told of these targets.
    #[must_use]
    pub fn with_targets(self, targets: Targets) -> Layer {
        Layer { targets, ..self }
    }

    /// Told of all targets up to this level.
    #[must_use]
    pub fn with_max_level(self, level: Level) -> Layer {
        self.with_targets(Targets::new().with_default(level))
    }
}

/// A registry that is to be built. The range of a limit is looked at by [`build`](RegistryBuilder::build).
#[derive(Clone, Debug)]
#[must_use = "it has to be built"]
pub struct RegistryBuilder {
    limits: SpanLimits,
    parts: u32,
    layers: Vec<Layer>,
    // None: as it is built.
    on_full: Option<OnFull>,
}

impl Default for RegistryBuilder {
    fn default() -> RegistryBuilder {
        let limits = SpanLimits {
            slots: 1024,
            last_generation: u32::MAX,
            max_count: u32::MAX,
            workers: 256,
            ring: 1024,
        };
        RegistryBuilder {
            limits,
            parts: 1,
            layers: Vec::new(),
            on_full: None,
        }
    }
}

impl RegistryBuilder {
    /// How many spans may be open at once: 1 to 16777216, by default 1024. Their memory is taken at once.
    pub fn slots(mut self, slots: u32) -> RegistryBuilder {
        self.limits.slots = slots;
        self
    }

    /// A slot is given `last_generation + 1` times, and then never again. By default, and at most, 4294967295.
    pub fn last_generation(mut self, last_generation: u32) -> RegistryBuilder {
        self.limits.last_generation = last_generation;
        self
    }

    /// The greatest reference count of a span: 1 to 4294967295, which is the default.
    pub fn max_count(mut self, max_count: u32) -> RegistryBuilder {
        self.limits.max_count = max_count;
        self
    }

    /// How many threads may be inside spans at once: 1 to 65536, by default 256. Any number of threads may call
    /// ([`Registry`] says as which worker each is told). Of 65536 one is no thread's.
    pub fn workers(mut self, workers: u32) -> RegistryBuilder {
        self.limits.workers = workers;
        self
    }

    /// How many calls may wait for the drain: 1 to 65536, by default 1024.
    pub fn ring(mut self, ring: u32) -> RegistryBuilder {
        self.limits.ring = ring;
        self
    }

    /// In so many parts, each with a lock of its own: 1 to 128, by default 1. More threads make more calls so.
    ///
    /// Each part is a whole proved registry, with as many [slots](RegistryBuilder::slots), places of its
    /// [ring](RegistryBuilder::ring) and [workers](RegistryBuilder::workers) as is said.
    /// A tree of spans lies in one of them: a thread's roots in the part that is the thread's, in turn, and all else
    /// where its parent is, or the innermost span that the thread is inside of. The [id](crate::Id::part) names it.
    ///
    /// **What holds of each part** is all that holds of a registry with one: its calls have one order, in which its
    /// lines are told. Ids and workers are numbered so that no two parts have one in common: a thread that calls several
    /// parts has a worker's number in each, and lines of other parts than the first are the proved ones but for these
    /// numbers.
    ///
    /// **What holds of all together.** The drain gives the lines in the order of stamps, which calls take under their
    /// part's lock: those of a part are in its order, and those of a call come after those of each that ended before it
    /// began, in whatever thread and part; with what is owed, that is when it was done. What is counted or listed of all
    /// is of one moment in each part, and not of one in all. An event is told in the spans of one part: a layer that
    /// admits none of those that the thread is inside of there is told it in none, though it may admit one of another
    /// part.
    ///
    /// ```
    /// # fn main() -> Result<(), span_registry::Error> {
    /// use span_registry::{span, Layer, Level, Registry};
    /// let (registry, mut drain) = Registry::builder().parts(4).layer(Layer::compact()).build()?;
    /// let request = span!(registry, Level::Info, "request");
    /// let query = span!(registry, parent: &request, Level::Info, "query");
    /// assert_eq!(request.id().unwrap().part(), query.id().unwrap().part());
    /// drop((request, query));
    /// assert_eq!(drain.lines().count(), 4);
    /// # Ok(())
    /// # }
    /// ```
    pub fn parts(mut self, parts: u32) -> RegistryBuilder {
        self.parts = parts;
        self
    }

    /// One more layer, told after those that were added before; at most 64. They are numbered from 0.
    ///
    /// With no layer, all spans are made and no line is written.
    pub fn layer(mut self, layer: Layer) -> RegistryBuilder {
        self.layers.push(layer);
        self
    }

    /// What a call does that finds the ring full: by default it is refused, and where a writer is
    /// [spawned](RegistryBuilder::spawn_writer) it waits.
    pub fn on_full(mut self, on_full: OnFull) -> RegistryBuilder {
        self.on_full = Some(on_full);
        self
    }

    /// What it is where nothing was said.
    pub(crate) fn or_on_full(mut self, on_full: OnFull) -> RegistryBuilder {
        self.on_full.get_or_insert(on_full);
        self
    }

    /// The registry, and the end from which its lines are read.
    ///
    /// The drain has to be read also where there is no layer: each accepted call takes a place of the ring.
    ///
    /// # Errors
    /// [`OtherLibrary`](Error::OtherLibrary), [`BadLimits`](Error::BadLimits) with the first limit that is outside its
    /// range, [`TooManyLayers`](Error::TooManyLayers), [`BadData`](Error::BadData),
    /// [`OutOfMemory`](Error::OutOfMemory).
    pub fn build(self) -> Result<(Registry, Drain), Error> {
        let limits = self.checked_limits()?;
        let packed = PackedLayers::of(&self.layers)?;
        let forms: Vec<Form> = self.layers.iter().map(|layer| layer.form).collect();
        let interest = Interest::of(self.layers.iter().map(|layer| layer.targets.clone()));
        let losses = Arc::new(Losses::default());
        let making = Making {
            limits,
            packed: &packed,
            on_full: self.on_full.unwrap_or_default(),
            begin: forms.contains(&Form::Tree).then(Instant::now),
            // Where there is no layer, there are no lines.
            clock: (self.parts > 1 && !forms.is_empty()).then(Arc::default),
            common: Arc::new(Common::new(interest, Arc::clone(&losses), self.parts)),
            losses,
        };
        let first = making.part(0)?;
        let mut others = Vec::new();
        reserve(&mut others, self.parts as usize - 1)?;
        for place in 1..self.parts {
            others.push(making.part(place)?);
        }
        let parts = Parts::of(first, others);
        let drain = Drain::of(parts.clone(), forms);
        Ok((Registry::of(parts), drain))
    }

    // Those of each proved registry, which has a worker more.
    fn checked_limits(&self) -> Result<SpanLimits, Error> {
        let limits = self.limits;
        Limit::Slots.check(limits.slots)?;
        Limit::MaxCount.check(limits.max_count)?;
        Limit::Workers.check(limits.workers)?;
        Limit::Ring.check(limits.ring)?;
        Limit::Parts.check(self.parts)?;
        Ok(SpanLimits {
            workers: (limits.workers + 1).min(Limit::Workers.most()),
            ..limits
        })
    }
}

/// The forms of the C interface.
const COMPACT: u32 = 0;
const JSON: u32 = 1;

/// What the parts of a registry are made of.
struct Making<'a> {
    // Of each part.
    limits: SpanLimits,
    packed: &'a PackedLayers,
    on_full: OnFull,
    // Where a layer asks for notes.
    begin: Option<Instant>,
    // Where the lines of several parts are merged.
    clock: Option<Arc<Clock>>,
    common: Arc<Common>,
    losses: Arc<Losses>,
}

impl Making<'_> {
    fn part(&self, place: u32) -> Result<Arc<Part>, Error> {
        let packed = self.packed;
        let (core, lines) = Core::new(&Start {
            limits: self.limits,
            layers: &packed.layers,
            rules: &packed.rules,
            texts: &packed.texts,
        })?;
        let notes = self.begin.map(Notes::new);
        let stamps = |clock: &Arc<Clock>| Stamps::new(Arc::clone(clock), self.limits.ring);
        let stamps = self.clock.as_ref().map(stamps).transpose()?;
        let ring = Ring::new(lines, notes, stamps, self.on_full, Arc::clone(&self.losses));
        let ring = Arc::new(ring);
        // So no two parts have a worker's number in common.
        let first_worker = place * self.limits.workers;
        let state = State::new(core, Arc::clone(&ring), self.common.debt(), first_worker)?;
        Ok(Part::new(state, ring, Arc::clone(&self.common), place))
    }
}

/// Layers as the C interface takes them.
#[derive(Default)]
struct PackedLayers {
    layers: Vec<SpanLayer>,
    rules: Vec<SpanRule>,
    texts: Vec<u8>,
}

impl PackedLayers {
    fn of(layers: &[Layer]) -> Result<PackedLayers, Error> {
        let mut packed = PackedLayers::default();
        for layer in layers {
            packed.push(layer)?;
        }
        Ok(packed)
    }

    fn push(&mut self, layer: &Layer) -> Result<(), Error> {
        let before = self.rules.len();
        for (prefix, level) in layer.targets.pairs() {
            reserve(&mut self.texts, prefix.len())?;
            reserve(&mut self.rules, 1)?;
            self.texts.extend_from_slice(prefix.as_bytes());
            self.rules.push(SpanRule {
                prefix_len: length(prefix)?,
                level: level.verbosity(),
            });
        }
        let rules = u32::try_from(self.rules.len() - before).map_err(|_| Error::BadData)?;
        reserve(&mut self.layers, 1)?;
        self.layers.push(SpanLayer {
            form: form_number(layer.form),
            kinds: layer.kinds.bits(),
            rules,
        });
        Ok(())
    }
}

// The form in which the proved registry writes the lines of a layer in this form.
fn form_number(form: Form) -> u32 {
    match form {
        // Nobody sees the lines in the form of trees, and these take the least.
        Form::Compact | Form::Tree => COMPACT,
        Form::Json => JSON,
    }
}

#[cfg(test)]
mod tests {
    use super::*;

    /// The most verbose level with a layer for each of these targets: what the package tells without a lock, and what
    /// the proved registry does.
    fn max_levels(targets: &[&str]) -> (Option<Level>, Option<Level>) {
        let layer = |text: &&str| Layer::compact().with_targets(text.parse().expect("targets"));
        let layers: Vec<Layer> = targets.iter().map(layer).collect();
        let interest = Interest::of(layers.iter().map(|layer| layer.targets.clone()));
        let packed = PackedLayers::of(&layers).expect("there is memory");
        let (mut core, _lines) = Core::new(&Start {
            limits: SpanLimits {
                slots: 1,
                last_generation: 0,
                max_count: 1,
                workers: 1,
                ring: 1,
            },
            layers: &packed.layers,
            rules: &packed.rules,
            texts: &packed.texts,
        })
        .expect("the limits are in their ranges");
        (interest.max_level(), core.max_level())
    }

    #[test]
    fn the_most_verbose_level_is_that_of_the_proved_registry() {
        let cases: [(&[&str], Option<Level>); 12] = [
            (&["off"], None),
            (&["off", "off"], None),
            (&["error"], Some(Level::Error)),
            (&["warn"], Some(Level::Warn)),
            (&["app=info"], Some(Level::Info)),
            (&["debug", "off"], Some(Level::Debug)),
            (&["app"], Some(Level::Trace)),
            (&["warn,app=debug"], Some(Level::Debug)),
            (&["app=debug,warn"], Some(Level::Debug)),
            (&["app=error,app::db=info,web=warn"], Some(Level::Info)),
            (&["error", "app=trace", "warn"], Some(Level::Trace)),
            (&["web=warn", "app=error"], Some(Level::Warn)),
        ];
        for (targets, most) in cases {
            assert_eq!(max_levels(targets), (most, most), "{targets:?}");
        }
    }

    /// The proved registry counts a level too which a later one of the same prefix overrides, and without a layer each
    /// level, since spans are made then.
    #[test]
    fn the_proved_registry_never_tells_a_less_verbose_level() {
        assert_eq!(
            max_levels(&["app=debug,app=error"]),
            (Some(Level::Error), Some(Level::Debug))
        );
        assert_eq!(max_levels(&[]), (None, Some(Level::Trace)));
    }
}
