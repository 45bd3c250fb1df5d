//! Whether any layer wants a span or an event, known without a lock: the layers' rules never change.
#![forbid(unsafe_code)]
use crate::directives::Targets;
use crate::level::Level;

/// The rules of all layers.
pub(crate) struct Interest {
    layers: Vec<Targets>,
    // Of all targets; none where nothing is admitted.
    max_level: Option<Level>,
}

impl Interest {
    pub(crate) fn of(layers: impl Iterator<Item = Targets>) -> Interest {
        let layers: Vec<Targets> = layers.collect();
        let max_level = layers.iter().filter_map(Targets::max_level).max();
        Interest { layers, max_level }
    }

    /// Whether there is no layer: spans are made then, and nobody is told of them.
    pub(crate) fn is_silent(&self) -> bool {
        self.layers.is_empty()
    }

    /// Whether some layer admits it.
    pub(crate) fn admits(&self, level: Level, target: &str) -> bool {
        let may_be = self.max_level.is_some_and(|most| level <= most);
        may_be && self.layers.iter().any(|layer| layer.admits(level, target))
    }

    /// Whether this one does.
    pub(crate) fn layer_admits(&self, layer: usize, level: Level, target: &str) -> bool {
        self.layers.get(layer).is_some_and(|layer| layer.admits(level, target))
    }

    pub(crate) fn max_level(&self) -> Option<Level> {
        self.max_level
    }
}
