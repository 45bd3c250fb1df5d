//! Layers: who is told of what, and in which form.

/// How many layers there may be.
pub const MOST_LAYERS: usize = 64;

#[derive(Clone, Copy, PartialEq, Eq, PartialOrd, Ord)]
pub enum Level {
    Error,
    Warn,
    Info,
    Debug,
    Trace,
}

impl Level {
    pub fn from_name(name: &str) -> Option<Level> {
        const ALL: [Level; 5] = [Level::Error, Level::Warn, Level::Info, Level::Debug, Level::Trace];
        ALL.into_iter().find(|level| level.name() == name)
    }

    pub fn name(self) -> &'static str {
        match self {
            Level::Error => "ERROR",
            Level::Warn => "WARN",
            Level::Info => "INFO",
            Level::Debug => "DEBUG",
            Level::Trace => "TRACE",
        }
    }
}

/// How a layer's notes are written.
#[derive(Clone, Copy)]
pub enum Form {
    Compact,
    Json,
}

/// What happened.
#[derive(Clone, Copy)]
pub enum Kind {
    New,
    Record,
    Event,
    Enter,
    Exit,
    Close,
}

impl Kind {
    const ALL: [Kind; 6] = [
        Kind::New,
        Kind::Record,
        Kind::Event,
        Kind::Enter,
        Kind::Exit,
        Kind::Close,
    ];

    pub fn name(self) -> &'static str {
        match self {
            Kind::New => "new",
            Kind::Record => "record",
            Kind::Event => "event",
            Kind::Enter => "enter",
            Kind::Exit => "exit",
            Kind::Close => "close",
        }
    }

    /// Whether a layer with these `spans` is told of the kind.
    fn is_wanted(self, spans: u8) -> bool {
        match self {
            Kind::Record | Kind::Event => true,
            Kind::New => spans & 1 != 0,
            Kind::Enter => spans & 2 != 0,
            Kind::Exit => spans & 4 != 0,
            Kind::Close => spans & 8 != 0,
        }
    }
}

/// The `spans` of a layer that is told of each kind.
pub const EVERY_KIND: u8 = 1 | 2 | 4 | 8;

/// Pairs of a prefix of targets and the greatest level that it admits.
pub type Rule = Vec<(Box<str>, Level)>;

/// Of the prefixes that begin the target the longest decides, and of equal ones the later.
fn admits(rule: &Rule, target: &str, level: Level) -> bool {
    let mut longest: Option<&(Box<str>, Level)> = None;
    for pair in rule {
        let begins = target.as_bytes().starts_with(pair.0.as_bytes());
        if begins && longest.is_none_or(|before| pair.0.len() >= before.0.len()) {
            longest = Some(pair);
        }
    }
    longest.is_some_and(|(_, greatest)| level <= *greatest)
}

/// A layer as a script gives it. `spans` is the sum of what it is told of spans' lives.
pub struct Layer {
    pub form: Form,
    pub spans: u8,
    pub rule: Rule,
}

/// A set of layers, as a mask.
#[derive(Clone, Copy)]
pub struct LayerSet(u64);

impl LayerSet {
    pub fn is_empty(self) -> bool {
        self.0 == 0
    }

    pub fn has(self, layer: u32) -> bool {
        self.0 >> layer & 1 == 1
    }

    pub fn len(self) -> usize {
        self.0.count_ones() as usize
    }

    pub fn and(self, other: LayerSet) -> LayerSet {
        LayerSet(self.0 & other.0)
    }

    /// The layers of the set, ascending.
    pub fn iter(self) -> impl Iterator<Item = u32> {
        let mut rest = self.0;
        std::iter::from_fn(move || {
            let layer = (rest != 0).then(|| rest.trailing_zeros());
            rest &= rest.wrapping_sub(1);
            layer
        })
    }
}

/// The layers of a registry: their rules, and for each kind which of them are told of it.
#[derive(Default)]
pub struct Layers {
    rules: Vec<Rule>,
    wanting: [u64; Kind::ALL.len()],
}

impl Layers {
    pub fn len(&self) -> usize {
        self.rules.len()
    }

    pub fn is_empty(&self) -> bool {
        self.rules.is_empty()
    }

    pub fn push(&mut self, spans: u8, rule: Rule) {
        let place = self.rules.len();
        for kind in Kind::ALL {
            self.wanting[kind as usize] |= u64::from(kind.is_wanted(spans)) << place;
        }
        self.rules.push(rule);
    }

    /// The layers whose rule admits.
    pub fn admitting(&self, target: &str, level: Level) -> LayerSet {
        let of_layer = |(place, rule)| u64::from(admits(rule, target, level)) << place;
        LayerSet(self.rules.iter().enumerate().map(of_layer).sum())
    }

    /// The layers that are told of the kind.
    pub fn wanting(&self, kind: Kind) -> LayerSet {
        LayerSet(self.wanting[kind as usize])
    }
}
