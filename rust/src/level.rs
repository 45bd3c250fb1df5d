//! Levels, what a layer is told of a span's life, and the form of its lines.
#![forbid(unsafe_code)]
use std::fmt;
use std::ops::{BitOr, BitOrAssign};
use std::str::FromStr;

/// How verbose a span or an event is: the later, the more verbose.
#[derive(Clone, Copy, Debug, PartialEq, Eq, PartialOrd, Ord, Hash)]
pub enum Level {
    /// What went wrong.
    Error,
    /// What may go wrong.
    Warn,
    /// What a user may want to know.
    Info,
    /// What helps to find a fault.
    Debug,
    /// Everything else.
    Trace,
}

impl Level {
    /// All levels, by verbosity.
    pub const ALL: [Level; 5] = [Level::Error, Level::Warn, Level::Info, Level::Debug, Level::Trace];

    /// The level's name in lines: `ERROR`, `WARN`, `INFO`, `DEBUG` or `TRACE`.
    #[must_use]
    pub fn name(self) -> &'static str {
        match self {
            Level::Error => "ERROR",
            Level::Warn => "WARN",
            Level::Info => "INFO",
            Level::Debug => "DEBUG",
            Level::Trace => "TRACE",
        }
    }

    pub(crate) fn verbosity(self) -> u32 {
        self as u32
    }

    pub(crate) fn of_verbosity(verbosity: u32) -> Option<Level> {
        Level::ALL.into_iter().find(|level| level.verbosity() == verbosity)
    }
}

impl fmt::Display for Level {
    fn fmt(&self, f: &mut fmt::Formatter<'_>) -> fmt::Result {
        f.pad(self.name())
    }
}

/// A level's name in any case of letters, or its number, from 1 for `error` to 5 for `trace`.
///
/// ```
/// use span_registry::Level;
/// assert_eq!("warn".parse(), Ok(Level::Warn));
/// assert_eq!("5".parse(), Ok(Level::Trace));
/// assert!("inof".parse::<Level>().is_err());
/// ```
impl FromStr for Level {
    type Err = ParseLevelError;

    fn from_str(text: &str) -> Result<Level, ParseLevelError> {
        let is_meant =
            |level: &Level| text.eq_ignore_ascii_case(level.name()) || text == (level.verbosity() + 1).to_string();
        let found = Level::ALL.into_iter().find(is_meant);
        found.ok_or_else(|| ParseLevelError { text: text.to_owned() })
    }
}

/// That a text is no level.
#[derive(Clone, Debug, PartialEq, Eq)]
pub struct ParseLevelError {
    text: String,
}

impl fmt::Display for ParseLevelError {
    fn fmt(&self, f: &mut fmt::Formatter<'_>) -> fmt::Result {
        write!(
            f,
            "no such level: {:?} isn't error, warn, info, debug, trace or 1 to 5",
            self.text
        )
    }
}

impl std::error::Error for ParseLevelError {}

/// Of which parts of a span's life a layer is told. Records and events are told whatever it is.
///
/// ```
/// use span_registry::FmtSpan;
/// assert_eq!(FmtSpan::ENTER | FmtSpan::EXIT, FmtSpan::ACTIVE);
/// assert!(FmtSpan::FULL.contains(FmtSpan::CLOSE));
/// ```
#[derive(Clone, Copy, Debug, PartialEq, Eq, Hash)]
pub struct FmtSpan(u32);

impl FmtSpan {
    /// Of nothing.
    pub const NONE: FmtSpan = FmtSpan(0);
    /// Of new spans.
    pub const NEW: FmtSpan = FmtSpan(1);
    /// Of each enter.
    pub const ENTER: FmtSpan = FmtSpan(2);
    /// Of each exit.
    pub const EXIT: FmtSpan = FmtSpan(4);
    /// Of closes.
    pub const CLOSE: FmtSpan = FmtSpan(8);
    /// Of enters and exits.
    pub const ACTIVE: FmtSpan = FmtSpan(6);
    /// Of everything.
    pub const FULL: FmtSpan = FmtSpan(15);

    /// Whether all of `parts` are among these.
    #[must_use]
    pub fn contains(self, parts: FmtSpan) -> bool {
        self.0 & parts.0 == parts.0
    }

    pub(crate) fn bits(self) -> u32 {
        self.0
    }
}

impl BitOr for FmtSpan {
    type Output = FmtSpan;

    fn bitor(self, other: FmtSpan) -> FmtSpan {
        FmtSpan(self.0 | other.0)
    }
}

impl BitOrAssign for FmtSpan {
    fn bitor_assign(&mut self, other: FmtSpan) {
        self.0 |= other.0;
    }
}

/// The form of a layer's lines.
#[derive(Clone, Copy, Debug, PartialEq, Eq, Hash)]
pub enum Form {
    /// `<kind> <id> w<worker> <path>`, for an event then ` <level> <message>`, then ` <key>=<value>` for each field.
    /// In messages and values a backslash, a newline and a carriage return are written `\\`, `\n` and `\r`.
    Compact,
    /// One JSON object: `fields`, `id`, `kind`, `path` and `worker`, for an event also `level` and `message`.
    Json,
    /// One JSON object from which trees can be built: the text of a [`Note`](crate::Note). It is made of what the proved
    /// registry tells of the note, and of what this crate keeps of each call until its lines are read.
    Tree,
}
