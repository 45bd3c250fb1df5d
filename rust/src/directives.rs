//! Which targets a layer admits, and up to which level.
#![forbid(unsafe_code)]
use crate::level::Level;
use std::collections::HashSet;
use std::fmt;
use std::str::FromStr;

/// Which spans and events a layer admits: pairs of a prefix of the target and the greatest level.
///
/// Of the pairs whose prefix begins the target, byte by byte, the longest prefix decides; of equal prefixes the later
/// pair. Where no prefix begins it, nothing is admitted.
///
/// The text of [`FromStr`] is that of `tracing_subscriber`'s `Targets`, and of `EnvFilter` without spans and fields:
/// directives with commas between them, each `target=level`, `level` alone for all targets, or `target` alone for all
/// its levels. Levels are `error`, `warn`, `info`, `debug`, `trace` in any case of letters, or 1 to 5, and `off` or 0.
/// Blanks around a directive and its parts don't count. Otherwise than there, a target can't be switched off where a
/// shorter prefix admits something: the least that a pair admits is errors.
///
/// ```
/// # fn main() -> Result<(), span_registry::ParseError> {
/// use span_registry::{Level, Targets};
/// let targets: Targets = "app=info,app::db=trace,warn".parse()?;
/// assert_eq!(targets, Targets::new()
///     .with_target("app", Level::Info)
///     .with_target("app::db", Level::Trace)
///     .with_default(Level::Warn));
/// # Ok(())
/// # }
/// ```
#[derive(Clone, Debug, Default, PartialEq, Eq)]
pub struct Targets {
    pairs: Vec<(String, Level)>,
}

impl Targets {
    /// Admits nothing.
    #[must_use]
    pub fn new() -> Targets {
        Targets::default()
    }

    /// As [`FromStr`] reads it, but refuses a bare word that may be a level's misspelling, which is a target there: a
    /// number, or a word that one letter more, less or other, or two neighbours swapped, make a level or `off`. Such a
    /// target is written with its level.
    ///
    /// # Errors
    /// Those of [`FromStr`], and where there is such a word.
    ///
    /// ```
    /// # fn main() -> Result<(), span_registry::ParseError> {
    /// use span_registry::{Level, Targets};
    /// assert!("inof".parse::<Targets>()?.admits(Level::Trace, "inof"));
    /// assert!(Targets::parse_strict("inof").is_err());
    /// assert_eq!(Targets::parse_strict("inof=trace")?, "inof".parse()?);
    /// # Ok(())
    /// # }
    /// ```
    pub fn parse_strict(text: &str) -> Result<Targets, ParseError> {
        let targets = text.parse()?;
        let words = directives(text).filter(|word| !word.contains('=') && level_of(word).is_none());
        for word in words {
            if let Some(level) = misspelt_level(word) {
                return Err(ParseError::of(word, Reason::Misspelt(level)));
            }
        }
        Ok(targets)
    }

    /// Targets that begin with this prefix are admitted up to this level.
    #[must_use]
    pub fn with_target(mut self, prefix: impl Into<String>, level: Level) -> Targets {
        self.pairs.push((prefix.into(), level));
        self
    }

    /// Targets for which nothing else is said are admitted up to this level.
    #[must_use]
    pub fn with_default(self, level: Level) -> Targets {
        self.with_target("", level)
    }

    /// Whether a span or an event of this level and target is admitted.
    ///
    /// ```
    /// use span_registry::{Level, Targets};
    /// let targets = Targets::new().with_target("app::db", Level::Trace).with_default(Level::Warn);
    /// assert!(targets.admits(Level::Debug, "app::db::pool"));
    /// assert!(!targets.admits(Level::Info, "app"));
    /// ```
    #[must_use]
    pub fn admits(&self, level: Level, target: &str) -> bool {
        let fitting = self
            .pairs
            .iter()
            .filter(|(prefix, _)| target.starts_with(prefix.as_str()));
        // Of equal ones the last.
        let longest = fitting.max_by_key(|(prefix, _)| prefix.len());
        longest.is_some_and(|&(_, most)| level <= most)
    }

    /// The most verbose level that is admitted of some target; none where nothing is admitted.
    #[must_use]
    pub fn max_level(&self) -> Option<Level> {
        // Of equal prefixes the last decides.
        let mut seen = HashSet::new();
        let deciding = self.pairs.iter().rev().filter(|(prefix, _)| seen.insert(prefix));
        deciding.map(|&(_, level)| level).max()
    }

    /// The pairs, in the order in which they were given.
    pub fn pairs(&self) -> impl Iterator<Item = (&str, Level)> {
        self.pairs.iter().map(|(prefix, level)| (prefix.as_str(), *level))
    }
}

/// The text that [`FromStr`] reads to the same targets, where no prefix has commas, `=`, `[`, or blanks at its ends.
impl fmt::Display for Targets {
    fn fmt(&self, f: &mut fmt::Formatter<'_>) -> fmt::Result {
        if self.pairs.is_empty() {
            return f.write_str("off");
        }
        for (place, (prefix, level)) in self.pairs.iter().enumerate() {
            let comma = if place == 0 { "" } else { "," };
            let equals = if prefix.is_empty() { "" } else { "=" };
            write!(f, "{comma}{prefix}{equals}{}", level.name().to_ascii_lowercase())?;
        }
        Ok(())
    }
}

impl<P: Into<String>> FromIterator<(P, Level)> for Targets {
    fn from_iter<I: IntoIterator<Item = (P, Level)>>(pairs: I) -> Targets {
        let pairs = pairs.into_iter().map(|(prefix, level)| (prefix.into(), level));
        Targets { pairs: pairs.collect() }
    }
}

impl FromStr for Targets {
    type Err = ParseError;

    fn from_str(text: &str) -> Result<Targets, ParseError> {
        let read = directives(text).map(Directive::read).collect::<Result<Vec<_>, _>>()?;
        if read.is_empty() {
            return Err(ParseError::of(text, Reason::Empty));
        }
        let mut targets = Targets::new();
        for (place, directive) in read.iter().enumerate() {
            match directive.level {
                Some(level) => targets.pairs.push((directive.prefix.to_owned(), level)),
                None if directive.is_below_another(place, &read) => {
                    return Err(ParseError::of(directive.text, Reason::OffBelow));
                }
                None => targets.pairs.retain(|(prefix, _)| prefix != directive.prefix),
            }
        }
        Ok(targets)
    }
}

/// The directives of a text, without the blanks around them.
fn directives(text: &str) -> impl Iterator<Item = &str> {
    text.split(',').map(str::trim).filter(|directive| !directive.is_empty())
}

/// One directive, with its text.
struct Directive<'a> {
    text: &'a str,
    prefix: &'a str,
    // None: off.
    level: Option<Level>,
}

impl<'a> Directive<'a> {
    fn read(text: &'a str) -> Result<Directive<'a>, ParseError> {
        let failed = |reason| ParseError::of(text, reason);
        if text.contains(['[', ']', '{', '}']) {
            return Err(failed(Reason::SpanOrField));
        }
        let Some((prefix, level)) = text.split_once('=') else {
            return Ok(match level_of(text) {
                Some(level) => Directive {
                    text,
                    prefix: "",
                    level,
                },
                None => Directive {
                    text,
                    prefix: text,
                    level: Some(Level::Trace),
                },
            });
        };
        let (prefix, level) = (prefix.trim(), level.trim());
        if level.contains('=') {
            return Err(failed(Reason::TwoLevels));
        }
        if prefix.is_empty() {
            return Err(failed(Reason::NoTarget));
        }
        let level = level_of(level).ok_or_else(|| failed(Reason::NoSuchLevel))?;
        Ok(Directive { text, prefix, level })
    }

    // Whether a shorter prefix admits something of this one's targets, so that no pair can say that they are off.
    // Where a later directive of the same prefix decides, this one says nothing.
    fn is_below_another(&self, place: usize, all: &[Directive<'_>]) -> bool {
        let is_last = |place: usize| all[place + 1..].iter().all(|later| later.prefix != all[place].prefix);
        let admits_more = |(place, other): (usize, &Directive<'_>)| {
            let is_shorter = other.prefix.len() < self.prefix.len() && self.prefix.starts_with(other.prefix);
            is_shorter && other.level.is_some() && is_last(place)
        };
        is_last(place) && all.iter().enumerate().any(admits_more)
    }
}

/// The level of a text; `Some(None)` is off.
fn level_of(text: &str) -> Option<Option<Level>> {
    if text.eq_ignore_ascii_case("off") || text == "0" {
        return Some(None);
    }
    text.parse().ok().map(Some)
}

/// The level that a word, which is none, may be a misspelling of.
fn misspelt_level(word: &str) -> Option<&'static str> {
    if word.bytes().all(|byte| byte.is_ascii_digit()) {
        return Some("5");
    }
    let written: Vec<char> = word.to_ascii_lowercase().chars().collect();
    let names = ["error", "warn", "info", "debug", "trace", "off"];
    let is_meant = |name: &&str| differ_by_one(&written, &name.chars().collect::<Vec<_>>());
    names.into_iter().find(is_meant)
}

/// Whether one letter more, less or other, or two neighbours swapped, make one word the other.
fn differ_by_one(mut word: &[char], mut other: &[char]) -> bool {
    while let ([first, rest @ ..], [other_first, other_rest @ ..]) = (word, other) {
        if first != other_first {
            break;
        }
        (word, other) = (rest, other_rest);
    }
    while let ([rest @ .., last], [other_rest @ .., other_last]) = (word, other) {
        if last != other_last {
            break;
        }
        (word, other) = (rest, other_rest);
    }
    match (word, other) {
        ([_], []) | ([], [_]) | ([_], [_]) => true,
        ([first, second], [other_first, other_second]) => (first, second) == (other_second, other_first),
        _ => false,
    }
}

/// Why a text is no list of directives.
#[derive(Clone, Debug, PartialEq, Eq)]
pub struct ParseError {
    directive: String,
    reason: Reason,
}

#[derive(Clone, Copy, Debug, PartialEq, Eq)]
enum Reason {
    Empty,
    SpanOrField,
    TwoLevels,
    NoTarget,
    NoSuchLevel,
    OffBelow,
    Misspelt(&'static str),
}

impl ParseError {
    fn of(directive: &str, reason: Reason) -> ParseError {
        ParseError {
            directive: directive.to_owned(),
            reason,
        }
    }
}

impl fmt::Display for ParseError {
    fn fmt(&self, f: &mut fmt::Formatter<'_>) -> fmt::Result {
        let reason = match self.reason {
            Reason::Empty => return f.write_str("no directive"),
            Reason::SpanOrField => "directives of spans and fields are not supported",
            Reason::TwoLevels => "two equals signs",
            Reason::NoTarget => "no target before the equals sign",
            Reason::NoSuchLevel => "no such level",
            Reason::OffBelow => "a target can't be off where a shorter prefix admits something; the least is error",
            Reason::Misspelt(level) => {
                let word = &self.directive;
                return write!(
                    f,
                    "directive `{word}`: is it `{level}`? A target of that name is `{word}=trace`"
                );
            }
        };
        write!(f, "directive `{}`: {reason}", self.directive)
    }
}

impl std::error::Error for ParseError {}
