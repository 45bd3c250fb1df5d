//! What a line of a script asks for.
use crate::field::{Field, Fields};
use crate::id::Id;
use crate::json::{self, Members, Value};
use crate::layer::{Form, Layer, Level, Rule, EVERY_KIND};
use crate::registry::Limits;
use std::borrow::Cow;
use std::fmt;

/// Why a script ends at a line.
#[derive(Clone, Copy)]
pub enum Reason {
    TooLong,
    NotJson,
    NotAnObject,
    NoSuchOp,
    LateLine,
    BadKey(&'static str),
    NoSuchLabel,
    LabelTaken,
}

impl fmt::Display for Reason {
    fn fmt(&self, f: &mut fmt::Formatter<'_>) -> fmt::Result {
        match self {
            Reason::TooLong => f.write_str("too long"),
            Reason::NotJson => f.write_str("not JSON"),
            Reason::NotAnObject => f.write_str("not an object"),
            Reason::NoSuchOp => f.write_str("no such op"),
            Reason::LateLine => f.write_str("late line"),
            Reason::BadKey(key) => write!(f, "bad key {key}"),
            Reason::NoSuchLabel => f.write_str("no such label"),
            Reason::LabelTaken => f.write_str("label taken"),
        }
    }
}

type Text<'a> = Cow<'a, str>;

/// A span, by its label or its id.
pub enum Named<'a> {
    Label(Text<'a>),
    Id(Id),
}

pub enum ParentNamed<'a> {
    Root,
    Current,
    Of(Named<'a>),
}

/// A call that needs a span and a worker alone.
#[derive(Clone, Copy)]
pub enum Act {
    Clone,
    Close,
    Enter,
    Exit,
}

pub struct NewSpan<'a> {
    pub name: Text<'a>,
    pub target: Text<'a>,
    pub level: Level,
    pub parent: ParentNamed<'a>,
    pub fields: Fields,
    /// The name, where there is none.
    pub label: Option<Text<'a>>,
    pub worker: u32,
}

pub struct Event<'a> {
    pub message: Text<'a>,
    pub target: Text<'a>,
    pub level: Level,
    pub fields: Fields,
    pub worker: u32,
}

pub enum Operation<'a> {
    Limits(Limits),
    Layer(Layer),
    New(NewSpan<'a>),
    Act {
        act: Act,
        span: Named<'a>,
        worker: u32,
    },
    Record {
        span: Named<'a>,
        fields: Fields,
        worker: u32,
    },
    Event(Event<'a>),
    Find(Named<'a>),
}

/// Which lines came before, but for those that are skipped.
#[derive(Clone, Copy, PartialEq, Eq, PartialOrd, Ord)]
pub enum Stage {
    Start,
    Making,
    Running,
}

/// What a line asks for. The stage goes on with it.
pub fn read<'a>(line: &'a [u8], stage: &mut Stage, workers: u32) -> Result<Operation<'a>, Reason> {
    let text = std::str::from_utf8(line).map_err(|_| Reason::NotJson)?;
    let Value::Object(members) = json::read(text).map_err(|_| Reason::NotJson)? else {
        return Err(Reason::NotAnObject);
    };
    let mut keys = Keys { members, workers };
    let op = keys.take("op").and_then(text_of).ok_or(Reason::NoSuchOp)?;
    let (latest, next) = match &*op {
        "limits" => (Stage::Start, Stage::Making),
        "layer" => (Stage::Making, Stage::Making),
        "new" | "clone" | "close" | "enter" | "exit" | "record" | "event" | "find" => (Stage::Running, Stage::Running),
        _ => return Err(Reason::NoSuchOp),
    };
    if *stage > latest {
        return Err(Reason::LateLine);
    }
    *stage = next;
    Ok(match &*op {
        "limits" => Operation::Limits(keys.limits()?),
        "layer" => Operation::Layer(keys.layer()?),
        "new" => Operation::New(keys.new_span()?),
        "clone" => keys.act(Act::Clone)?,
        "close" => keys.act(Act::Close)?,
        "enter" => keys.act(Act::Enter)?,
        "exit" => keys.act(Act::Exit)?,
        "record" => Operation::Record {
            span: keys.span()?,
            fields: keys.fields()?,
            worker: keys.worker()?,
        },
        "event" => Operation::Event(keys.event()?),
        _ => Operation::Find(keys.sought()?),
    })
}

fn text_of(value: Value<'_>) -> Option<Text<'_>> {
    match value {
        Value::Text(text) => Some(text),
        _ => None,
    }
}

fn named_by(value: Value<'_>) -> Option<Named<'_>> {
    match value {
        Value::Text(label) => Some(Named::Label(label)),
        Value::Whole(number) => Id::from_number(number).map(Named::Id),
        _ => None,
    }
}

/// A list of pairs, each read by `pair`.
fn pairs_of<'a, T>(value: Value<'a>, pair: impl Fn(Text<'a>, Text<'a>) -> Option<T>) -> Option<Vec<T>> {
    let Value::List(list) = value else { return None };
    let one = |item| match item {
        Value::List(parts) => {
            let [first, second]: [Value<'a>; 2] = parts.try_into().ok()?;
            pair(text_of(first)?, text_of(second)?)
        }
        _ => None,
    };
    list.into_iter().map(one).collect()
}

/// The members of a line's object. What is taken isn't looked for again.
struct Keys<'a> {
    members: Members<'a>,
    workers: u32,
}

impl<'a> Keys<'a> {
    fn has(&self, key: &str) -> bool {
        self.members.iter().any(|(it, _)| it == key)
    }

    /// The last value of the key.
    fn take(&mut self, key: &str) -> Option<Value<'a>> {
        let (_, value) = self.members.iter_mut().rev().find(|(it, _)| it == key)?;
        Some(std::mem::replace(value, Value::Other))
    }

    fn required<T>(&mut self, key: &'static str, read: impl Fn(Value<'a>) -> Option<T>) -> Result<T, Reason> {
        self.take(key).and_then(read).ok_or(Reason::BadKey(key))
    }

    fn optional<T>(&mut self, key: &'static str, read: impl Fn(Value<'a>) -> Option<T>) -> Result<Option<T>, Reason> {
        match self.take(key) {
            Some(value) => read(value).map(Some).ok_or(Reason::BadKey(key)),
            None => Ok(None),
        }
    }

    fn whole(&mut self, key: &'static str, most: u32) -> Result<Option<u32>, Reason> {
        self.optional(key, |value| match value {
            Value::Whole(number) => u32::try_from(number).ok().filter(|number| *number <= most),
            _ => None,
        })
    }

    fn span(&mut self) -> Result<Named<'a>, Reason> {
        self.required("span", named_by)
    }

    fn worker(&mut self) -> Result<u32, Reason> {
        Ok(self.whole("w", self.workers - 1)?.unwrap_or(0))
    }

    fn target(&mut self) -> Result<Text<'a>, Reason> {
        Ok(self.optional("target", text_of)?.unwrap_or(Cow::Borrowed("app")))
    }

    fn level(&mut self) -> Result<Level, Reason> {
        Ok(self
            .optional("level", |value| Level::from_name(&text_of(value)?))?
            .unwrap_or(Level::Info))
    }

    fn fields(&mut self) -> Result<Fields, Reason> {
        let field = |key: Text<'a>, value: Text<'a>| {
            Some(Field {
                key: key.into(),
                value: value.into(),
            })
        };
        Ok(self
            .optional("fields", |value| pairs_of(value, field))?
            .unwrap_or_default()
            .into())
    }

    fn limits(&mut self) -> Result<Limits, Reason> {
        let standard = Limits::default();
        Ok(Limits {
            slots: self.whole("slots", u32::MAX)?.unwrap_or(standard.slots),
            last_generation: self
                .whole("last_generation", u32::MAX)?
                .unwrap_or(standard.last_generation),
            max_count: self.whole("max_count", u32::MAX)?.unwrap_or(standard.max_count),
            workers: self.whole("workers", u32::MAX)?.unwrap_or(standard.workers),
        })
    }

    fn layer(&mut self) -> Result<Layer, Reason> {
        let form_of = |value| match &*text_of(value)? {
            "compact" => Some(Form::Compact),
            "json" => Some(Form::Json),
            _ => None,
        };
        let rule_of = |value| pairs_of(value, |prefix, level| Some((prefix.into(), Level::from_name(&level)?)));
        let all = || Rule::from([(Box::default(), Level::Trace)]);
        Ok(Layer {
            form: self.optional("form", form_of)?.unwrap_or(Form::Compact),
            spans: self.whole("spans", EVERY_KIND.into())?.unwrap_or(EVERY_KIND.into()) as u8,
            rule: self.optional("rule", rule_of)?.unwrap_or_else(all),
        })
    }

    fn parent(&mut self) -> Result<ParentNamed<'a>, Reason> {
        let parent = self.optional("parent", |value| match value {
            Value::Null => Some(ParentNamed::Root),
            value => named_by(value).map(ParentNamed::Of),
        })?;
        Ok(parent.unwrap_or(ParentNamed::Current))
    }

    fn new_span(&mut self) -> Result<NewSpan<'a>, Reason> {
        Ok(NewSpan {
            name: self.required("name", text_of)?,
            target: self.target()?,
            level: self.level()?,
            parent: self.parent()?,
            fields: self.fields()?,
            label: self.optional("label", text_of)?,
            worker: self.worker()?,
        })
    }

    fn act(&mut self, act: Act) -> Result<Operation<'a>, Reason> {
        Ok(Operation::Act {
            act,
            span: self.span()?,
            worker: self.worker()?,
        })
    }

    fn event(&mut self) -> Result<Event<'a>, Reason> {
        Ok(Event {
            message: self.required("message", text_of)?,
            target: self.target()?,
            level: self.level()?,
            fields: self.fields()?,
            worker: self.worker()?,
        })
    }

    /// The span of `span`, or in its place that of the older id `old`.
    fn sought(&mut self) -> Result<Named<'a>, Reason> {
        if !self.has("span") && self.has("old") {
            return self.required("old", |value| match value {
                Value::Whole(number) => Id::from_older(number).map(Named::Id),
                _ => None,
            });
        }
        let span = self.span()?;
        if self.has("old") {
            return Err(Reason::BadKey("old"));
        }
        Ok(span)
    }
}
