use std::collections::HashMap;
use std::fmt;
use tracing::field::{Field, Value, Visit};
use tracing_core::{
    callsite::{self, Callsite},
    field,
    metadata::Kind,
    Interest, Level, Metadata,
};

#[derive(Default, Debug, Eq, PartialEq, Clone)]
pub struct Expect {
    pub(crate) fields: HashMap<String, MockValue>,
    only: bool,
}
#[derive(Debug, Clone)]
pub struct MockField {
    name: String,
    value: MockValue,
}
#[derive(Debug, Clone)]
pub enum MockValue {
    F64(f64),
    I64(i64),
    U64(u64),
    Bool(bool),
    Str(String),
    Error(String),
    Debug(String),
    Any,
}
impl Eq for MockValue {}
impl PartialEq for MockValue {
    fn eq(&self, other: &Self) -> bool {
        use MockValue::*;
        match (self, other) {
            (F64(a), F64(b)) => a == b || (a.is_nan() && b.is_nan()),
            (I64(a), I64(b)) => a == b,
            (U64(a), U64(b)) => a == b,
            (Bool(a), Bool(b)) => a == b,
            (Str(a), Str(b)) | (Error(a), Error(b)) | (Debug(a), Debug(b)) => a == b,
            (Any, _) | (_, Any) => true,
            _ => false,
        }
    }
}
pub fn mock<K>(name: K) -> MockField
where
    String: From<K>,
{
    MockField { name: name.into(), value: MockValue::Any }
}
pub fn msg(message: impl fmt::Display) -> MockField {
    MockField { name: "message".into(), value: MockValue::Debug(message.to_string()) }
}
impl MockField {
    pub fn with_value(self, value: &dyn Value) -> Self {
        Self { value: MockValue::from(value), ..self }
    }
    pub fn and(self, other: MockField) -> Expect {
        Expect::from(self).and(other)
    }
    pub fn only(self) -> Expect {
        Expect::from(self).only()
    }
}
impl From<MockField> for Expect {
    fn from(field: MockField) -> Self {
        Expect { fields: HashMap::from([(field.name, field.value)]), only: false }
    }
}
impl From<&dyn Value> for MockValue {
    fn from(value: &dyn Value) -> Self {
        struct Builder {
            value: Option<MockValue>,
        }
        impl Visit for Builder {
            fn record_f64(&mut self, _: &Field, v: f64) {
                self.value = Some(MockValue::F64(v))
            }
            fn record_i64(&mut self, _: &Field, v: i64) {
                self.value = Some(MockValue::I64(v))
            }
            fn record_u64(&mut self, _: &Field, v: u64) {
                self.value = Some(MockValue::U64(v))
            }
            fn record_bool(&mut self, _: &Field, v: bool) {
                self.value = Some(MockValue::Bool(v))
            }
            fn record_str(&mut self, _: &Field, v: &str) {
                self.value = Some(MockValue::Str(v.to_owned()))
            }
            fn record_error(&mut self, _: &Field, v: &(dyn std::error::Error + 'static)) {
                self.value = Some(MockValue::Error(format!("{v:?}")))
            }
            fn record_debug(&mut self, _: &Field, v: &dyn fmt::Debug) {
                self.value = Some(MockValue::Debug(format!("{v:?}")))
            }
        }
        let fake = CALLSITE.metadata().fields().field("fake").unwrap();
        let mut builder = Builder { value: None };
        value.record(&fake, &mut builder);
        builder.value.expect("a value")
    }
}
struct TestCallsite;
static CALLSITE: TestCallsite = TestCallsite;
static META: Metadata<'static> = Metadata::new(
    "mock",
    "mock",
    Level::TRACE,
    None,
    None,
    None,
    field::FieldSet::new(&["fake"], tracing_core::identify_callsite!(&CALLSITE)),
    Kind::EVENT,
);
impl callsite::Callsite for TestCallsite {
    fn set_interest(&self, _: Interest) {}
    fn metadata(&self) -> &Metadata<'_> {
        &META
    }
}
impl Expect {
    pub fn and(mut self, field: MockField) -> Self {
        self.fields.insert(field.name, field.value);
        self
    }
    pub fn only(self) -> Self {
        Self { only: true, ..self }
    }
    pub(crate) fn checker<'a>(&'a mut self, what: String, name: &'a str) -> Check<'a> {
        Check { expect: self, what, name }
    }
    pub fn is_empty(&self) -> bool {
        self.fields.is_empty()
    }
}
pub(crate) struct Check<'a> {
    expect: &'a mut Expect,
    what: String,
    name: &'a str,
}
impl Check<'_> {
    fn one(&mut self, field: &Field, value: MockValue) {
        match self.expect.fields.remove(field.name()) {
            Some(expected) => assert_eq!(expected, value, "[{}] {}: field {}", self.name, self.what, field.name()),
            None if self.expect.only => {
                panic!("[{}] {}: field {} was not expected", self.name, self.what, field.name())
            }
            None => {}
        }
    }
    pub(crate) fn finish(self) {
        assert!(
            self.expect.fields.is_empty(),
            "[{}] {}: missing fields {:?}",
            self.name,
            self.what,
            self.expect.fields
        );
    }
}
impl Visit for Check<'_> {
    fn record_f64(&mut self, f: &Field, v: f64) {
        self.one(f, MockValue::F64(v))
    }
    fn record_i64(&mut self, f: &Field, v: i64) {
        self.one(f, MockValue::I64(v))
    }
    fn record_u64(&mut self, f: &Field, v: u64) {
        self.one(f, MockValue::U64(v))
    }
    fn record_bool(&mut self, f: &Field, v: bool) {
        self.one(f, MockValue::Bool(v))
    }
    fn record_str(&mut self, f: &Field, v: &str) {
        self.one(f, MockValue::Str(v.to_owned()))
    }
    fn record_error(&mut self, f: &Field, v: &(dyn std::error::Error + 'static)) {
        self.one(f, MockValue::Error(format!("{v:?}")))
    }
    fn record_debug(&mut self, f: &Field, v: &dyn fmt::Debug) {
        self.one(f, MockValue::Debug(format!("{v:?}")))
    }
}
