use crate::{field, metadata, Parent};
use std::fmt;
use tracing_core::{span::Attributes, Level};
#[derive(Clone, Debug, Default, Eq, PartialEq)]
pub struct MockSpan {
    pub(crate) metadata: metadata::Expect,
}
#[derive(Debug, Default, Eq, PartialEq)]
pub struct NewSpan {
    pub(crate) span: MockSpan,
    pub(crate) fields: field::Expect,
    pub(crate) parent: Option<Parent>,
}
pub fn mock() -> MockSpan {
    MockSpan::default()
}
pub fn named<I: Into<String>>(name: I) -> MockSpan {
    mock().named(name)
}
impl MockSpan {
    pub fn named<I: Into<String>>(mut self, name: I) -> Self {
        self.metadata.name = Some(name.into());
        self
    }
    pub fn at_level(mut self, level: Level) -> Self {
        self.metadata.level = Some(level);
        self
    }
    pub fn with_target<I: Into<String>>(mut self, target: I) -> Self {
        self.metadata.target = Some(target.into());
        self
    }
    pub fn with_explicit_parent(self, parent: Option<&str>) -> NewSpan {
        let parent = parent.map_or(Parent::ExplicitRoot, |name| Parent::Explicit(name.into()));
        NewSpan { parent: Some(parent), span: self, ..Default::default() }
    }
    pub fn with_contextual_parent(self, parent: Option<&str>) -> NewSpan {
        let parent = parent.map_or(Parent::ContextualRoot, |name| Parent::Contextual(name.into()));
        NewSpan { parent: Some(parent), span: self, ..Default::default() }
    }
    pub fn name(&self) -> Option<&str> {
        self.metadata.name.as_deref()
    }
    pub fn level(&self) -> Option<Level> {
        self.metadata.level
    }
    pub fn target(&self) -> Option<&str> {
        self.metadata.target.as_deref()
    }
    pub fn with_field<I: Into<field::Expect>>(self, fields: I) -> NewSpan {
        NewSpan { span: self, fields: fields.into(), ..Default::default() }
    }
    pub(crate) fn check_meta(&self, meta: &tracing_core::Metadata<'_>, name: &str) {
        self.metadata.check(meta, "a span", name)
    }
}
impl fmt::Display for MockSpan {
    fn fmt(&self, f: &mut fmt::Formatter<'_>) -> fmt::Result {
        write!(f, "a span {:?}", self.metadata)
    }
}
impl From<MockSpan> for NewSpan {
    fn from(span: MockSpan) -> Self {
        NewSpan { span, ..Default::default() }
    }
}
impl NewSpan {
    pub fn with_explicit_parent(self, parent: Option<&str>) -> Self {
        NewSpan { parent: self.span.clone().with_explicit_parent(parent).parent, ..self }
    }
    pub fn with_contextual_parent(self, parent: Option<&str>) -> Self {
        NewSpan { parent: self.span.clone().with_contextual_parent(parent).parent, ..self }
    }
    pub fn with_field<I: Into<field::Expect>>(self, fields: I) -> Self {
        NewSpan { fields: fields.into(), ..self }
    }
    pub fn check(&mut self, span: &Attributes<'_>, get_parent_name: impl FnOnce() -> Option<String>, name: &str) {
        let meta = span.metadata();
        self.span.check_meta(meta, name);
        let mut checker = self.fields.checker(format!("span {}", meta.name()), name);
        span.record(&mut checker);
        checker.finish();
        if let Some(expected) = &self.parent {
            let actual = get_parent_name();
            expected.check(actual.as_deref(), span.is_contextual(), span.is_root(), meta.name(), name);
        }
    }
}
