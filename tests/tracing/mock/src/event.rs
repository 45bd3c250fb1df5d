use crate::{field, metadata, span, Parent};
use tracing_core::{Event, Level};
#[derive(Default, Debug, Eq, PartialEq)]
pub struct MockEvent {
    fields: Option<field::Expect>,
    parent: Option<Parent>,
    in_spans: Vec<span::MockSpan>,
    metadata: metadata::Expect,
}
pub fn mock() -> MockEvent {
    MockEvent::default()
}
pub fn msg(message: impl std::fmt::Display) -> MockEvent {
    mock().with_fields(field::msg(message))
}
impl MockEvent {
    pub fn named<I: Into<String>>(mut self, name: I) -> Self {
        self.metadata.name = Some(name.into());
        self
    }
    pub fn with_fields<I: Into<field::Expect>>(mut self, fields: I) -> Self {
        self.fields = Some(fields.into());
        self
    }
    pub fn at_level(mut self, level: Level) -> Self {
        self.metadata.level = Some(level);
        self
    }
    pub fn with_target<I: Into<String>>(mut self, target: I) -> Self {
        self.metadata.target = Some(target.into());
        self
    }
    pub fn with_explicit_parent(mut self, parent: Option<&str>) -> Self {
        self.parent = Some(parent.map_or(Parent::ExplicitRoot, |name| Parent::Explicit(name.into())));
        self
    }
    pub fn with_contextual_parent(mut self, parent: Option<&str>) -> Self {
        self.parent = Some(parent.map_or(Parent::ContextualRoot, |name| Parent::Contextual(name.into())));
        self
    }
    pub fn in_scope(mut self, spans: impl IntoIterator<Item = span::MockSpan>) -> Self {
        self.in_spans = spans.into_iter().collect();
        self
    }
    pub fn check(&mut self, event: &Event<'_>, get_parent_name: impl FnOnce() -> Option<String>, name: &str) {
        let meta = event.metadata();
        self.metadata.check(meta, "an event", name);
        assert!(meta.is_event(), "[{name}] expected an event");
        if let Some(expected) = &mut self.fields {
            let mut checker = expected.checker(format!("event {}", meta.name()), name);
            event.record(&mut checker);
            checker.finish();
        }
        if let Some(expected) = &self.parent {
            let actual = get_parent_name();
            expected.check(actual.as_deref(), event.is_contextual(), event.is_root(), meta.name(), name);
        }
    }
    pub fn scope_mut(&mut self) -> &mut [span::MockSpan] {
        &mut self.in_spans[..]
    }
}
