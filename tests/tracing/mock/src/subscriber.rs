use crate::{
    event::MockEvent,
    field,
    span::{MockSpan, NewSpan},
};
use std::collections::{HashMap, VecDeque};
use std::fmt;
use std::sync::{
    atomic::{AtomicUsize, Ordering},
    Arc, Mutex,
};
use std::thread;
use tracing::{
    level_filters::LevelFilter,
    span::{self, Attributes, Id},
    subscriber::Interest,
    Event, Metadata, Subscriber,
};

#[derive(Debug, Eq, PartialEq)]
pub enum Expect {
    Event(MockEvent),
    FollowsFrom { consequence: MockSpan, cause: MockSpan },
    Enter(MockSpan),
    Exit(MockSpan),
    CloneSpan(MockSpan),
    DropSpan(MockSpan),
    Visit(MockSpan, field::Expect),
    NewSpan(NewSpan),
    Nothing,
}
impl Expect {
    pub fn bad(&self, name: impl AsRef<str>, what: fmt::Arguments<'_>) {
        panic!("\n[{}] expected {self:?}\n[{}] but {what}", name.as_ref(), name.as_ref())
    }
}
struct SpanState {
    metadata: &'static Metadata<'static>,
    refs: usize,
}
struct Running<F> {
    spans: Mutex<HashMap<Id, SpanState>>,
    expected: Arc<Mutex<VecDeque<Expect>>>,
    current: Mutex<Vec<Id>>,
    ids: AtomicUsize,
    max_level: Option<LevelFilter>,
    filter: F,
    name: String,
}
pub struct MockSubscriber<F> {
    expected: VecDeque<Expect>,
    max_level: Option<LevelFilter>,
    filter: F,
    name: String,
}
#[derive(Clone)]
pub struct MockHandle(Arc<Mutex<VecDeque<Expect>>>, String);

pub fn mock() -> MockSubscriber<fn(&Metadata<'_>) -> bool> {
    MockSubscriber {
        expected: VecDeque::new(),
        filter: (|_: &Metadata<'_>| true) as fn(&Metadata<'_>) -> bool,
        max_level: None,
        name: thread::current().name().unwrap_or("mock_subscriber").to_string(),
    }
}
impl<F: Fn(&Metadata<'_>) -> bool + 'static> MockSubscriber<F> {
    pub fn named(self, name: impl ToString) -> Self {
        Self { name: name.to_string(), ..self }
    }
    pub fn enter(mut self, span: MockSpan) -> Self {
        self.expected.push_back(Expect::Enter(span));
        self
    }
    pub fn follows_from(mut self, consequence: MockSpan, cause: MockSpan) -> Self {
        self.expected.push_back(Expect::FollowsFrom { consequence, cause });
        self
    }
    pub fn event(mut self, event: MockEvent) -> Self {
        self.expected.push_back(Expect::Event(event));
        self
    }
    pub fn exit(mut self, span: MockSpan) -> Self {
        self.expected.push_back(Expect::Exit(span));
        self
    }
    pub fn clone_span(mut self, span: MockSpan) -> Self {
        self.expected.push_back(Expect::CloneSpan(span));
        self
    }
    pub fn drop_span(mut self, span: MockSpan) -> Self {
        self.expected.push_back(Expect::DropSpan(span));
        self
    }
    pub fn done(mut self) -> Self {
        self.expected.push_back(Expect::Nothing);
        self
    }
    pub fn record<I: Into<field::Expect>>(mut self, span: MockSpan, fields: I) -> Self {
        self.expected.push_back(Expect::Visit(span, fields.into()));
        self
    }
    pub fn new_span<I: Into<NewSpan>>(mut self, new_span: I) -> Self {
        self.expected.push_back(Expect::NewSpan(new_span.into()));
        self
    }
    pub fn with_filter<G: Fn(&Metadata<'_>) -> bool + 'static>(self, filter: G) -> MockSubscriber<G> {
        MockSubscriber { expected: self.expected, filter, max_level: self.max_level, name: self.name }
    }
    pub fn with_max_level_hint(self, hint: impl Into<LevelFilter>) -> Self {
        Self { max_level: Some(hint.into()), ..self }
    }
    pub fn run(self) -> impl Subscriber
    where
        F: Send + Sync,
    {
        self.run_with_handle().0
    }
    pub fn run_with_handle(self) -> (impl Subscriber, MockHandle)
    where
        F: Send + Sync,
    {
        let expected = Arc::new(Mutex::new(self.expected));
        let handle = MockHandle(expected.clone(), self.name.clone());
        (
            Running {
                spans: Mutex::default(),
                expected,
                current: Mutex::default(),
                ids: AtomicUsize::new(1),
                max_level: self.max_level,
                filter: self.filter,
                name: self.name,
            },
            handle,
        )
    }
}
impl<F: Fn(&Metadata<'_>) -> bool + Send + Sync + 'static> Subscriber for Running<F> {
    fn register_callsite(&self, metadata: &'static Metadata<'static>) -> Interest {
        if self.enabled(metadata) {
            Interest::always()
        } else {
            Interest::never()
        }
    }
    fn enabled(&self, meta: &Metadata<'_>) -> bool {
        (self.filter)(meta)
    }
    fn max_level_hint(&self) -> Option<LevelFilter> {
        self.max_level
    }
    fn record(&self, id: &Id, values: &span::Record<'_>) {
        let spans = self.spans.lock().unwrap();
        let span = spans.get(id).unwrap_or_else(|| panic!("[{}] no span for ID {id:?}", self.name));
        let mut expected = self.expected.lock().unwrap();
        if let Some(Expect::Visit(..)) = expected.front() {
            if let Some(Expect::Visit(expected_span, mut fields)) = expected.pop_front() {
                if let Some(name) = expected_span.name() {
                    assert_eq!(name, span.metadata.name());
                }
                let mut checker = fields.checker(format!("span {}", span.metadata.name()), &self.name);
                values.record(&mut checker);
                checker.finish();
            }
        }
    }
    fn event(&self, event: &Event<'_>) {
        let popped = self.expected.lock().unwrap().pop_front();
        match popped {
            None => {}
            Some(Expect::Event(mut expected)) => {
                let spans = self.spans.lock().unwrap();
                let current = self.current.lock().unwrap();
                let parent = || {
                    let id = if event.is_contextual() { current.last() } else { event.parent() }?;
                    Some(spans.get(id)?.metadata.name().to_string())
                };
                expected.check(event, parent, &self.name);
            }
            Some(ex) => ex.bad(&self.name, format_args!("observed event {event:?}")),
        }
    }
    fn record_follows_from(&self, consequence: &Id, cause: &Id) {
        let spans = self.spans.lock().unwrap();
        if let Some(Expect::FollowsFrom { consequence: a, cause: b }) = self.expected.lock().unwrap().pop_front() {
            a.check_meta(spans[consequence].metadata, &self.name);
            b.check_meta(spans[cause].metadata, &self.name);
        }
    }
    fn new_span(&self, span: &Attributes<'_>) -> Id {
        let meta = span.metadata();
        let id = Id::from_u64(self.ids.fetch_add(1, Ordering::SeqCst) as u64);
        let mut expected = self.expected.lock().unwrap();
        let mut spans = self.spans.lock().unwrap();
        if matches!(expected.front(), Some(Expect::NewSpan(_))) {
            if let Some(Expect::NewSpan(mut expected)) = expected.pop_front() {
                let current = self.current.lock().unwrap();
                let parent = || {
                    let id = if span.is_contextual() { current.last() } else { span.parent() }?;
                    Some(spans.get(id)?.metadata.name().to_string())
                };
                expected.check(span, parent, &self.name);
            }
        }
        spans.insert(id.clone(), SpanState { metadata: meta, refs: 1 });
        id
    }
    fn enter(&self, id: &Id) {
        let spans = self.spans.lock().unwrap();
        if let Some(span) = spans.get(id) {
            match self.expected.lock().unwrap().pop_front() {
                None => {}
                Some(Expect::Enter(expected)) => expected.check_meta(span.metadata, &self.name),
                Some(ex) => ex.bad(&self.name, format_args!("entered span {:?}", span.metadata.name())),
            }
        }
        self.current.lock().unwrap().push(id.clone());
    }
    fn exit(&self, id: &Id) {
        if thread::panicking() {
            return;
        }
        let spans = self.spans.lock().unwrap();
        let span = spans.get(id).unwrap_or_else(|| panic!("[{}] no span for ID {id:?}", self.name));
        match self.expected.lock().unwrap().pop_front() {
            None => {}
            Some(Expect::Exit(expected)) => {
                expected.check_meta(span.metadata, &self.name);
                let current = self.current.lock().unwrap().pop();
                assert_eq!(Some(id), current.as_ref(), "[{}] exited another span than the current one", self.name);
            }
            Some(ex) => ex.bad(&self.name, format_args!("exited span {:?}", span.metadata.name())),
        }
    }
    fn clone_span(&self, id: &Id) -> Id {
        let mut spans = self.spans.lock().unwrap();
        let name = spans.get_mut(id).map(|span| {
            span.refs += 1;
            span.metadata.name()
        });
        let mut expected = self.expected.lock().unwrap();
        let was_expected =
            matches!(expected.front(), Some(Expect::CloneSpan(span)) if span.name().is_none_or(|it| Some(it) == name));
        if was_expected {
            expected.pop_front();
        }
        id.clone()
    }
    fn drop_span(&self, id: Id) {
        let mut is_event = false;
        let mut spans = self.spans.lock().unwrap();
        let name = spans.get_mut(&id).map(|span| {
            span.refs -= 1;
            span.metadata.name()
        });
        if let Ok(mut expected) = self.expected.try_lock() {
            let was_expected = match expected.front() {
                Some(Expect::DropSpan(span)) => {
                    if !thread::panicking() {
                        if let Some(it) = span.name() {
                            assert_eq!(Some(it), name);
                        }
                    }
                    true
                }
                Some(Expect::Event(_)) => {
                    is_event = true;
                    true
                }
                _ => false,
            };
            if is_event && !thread::panicking() {
                panic!("[{}] expected an event, but dropped span {name:?}", self.name);
            }
            if was_expected {
                expected.pop_front();
            }
        }
    }
    fn try_close(&self, id: Id) -> bool {
        self.drop_span(id);
        true
    }
    fn current_span(&self) -> tracing_core::span::Current {
        let stack = self.current.lock().unwrap();
        match stack.last() {
            Some(id) => {
                let spans = self.spans.lock().unwrap();
                tracing_core::span::Current::new(id.clone(), spans[id].metadata)
            }
            None => tracing_core::span::Current::none(),
        }
    }
}
impl MockHandle {
    pub fn new(expected: Arc<Mutex<VecDeque<Expect>>>, name: String) -> Self {
        Self(expected, name)
    }
    pub fn assert_finished(&self) {
        if let Ok(ref expected) = self.0.lock() {
            assert!(
                !expected.iter().any(|it| it != &Expect::Nothing),
                "\n[{}] more was expected: {:?}",
                self.1,
                **expected
            );
        }
    }
}
