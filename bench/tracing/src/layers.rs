//! The layers under which rounds are done.
use std::cell::RefCell;
use std::fmt::{Debug, Write};
use std::hint::black_box;
use tracing::Subscriber;
use tracing_core::field::{Field, Visit};
use tracing_core::span::{Attributes, Id};
use tracing_core::Event;
use tracing_subscriber::layer::Context;
use tracing_subscriber::registry::{LookupSpan, SpanRef};
use tracing_subscriber::Layer;

/// Does nothing.
pub struct Quiet;
impl<S: Subscriber> Layer<S> for Quiet {}

/// Looks up the span and each of its parents, whatever it is told.
pub struct Looks;

impl Looks {
    fn look<S: Subscriber + for<'a> LookupSpan<'a>>(span: Option<SpanRef<'_, S>>) {
        let names = span.into_iter().flat_map(|span| span.scope()).map(|span| span.name().len());
        black_box(names.sum::<usize>());
    }
}

impl<S: Subscriber + for<'a> LookupSpan<'a>> Layer<S> for Looks {
    fn on_new_span(&self, _: &Attributes<'_>, id: &Id, ctx: Context<'_, S>) {
        Looks::look(ctx.span(id));
    }
    fn on_event(&self, event: &Event<'_>, ctx: Context<'_, S>) {
        Looks::look(ctx.event_span(event));
    }
    fn on_close(&self, id: Id, ctx: Context<'_, S>) {
        Looks::look(ctx.span(&id));
    }
}

/// Keeps the fields of a span as text, and writes a line for each event and each close, into a buffer that it empties.
pub struct Lines;

struct Fields(String);

impl Visit for Fields {
    fn record_debug(&mut self, field: &Field, value: &dyn Debug) {
        let _ = write!(self.0, " {}={value:?}", field.name());
    }
}

thread_local! {
    static LINE: RefCell<String> = const { RefCell::new(String::new()) };
}

fn write_line<S: Subscriber + for<'a> LookupSpan<'a>>(
    what: &str,
    span: Option<SpanRef<'_, S>>,
    fields: impl FnOnce(&mut Fields),
) {
    LINE.with(|line| {
        let mut text = Fields(std::mem::take(&mut *line.borrow_mut()));
        text.0.clear();
        text.0.push_str(what);
        for span in span.iter().flat_map(|span| span.scope().from_root()) {
            let _ = write!(text.0, ":{}", span.name());
            if let Some(kept) = span.extensions().get::<Fields>() {
                text.0.push_str(&kept.0);
            }
        }
        fields(&mut text);
        *line.borrow_mut() = black_box(text.0);
    });
}

impl<S: Subscriber + for<'a> LookupSpan<'a>> Layer<S> for Lines {
    fn on_new_span(&self, attributes: &Attributes<'_>, id: &Id, ctx: Context<'_, S>) {
        let mut fields = Fields(String::new());
        attributes.record(&mut fields);
        if let Some(span) = ctx.span(id) {
            span.extensions_mut().insert(fields);
        }
    }
    fn on_event(&self, event: &Event<'_>, ctx: Context<'_, S>) {
        write_line("event", ctx.event_span(event), |fields| event.record(fields));
    }
    fn on_close(&self, id: Id, ctx: Context<'_, S>) {
        write_line("close", ctx.span(&id), |_| {});
    }
}
