//! Futures that run inside a span.
#![forbid(unsafe_code)]
use crate::span::Span;
use std::fmt;
use std::future::Future;
use std::pin::Pin;
use std::task::{Context, Poll};

/// Each future can be [instrumented](Instrument::instrument).
pub trait Instrument: Future + Sized {
    /// The future inside a span: each poll enters it and leaves it again, on whatever thread that is, and so does a
    /// drop before the future is ready. A guard of [`Span::enter`] that is kept over an `await` doesn't do that: the
    /// thread stays inside while it runs other tasks.
    ///
    /// Where the entry is refused, the future runs outside of it, as [`Span::in_scope`] does. The future is boxed.
    ///
    /// ```
    /// # struct Nobody;
    /// # impl std::task::Wake for Nobody {
    /// #     fn wake(self: std::sync::Arc<Nobody>) {}
    /// # }
    /// # fn main() -> Result<(), span_registry::Error> {
    /// # let (registry, mut drain) = span_registry::Registry::builder()
    /// #     .layer(span_registry::Layer::compact()).build()?;
    /// use span_registry::{event, span, Instrument, Level};
    /// let read = async { event!(registry, Level::Info, "read") };
    /// let read = read.instrument(span!(registry, Level::Info, "request"));
    /// # let mut read = std::pin::pin!(read);
    /// # let waker = std::task::Waker::from(std::sync::Arc::new(Nobody));
    /// # let ready = std::future::Future::poll(read.as_mut(), &mut std::task::Context::from_waker(&waker));
    /// # assert!(ready.is_ready());
    /// # let lines: Vec<String> = drain.lines().map(|line| line.text).collect();
    /// # let wanted = ["new 1 w0 request", "enter 1 w0 request", "event 1 w0 request INFO read", "exit 1 w0 request"];
    /// # assert_eq!(lines, wanted);
    /// # Ok(())
    /// # }
    /// ```
    fn instrument(self, span: Span) -> Instrumented<Self> {
        Instrumented {
            future: Some(Box::pin(self)),
            span,
        }
    }
}

impl<F: Future> Instrument for F {}

/// A future that runs inside a span, as [`Instrument::instrument`] makes it. It keeps the handle until it is dropped.
#[must_use = "futures do nothing unless they are polled"]
pub struct Instrumented<F> {
    // None once it is ready.
    future: Option<Pin<Box<F>>>,
    span: Span,
}

impl<F> Instrumented<F> {
    /// The span.
    #[must_use]
    pub fn span(&self) -> &Span {
        &self.span
    }
}

/// Once it was ready, it is pending for ever.
impl<F: Future> Future for Instrumented<F> {
    type Output = F::Output;

    fn poll(mut self: Pin<&mut Self>, context: &mut Context<'_>) -> Poll<F::Output> {
        let Instrumented { future, span } = &mut *self;
        let Some(running) = future else {
            return Poll::Pending;
        };
        let _inside = span.enter();
        let polled = running.as_mut().poll(context);
        if polled.is_ready() {
            *future = None;
        }
        polled
    }
}

impl<F> Drop for Instrumented<F> {
    fn drop(&mut self) {
        if self.future.is_some() {
            let _inside = self.span.enter();
            self.future = None;
        }
    }
}

impl<F> fmt::Debug for Instrumented<F> {
    fn fmt(&self, f: &mut fmt::Formatter<'_>) -> fmt::Result {
        f.debug_struct("Instrumented")
            .field("span", &self.span)
            .finish_non_exhaustive()
    }
}
