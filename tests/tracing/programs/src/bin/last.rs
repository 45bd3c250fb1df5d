//! What a thread's last destructors do with spans, after its other thread locals are gone: a span is dropped, entered,
//! left, made and told of there, and nothing ends the process or stays.
use programs::{is_there, new, site, Judge};
use std::cell::RefCell;
use std::sync::mpsc::{channel, Sender};
use tracing::span::EnteredSpan;
use tracing::{dispatcher, Dispatch, Span};
use tracing_core::span::Id;
use tracing_subscriber::fmt::format::FmtSpan;
use tracing_subscriber::prelude::*;
use tracing_subscriber::Registry;

/// What a thread does when this is dropped.
struct Last {
    dispatch: Dispatch,
    span: Option<Span>,
    entered: Option<EnteredSpan>,
    told: Sender<Id>,
}

impl Drop for Last {
    fn drop(&mut self) {
        drop(self.entered.take());
        let span = self.span.take().expect("it is dropped once");
        span.in_scope(|| tracing::info!("told"));
        let id = span.id().expect("it is there");
        self.dispatch.enter(&id);
        self.dispatch.current_span();
        self.dispatch.exit(&id);
        let twin = span.clone();
        drop(span);
        drop(twin);
        // No default subscriber can be set any longer: a span is made by a raw call.
        let made = new(&self.dispatch, site!("made at last"));
        self.dispatch.enter(&made);
        self.dispatch.exit(&made);
        self.dispatch.try_close(made.clone());
        let _ = self.told.send(made);
        let _ = self.told.send(id);
    }
}

thread_local! {
    static LAST: RefCell<Option<Last>> = const { RefCell::new(None) };
}

/// The local is registered before all others of the thread, or after them.
fn thread(dispatch: &Dispatch, is_first: bool, told: Sender<Id>) {
    if is_first {
        LAST.with(|last| drop(last.borrow_mut().take()));
    }
    let (span, entered) = dispatcher::with_default(dispatch, || {
        let span = tracing::info_span!("span");
        let entered = tracing::info_span!(parent: &span, "entered").entered();
        tracing::info_span!("inner").in_scope(|| tracing::info!("told"));
        (span, entered)
    });
    let last = Last { dispatch: dispatch.clone(), span: Some(span), entered: Some(entered), told };
    LAST.with(|cell| *cell.borrow_mut() = Some(last));
}

/// A thread ends inside a span, and the layers are told of its close when their own thread locals may be gone, too.
fn ends_inside() -> bool {
    let lines = tracing_subscriber::fmt::layer().with_writer(std::io::sink).with_span_events(FmtSpan::FULL);
    let judge = Judge::default();
    let dispatch = Dispatch::new(Registry::default().with(lines).with(judge.clone()));
    let inside = dispatch.clone();
    let thread = std::thread::spawn(move || {
        dispatcher::with_default(&inside, || {
            let span = tracing::info_span!("left");
            tracing::info!("told");
            let id = span.id().expect("it is there");
            std::mem::forget(span.entered());
            inside.try_close(id.clone());
            id
        })
    });
    let id = thread.join().expect("the thread ends well");
    !is_there(&dispatch, &id)
}

fn main() {
    std::panic::set_hook(Box::new(|_| {}));
    let judge = Judge::default();
    let dispatch = Dispatch::new(Registry::default().with(judge.clone()));
    let (told, hears) = channel();
    for is_first in [true, false] {
        let (dispatch, told) = (dispatch.clone(), told.clone());
        std::thread::spawn(move || thread(&dispatch, is_first, told)).join().expect("the thread ends well");
    }
    drop(told);
    let stays = hears.iter().filter(|id| is_there(&dispatch, id)).count();
    let (made, open, faults) = judge.verdict();
    println!("{made} spans, {open} left open, {stays} stay, {} faults {faults:?}", faults.len());
    let is_right = made == 8 && open == 0 && stays == 0 && faults.is_empty();
    let is_left = ends_inside();
    println!("a span in which a thread ended: {}", if is_left { "gone" } else { "stays" });
    std::process::exit(i32::from(!is_right || !is_left));
}
