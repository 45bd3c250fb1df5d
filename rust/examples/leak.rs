//! A thread keeps a clone of a span in a list and forgets it. At the end the program asks which spans are still open,
//! and why. `cargo run --offline --example leak`
use span_registry::{event, span, FmtSpan, Layer, Level, Registry, Span};
use std::error::Error;
use std::io;
use std::sync::mpsc::{channel, Receiver};
use std::thread;

/// A thread that keeps what it is sent.
fn keep(inbox: Receiver<Span>) {
    let kept: Vec<Span> = inbox.iter().collect();
    // It should have given them back.
    std::mem::forget(kept);
}

fn main() -> Result<(), Box<dyn Error>> {
    let layer = Layer::compact().with_span_events(FmtSpan::NEW | FmtSpan::CLOSE);
    let (registry, guard) = Registry::builder().layer(layer).spawn_writer(io::stdout())?;
    let (to_keeper, inbox) = channel();
    let keeper = thread::spawn(move || keep(inbox));
    for number in 0..3 {
        let request = span!(registry, Level::Info, "request", number = number);
        let _inside = request.enter();
        let query = span!(registry, Level::Info, "query");
        event!(registry, Level::Info, "asked");
        if number == 1 {
            to_keeper.send(query.clone())?;
        }
    }
    drop(to_keeper);
    keeper.join().expect("it doesn't panic");
    let lines = guard.finish()?;
    println!("{lines} lines. Still open:\n{}", registry.open_spans()?);
    for span in registry.open_spans()?.iter().filter(|span| span.parent.is_none()) {
        let why = registry.why_open(span.id)?;
        for holder in why.iter().filter(|span| span.is_held()) {
            println!("{} waits for {holder}", span.name);
        }
    }
    Ok(())
}
