//! A server of four threads with `tracing`'s macros, whose lines go to standard output; and a span that leaks, which is
//! listed with its place when the server has ended. `cargo run --example leak`, as the crate's page says of its tests.
use span_registry::{FmtSpan, Layer};
use std::error::Error;
use std::sync::mpsc::{channel, Receiver};
use std::sync::Mutex;
use std::{io, thread};
use tracing::{debug, info_span, instrument, warn, Span};
use tracing_span_registry::ProvedSubscriber;

const THREADS: u32 = 4;
const REQUESTS: u32 = 12;

#[instrument(target = "app::db", level = "debug")]
fn query(table: &str) -> usize {
    debug!(target: "app::db", cached = false, "read {table}");
    table.len()
}

fn answer(number: u32, slow: &Mutex<Vec<Span>>) {
    let request = info_span!("GET /users", number);
    let _inside = request.enter();
    let rows = query("users");
    if number == 7 {
        warn!(rows, "this was slow");
        // Whoever looks at the slow ones never lets go of them.
        slow.lock().unwrap_or_else(|poison| poison.into_inner()).push(request.clone());
    }
}

fn serve(requests: &Mutex<Receiver<u32>>, slow: &Mutex<Vec<Span>>) {
    loop {
        let next = requests.lock().unwrap_or_else(|poison| poison.into_inner()).recv();
        let Ok(number) = next else { return };
        answer(number, slow);
    }
}

fn main() -> Result<(), Box<dyn Error>> {
    let layer = Layer::compact()
        .with_span_events(FmtSpan::NEW | FmtSpan::CLOSE)
        .with_targets("info,app::db=debug,span_registry=warn".parse()?);
    let (subscriber, guard) = ProvedSubscriber::builder().layer(layer).init(io::stdout())?;

    let slow = Mutex::new(Vec::new());
    let (send, requests) = channel();
    let requests = Mutex::new(requests);
    thread::scope(|scope| {
        for _ in 0..THREADS {
            scope.spawn(|| serve(&requests, &slow));
        }
        (0..REQUESTS).for_each(|number| send.send(number).expect("somebody receives"));
        drop(send);
    });

    let lines = guard.finish()?;
    println!("{lines} lines, lost: {}", subscriber.lost());
    print!("open:\n{}", subscriber.registry().open_spans()?);
    Ok(())
}
