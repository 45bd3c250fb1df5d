//! A toy server: four threads answer requests, each in a span with spans in it, and a fifth writes JSON lines to
//! standard output. `cargo run --release --offline --example server`
use span_registry::{retry, try_event, try_span, Error, FmtSpan, Layer, Level, Registry};
use std::error::Error as AnyError;
use std::io::{self, BufWriter};
use std::thread;

const THREADS: u32 = 4;
const REQUESTS: u32 = 20;

fn main() -> Result<(), Box<dyn AnyError + Send + Sync>> {
    let layer = Layer::json()
        .with_span_events(FmtSpan::NEW | FmtSpan::CLOSE)
        .with_targets("info,server::db=debug".parse()?);
    let builder = Registry::builder().workers(THREADS).layer(layer);
    let (registry, guard) = builder.spawn_writer(BufWriter::new(io::stdout()))?;
    let serving: Vec<_> = (0..THREADS)
        .map(|first| {
            let registry = registry.clone();
            let mut requests = (first..REQUESTS).step_by(THREADS as usize);
            thread::spawn(move || requests.try_for_each(|number| answer(&registry, number)))
        })
        .collect();
    for thread in serving {
        thread.join().expect("it doesn't panic")?;
    }
    let counts = registry.counts();
    let lines = guard.finish()?;
    eprintln!("{lines} lines of {} spans, {} left open", counts.made, counts.open);
    Ok(())
}

/// The server rather waits for the writing thread than loses a line.
fn answer(registry: &Registry, number: u32) -> Result<(), Error> {
    let request = retry(|| try_span!(registry, target: "server", Level::Info, "request", number = number))?;
    let _inside = retry(|| request.try_enter())?;
    let rows = query(registry, number % 3)?;
    if rows == 0 {
        retry(|| try_event!(registry, target: "server", Level::Warn, "nothing found"))?;
    }
    let status = if rows == 0 { "404" } else { "200" };
    retry(|| request.try_record(&[("status", status)]))
}

fn query(registry: &Registry, table: u32) -> Result<u32, Error> {
    let query = retry(|| try_span!(registry, target: "server::db", Level::Debug, "query", table = table))?;
    let _inside = retry(|| query.try_enter())?;
    let rows = table * 7;
    retry(|| try_event!(registry, target: "server::db", Level::Debug, { rows = rows }, "read table {table}"))?;
    Ok(rows)
}
