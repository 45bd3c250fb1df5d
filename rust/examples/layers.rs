//! Three layers with different filters and forms, each to a writer of its own.
//! `cargo run --offline --example layers`
use span_registry::{event, span, FmtSpan, Layer, Level, Registry, Targets};
use std::error::Error;

fn main() -> Result<(), Box<dyn Error>> {
    let everything = Layer::compact();
    let database = Layer::json()
        .with_span_events(FmtSpan::CLOSE)
        .with_targets(Targets::new().with_target("app::db", Level::Trace));
    let problems = Layer::compact()
        .with_span_events(FmtSpan::NONE)
        .with_targets("warn,app::noisy=error".parse()?);
    let builder = Registry::builder().layer(everything).layer(database).layer(problems);
    let (registry, mut drain) = builder.build()?;
    {
        let request = span!(registry, target: "app", Level::Info, "request", path = "/users");
        let _in_request = request.enter();
        let query = span!(registry, target: "app::db", Level::Debug, "query");
        let _in_query = query.enter();
        event!(registry, target: "app::db", Level::Warn, { took_ms = 1200 }, "slow");
        event!(registry, target: "app::noisy", Level::Warn, "told to the first layer alone");
    }
    let mut outs = [Vec::new(), Vec::new(), Vec::new()];
    drain.write_layers(&mut outs)?;
    for (name, lines) in ["everything", "the database", "problems"].iter().zip(outs) {
        println!("== {name}\n{}", String::from_utf8(lines)?);
    }
    Ok(())
}
