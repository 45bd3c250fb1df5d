//! Rounds of a new span, an enter, an exit and a close without a layer, each with its reading, for who counts what they
//! take. `cargo run --release --offline --example rounds KIND ROUNDS`, with `callsite`, `ids` or `span` for the kind
use span_registry::{Error, Id, Level, Meta, Parent, Registry};

const META: Meta<'static> = Meta {
    level: Level::Info,
    target: "app::module",
    name: "request",
};

fn through(registry: &Registry, id: Option<Id>) -> Result<(), Error> {
    let id = id.expect("without a layer each span is made");
    registry.enter(id)?;
    registry.exit(id)?;
    registry.try_close(id).map(drop)
}

fn main() -> Result<(), Error> {
    let words: Vec<String> = std::env::args().skip(1).collect();
    let [kind, rounds] = &words[..] else {
        panic!("rounds KIND ROUNDS");
    };
    let (registry, mut drain) = Registry::builder().workers(1).build()?;
    let callsite = registry.callsite(&META)?;
    for _ in 0..rounds.parse().expect("a number of rounds") {
        match kind.as_str() {
            "callsite" => through(&registry, registry.new_span_at(&callsite, Parent::Current, &[])?)?,
            "ids" => through(&registry, registry.new_span(&META, Parent::Current, &[])?)?,
            "span" => registry.span(&META, Parent::Current, &[])?.try_in_scope(|| ())?,
            _ => panic!("there is no kind {kind}"),
        }
        drain.lines().for_each(drop);
    }
    Ok(())
}
