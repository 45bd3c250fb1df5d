//! A program that uses `tracing` as any other does. What makes it run on the proved store stands in its Cargo.toml.
use tracing::{info, info_span, instrument, warn};
use tracing_subscriber::fmt::format::FmtSpan;

#[instrument]
fn fetch(user: u32) -> Option<&'static str> {
    info!("asking the store");
    (user == 1).then_some("Ada")
}

fn main() {
    let lines = tracing_subscriber::fmt().without_time().with_ansi(false).with_target(false);
    lines.with_span_events(FmtSpan::NEW).init();

    let request = info_span!("GET /users", peer = "10.0.0.1");
    let threads: Vec<_> = (1..=2)
        .map(|user| {
            let request = request.clone();
            let handled = std::thread::spawn(move || {
                request.in_scope(|| match fetch(user) {
                    Some(name) => info!(name, "found"),
                    None => warn!(user, "nobody"),
                })
            });
            handled.join()
        })
        .collect();
    drop(request);
    info!(threads = threads.len(), "done");
}
