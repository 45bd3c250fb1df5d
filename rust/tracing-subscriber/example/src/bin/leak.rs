//! A program that leaks a span: a thread keeps a clone of it in a list that nobody empties. The registry says which
//! spans are there, what holds each, and where it was made.
use std::sync::Mutex;
use tracing::{dispatcher, info_span, Span};
use tracing_subscriber::{prelude::*, Registry};

static RECENT: Mutex<Vec<Span>> = Mutex::new(Vec::new());

fn answer(user: u32) {
    let query = info_span!("query", user);
    if user == 2 {
        RECENT.lock().expect("no thread panicked").push(query.clone());
    }
    query.in_scope(|| drop(info_span!("row")));
}

fn main() {
    tracing_subscriber::registry().with(tracing_subscriber::fmt::layer()).init();
    let request = info_span!("GET /users");
    let threads = (1..=3).map(|user| {
        let request = request.clone();
        std::thread::spawn(move || request.in_scope(|| answer(user)))
    });
    threads.for_each(|thread| thread.join().expect("no thread panicked"));
    drop(request);

    let spans = dispatcher::get_default(|all| all.downcast_ref::<Registry>().map(Registry::open_spans));
    for span in spans.expect("the registry is in the default subscriber") {
        println!("{span}");
    }
}
