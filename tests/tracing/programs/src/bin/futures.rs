//! Futures with a span each, which is entered on each poll, on a runtime with several threads. Each span has to be
//! told closed once, after its children, and none may be left.
use programs::Judge;
use tokio::task::yield_now;
use tracing::{Instrument, Span};
use tracing_futures::WithSubscriber;
use tracing_subscriber::prelude::*;

async fn leaf(depth: u32) {
    for _ in 0..depth {
        tracing::info!("told");
        yield_now().await;
    }
}

async fn work(number: u64) -> u64 {
    let child = tracing::info_span!("child", number);
    leaf(3).instrument(child.clone()).await;
    let inner = tokio::spawn(leaf(4).instrument(tracing::info_span!(parent: &child, "task")));
    drop(child);
    yield_now().await;
    Span::current().record("number", number + 1);
    inner.await.expect("the task ends");
    tokio::select! {
        _ = leaf(1000).instrument(tracing::info_span!("dropped while it waits")) => unreachable!("it takes longer"),
        _ = leaf(2).instrument(tracing::info_span!("ready")) => {}
    }
    number
}

fn main() {
    let judge = Judge::default();
    tracing_subscriber::registry().with(judge.clone()).init();
    let runtime = tokio::runtime::Builder::new_multi_thread().worker_threads(4).build().expect("a runtime");
    let sum = runtime.block_on(async {
        let tasks: Vec<_> = (0..2_000)
            .map(|number| tokio::spawn(work(number).instrument(tracing::info_span!("work", number))))
            .collect();
        let mut sum = 0;
        for task in tasks {
            sum += task.await.expect("the task ends");
        }
        sum
    });
    // A subscriber of their own, which goes with the future from thread to thread.
    let own = Judge::default();
    runtime.block_on(async {
        let subscriber = tracing_subscriber::registry().with(own.clone());
        let task = async { work(1).instrument(tracing::info_span!("of its own", number = 1)).await };
        tokio::spawn(task.with_subscriber(subscriber)).await.expect("the task ends")
    });
    drop(runtime);
    for (judge, least) in [(judge, 10_000), (own, 4)] {
        let (made, open, faults) = judge.verdict();
        println!("{made} spans, {open} left open, {} faults, sum {sum}", faults.len());
        if made < least || open > 0 || !faults.is_empty() {
            println!("{:?}", faults.iter().take(5).collect::<Vec<_>>());
            std::process::exit(1);
        }
    }
}
