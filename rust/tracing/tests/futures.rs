//! Futures that are inside their spans whenever they are polled, by tokio's two executors.
mod common;
use common::{alone, assert_clean, compact, many, over, texts};
use std::collections::HashMap;
use std::io;
use std::sync::{Arc, Mutex};
use std::time::Duration;
use tokio::runtime::{Builder, Runtime};
use tokio::task::{spawn, yield_now};
use tokio::time::{sleep, timeout};
use tracing::dispatcher::with_default;
use tracing::instrument::{Instrument, WithSubscriber};
use tracing::{info, info_span, instrument, Dispatch, Span};

fn current_thread() -> Runtime {
    Builder::new_current_thread().enable_time().build().expect("a runtime")
}

fn multi_thread() -> Runtime {
    Builder::new_multi_thread().worker_threads(4).enable_time().build().expect("a runtime")
}

#[instrument]
async fn query(table: usize) -> usize {
    yield_now().await;
    info!("read");
    table * 2
}

/// Polled four times, with a span of its own within.
async fn request(number: usize) {
    let own = Span::current();
    yield_now().await;
    assert_eq!(Span::current().id(), own.id());
    assert_eq!(query(number).await, number * 2);
    yield_now().await;
    assert_eq!(Span::current().id(), own.id());
}

/// Waits for many of them at once, each a task of its own.
async fn requests(tasks: usize) {
    let one = |number| request(number).instrument(info_span!("request", number)).with_current_subscriber();
    let spawned: Vec<_> = (0..tasks).map(|number| spawn(one(number))).collect();
    for task in spawned {
        task.await.expect("no panic");
    }
}

/// What is left behind by them, and how many lines of each kind were written.
fn run(runtime: &Runtime, tasks: usize) -> HashMap<String, usize> {
    let out = Out::default();
    let (subscriber, guard) = compact().spawn_writer(out.clone()).expect("it fits");
    let dispatch = Dispatch::new(subscriber.clone());
    runtime.block_on(requests(tasks).with_subscriber(dispatch));
    assert_clean(&subscriber);
    guard.finish().expect("it never fails");
    let text = String::from_utf8(out.0.lock().expect("no panic").clone()).expect("lines are UTF-8");
    let mut kinds = HashMap::new();
    for line in text.lines() {
        *kinds.entry(line.split(' ').next().unwrap_or_default().to_owned()).or_default() += 1;
    }
    kinds
}

#[derive(Clone, Default)]
struct Out(Arc<Mutex<Vec<u8>>>);

impl io::Write for Out {
    fn write(&mut self, bytes: &[u8]) -> io::Result<usize> {
        self.0.lock().expect("no panic").extend_from_slice(bytes);
        Ok(bytes.len())
    }

    fn flush(&mut self) -> io::Result<()> {
        Ok(())
    }
}

#[test]
fn futures_are_entered_and_left_at_each_poll() {
    let _alone = alone();
    for runtime in [current_thread(), multi_thread()] {
        let tasks = many(400);
        let kinds = run(&runtime, tasks);
        let told = |kind: &str| kinds.get(kind).copied().unwrap_or(0);
        assert_eq!((told("new"), told("close"), told("event")), (2 * tasks, 2 * tasks, tasks), "{kinds:?}");
        // Four polls of each request, and two of its query.
        assert_eq!((told("enter"), told("exit")), (6 * tasks, 6 * tasks), "{kinds:?}");
    }
}

#[test]
fn the_lines_of_one_future_are_in_order() {
    let _alone = alone();
    let (subscriber, dispatch, mut drain) = over(compact());
    let one = async {
        let span = info_span!("request");
        query(3).instrument(span).await
    };
    current_thread().block_on(one.with_subscriber(dispatch));
    let wanted = [
        "new 1 w0 request",
        "enter 1 w0 request",
        "new 2 w0 request:query table=3",
        "enter 2 w0 request:query",
        "exit 2 w0 request:query",
        "exit 1 w0 request",
        "enter 1 w0 request",
        "enter 2 w0 request:query",
        "event 2 w0 request:query INFO read",
        "exit 2 w0 request:query",
        "close 2 w0 request:query table=3",
        "exit 1 w0 request",
        "close 1 w0 request",
    ];
    assert_eq!(texts(&mut drain), wanted);
    assert_clean(&subscriber);
}

#[test]
fn a_future_that_is_dropped_between_its_polls_closes_its_span() {
    let _alone = alone();
    let (subscriber, dispatch, mut drain) = over(compact());
    let forever = async {
        let within = info_span!("within");
        sleep(Duration::from_secs(3600)).instrument(within).await;
    };
    let one = async {
        let ended = timeout(Duration::from_millis(5), forever.instrument(info_span!("outer"))).await;
        ended.expect_err("it takes an hour");
    };
    current_thread().block_on(one.with_subscriber(dispatch));
    let lines = texts(&mut drain);
    let closes: Vec<_> = lines.iter().filter(|line| line.starts_with("close")).collect();
    assert_eq!(closes, ["close 2 w0 outer:within", "close 1 w0 outer"], "{lines:?}");
    assert_clean(&subscriber);
}

#[test]
fn spans_go_from_thread_to_thread_with_their_tasks() {
    let _alone = alone();
    let (subscriber, guard) = compact().spawn_writer(io::sink()).expect("it fits");
    let dispatch = Dispatch::new(subscriber.clone());
    let runtime = multi_thread();
    let all = async {
        let root = info_span!("root");
        let (send, mut receive) = tokio::sync::mpsc::channel::<Span>(4);
        for number in 0..many(200) {
            let (send, made) = (send.clone(), info_span!(parent: &root, "child", number));
            let task = async move {
                yield_now().await;
                // The handle is closed by whoever receives it.
                let own = Span::current();
                send.send(own).await.expect("it is received");
            };
            spawn(task.instrument(made).with_current_subscriber());
        }
        drop((send, root));
        while let Some(span) = receive.recv().await {
            span.in_scope(|| info!("received"));
        }
    };
    runtime.block_on(all.with_subscriber(dispatch));
    drop(runtime);
    assert_clean(&subscriber);
    guard.finish().expect("a sink takes all");
}

#[test]
fn a_blocking_task_is_inside_of_its_own_span() {
    let _alone = alone();
    let (subscriber, dispatch, mut drain) = over(compact());
    let own = dispatch.clone();
    current_thread().block_on(async move {
        let blocking = move || with_default(&own, || info_span!("blocking").in_scope(|| info!("m")));
        tokio::task::spawn_blocking(blocking).await.expect("no panic");
    });
    assert!(texts(&mut drain).contains(&"event 1 w0 blocking INFO m".to_owned()));
    assert_clean(&subscriber);
}
