//! Processes that end with spans open. Each is an ignored test of this file, which another test runs as a child.
use span_registry::{Guard, Layer};
use std::fs::{self, File};
use std::path::PathBuf;
use std::process::{exit, Command};
use std::sync::{Arc, Barrier};
use std::{env, mem, thread};
use tracing::{info, info_span, Span};
use tracing_span_registry::{InitError, ProvedSubscriber};

/// By which a child knows whose it is, so that each has files of its own.
const PARENT: &str = "SPAN_REGISTRY_PARENT";

/// Where the child of this name and this parent writes its lines.
fn path(name: &str, parent: &str) -> PathBuf {
    PathBuf::from(env!("CARGO_TARGET_TMPDIR")).join(format!("{name}.{parent}"))
}

/// The default subscriber of a child.
fn init(name: &str) -> (ProvedSubscriber, Guard) {
    let out = File::create(path(name, &env::var(PARENT).unwrap_or_default())).expect("a file");
    ProvedSubscriber::builder().layer(Layer::compact()).init(out).expect("there is none yet")
}

/// What a child ended with, and its lines.
fn ended(name: &str) -> (Option<i32>, Vec<String>) {
    let parent = std::process::id().to_string();
    let mut command = Command::new(env::current_exe().expect("this test"));
    command.args(["--exact", name, "--ignored", "--test-threads=1"]);
    let output = command.env(PARENT, &parent).env("RUST_BACKTRACE", "0").output().expect("it runs");
    let path = path(name, &parent);
    let text = fs::read_to_string(&path).expect("it wrote");
    fs::remove_file(path).expect("it was there");
    assert!(text.ends_with('\n'), "{output:?}");
    (output.status.code(), text.lines().map(str::to_owned).collect())
}

#[test]
#[ignore = "a child"]
fn leaves_spans_open() {
    let (subscriber, guard) = init("leaves_spans_open");
    let request = info_span!("request", path = "/users");
    mem::forget(request.enter());
    mem::forget(info_span!("query"));
    let open = subscriber.registry().open_spans().expect("memory").to_string();
    assert!(open.contains("query (2), tests/endings.rs:"), "{open}");
    assert!(guard.finish().expect("a file") >= 3);
    // Nobody reads from here on: nothing waits, and nothing fails.
    (0..10_000).for_each(|_| info!("unheard"));
    assert!(subscriber.lost().calls() == 0 && subscriber.lost().lines() > 0, "{}", subscriber.lost());
}

#[test]
fn what_is_open_when_the_guard_is_dropped_is_listed() {
    let (status, lines) = ended("leaves_spans_open");
    assert_eq!(status, Some(0));
    assert_eq!(lines[..3], ["new 1 w0 request path=/users", "enter 1 w0 request", "new 2 w0 request:query"]);
    let listed: Vec<_> = lines[3..].iter().filter(|line| line.contains(" open span=")).collect();
    assert_eq!(listed.len(), 2, "{lines:?}");
    assert!(listed.iter().any(|line| line.contains("name=query place=tests/endings.rs:")), "{lines:?}");
}

#[test]
#[ignore = "a child"]
fn exits_within() {
    let (_, guard) = init("exits_within");
    let inside = Arc::new(Barrier::new(5));
    for number in 0..4 {
        let inside = Arc::clone(&inside);
        thread::spawn(move || {
            let _inside = info_span!("thread", number).entered();
            info_span!("within").in_scope(|| info!("m"));
            inside.wait();
            loop {
                info_span!("within").in_scope(|| info!("m"));
            }
        });
    }
    inside.wait();
    drop(guard);
    exit(3);
}

#[test]
fn a_process_may_exit_while_its_threads_are_inside() {
    let (status, lines) = ended("exits_within");
    let of = |word: &str| lines.iter().filter(|line| line.starts_with(word)).count();
    assert_eq!(status, Some(3));
    assert!(of("new") > 4 && of("enter") > 4 && of("close") <= of("new"), "{} lines", lines.len());
    let opened = lines.iter().filter(|line| line.contains(" open span=") && line.contains("name=thread")).count();
    assert_eq!(opened, 4);
}

#[test]
#[ignore = "a child"]
fn panics_within() {
    let (_, _guard) = init("panics_within");
    let request = info_span!("request");
    request.in_scope(|| panic!("with a span entered"));
}

#[test]
fn a_panic_writes_all_lines() {
    let (status, lines) = ended("panics_within");
    assert_eq!(status, Some(101));
    assert_eq!(lines, ["new 1 w0 request", "enter 1 w0 request", "exit 1 w0 request", "close 1 w0 request"]);
}

thread_local! {
    static KEPT: LastOne = LastOne(info_span!("kept"));
}

/// Makes calls while the thread's locals are dropped.
struct LastOne(Span);

impl Drop for LastOne {
    fn drop(&mut self) {
        self.0.in_scope(|| info!("last"));
        info_span!("made last").in_scope(|| info!("last"));
    }
}

#[test]
#[ignore = "a child"]
fn drops_last() {
    let (subscriber, guard) = init("drops_last");
    KEPT.with(|kept| kept.0.in_scope(|| info!("first")));
    let other = thread::spawn(|| KEPT.with(|kept| kept.0.in_scope(|| info!("first"))));
    other.join().expect("no panic");
    // That of this thread is open still, and is dropped after the guard.
    assert_eq!(subscriber.registry().counts().open, 1);
    guard.finish().expect("a file");
}

#[test]
fn spans_may_be_dropped_with_a_threads_locals() {
    let (status, lines) = ended("drops_last");
    assert_eq!(status, Some(0), "{lines:?}");
    assert_eq!(lines.iter().filter(|line| line.ends_with("kept INFO first")).count(), 2, "{lines:?}");
}

#[test]
#[ignore = "a child"]
fn inits_twice() {
    let (_, _guard) = init("inits_twice");
    info!("m");
    let again = ProvedSubscriber::builder().init(std::io::sink());
    assert_eq!(again.expect_err("there is one").to_string(), InitError::IsSet.to_string());
    let wrong = ProvedSubscriber::builder().slots(0).init(std::io::sink());
    assert!(matches!(wrong.expect_err("no slots"), InitError::Build(_)));
}

#[test]
fn there_is_one_default_subscriber() {
    assert_eq!(ended("inits_twice"), (Some(0), vec!["event 0 w0 - INFO m".to_owned()]));
}
