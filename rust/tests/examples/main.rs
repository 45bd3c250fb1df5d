//! The examples, run as a reader of the pages runs them: what they print has the form that they promise.
//!
//! Those that measure are run by what measures with them (`bench/border.py`, `bench/throughput.py`).
mod chrome;
mod json;

use std::env;
use std::path::Path;
use std::process::Command;

/// What an example prints to standard output, which `cargo` runs as this test was built.
fn printed(words: &[&str]) -> String {
    let test = env::current_exe().expect("a path");
    let in_target = test.ancestors().nth(2).expect("PROFILE/deps/NAME");
    let mut cargo = Command::new(env::var_os("CARGO").unwrap_or_else(|| "cargo".into()));
    cargo
        .args(["run", "--quiet", "--offline", "--target-dir"])
        .arg(in_target.parent().expect("the target's folder"));
    if in_target.ends_with("release") {
        cargo.arg("--release");
    }
    let (name, rest) = words.split_first().expect("a name");
    let done = cargo
        .args(["--example", name, "--"])
        .args(rest)
        .current_dir(env!("CARGO_MANIFEST_DIR"))
        .output()
        .expect("cargo runs this test");
    let said = String::from_utf8_lossy(&done.stderr);
    assert!(done.status.success(), "{words:?}: {}\n{said}", done.status);
    String::from_utf8(done.stdout).expect("UTF-8")
}

/// The line of an example's source that has this text.
fn line_of(name: &str, text: &str) -> usize {
    let path = Path::new(env!("CARGO_MANIFEST_DIR")).join(format!("examples/{name}.rs"));
    let source = std::fs::read_to_string(path).expect("its source");
    let place = source.lines().position(|line| line.contains(text));
    place.expect("the source has it") + 1
}

#[test]
fn leak_tells_what_is_open_and_why() {
    let [request, query] = ["\"request\"", "\"query\""].map(|name| line_of("leak", name));
    let wanted = format!(
        "\
new 1 w0 request number=0
new 2 w0 request:query
event 1 w0 request INFO asked
close 2 w0 request:query
close 1 w0 request number=0
new 16777217 w0 request number=1
new 16777218 w0 request:query
event 16777217 w0 request INFO asked
new 3 w0 request number=2
new 4 w0 request:query
event 3 w0 request INFO asked
close 4 w0 request:query
close 3 w0 request number=2
event 0 w256 - WARN open span=16777217 name=request place=examples/leak.rs:{request} handles=0 entries=0 children=1
event 0 w256 - WARN open span=16777218 name=query place=examples/leak.rs:{query} handles=1 entries=0 children=0
15 lines. Still open:
request (16777217) number=1, examples/leak.rs:{request}: 1 open child
  query (16777218), examples/leak.rs:{query}: 1 handle

request waits for query (16777218), examples/leak.rs:{query}: 1 handle
"
    );
    assert_eq!(printed(&["leak"]), wanted);
}

#[test]
fn layers_writes_each_layers_lines() {
    let wanted = r#"== everything
new 1 w0 request path=/users
enter 1 w0 request
new 2 w0 request:query
enter 2 w0 request:query
event 2 w0 request:query WARN slow took_ms=1200
event 2 w0 request:query WARN told to the first layer alone
exit 2 w0 request:query
close 2 w0 request:query
exit 1 w0 request
close 1 w0 request path=/users

== the database
{"fields":[["took_ms","1200"]],"id":2,"kind":"event","level":"WARN","message":"slow","path":"query","worker":0}
{"fields":[],"id":2,"kind":"close","path":"query","worker":0}

== problems
event 0 w0 - WARN slow took_ms=1200

"#;
    assert_eq!(printed(&["layers"]), wanted);
}

#[test]
fn disabled_tells_what_each_call_takes() {
    let printed = printed(&["disabled", "1000"]);
    let told: Vec<(&str, &str)> = printed.lines().filter_map(|line| line.split_once(": ")).collect();
    let names: Vec<&str> = told.iter().map(|(name, _)| *name).collect();
    assert_eq!(names, ["event!", "span!", "enabled", "max_level"], "{printed}");
    for (name, cost) in told {
        let nanoseconds = cost.strip_suffix(" ns").and_then(|number| number.parse().ok());
        assert!(nanoseconds.is_some_and(f64::is_finite), "{name}: {cost}");
    }
}

#[test]
fn server_and_rounds_end_well() {
    let lines = printed(&["server"]);
    assert!(lines.lines().count() > 40, "{lines}");
    for line in lines.lines() {
        json::Json::read(line).unwrap_or_else(|wrong| panic!("{wrong}: {line}"));
    }
    for kind in ["callsite", "ids", "span"] {
        assert_eq!(printed(&["rounds", kind, "3"]), "");
    }
}
