//! The other tests of this program under valgrind, which have to end in time.
use crate::UNDER_MEMCHECK;
use std::env;
use std::io;
use std::process::{Child, Command, Stdio};
use std::thread;
use std::time::{Duration, Instant};

/// It takes some 20 seconds where nothing else runs.
const AT_MOST: Duration = Duration::from_secs(400);

/// How it ended; none where it took too long.
fn ended(mut child: Child) -> Option<i32> {
    let begin = Instant::now();
    while begin.elapsed() < AT_MOST {
        if let Some(status) = child.try_wait().expect("it can be asked") {
            return status.code();
        }
        thread::sleep(Duration::from_millis(50));
    }
    child.kill().expect("it runs");
    child.wait().expect("it ends");
    None
}

#[test]
fn memcheck_finds_nothing() {
    let is_there = Command::new("valgrind").arg("--version").output().is_ok();
    if env::var_os(UNDER_MEMCHECK).is_some() || !is_there {
        eprintln!("valgrind is not there, or runs this already: not run");
        return;
    }
    let mut child = Command::new("valgrind")
        .args(["--quiet", "--error-exitcode=99", "--leak-check=no", "--fair-sched=yes"])
        .arg(env::current_exe().expect("it runs"))
        .args(["--test-threads=1", "--skip", "memcheck"])
        .env(UNDER_MEMCHECK, "1")
        .stdout(Stdio::piped())
        .spawn()
        .expect("valgrind is there");
    let stdout = child.stdout.take().expect("piped");
    let saying = thread::spawn(|| io::read_to_string(stdout));
    let status = ended(child);
    let said = saying.join().expect("no panic").expect("UTF-8");
    assert_eq!(
        status,
        Some(0),
        "99: valgrind found something; 101: a test failed; none: it took too long\n  {}",
        said.replace('\n', "\n  ")
    );
}
