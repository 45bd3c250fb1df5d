//! Makes spans under one root until there is no memory for another, in a process whose memory is limited; closes all,
//! and does it again.
use programs::{child, is_there, root, site, Checks, Judge, Quiet};
use std::panic::{catch_unwind, AssertUnwindSafe};
use tracing::{dispatcher, Dispatch};
use tracing_core::span::Id;
use tracing_subscriber::prelude::*;
use tracing_subscriber::Registry;

const MOST: usize = 3_000_000;

/// Makes spans until one is refused, and answers the panic's text.
fn fill(dispatch: &Dispatch, parent: &Id, ids: &mut Vec<Id>) -> String {
    loop {
        match catch_unwind(AssertUnwindSafe(|| child(dispatch, site!("child"), parent))) {
            Ok(id) => ids.push(id),
            Err(panic) => {
                let text = panic.downcast_ref::<String>().cloned();
                return text.or(panic.downcast_ref::<&str>().map(|text| text.to_string())).unwrap_or_default();
            }
        }
        assert!(ids.len() < MOST, "memory was to be limited");
    }
}

fn main() {
    std::panic::set_hook(Box::new(|_| {}));
    let mut checks = Checks::default();
    let mut ids = Vec::with_capacity(MOST);
    let dispatch = Dispatch::new(Registry::default().with(Quiet));
    dispatcher::with_default(&dispatch, || {
        for turn in 1..=3 {
            let parent = root(&dispatch, site!("parent"));
            let text = fill(&dispatch, &parent, &mut ids);
            println!("turn {turn}: {} spans, then: {text}", ids.len());
            checks.check("the panic says why", text == "Unable to allocate another span");
            checks.check("there were more than one store has", ids.len() > 70_000);
            checks.check("all are there", ids.iter().all(|id| is_there(&dispatch, id)));
            checks.check("the parent waits for its children", !dispatch.try_close(parent.clone()));
            let closed = ids.iter().filter(|id| dispatch.try_close((*id).clone())).count();
            checks.check("each closes by its one handle", closed == ids.len());
            checks.check("none stays", !ids.iter().chain([&parent]).any(|id| is_there(&dispatch, id)));
            ids.clear();
        }
    });
    // A registry of its own after that.
    let judge = Judge::default();
    let dispatch = Dispatch::new(Registry::default().with(judge.clone()));
    dispatcher::with_default(&dispatch, || tracing::info_span!("s").in_scope(|| ()));
    checks.check("another registry works", judge.verdict().0 == 1 && judge.verdict().1 == 0);
    checks.end();
}
