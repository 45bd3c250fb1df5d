//! What happens at the limits of the registry over the proved store: what is asked for beyond one is refused with a
//! text, and nothing else changes.
//!
//!     limits registries COUNT   so many at once
//!     limits spans COUNT        so many at once, all below one root
//!     limits handles COUNT      so many of one span
//!     limits ever COUNT         so many spans, one after the other
use programs::{child, is_there, registry, root, site, Checks, Quiet};
use std::collections::HashSet;
use std::panic::{catch_unwind, AssertUnwindSafe};
use tracing::{Dispatch, Subscriber};
use tracing_core::field::{Field, Value};
use tracing_core::span::{Attributes, Id};
use tracing_subscriber::prelude::*;
use tracing_subscriber::registry::LookupSpan;
use tracing_subscriber::Registry;

const NO_SPAN: &str = "Unable to allocate another span";

/// The text of the panic of a call; its answer where there is none.
fn refused<T>(call: impl FnOnce() -> T) -> Result<T, String> {
    catch_unwind(AssertUnwindSafe(call)).map_err(|panic| {
        let text = panic.downcast_ref::<String>().cloned();
        text.or(panic.downcast_ref::<&str>().map(|text| text.to_string())).unwrap_or_default()
    })
}

fn stack() -> Dispatch {
    Dispatch::new(Registry::default().with(Quiet))
}

/// The answers of a call until it is refused, and the text of that. More than so many aren't asked for.
fn until_refused<T>(most: usize, mut call: impl FnMut() -> T) -> (Vec<T>, String) {
    let mut answers = Vec::with_capacity(most);
    loop {
        match refused(&mut call) {
            Ok(answer) => answers.push(answer),
            Err(text) => return (answers, text),
        }
        assert!(answers.len() <= most, "there are more than {most}");
    }
}

fn made(registry: &Registry) -> Id {
    let (site, values): (_, [(&Field, Option<&dyn Value>); 0]) = (site!("s"), []);
    registry.new_span(&Attributes::new_root(site, &site.fields().value_set(&values)))
}

fn registries(checks: &mut Checks, count: usize) {
    let (mut all, text) = until_refused(count, Registry::default);
    println!("{} registries, then: {text}", all.len());
    checks.check("so many registries", all.len() == count);
    checks.check("the text", text == format!("Unable to make another registry: {count} are there"));
    let ids: Vec<Id> = all.iter().map(made).collect();
    checks.check("their spans' ids differ", ids.iter().map(Id::into_u64).collect::<HashSet<_>>().len() == count);
    drop(all.swap_remove(count / 2));
    checks.check("where one is gone there is room for one", refused(|| all.push(Registry::default())).is_ok());
    checks.check("and for no other one", refused(Registry::default).is_err());
    let new = &all[count - 1];
    checks.check("that has no span of the one that is gone", new.span(&ids[count / 2]).is_none());
    let id = made(new);
    checks.check("it works", new.span(&id).is_some() && new.try_close(id));
    checks.check("and so does the first one", all[0].try_close(ids[0].clone()) && all[0].span(&ids[0]).is_none());
}

fn spans(checks: &mut Checks, count: usize) {
    let stack = stack();
    let top = root(&stack, site!("top"));
    let (mut ids, text) = until_refused(count, || child(&stack, site!("child"), &top));
    println!("{} spans, then: {text}", ids.len() + 1);
    checks.check("so many spans", ids.len() + 1 == count);
    checks.check("the text", text == NO_SPAN);
    checks.check("no other root", refused(|| root(&stack, site!("root"))) == Err(NO_SPAN.to_owned()));
    let below = refused(|| child(&stack, site!("child"), &ids[count / 2]));
    checks.check("nor a child below another one", below == Err(NO_SPAN.to_owned()));
    checks.check("all are there", ids.iter().all(|id| is_there(&stack, id)));
    let parent = |id: &Id| registry(&stack).span(id).and_then(|span| span.parent()).map(|parent| parent.id());
    checks.check("each is below the root", ids.iter().all(|id| parent(id) == Some(top.clone())));
    checks.check("one closes by its one handle", stack.try_close(ids.swap_remove(count / 3)));
    ids.push(child(&stack, site!("child"), &top));
    checks.check("the root waits for its children", !stack.try_close(top.clone()));
    let last = ids.pop().expect("there are some");
    let closed = ids.iter().filter(|id| stack.try_close((*id).clone())).count();
    checks.check("each closes by its one handle", closed == ids.len() && is_there(&stack, &top));
    checks.check("and the root with the last", stack.try_close(last) && !is_there(&stack, &top));
    checks.check("there is room again", refused(|| root(&stack, site!("root"))).is_ok());
}

fn handles(checks: &mut Checks, count: usize) {
    let stack = stack();
    let id = root(&stack, site!("s"));
    for _ in 1..count {
        stack.clone_span(&id);
    }
    let full = Err("reference count overflow!".to_owned());
    checks.check("no other handle", refused(|| drop(stack.clone_span(&id))) == full);
    checks.check("nor an entry", refused(|| stack.enter(&id)) == full && stack.current_span().id().is_none());
    checks.check("nor a child", refused(|| drop(child(&stack, site!("child"), &id))) == full);
    let early = (1..count).filter(|_| stack.try_close(id.clone())).count();
    println!("{count} handles, {early} closed early");
    checks.check("none but the last closes it", early == 0 && stack.try_close(id.clone()) && !is_there(&stack, &id));
}

fn ever(checks: &mut Checks, count: usize) {
    let stack = stack();
    let (made, text) = until_refused(count, || {
        let id = root(&stack, site!("s"));
        stack.try_close(id.clone());
        id.into_u64()
    });
    println!("{} spans ever, then: {text}", made.len());
    checks.check("so many spans", made.len() == count && text == NO_SPAN);
    checks.check("no id twice", made.iter().collect::<HashSet<_>>().len() == count);
}

fn main() {
    std::panic::set_hook(Box::new(|_| {}));
    let words: Vec<String> = std::env::args().skip(1).collect();
    let count = words[1].parse().expect("a number");
    let mut checks = Checks::default();
    match words[0].as_str() {
        "registries" => registries(&mut checks, count),
        "spans" => spans(&mut checks, count),
        "handles" => handles(&mut checks, count),
        "ever" => ever(&mut checks, count),
        _ => panic!("there is no limit {}", words[0]),
    }
    checks.end();
}
