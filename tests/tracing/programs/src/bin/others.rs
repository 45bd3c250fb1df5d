//! Two registries, each with the other as the default one: no release of one takes a handle of the other's spans, and
//! the layers of each hear of each close of its own.
use programs::{child, is_there, lock, new, registry, root, site, Checks, Dice, Judge};
use std::collections::HashSet;
use std::panic::{catch_unwind, AssertUnwindSafe};
use std::sync::atomic::{AtomicBool, Ordering};
use std::sync::mpsc::{channel, Sender};
use std::sync::{Arc, Mutex};
use tracing::{dispatcher, Dispatch, Subscriber};
use tracing_core::span::Id;
use tracing_subscriber::layer::Context;
use tracing_subscriber::prelude::*;
use tracing_subscriber::registry::LookupSpan;
use tracing_subscriber::{Layer, Registry};

fn stack() -> (Dispatch, Judge) {
    let judge = Judge::default();
    (Dispatch::new(Registry::default().with(judge.clone())), judge)
}

/// A call of one of the two, with its own spans.
fn step(dice: &mut Dice, dispatch: &Dispatch, spans: &mut Vec<Id>, entered: &mut Vec<Id>) {
    let at = (!spans.is_empty()).then(|| dice.below(spans.len() as u64) as usize);
    match (dice.below(7), at) {
        (0 | 1, _) => spans.push(root(dispatch, site!("root"))),
        (2, Some(at)) => spans.push(child(dispatch, site!("child"), &spans[at])),
        (3, Some(at)) => {
            dispatch.enter(&spans[at]);
            entered.push(spans[at].clone());
        }
        (4, _) => {
            if let Some(id) = entered.pop() {
                dispatch.exit(&id);
            }
        }
        (_, Some(at)) => {
            dispatch.try_close(spans.swap_remove(at));
        }
        _ => {}
    }
}

/// Trees of both, entered, left and closed under the default of the other, or of none.
fn at_random(checks: &mut Checks, seed: u64) {
    let sides = [stack(), stack()];
    let mut dice = Dice::new(seed);
    let mut spans: [Vec<Id>; 2] = Default::default();
    let mut entered: [Vec<Id>; 2] = Default::default();
    for _ in 0..3_000 {
        let side = dice.below(2) as usize;
        let default = &sides[dice.below(2) as usize].0;
        dispatcher::with_default(default, || step(&mut dice, &sides[side].0, &mut spans[side], &mut entered[side]));
    }
    for side in 0..2 {
        let dispatch = &sides[side].0;
        let default = &sides[1 - side].0;
        dispatcher::with_default(default, || {
            entered[side].drain(..).rev().for_each(|id| dispatch.exit(&id));
            spans[side].drain(..).for_each(|id| {
                dispatch.try_close(id);
            });
        });
    }
    for (_, judge) in &sides {
        let (_, open, faults) = judge.verdict();
        checks.check(&format!("seed {seed}: {open} left open, faults {faults:?}"), open == 0 && faults.is_empty());
    }
}

/// No id of one is found in another, also not where that has spans in the same slots.
fn ids_apart(checks: &mut Checks) {
    let stacks: Vec<_> = (0..20).map(|_| stack()).collect();
    let mut ids = HashSet::new();
    for (dispatch, _) in &stacks {
        for _ in 0..100 {
            let id = new(dispatch, site!("s"));
            let found = stacks.iter().filter(|(other, _)| is_there(other, &id)).count();
            checks.check("an id is found in its own registry alone", found == 1);
            checks.check("no two spans have one id", ids.insert(id.into_u64()));
        }
    }
    let (first, second) = (&stacks[0].0, &stacks[1].0);
    let id = new(first, site!("s"));
    let twin = new(second, site!("s"));
    let refused = catch_unwind(AssertUnwindSafe(|| second.try_close(id.clone())));
    checks.check("the other registry refuses the id", refused.is_err());
    let refused = catch_unwind(AssertUnwindSafe(|| second.enter(&id)));
    checks.check("and to enter it", refused.is_err() && second.current_span().id().is_none());
    second.exit(&id);
    checks.check("nothing was taken from its own span", is_there(second, &twin) && is_there(first, &id));
    checks.check("that closes by its one handle", second.try_close(twin.clone()) && !is_there(second, &twin));
    checks.check("and so does the first one's", first.try_close(id) && registry(first).current_id_is_none());
}

trait CurrentIdIsNone {
    fn current_id_is_none(&self) -> bool;
}
impl CurrentIdIsNone for Registry {
    fn current_id_is_none(&self) -> bool {
        self.current_span().id().is_none()
    }
}

/// A registry that is nobody's default: its layers hear of what an exit closes by the next release that goes through
/// them.
fn never_the_default(checks: &mut Checks, spans: u64, held: u64) {
    let (dispatch, judge) = stack();
    let held: Vec<_> = (0..held).map(|_| root(&dispatch, site!("held"))).collect();
    let parent = root(&dispatch, site!("parent"));
    for _ in 0..spans {
        let id = child(&dispatch, site!("left"), &parent);
        dispatch.enter(&id);
        checks.check("it is entered yet", !dispatch.try_close(id.clone()));
        dispatch.exit(&id);
    }
    dispatch.try_close(parent);
    dispatch.try_close(root(&dispatch, site!("last")));
    let (made, open, faults) = judge.verdict();
    let is_right = made == spans + 2 + held.len() as u64 && open == held.len() && faults.is_empty();
    checks.check(&format!("{made} made, {open} left open, {} faults", faults.len()), is_right);
}

/// A layer that panics when it is told of the close of a span `left`, once.
#[derive(Default)]
struct PanicsOnce(AtomicBool);

impl<S: Subscriber + for<'a> LookupSpan<'a>> Layer<S> for PanicsOnce {
    fn on_close(&self, id: Id, ctx: Context<'_, S>) {
        let is_left = ctx.span(&id).map(|span| span.name()) == Some("left");
        assert!(!is_left || !self.0.swap(false, Ordering::Relaxed), "a layer's own");
    }
}

/// What waits to be told, where a layer panics when it is told of the first: the others are told later, and the
/// release by which it was told is whole.
fn where_a_layer_panics(checks: &mut Checks) {
    let judge = Judge::default();
    let dispatch = Dispatch::new(Registry::default().with(judge.clone()).with(PanicsOnce::default()));
    let parent = root(&dispatch, site!("parent"));
    let left: Vec<_> = (0..3).map(|_| child(&dispatch, site!("left"), &parent)).collect();
    let other = root(&dispatch, site!("other"));
    for id in &left {
        dispatch.enter(id);
        dispatch.try_close(id.clone());
    }
    dispatch.try_close(parent.clone());
    left.iter().for_each(|id| dispatch.exit(id));
    checks.check("they wait to be told", judge.verdict().1 == 5);
    dispatch.downcast_ref::<PanicsOnce>().expect("it is there").0.store(true, Ordering::Relaxed);
    dispatcher::with_default(&dispatch, || {
        let closed = catch_unwind(AssertUnwindSafe(|| dispatch.try_close(other.clone())));
        checks.check("the layer panics", closed.is_err());
        checks.check("the release was done", !is_there(&dispatch, &other));
        dispatch.try_close(root(&dispatch, site!("last")));
    });
    checks.check("none stays", !left.iter().chain([&parent]).any(|id| is_there(&dispatch, id)));
    let (_, open, faults) = judge.verdict();
    checks.check(&format!("{open} left open, faults {faults:?}"), open == 0 && faults.is_empty());
}

/// Panics where it is dropped.
struct Panics(Sender<()>);

impl Drop for Panics {
    fn drop(&mut self) {
        let _ = self.0.send(());
        panic!("a program's own");
    }
}

/// Lets go of the last dispatcher of its own registry when it is told of a close.
struct LetsGo(Arc<Mutex<Option<Dispatch>>>);

impl<S: Subscriber> Layer<S> for LetsGo {
    fn on_close(&self, _: Id, _: Context<'_, S>) {
        let last = lock(&self.0).take();
        drop(last);
    }
}

/// A registry that ends while a thread ends inside a span of it, with data that panics.
fn ends_with_a_thread(checks: &mut Checks) {
    let shelf = Arc::default();
    let dispatch = Dispatch::new(Registry::default().with(LetsGo(Arc::clone(&shelf))));
    let (told, hears) = channel();
    let thread = std::thread::spawn(move || {
        let open = dispatcher::with_default(&dispatch, || {
            std::mem::forget(tracing::info_span!("left").enter());
            root(&dispatch, site!("open"))
        });
        registry(&dispatch).span(&open).expect("it is there").extensions_mut().insert(Panics(told));
        *lock(&shelf) = Some(dispatch);
    });
    checks.check("the thread ends well", thread.join().is_ok());
    checks.check("and the registry with it", hears.try_iter().count() == 1);
}

fn main() {
    std::panic::set_hook(Box::new(|_| {}));
    let mut checks = Checks::default();
    ids_apart(&mut checks);
    ends_with_a_thread(&mut checks);
    never_the_default(&mut checks, 1, 0);
    never_the_default(&mut checks, 1, 5_000);
    never_the_default(&mut checks, 100_000, 0);
    where_a_layer_panics(&mut checks);
    (1..=40).for_each(|seed| at_random(&mut checks, seed));
    checks.end();
}
