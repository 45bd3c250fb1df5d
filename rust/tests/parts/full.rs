//! What calls do where the ring of a part is full.
use crate::{at_home, compact, of_parts, root, roots};
use span_registry::{event, Error, Level, OnFull, Registry};
use std::thread;

fn tell(registry: &Registry, part: u32, message: &str) -> Result<(), Error> {
    let meta = span_registry::Meta::event(Level::Info, "app");
    at_home(registry, part, || registry.event(&meta, message, &[]))
}

#[test]
fn a_full_part_refuses_its_own_calls_alone() -> Result<(), Error> {
    let (registry, mut drain) = compact(2).ring(1).build()?;
    tell(&registry, 0, "1")?;
    assert_eq!(tell(&registry, 0, "2"), Err(Error::Backlog));
    tell(&registry, 1, "3")?;
    let told: Vec<String> = drain.lines().map(|line| line.text).collect();
    assert!(
        told.len() == 2 && told[0].ends_with('1') && told[1].ends_with('3'),
        "{told:?}"
    );
    tell(&registry, 0, "2")
}

/// What is owed in one part stands in the way of the calls of all.
#[test]
fn nothing_overtakes_what_is_owed_in_another_part() -> Result<(), Error> {
    let (registry, mut drain) = compact(3).ring(2).build()?;
    let mut roots = roots(&registry, 3);
    tell(&registry, 2, "fills it")?;
    drop(roots.pop());
    assert_eq!(registry.counts().owed, 1);
    // The first part has a place, and the last one hasn't.
    let first = roots[0].id().expect("a layer wants it");
    assert_eq!(registry.clone_span(first), Err(Error::Backlog));
    assert_eq!(registry.record(first, &[("k", "v")]), Err(Error::Backlog));
    assert_eq!(registry.current_span(), Err(Error::Backlog));
    assert_eq!(registry.settle(), Err(Error::Backlog));
    assert_eq!(registry.find(first).map(|found| found.handles), Some(1));
    let told: Vec<String> = drain.lines().map(|line| line.text).collect();
    let kinds: Vec<&str> = told.iter().filter_map(|text| text.split(' ').next()).collect();
    // The drain did it once there was a place.
    assert_eq!(kinds, ["new", "new", "new", "event", "close"]);
    registry.record(first, &[("k", "v")])
}

#[test]
fn the_oldest_lines_of_a_full_part_make_place() -> Result<(), Error> {
    let (registry, mut drain) = compact(2).ring(2).on_full(OnFull::DropOldest).build()?;
    for number in 0..5 {
        tell(&registry, 0, &format!("a{number}"))?;
        tell(&registry, 1, &format!("b{number}"))?;
    }
    let lost = registry.lost();
    assert!(lost.lines() >= 6 && lost.calls() == 0, "{lost}");
    let told: Vec<String> = drain.lines().map(|line| line.text).collect();
    let last = |text: &str| told.iter().filter(|line| line.ends_with(text)).count();
    assert_eq!((last("a4"), last("b4"), last("a0")), (1, 1, 0), "{told:?}");
    Ok(())
}

#[test]
fn calls_of_all_parts_wait_for_places() -> Result<(), Error> {
    const EVENTS: u64 = 500;
    let (registry, guard) = compact(4).ring(1).on_full(OnFull::Wait).spawn_writer(std::io::sink())?;
    thread::scope(|scope| {
        for _ in 0..6 {
            scope.spawn(|| (0..EVENTS).for_each(|number| event!(registry, Level::Info, "{number}")));
        }
    });
    assert!(registry.lost().is_nothing(), "{}", registry.lost());
    assert_eq!(guard.finish().expect("a sink takes all"), 6 * EVENTS);
    Ok(())
}

#[test]
fn once_the_drain_is_dropped_no_part_refuses_or_waits() -> Result<(), Error> {
    for on_full in [OnFull::Refuse, OnFull::Wait, OnFull::DropOldest] {
        let (registry, drain) = compact(3).ring(2).on_full(on_full).build()?;
        let roots = roots(&registry, 3);
        drop(drain);
        for part in 0..3 {
            for _ in 0..10 {
                tell(&registry, part, "m")?;
            }
        }
        drop(roots);
        let counts = registry.counts();
        assert_eq!((counts.open, counts.owed), (0, 0), "{counts:?}");
        assert!(registry.lost().lines() > 20, "{}", registry.lost());
    }
    Ok(())
}

/// A drop that finds its part's ring full is owed, in order, whatever the other parts do.
#[test]
fn guards_of_two_parts_that_are_owed_leave_both() -> Result<(), Error> {
    let (registry, mut drain) = compact(2).ring(2).build()?;
    let roots = roots(&registry, 2);
    let entered = (roots[0].try_enter()?, roots[1].try_enter()?);
    drop(entered);
    assert_eq!(registry.counts().owed, 2);
    assert_eq!(registry.current_span(), Err(Error::Backlog));
    drain.lines().for_each(drop);
    assert_eq!((registry.counts().owed, registry.current_span()), (0, Ok(None)));
    // Entries that come and go while it is owed leave nothing behind.
    for _ in 0..50 {
        let inside = roots[1].try_enter()?;
        let again = roots[0].try_enter()?;
        drop((inside, again));
        drain.lines().for_each(drop);
    }
    assert_eq!(registry.counts().held, 2);
    Ok(())
}

#[test]
fn what_is_owed_in_each_part_is_written_at_the_end() -> Result<(), Error> {
    let (registry, mut drain) = compact(3).ring(1).build()?;
    drop(roots(&registry, 3));
    assert_eq!(registry.counts().owed, 3);
    let mut out = Vec::new();
    let lines = drain
        .run_until(&mut out, &true.into())
        .expect("a list of bytes takes all");
    let told = String::from_utf8(out).expect("UTF-8");
    let kinds: Vec<&str> = told.lines().filter_map(|text| text.split(' ').next()).collect();
    assert_eq!(kinds, ["new", "new", "new", "close", "close", "close"]);
    assert_eq!((lines, registry.counts().owed, registry.counts().open), (6, 0, 0));
    Ok(())
}

#[test]
fn with_no_layer_nothing_is_told_and_all_is_read() -> Result<(), Error> {
    let (registry, mut drain) = of_parts(4).ring(8).build()?;
    for _ in 0..100 {
        for part in 0..4 {
            at_home(&registry, part, || drop(root(&registry, "a")));
        }
        assert_eq!(drain.line(), None);
    }
    assert_eq!((registry.counts().closed, drain.counts().batches), (400, 800));
    Ok(())
}
