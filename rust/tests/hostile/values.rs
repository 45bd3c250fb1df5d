//! Values that call the registry, panic, drop spans and forge lines while they are formatted; texts, lists and rules
//! that are long.
use crate::common::{assert_empty, compact, info, texts};
use crate::many;
use span_registry::{event, span, try_span, Error, Layer, Level, Parent, Registry, Span, Targets};
use std::cell::{Cell, RefCell};
use std::fmt;
use std::panic::{catch_unwind, AssertUnwindSafe};
use std::time::{Duration, Instant};

/// Its text tells events and makes spans of the same macros as long as it is deeper than nothing.
struct Calling<'a>(&'a Registry, u32);

fn told(registry: &Registry, depth: u32) -> Span {
    let span = span!(registry, Level::Info, "a", depth = Calling(registry, depth));
    span.in_scope(|| event!(registry, Level::Info, "{}", Calling(registry, depth)));
    span
}

impl fmt::Display for Calling<'_> {
    fn fmt(&self, f: &mut fmt::Formatter<'_>) -> fmt::Result {
        if self.1 > 0 {
            told(self.0, self.1 - 1).follows_from(None);
        }
        write!(f, "{}", self.1)
    }
}

#[test]
fn values_may_call_the_registry_while_they_are_formatted() -> Result<(), Error> {
    for parts in [1, 4] {
        let (registry, mut drain) = compact().parts(parts).ring(65_536).build()?;
        drop(told(&registry, 6));
        assert_empty(&registry);
        let lines = texts(&mut drain);
        // Each calls twice for each one deeper.
        assert_eq!((lines.len(), registry.lost().calls()), (5 * 127, 0));
        assert_eq!(lines.iter().filter(|line| line.ends_with(" INFO 6")).count(), 1);
    }
    Ok(())
}

/// Its text is a panic.
struct Panicking;

impl fmt::Debug for Panicking {
    fn fmt(&self, _: &mut fmt::Formatter<'_>) -> fmt::Result {
        panic!("on purpose")
    }
}

#[test]
fn values_may_panic_and_nothing_of_them_stays() -> Result<(), Error> {
    crate::threads::hush();
    let (registry, mut drain) = compact().build()?;
    let a = crate::common::span(&registry, "a");
    for round in 0..3 {
        let panics: [&dyn Fn(); 3] = [
            &|| drop(span!(registry, Level::Info, "b", k = ?Panicking)),
            &|| event!(registry, Level::Info, "{:?}", Panicking),
            &|| a.in_scope(|| event!(registry, Level::Info, { k = ?Panicking }, "m")),
        ];
        for panics in panics {
            assert!(catch_unwind(AssertUnwindSafe(panics)).is_err());
        }
        let counts = registry.counts();
        assert_eq!((counts.open, counts.held, counts.owed, counts.made), (1, 1, 0, 1));
        let lines = if round == 0 { 3 } else { 2 };
        assert_eq!((texts(&mut drain).len(), registry.lost().calls()), (lines, 0));
    }
    Ok(())
}

thread_local! {
    static LAST: RefCell<Option<Span>> = const { RefCell::new(None) };
}

/// Its text drops a span.
struct Dropping<'a>(&'a Cell<u32>);

impl fmt::Display for Dropping<'_> {
    fn fmt(&self, f: &mut fmt::Formatter<'_>) -> fmt::Result {
        self.0.set(self.0.get() + 1);
        LAST.with_borrow_mut(|last| drop(last.take()));
        f.write_str("v")
    }
}

#[test]
fn a_parent_may_be_dropped_by_its_childs_values() -> Result<(), Error> {
    let (registry, mut drain) = compact().build()?;
    let asked = Cell::new(0);
    let parent = crate::common::span(&registry, "a");
    let id = parent.id();
    LAST.set(Some(parent));
    let child = try_span!(registry, parent: id, Level::Info, "b", k = Dropping(&asked));
    assert_eq!((child, asked.get()), (Err(Error::Unknown), 1));
    assert_eq!(texts(&mut drain), ["new 1 w0 a", "close 1 w0 a"]);
    assert_empty(&registry);
    Ok(())
}

/// Texts that would end a line, a string or a field, if they stood as they are.
const FORGED: [&str; 6] = [
    "x\nnew 9 w0 forged",
    "x\r\nclose 1 w0 a",
    "\"}],\"id\":7,\"kind\":\"close\",\"worker\":9}\n{",
    "\\\",\\n\u{0}\u{1b}[2J",
    "\u{85}\u{2028}\u{2029}\u{202e}",
    "a=b c=d \\",
];

#[test]
fn no_text_forges_a_line() -> Result<(), Error> {
    let builder = Registry::builder().layer(Layer::compact()).layer(Layer::json());
    let (registry, mut drain) = builder.layer(Layer::tree()).ring(1024).build()?;
    for text in FORGED {
        // As it is written it has at most 64 bytes.
        let name: String = text.chars().take(6).collect();
        let meta = span_registry::Meta::new(Level::Info, text, &name);
        let fields = [(&*name, text), (&*name, "")];
        let a = registry.span(&meta, Parent::Root, &fields)?;
        drop(a.record(&fields).enter());
        registry.event_in(&meta, Parent::from(&a), text, &fields)?;
        a.try_record(&[(&*name, text)])?;
        let open = registry.open_spans()?;
        let shown = open.to_string();
        assert_eq!(
            (shown.lines().count(), shown.matches('\n').count()),
            (1, 1),
            "{shown:?}"
        );
        drop((a, open));
        let mut lines = [0; 3];
        for line in drain.lines() {
            lines[line.layer] += 1;
            assert!(!line.text.contains(['\n', '\r']), "{:?}", line.text);
            let is_json = line.text.starts_with('{') && line.text.ends_with('}');
            assert_eq!(is_json, line.layer > 0);
            assert!(
                !is_json || line.text.bytes().all(|byte| byte >= 0x20),
                "{:?}",
                line.text
            );
        }
        assert_eq!(lines, [7; 3], "{text:?}");
    }
    assert_empty(&registry);
    Ok(())
}

#[test]
fn the_open_spans_of_a_long_chain_have_a_text_no_longer_than_they() -> Result<(), Error> {
    let spans = many(40_000);
    let (registry, mut drain) = Registry::builder().slots(spans).build()?;
    let mut chain = vec![Span::none()];
    for _ in 0..spans {
        let last = &chain[chain.len() - 1];
        chain.push(registry.span(&info("a"), Parent::from(last), &[])?);
        assert_eq!(drain.line(), None);
    }
    let text = registry.open_spans()?.to_string();
    let lines: Vec<&str> = text.lines().collect();
    assert_eq!(lines.len(), spans as usize);
    let blanks = |line: &str| line.len() - line.trim_start().len();
    let further = |(place, line): (usize, &&str)| blanks(line) == 2 * place.min(40);
    assert!(lines.iter().enumerate().all(further), "{:?}", &lines[..3]);
    assert!(text.len() < 200 * lines.len());
    // The outermost first, so that none closes before all do.
    drop(chain);
    assert_eq!(drain.line(), None);
    assert_empty(&registry);
    Ok(())
}

#[test]
fn many_rules_take_no_longer_than_they_are_many() -> Result<(), Box<dyn std::error::Error>> {
    let rules = many(50_000);
    let text: Vec<String> = (0..rules).map(|number| format!("app::{number:05}=trace")).collect();
    let begin = Instant::now();
    let targets: Targets = text.join(",").parse()?;
    assert_eq!(targets.max_level(), Some(Level::Trace));
    let last = targets.with_target("app::00000", Level::Warn);
    assert!(!last.admits(Level::Info, "app::00000::x") && last.admits(Level::Trace, "app::00001"));
    // It was a minute, where each rule was looked at for each.
    assert!(begin.elapsed() < Duration::from_secs(30), "{:?}", begin.elapsed());
    Ok(())
}
