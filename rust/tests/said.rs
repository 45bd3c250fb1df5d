//! That lists of open spans tell what was said of each: what it was made with, and what was recorded since.
mod common;

use common::{compact, info, texts};
use span_registry::{span, Error, Level, Meta, OpenSpan, Parent, Registry, Span};
use std::sync::atomic::{AtomicBool, Ordering};
use std::thread;

/// The bytes of a span's texts that are told.
const TOLD: usize = 4096;

/// What was said of a span.
struct Said {
    span: Span,
    name: String,
    target: String,
    // Whether its name and its target count among the bytes that are told: a callsite's don't.
    counts_names: bool,
    fields: Vec<(String, String)>,
}

/// How many bytes a name has in lines.
fn written(name: &str) -> usize {
    let is_itself = |byte: u8| byte.is_ascii_alphanumeric() || matches!(byte, b'_' | b'.');
    let is_plain = !name.is_empty() && !name.starts_with("--");
    if is_plain && name.bytes().all(|byte| is_itself(byte) || byte == b'-') {
        return name.len();
    }
    2 + name
        .bytes()
        .map(|byte| if is_itself(byte) { 1 } else { 3 })
        .sum::<usize>()
}

impl Said {
    // The fields that have room among the bytes that are told, up to the first that has none.
    fn told(&self) -> &[(String, String)] {
        let names = if self.counts_names {
            written(&self.name) + self.target.len()
        } else {
            0
        };
        let ends = self.fields.iter().scan(names, |end, (key, value)| {
            *end += written(key) + value.len();
            Some(*end)
        });
        &self.fields[..ends.take_while(|&end| end <= TOLD).count()]
    }

    fn check(&self, open: &OpenSpan) {
        assert_eq!(Some(open.id), self.span.id());
        assert_eq!((&open.name, &open.target), (&self.name, &self.target));
        assert_eq!(open.fields, self.told());
        assert_eq!(open.is_cut, open.fields.len() < self.fields.len());
    }
}

/// Numbers below a bound, from a seed.
struct Random(u64);

impl Random {
    fn below(&mut self, bound: usize) -> usize {
        self.0 = self.0.wrapping_mul(6_364_136_223_846_793_005).wrapping_add(1);
        (self.0 >> 33) as usize % bound
    }

    /// A name that lines write as it is, or otherwise.
    fn name(&mut self) -> String {
        let names = [
            "a",
            "http.method",
            "-",
            "",
            "--",
            "--a-20b",
            "GET /users",
            "\u{e9}\0\n",
            "a\"b\\",
        ];
        names[self.below(names.len())].to_owned()
    }

    /// A short text, an empty one, or one that alone has more bytes than are told.
    fn value(&mut self) -> String {
        let letters = ["x", "\u{20ac}", "\0", "=", " "];
        let length = [0, 1, 7, 300, 2000, 5000][self.below(6)];
        letters[self.below(letters.len())].repeat(length)
    }

    fn fields(&mut self) -> Vec<(String, String)> {
        let count = [0, 0, 1, 2, 20][self.below(5)];
        (0..count).map(|_| (self.name(), self.value())).collect()
    }
}

fn lent(fields: &[(String, String)]) -> Vec<(&str, &str)> {
    fields.iter().map(|(key, value)| (&**key, &**value)).collect()
}

fn make(registry: &Registry, random: &mut Random) -> Result<Said, Error> {
    let (name, fields) = (random.name(), random.fields());
    let target = ["", "app", "t\u{e9}::u"][random.below(3)].to_owned();
    let meta = Meta::new(Level::Info, &target, &name);
    let counts_names = random.below(2) == 0;
    let span = if counts_names {
        registry.span(&meta, Parent::Root, &lent(&fields))?
    } else {
        registry.span_at(&registry.callsite(&meta)?, Parent::Root, &lent(&fields))?
    };
    Ok(Said {
        span,
        name,
        target,
        counts_names,
        fields,
    })
}

/// Spans are made, recorded to and closed, and between any two of these what is open is what was said.
fn random_calls(registry: &Registry, read: &mut dyn FnMut()) -> Result<(), Error> {
    let (mut random, mut open) = (Random(7), Vec::<Said>::new());
    for _ in 0..1500 {
        match random.below(4) {
            0 if open.len() < 40 => open.push(make(registry, &mut random)?),
            1 if !open.is_empty() => drop(open.swap_remove(random.below(open.len()))),
            2 if !open.is_empty() => {
                let (at, fields) = (random.below(open.len()), random.fields());
                open[at].span.record(&lent(&fields));
                open[at].fields.extend(fields);
            }
            3 if open.len() > 1 => {
                let followed = open[0].span.id().expect("wanted");
                open[1].span.follows_from(followed);
                open[1].fields.push(("follows_from".into(), followed.to_string()));
            }
            _ => {}
        }
        read();
        let told = registry.open_spans()?;
        assert_eq!(told.len(), open.len());
        for span in &told {
            let said = open.iter().find(|said| said.span.id() == Some(span.id));
            said.expect("it is open").check(span);
            assert_eq!(registry.open_span(span.id).as_ref(), Ok(span));
        }
    }
    Ok(())
}

#[test]
fn whatever_was_said_is_told() -> Result<(), Error> {
    for parts in [1, 2] {
        let (registry, mut drain) = compact().parts(parts).build()?;
        random_calls(&registry, &mut || drop(texts(&mut drain)))?;
        assert_eq!(registry.lost().to_string(), "nothing");
    }
    Ok(())
}

#[test]
fn a_target_that_has_no_room_is_left_out() -> Result<(), Error> {
    let (registry, _drain) = compact().build()?;
    let name = "n".repeat(64);
    let fitting = "t".repeat(TOLD - name.len());
    let long = format!("{fitting}t");
    for (target, is_told) in [(&fitting, true), (&long, false)] {
        let meta = Meta::new(Level::Info, target, &name);
        let by_meta = registry.span(&meta, Parent::Root, &[])?;
        let open = registry.open_span(by_meta.id().expect("wanted"))?;
        assert_eq!(
            (&open.name, open.target == **target, open.is_cut),
            (&name, is_told, !is_told)
        );
        by_meta.record(&[("k", "")]);
        let open = registry.open_span(by_meta.id().expect("wanted"))?;
        assert_eq!(
            (open.fields.len(), open.target.is_empty(), open.is_cut),
            (0, !is_told, true)
        );
        // A callsite's is told whatever it is.
        let at_callsite = registry.span_at(&registry.callsite(&meta)?, Parent::Root, &[("k", "v")])?;
        let open = registry.open_span(at_callsite.id().expect("wanted"))?;
        assert_eq!((&open.target, open.fields.len(), open.is_cut), (target, 1, false));
    }
    Ok(())
}

#[test]
fn many_spans_are_told_each_with_its_own() -> Result<(), Error> {
    const SPANS: usize = 10_000;
    let (registry, guard) = Registry::builder().slots(SPANS as u32).spawn_writer(std::io::sink())?;
    let spans: Vec<Span> = (0..SPANS)
        .map(|number| {
            span!(
                registry,
                Level::Info,
                "a",
                number = number,
                text = "x".repeat(number % 700)
            )
        })
        .collect();
    for (number, span) in spans.iter().enumerate().step_by(3) {
        span.record(&[("again", &number.to_string())]);
    }
    let open = registry.open_spans()?;
    assert_eq!(open.len(), SPANS);
    for (number, (told, span)) in open.iter().zip(&spans).enumerate() {
        let mut fields = vec![
            ("number".to_owned(), number.to_string()),
            ("text".to_owned(), "x".repeat(number % 700)),
        ];
        fields.extend((number % 3 == 0).then(|| ("again".to_owned(), number.to_string())));
        assert_eq!((Some(told.id), &told.fields, told.is_cut), (span.id(), &fields, false));
        assert!(told.place.is_some_and(|(file, _)| file == file!()));
    }
    drop((spans, guard));
    Ok(())
}

/// Two spans, one at a macro and one by meta, which use slots that were used before.
fn round(registry: &Registry, number: usize) {
    let of_macro = span!(registry, Level::Info, "macro", key = number);
    let text = number.to_string();
    let fields = [("key", &*text), ("text", &*text.repeat(number % 50))];
    let by_meta = registry.span(&info(&text), Parent::Root, &fields[..1]);
    by_meta.expect("not refused").record(&fields[1..]);
    drop(of_macro);
}

/// It is one of those, whole.
fn check_round(open: &OpenSpan) {
    let (key, number) = &open.fields[0];
    let is_of_macro = open.place.is_some();
    let name = if is_of_macro { "macro" } else { number };
    assert_eq!((&**key, &*open.name), ("key", name));
    assert_eq!(open.target == "app", !is_of_macro);
    let is_recorded = open.fields.len() == 2;
    assert!(is_recorded && !is_of_macro || open.fields.len() == 1);
    if is_recorded {
        assert!(open.fields[1].1.replace(number, "").is_empty());
    }
}

#[test]
fn a_span_that_closes_meanwhile_is_told_whole_or_not_at_all() -> Result<(), Error> {
    let (registry, guard) = compact().workers(8).spawn_writer(std::io::sink())?;
    let (registry, is_over) = (&registry, &AtomicBool::new(false));
    thread::scope(|scope| {
        let make = move |first: usize| (0..2000).for_each(|count| round(registry, 3 * count + first));
        let makers: Vec<_> = (0..3).map(|first| scope.spawn(move || make(first))).collect();
        scope.spawn(|| {
            while !is_over.load(Ordering::Acquire) {
                for told in &registry.open_spans().expect("there is memory") {
                    check_round(told);
                    match registry.open_span(told.id) {
                        Ok(again) => assert_eq!((&again.name, &again.fields[0]), (&told.name, &told.fields[0])),
                        Err(error) => assert_eq!(error, Error::Unknown),
                    }
                }
            }
        });
        makers.into_iter().for_each(|maker| maker.join().expect("no panic"));
        is_over.store(true, Ordering::Release);
    });
    assert!(registry.open_spans()?.is_empty());
    drop(guard);
    Ok(())
}
