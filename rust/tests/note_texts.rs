//! What notes and the lines of trees say of texts: of any bytes and lengths, of many fields, beside other layers, and of
//! several parts.
mod common;

use common::{as_compact, info};
use span_registry::{
    event, span, Drain, Error, FmtSpan, Form, Id, Kind, Layer, Level, Meta, Note, NoteKind, Parent, Registry,
    RegistryBuilder, Targets,
};
use std::collections::HashMap;

/// Texts that JSON or the compact form has to escape, or that nothing may mistake for an end.
const TEXTS: [&str; 12] = [
    "",
    "plain",
    "\"",
    "\\",
    "a \"quoted\\\" text\\",
    "x\ny\r\nz\t",
    "\u{0}\u{1}\u{8}\u{b}\u{c}\u{1f}\u{7f}",
    "\u{e9}\u{20ac}\u{1f600}\u{85}\u{2028}",
    "{\"fields\":[[\"k\",\"v\"]],\"id\":1}",
    "a=b c=d",
    "16 bytes of text\"and more of it, up to here",
    "\\u0041\\n",
];

/// A text as JSON, letter by letter.
fn quoted(text: &str) -> String {
    let letter = |letter: char| match letter {
        '"' => "\\\"".to_owned(),
        '\\' => "\\\\".to_owned(),
        '\n' => "\\n".to_owned(),
        '\r' => "\\r".to_owned(),
        '\t' => "\\t".to_owned(),
        control if u32::from(control) < 0x20 => format!("\\u{:04x}", u32::from(control)),
        other => other.to_string(),
    };
    format!("\"{}\"", text.chars().map(letter).collect::<String>())
}

fn notes(drain: &mut Drain) -> Vec<Note> {
    std::iter::from_fn(|| drain.note()).collect()
}

/// The texts of the lines of trees, without their times.
fn trees(drain: &mut Drain) -> Vec<String> {
    let lines = drain.lines().filter(|line| line.text.starts_with("{\"at\":"));
    lines.map(|line| without_time(&line.text)).collect()
}

fn without_time(line: &str) -> String {
    let (time, rest) = line.split_once(',').expect("a time comes first");
    let time = time.strip_prefix("{\"at\":").expect("a time comes first");
    assert!(time.parse::<u64>().is_ok(), "{line}");
    rest.to_owned()
}

fn values(note: &Note) -> Vec<(&str, &str)> {
    note.fields.iter().map(|field| (&*field.key, &*field.value)).collect()
}

/// A span, a record and an event with these texts, and the close.
fn say(registry: &Registry, texts: &[&str]) -> Result<(), Error> {
    let fields: Vec<(&str, &str)> = texts.iter().map(|text| ("key", *text)).collect();
    let message = texts.first().copied().unwrap_or_default();
    let target = texts.last().copied().unwrap_or_default();
    let span = registry.span(&Meta::new(Level::Info, target, "name"), Parent::Root, &fields)?;
    span.try_record(&fields)?;
    registry.event_in(&Meta::event(Level::Warn, target), Parent::from(&span), message, &fields)
}

/// What is told then: each kind, and how often it tells the fields.
const SAID: [(NoteKind, usize); 4] = [
    (NoteKind::New, 1),
    (NoteKind::Record, 1),
    (NoteKind::Event, 1),
    (NoteKind::Close, 2),
];

/// The lines that say it, of the span of this id.
fn lines_of(texts: &[&str], id: u64, worker: u32) -> Vec<String> {
    let message = quoted(texts.first().copied().unwrap_or_default());
    let target = quoted(texts.last().copied().unwrap_or_default());
    let fields: Vec<String> = texts.iter().map(|text| format!("[\"key\",{}]", quoted(text))).collect();
    let line = |(kind, times): (NoteKind, usize)| {
        let fields = vec![fields.join(","); times].join(if fields.is_empty() { "" } else { "," });
        let behind = format!(r#""target":{target},"worker":{worker}}}"#);
        match kind {
            NoteKind::Event => format!(
                r#""fields":[{fields}],"id":0,"kind":"event","level":"WARN","message":{message},"name":"event","parent":{id},"path":"name",{behind}"#
            ),
            kind => format!(
                r#""fields":[{fields}],"id":{id},"kind":"{}","level":"INFO","name":"name","parent":0,"path":"name",{behind}"#,
                kind.name()
            ),
        }
    };
    SAID.map(line).to_vec()
}

/// A tree alone, beside another, and beside layers in other forms.
fn with_trees() -> [RegistryBuilder; 3] {
    let alone = || Registry::builder().workers(1).layer(Layer::tree());
    [
        alone(),
        alone().layer(Layer::tree().with_max_level(Level::Error)),
        Registry::builder()
            .workers(1)
            .layer(Layer::compact())
            .layer(Layer::tree())
            .layer(Layer::json()),
    ]
}

/// Says each list of texts, and looks at notes and lines in turn.
fn texts_are_told(lists: &[Vec<&str>]) -> Result<(), Error> {
    for builder in with_trees() {
        let (registry, mut drain) = builder.ring(64).build()?;
        for list in lists {
            say(&registry, list)?;
            let notes = notes(&mut drain);
            assert_eq!(notes.len(), SAID.len());
            for (note, (kind, times)) in notes.iter().zip(SAID) {
                let wanted = vec![list.clone(); times].concat();
                let told: Vec<(&str, &str)> = wanted.into_iter().map(|text| ("key", text)).collect();
                assert_eq!((note.kind, values(note)), (kind, told));
                let message = (kind == NoteKind::Event).then(|| list.first().copied().unwrap_or_default());
                assert_eq!(note.message.as_deref(), message);
                assert_eq!(note.target, list.last().copied().unwrap_or_default());
            }
            say(&registry, list)?;
            let id = notes[0].id.expect("a span's").into_u64();
            assert_eq!(trees(&mut drain), lines_of(list, id + (1 << 24), 0));
            let texts: Vec<String> = notes.iter().map(|note| without_time(&note.to_string())).collect();
            assert_eq!(texts, lines_of(list, id, 0));
        }
    }
    Ok(())
}

#[test]
fn texts_are_told_as_they_are() -> Result<(), Error> {
    let mut lists: Vec<Vec<&str>> = TEXTS.iter().map(|text| vec![*text]).collect();
    lists.extend([vec![], TEXTS.to_vec(), vec![""; 3]]);
    texts_are_told(&lists)
}

#[test]
fn many_fields_and_few_are_told() -> Result<(), Error> {
    let counts = [0, 1, 4, 5, 7, 8, 9, 40, 2, 300, 0, 299, 1000, 3];
    texts_are_told(&counts.map(|count| vec!["v\""; count]))
}

#[test]
fn long_texts_are_told_and_short_ones_after_them() -> Result<(), Error> {
    let (plain, escaped) = ("x".repeat(100_000), "\u{1}\"\u{e9}".repeat(25_000));
    let lengths = [
        0, 1, 90, 120, 121, 122, 123, 124, 240, 249, 250, 251, 252, 253, 260, 99_999, 5, 100_000, 2,
    ];
    let lists: Vec<Vec<&str>> = lengths
        .iter()
        .flat_map(|&length| {
            let end = (0..=length)
                .rev()
                .find(|&end| escaped.is_char_boundary(end))
                .unwrap_or(0);
            [vec![&plain[..length]], vec!["", &escaped[..end], ""]]
        })
        .collect();
    texts_are_told(&lists)
}

#[test]
fn a_writer_gets_the_same_lines() -> Result<(), Box<dyn std::error::Error>> {
    let long = "\"\\\n\u{e9}".repeat(10_000);
    for builder in with_trees() {
        let (registry, mut drain) = builder.ring(256).build()?;
        let mut wanted = Vec::new();
        for (number, list) in [TEXTS.to_vec(), vec![&long], vec![]].iter().enumerate() {
            say(&registry, list)?;
            wanted.extend(lines_of(list, 1 + ((number as u64) << 24), 0));
        }
        let mut out = Vec::new();
        drain.write_to(&mut out)?;
        let out = String::from_utf8(out)?;
        let lines = out.lines().filter(|line| line.starts_with("{\"at\":"));
        assert_eq!(lines.map(without_time).collect::<Vec<_>>(), wanted);
        assert!(out.ends_with('\n'));
    }
    Ok(())
}

/// A writer that fails at each second write, once a part of it has gone out.
struct Failing(Vec<u8>, bool);

impl std::io::Write for Failing {
    fn write(&mut self, text: &[u8]) -> std::io::Result<usize> {
        self.1 = !self.1;
        if self.1 {
            return Err(std::io::Error::other("on purpose"));
        }
        self.0.extend_from_slice(text);
        Ok(text.len())
    }

    fn flush(&mut self) -> std::io::Result<()> {
        Ok(())
    }
}

#[test]
fn a_line_whose_write_failed_stays_the_next_one() -> Result<(), Error> {
    let (registry, mut drain) = Registry::builder().workers(1).layer(Layer::tree()).build()?;
    say(&registry, &["\"v\""])?;
    let wanted = lines_of(&["\"v\""], 1, 0);
    let mut out = Failing(Vec::new(), false);
    assert!(drain.write_to(&mut out).is_err());
    assert_eq!(
        drain.line().map(|line| without_time(&line.text)).as_ref(),
        wanted.first()
    );
    out.1 = false;
    assert!(drain.write_to(&mut out).is_err());
    assert_eq!(drain.note().map(|note| note.kind), Some(NoteKind::Record));
    out.1 = true;
    assert!(drain.write_to(&mut out).is_err());
    let lines = String::from_utf8(out.0).expect("texts");
    assert_eq!(without_time(lines.trim_end()), wanted[2]);
    assert_eq!(
        drain.line().map(|line| without_time(&line.text)).as_ref(),
        wanted.last()
    );
    Ok(())
}

#[test]
fn names_and_keys_of_any_bytes_are_told_as_they_are() -> Result<(), Error> {
    for builder in with_trees() {
        let (registry, mut drain) = builder.build()?;
        for name in ["", "--", "GET /users", "\u{e9}\n\"", "--a"] {
            let fields = [(name, "v"), ("k", "")];
            for make in [0, 1] {
                let parent = registry.span(&info(name), Parent::Root, &fields)?;
                let child = registry.span(&info("b"), Parent::from(&parent), &[])?;
                if make == 0 {
                    let notes = notes(&mut drain);
                    assert_eq!((&*notes[0].name, values(&notes[0])), (name, fields.to_vec()));
                    assert_eq!(notes[1].path, format!("{}:b", notes[0].path));
                    assert_eq!(notes[1].parent, parent.id());
                } else {
                    let line = &trees(&mut drain)[0];
                    let wanted = format!("\"fields\":[[{0},\"v\"],[\"k\",\"\"]],", quoted(name));
                    assert!(line.starts_with(&wanted), "{line}");
                    assert!(line.contains(&format!(",\"name\":{},", quoted(name))), "{line}");
                }
                drop((child, parent));
                drain.lines().for_each(drop);
            }
        }
    }
    Ok(())
}

#[test]
fn values_keep_their_kinds_where_they_are_recorded_and_closed() -> Result<(), Error> {
    for builder in with_trees() {
        let (registry, mut drain) = builder.build()?;
        let a = span!(registry, Level::Info, "a", n = u128::MAX, x = f64::NAN, t = "1");
        a.record(&[("n", "2")]);
        event!(registry, parent: &a, Level::Info, { ok = false, y = -0.5, text = "true" }, "m");
        drop(a);
        let kinds: Vec<Vec<Kind>> = notes(&mut drain)
            .iter()
            .map(|note| note.fields.iter().map(|field| field.kind).collect())
            .collect();
        let (new, event) = (
            [Kind::Integer, Kind::Float, Kind::Text],
            [Kind::Bool, Kind::Float, Kind::Text],
        );
        let close = [new.to_vec(), vec![Kind::Text]].concat();
        assert_eq!(kinds, [new.to_vec(), vec![Kind::Text], event.to_vec(), close]);
        drop(span!(
            registry,
            Level::Info,
            "a",
            n = u128::MAX,
            x = f64::NAN,
            y = 1e300,
            ok = true
        ));
        let great = format!("1{}.0", "0".repeat(300));
        let wanted = format!(
            r#""fields":[["n",{}],["x","NaN"],["y",{great}],["ok",true]],"#,
            u128::MAX
        );
        assert!(trees(&mut drain).iter().all(|line| line.starts_with(&wanted)));
    }
    Ok(())
}

#[test]
fn of_several_parts_each_line_is_a_note_or_a_text_as_it_is_asked_for() -> Result<(), Error> {
    let tree = || Registry::builder().layer(Layer::tree());
    for builder in [tree(), tree().layer(Layer::compact())] {
        let (registry, mut drain) = builder.parts(3).workers(4).build()?;
        let mut made = Vec::new();
        for text in TEXTS {
            let make = || registry.span(&info("a"), Parent::Root, &[("k", text)]);
            // Threads' roots go round the parts.
            let id = std::thread::scope(|scope| {
                let span = scope.spawn(make).join().expect("no panic")?;
                Ok::<_, Error>(span.id().expect("it is wanted"))
            })?;
            made.push((text, id));
        }
        assert!(made.iter().any(|(_, id)| id.part() == 2));
        let wanted = made
            .iter()
            .flat_map(|made| [(NoteKind::New, made), (NoteKind::Close, made)]);
        for (place, (kind, (text, id))) in wanted.enumerate() {
            // Both read on from where the other one stopped.
            if place % 3 == 0 {
                let note = drain.note().expect("a line");
                assert_eq!(
                    (note.kind, note.id, values(&note)),
                    (kind, Some(*id), vec![("k", *text)])
                );
                assert_eq!(note.worker / 5, id.part());
            } else {
                let mut lines = drain.lines().map(|line| line.text);
                let line = lines.find(|text| text.starts_with('{')).expect("a line");
                let fields = format!(
                    r#""fields":[["k",{}]],"id":{id},"kind":"{}","#,
                    quoted(text),
                    kind.name()
                );
                assert!(without_time(&line).starts_with(&fields), "{line}");
            }
        }
        assert_eq!(drain.note(), None);
    }
    Ok(())
}

struct Random(u64);

impl Random {
    fn below(&mut self, bound: usize) -> usize {
        self.0 ^= self.0 << 13;
        self.0 ^= self.0 >> 7;
        self.0 ^= self.0 << 17;
        (self.0 >> 33) as usize % bound
    }

    fn of<T: Copy>(&mut self, list: &[T]) -> T {
        list[self.below(list.len())]
    }

    fn fields(&mut self) -> Vec<(&'static str, &'static str)> {
        let count = self.below(4);
        (0..count)
            .map(|_| (self.of(&["k", "key.2", "a b"]), self.of(&TEXTS)))
            .collect()
    }
}

/// Random calls by ids, of which some are refused; the same for the same number.
fn call_at_random(registry: &Registry, seed: u64) {
    let mut random = Random(0x9e37_79b9_7f4a_7c15 ^ (seed + 1) << 20);
    let mut numbers = vec![1];
    for _ in 0..150 {
        let fields = random.fields();
        let (kind, target) = (random.below(9), random.of(&["app", "app::db", "lib"]));
        let (level, name, text) = (random.of(&Level::ALL), random.of(&["a", "b c", "d"]), random.of(&TEXTS));
        let id = registry.id(random.of(&numbers)).expect("a span's");
        let parent = random.of(&[Parent::Root, Parent::Current, Parent::Of(id)]);
        let meta = Meta::new(level, target, name);
        let _refused = match kind {
            0 | 1 => registry
                .new_span(&meta, parent, &fields)
                .map(|made| numbers.extend(made.map(Id::into_u64))),
            2 | 3 => registry.event_in(&meta, parent, text, &fields),
            4 => registry.record(id, &fields),
            5 => registry.enter(id).map(drop),
            6 => registry.exit(id).map(drop),
            7 => registry.clone_span(id),
            _ => registry.try_close(id).map(drop),
        };
    }
}

/// Two layers in this form, of which the second one isn't told of some spans and of their enters and closes.
fn layers(form: Form) -> [Layer; 2] {
    let targets = Targets::new()
        .with_target("app", Level::Debug)
        .with_target("app::db", Level::Warn);
    let second = Layer::new(form).with_targets(targets);
    [Layer::new(form), second.with_span_events(FmtSpan::NEW | FmtSpan::EXIT)]
}

/// What is told by the layers of a registry with which random calls were made.
fn told(layers: Vec<Layer>, seed: u64) -> Result<(Registry, Drain), Error> {
    let builder = Registry::builder().workers(1).slots(8).ring(256);
    let (registry, drain) = layers.into_iter().fold(builder, RegistryBuilder::layer).build()?;
    call_at_random(&registry, seed);
    Ok((registry, drain))
}

/// Each span's path is its parent's with its name behind it, and an event's is its span's.
fn parents_are_those_of_the_path(notes: &[Note]) {
    let mut paths: HashMap<Id, &str> = HashMap::new();
    for note in notes {
        let above = note
            .parent
            .map(|parent| *paths.get(&parent).expect("it was told of before"));
        let own = note.path.rsplit(':').next().expect("one at least");
        let wanted = match (note.id, above) {
            (None, above) => above.unwrap_or("-").to_owned(),
            (Some(_), None) => own.to_owned(),
            (Some(_), Some(above)) => format!("{above}:{own}"),
        };
        assert_eq!(note.path, wanted);
        assert!(note.id.is_none() || own == if note.name == "b c" { "--b-20c" } else { &note.name });
        paths.extend(note.id.map(|id| (id, &*note.path)));
    }
}

#[test]
fn trees_tell_what_layers_in_other_forms_do_that_have_the_same_rules() -> Result<(), Error> {
    for seed in 0..60 {
        let [first, second] = layers(Form::Tree);
        let [compact, compact_second] = layers(Form::Compact);
        let [json, _] = layers(Form::Json);
        let trees_alone = vec![first.clone(), second.clone()];
        let (_registry, mut drain) = told(trees_alone.clone(), seed)?;
        let (_same, mut same) = told(trees_alone, seed)?;
        let (_mixed, mut mixed) = told(
            vec![compact.clone(), first, json.clone(), second, compact_second.clone()],
            seed,
        )?;
        let (_others, mut others) = told(vec![compact, json, compact_second], seed)?;
        let notes = notes(&mut drain);
        assert!(notes.len() > 50);
        // As structs and as lines.
        let texts: Vec<String> = notes.iter().map(|note| without_time(&note.to_string())).collect();
        assert_eq!(trees(&mut same), texts);
        let of_layer = |layer: usize| notes.iter().filter(move |note| note.layer == layer).map(as_compact);
        for layer in [0, 1] {
            let notes: Vec<Note> = notes.iter().filter(|note| note.layer == layer).cloned().collect();
            parents_are_those_of_the_path(&notes);
        }
        // Beside layers in other forms, whose lines stay the same.
        let lines: Vec<(usize, String)> = mixed.lines().map(|line| (line.layer, line.text)).collect();
        let of_mixed = |layer: usize| lines.iter().filter(move |line| line.0 == layer).map(|line| &*line.1);
        assert!(of_mixed(0).eq(of_layer(0)) && of_mixed(4).eq(of_layer(1)));
        let trees = lines.iter().filter(|line| line.0 == 1 || line.0 == 3);
        assert!(trees.map(|line| without_time(&line.1)).eq(texts));
        let without_trees = lines.iter().filter(|line| line.0 != 1 && line.0 != 3);
        let numbers = HashMap::from([(0, 0), (2, 1), (4, 2)]);
        let others: Vec<(usize, String)> = others.lines().map(|line| (line.layer, line.text)).collect();
        assert!(without_trees
            .map(|(layer, text)| (numbers[layer], text))
            .eq(others.iter().map(|(layer, text)| (*layer, text))));
    }
    Ok(())
}
