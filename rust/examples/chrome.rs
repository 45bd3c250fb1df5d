//! Writes a program's run as Chrome's trace format, which Perfetto (ui.perfetto.dev) and chrome://tracing open: a lane
//! a thread, a bar for each time that a thread is inside a span, a tick for each event. `cargo run --release --offline
//! --example chrome > trace.json`
use span_registry::{event, span, Drain, Id, Kind, Layer, Level, Note, NoteKind, Registry};
use std::collections::HashMap;
use std::error::Error;
use std::io::{self, BufWriter, Write};
use std::thread;
use std::time::Duration;

/// A text as JSON.
fn quoted(text: &str) -> String {
    let mut json = String::from("\"");
    for letter in text.chars() {
        match letter {
            '"' | '\\' => json.extend(['\\', letter]),
            control if u32::from(control) < 0x20 => json += &format!("\\u{:04x}", u32::from(control)),
            letter => json.push(letter),
        }
    }
    json + "\""
}

/// The fields of each span that is open.
type Open = HashMap<Option<Id>, String>;

/// The fields of a note.
fn arguments(note: &Note) -> String {
    let id = note.id.or(note.parent).map_or(0, |id| id.into_u64());
    let mut arguments = format!("\"span\":{id}");
    for field in &note.fields {
        let is_json = match field.kind {
            Kind::Integer | Kind::Bool => true,
            // (JSON has no infinite number, and none for `NaN`)
            Kind::Float => field.value.parse().is_ok_and(f64::is_finite),
            Kind::Text => false,
        };
        let value = if is_json {
            field.value.clone()
        } else {
            quoted(&field.value)
        };
        arguments += &format!(",{}:{value}", quoted(&field.key));
    }
    arguments
}

/// One of the format's events; none for notes that it has none for.
fn traced(note: &Note, open: &mut Open) -> Option<String> {
    let (phase, name, arguments) = match note.kind {
        NoteKind::Enter => ("B", &note.name, open.get(&note.id).cloned().unwrap_or_default()),
        NoteKind::Exit => ("E", &note.name, String::new()),
        NoteKind::Event => ("i", note.message.as_ref()?, arguments(note)),
        NoteKind::New => {
            open.insert(note.id, arguments(note));
            return None;
        }
        NoteKind::Close => {
            open.remove(&note.id);
            return None;
        }
        _ => return None,
    };
    Some(format!(
        r#"{{"ph":"{phase}","name":{},"cat":{},"ts":{:.3},"pid":1,"tid":{},"s":"t","args":{{{}}}}}"#,
        quoted(name),
        quoted(&note.target),
        note.at.as_nanos() as f64 / 1000.0,
        note.worker,
        arguments
    ))
}

/// Until the registry and its spans are gone.
pub fn write(mut drain: Drain, mut out: impl Write) -> io::Result<()> {
    write!(out, "{{\"traceEvents\":[")?;
    let (mut comma, mut open) = ("\n", Open::new());
    loop {
        let was_over = drain.is_over();
        while let Some(note) = drain.note() {
            if let Some(event) = traced(&note, &mut open) {
                write!(out, "{comma}{event}")?;
                comma = ",\n";
            }
        }
        if was_over {
            return writeln!(out, "\n]}}");
        }
        thread::sleep(Duration::from_millis(1));
    }
}

fn main() -> Result<(), Box<dyn Error>> {
    let (registry, drain) = Registry::builder().ring(65_536).layer(Layer::tree()).build()?;
    let writing = thread::spawn(|| write(drain, BufWriter::new(io::stdout())));
    thread::scope(|scope| {
        for first in 0..3 {
            let registry = &registry;
            scope.spawn(move || {
                for number in (first..9).step_by(3) {
                    let request = span!(registry, Level::Info, "request", number = number);
                    let _inside = request.enter();
                    thread::sleep(Duration::from_millis(2));
                    let query = span!(registry, Level::Debug, "query", table = "users");
                    query.in_scope(|| thread::sleep(Duration::from_millis(3)));
                    event!(registry, Level::Info, { rows = 7 * number, share = f64::from(number) / 9.0 }, "read");
                }
            });
        }
    });
    drop(registry);
    writing.join().expect("it doesn't panic")?;
    Ok(())
}
