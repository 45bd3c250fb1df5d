//! What the example `chrome` writes is JSON, and has what Chrome's trace format asks for.
#[path = "../../examples/chrome.rs"]
#[allow(dead_code)]
mod example;

use crate::json::Json;
use crate::printed;
use span_registry::{event, span, Layer, Level, Registry};
use std::collections::HashMap;

/// One of the format's events.
#[derive(Debug)]
struct Traced<'a> {
    phase: &'a str,
    name: &'a str,
    lane: u64,
    // In microseconds.
    at: f64,
    arguments: &'a Json,
}

/// A number without a fraction.
fn whole(number: f64) -> Option<u64> {
    (number >= 0.0 && number.fract() == 0.0 && number < 1e15).then_some(number as u64)
}

/// What an event says, where it has all that the format wants of its kind.
fn read(event: &Json) -> Option<Traced<'_>> {
    let number = |key: &str| event.get(key)?.number();
    let phase = event.get("ph")?.text()?;
    let has_its_own = match phase {
        "B" | "E" => true,
        "i" => ["g", "p", "t"].contains(&event.get("s")?.text()?),
        _ => false,
    };
    event.get("cat")?.text()?;
    whole(number("pid")?)?;
    let (at, lane) = (number("ts")?, whole(number("tid")?)?);
    let arguments = event.get("args")?;
    let is_object = matches!(arguments, Json::Object(_));
    (has_its_own && at >= 0.0 && is_object).then_some(Traced {
        phase,
        name: event.get("name")?.text()?,
        lane,
        at,
        arguments,
    })
}

/// All of a file's events. In each lane time never goes back, and what begins ends, the last one first.
fn checked(file: &Json) -> Vec<Traced<'_>> {
    let events = file.get("traceEvents").and_then(Json::list).expect("a list of events");
    let read = |event| read(event).unwrap_or_else(|| panic!("no event of the format: {event:?}"));
    let events: Vec<Traced<'_>> = events.iter().map(read).collect();
    let mut lanes: HashMap<u64, (f64, Vec<&str>)> = HashMap::new();
    for event in &events {
        let (last, open) = lanes.entry(event.lane).or_default();
        assert!(event.at >= *last, "time goes back: {event:?}");
        *last = event.at;
        match event.phase {
            "B" => open.push(event.name),
            "E" => assert_eq!(open.pop(), Some(event.name), "{event:?}"),
            _ => (),
        }
    }
    assert!(lanes.values().all(|(_, open)| open.is_empty()), "{lanes:?}");
    events
}

#[test]
fn the_examples_trace_is_one_of_the_format() {
    let file = Json::read(&printed(&["chrome"])).expect("JSON");
    let events = checked(&file);
    let count = |phase: &str, name: &str| events.iter().filter(|it| (it.phase, it.name) == (phase, name)).count();
    for name in ["request", "query"] {
        assert_eq!((count("B", name), count("E", name)), (9, 9), "{name}");
    }
    assert_eq!((count("i", "read"), events.len()), (9, 45));
    let numbers = |event: &Traced<'_>| event.arguments.get("number")?.number();
    let mut numbers: Vec<f64> = events.iter().filter_map(numbers).collect();
    numbers.sort_by(f64::total_cmp);
    assert_eq!(numbers, (0..9).map(f64::from).collect::<Vec<f64>>());
    // A request takes 5 ms and more, which Perfetto shows as a bar of that length.
    let of_request = |phase: &str| events.iter().find(|it| (it.phase, it.name) == (phase, "request"));
    let (begin, end) = of_request("B").zip(of_request("E")).expect("nine");
    assert!(end.at - begin.at >= 5_000.0, "{begin:?} {end:?}");
}

#[test]
fn texts_and_numbers_of_all_kinds_stay_json() {
    let (registry, drain) = Registry::builder()
        .layer(Layer::tree())
        .build()
        .expect("limits in range");
    let odd = "\"\\\n\r\t\u{0}\u{1f}\u{7f}\u{2028}\u{1f600}";
    {
        let span = span!(registry, target: "a \"target\"", Level::Info, "GET \"/users\"\n", "a \"key\"" = odd);
        let _inside = span.enter();
        event!(registry, Level::Info, { infinite = f64::INFINITY, none = f64::NAN, least = f64::MIN_POSITIVE }, "{odd}");
        event!(registry, Level::Info, { most = u64::MAX, least = i128::MIN, is = true, text = "1e400" }, "");
    }
    drop(registry);
    let mut out = Vec::new();
    example::write(drain, &mut out).expect("it has room");
    let out = String::from_utf8(out).expect("UTF-8");
    let file = Json::read(&out).unwrap_or_else(|wrong| panic!("{wrong}\n{out}"));
    let events = checked(&file);
    let names: Vec<&str> = events.iter().map(|event| event.name).collect();
    assert_eq!(names, ["GET \"/users\"\n", odd, "", "GET \"/users\"\n"]);
    let argument = |place: usize, key: &str| events[place].arguments.get(key).cloned();
    assert_eq!(argument(0, "a \"key\""), Some(Json::Text(odd.to_owned())));
    assert_eq!(argument(1, "infinite"), Some(Json::Text("inf".to_owned())));
    assert_eq!(argument(1, "least"), Some(Json::Number(f64::MIN_POSITIVE)));
    assert_eq!(argument(2, "is"), Some(Json::Bool(true)));
    assert_eq!(argument(2, "text"), Some(Json::Text("1e400".to_owned())));
}
