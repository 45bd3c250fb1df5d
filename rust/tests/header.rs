//! That `src/raw.rs` declares what the C header declares: the same functions, structs and constants, and that the
//! structs lie in memory as C lays them.
#[path = "../src/raw/structs.rs"]
#[allow(dead_code)]
mod structs;

use std::collections::BTreeMap;
use std::fs;
use std::mem::{offset_of, size_of};
use std::path::Path;

/// By name: the types of a function's parameters, or the names and types of a struct's fields.
type Declared = BTreeMap<String, Vec<String>>;

fn read(path: &str) -> String {
    let path = Path::new(env!("CARGO_MANIFEST_DIR")).join(path);
    fs::read_to_string(&path).unwrap_or_else(|error| panic!("{}: {error}", path.display()))
}

fn without(mut text: String, open: &str, close: &str) -> String {
    while let Some(start) = text.find(open) {
        let length = text[start..].find(close).expect("a comment ends") + close.len();
        text.replace_range(start..start + length, " ");
    }
    text
}

fn header() -> String {
    without(without(read("../include/span_registry.h"), "/*", "*/"), "//", "\n")
}

fn raw() -> String {
    without(read("src/raw.rs"), "//", "\n")
}

fn structs() -> String {
    without(read("src/raw/structs.rs"), "//", "\n")
}

/// Each text that stands between `open` and the next `close`.
fn between<'a>(text: &'a str, open: &'a str, close: &'a str) -> impl Iterator<Item = &'a str> {
    text.split(open)
        .skip(1)
        .map(move |rest| rest.split(close).next().expect("one part at least"))
}

fn list(text: &str, separator: char) -> impl Iterator<Item = &str> {
    text.split(separator).map(str::trim).filter(|part| !part.is_empty())
}

/// A C declaration of one name, as the name and Rust's type.
fn of_c(declaration: &str) -> (String, String) {
    let at = declaration.rfind([' ', '*']).expect("a type and a name") + 1;
    let (kind, name) = (declaration[..at].trim(), declaration[at..].to_owned());
    let (pointer, base) = match (kind.strip_suffix('*'), kind.starts_with("const ")) {
        (None, _) => ("", kind),
        (Some(base), true) => ("*const ", &base["const ".len()..]),
        (Some(base), false) => ("*mut ", base),
    };
    let base = match base.trim() {
        "uint8_t" => "u8",
        "uint32_t" => "u32",
        "uint64_t" => "u64",
        "size_t" => "usize",
        "void" => "c_void",
        other => other,
    };
    (name, format!("{pointer}{base}"))
}

fn functions_of_c(header: &str) -> Declared {
    let prototypes = between(header, "uint32_t span_", ";").filter_map(|text| text.split_once('('));
    prototypes
        .map(|(name, parameters)| {
            let parameters =
                list(parameters.trim().trim_end_matches(')'), ',').filter(|&parameter| parameter != "void");
            (
                format!("span_{}", name.trim()),
                parameters.map(|parameter| of_c(parameter).1).collect(),
            )
        })
        .collect()
}

fn functions_of_rust(raw: &str) -> Declared {
    let block = between(raw, "unsafe extern \"C\" {", "\n}")
        .next()
        .expect("the block is there");
    let prototypes = between(block, "fn ", ";").filter_map(|text| text.split_once('('));
    prototypes
        .map(|(name, rest)| {
            let (parameters, result) = rest.rsplit_once(')').expect("parameters end");
            assert_eq!(result.trim(), "-> u32", "{name}");
            let kind = |parameter: &str| parameter.split_once(':').expect("a type").1.trim().to_owned();
            (name.to_owned(), list(parameters, ',').map(kind).collect())
        })
        .collect()
}

fn structs_of_c(header: &str) -> Declared {
    let structs = between(header, "typedef struct ", "}").filter_map(|text| text.split_once('{'));
    structs
        .map(|(name, fields)| {
            let fields = list(fields, ';').flat_map(|fields| {
                let (first, kind) = of_c(fields.split(',').next().expect("a field"));
                let others = list(fields, ',').skip(1).map(str::to_owned);
                std::iter::once(first)
                    .chain(others)
                    .map(move |name| format!("{name}: {kind}"))
            });
            (name.trim().to_owned(), fields.collect())
        })
        .collect()
}

fn structs_of_rust(raw: &str) -> Declared {
    let structs = between(raw, "struct ", "}").filter_map(|text| text.split_once('{'));
    structs
        .map(|(name, fields)| {
            let bare = |field: &str| field.split_once(") ").map_or(field, |(_, bare)| bare).to_owned();
            (name.trim().to_owned(), list(fields, ',').map(bare).collect())
        })
        .collect()
}

#[test]
fn the_functions_are_those_of_the_header() {
    let wanted = functions_of_c(&header());
    assert_eq!(wanted.len(), 43, "{:?}", wanted.keys());
    assert_eq!(functions_of_rust(&raw()), wanted);
}

#[test]
fn the_structs_are_those_of_the_header() {
    let wanted = structs_of_c(&header());
    assert_eq!(wanted.len(), 13, "{:?}", wanted.keys());
    assert_eq!(structs_of_rust(&structs()), wanted);
    assert_eq!(structs().matches("#[repr(C)]").count(), wanted.len());
}

/// How many bytes a struct has, and at which of them each field begins.
type Laid = (usize, Vec<(String, usize)>);

/// As C lays fields of these types (`name: type`): each at the next multiple of its size, and behind the last as much
/// as the greatest of them needs.
fn laid_by_c(fields: &[String]) -> Laid {
    let (mut end, mut greatest, mut places) = (0_usize, 1, Vec::new());
    for field in fields {
        let (name, kind) = field.split_once(": ").expect("a type");
        let size = match kind {
            "u8" => size_of::<u8>(),
            "u32" => size_of::<u32>(),
            "u64" => size_of::<u64>(),
            "usize" => size_of::<usize>(),
            pointer if pointer.starts_with('*') => size_of::<*const u8>(),
            other => panic!("how long is {other}?"),
        };
        let place = end.next_multiple_of(size);
        places.push((name.to_owned(), place));
        (end, greatest) = (place + size, greatest.max(size));
    }
    (end.next_multiple_of(greatest), places)
}

/// The structs with all of their fields, as Rust lays them.
macro_rules! laid {
    ($($name:ident { $($field:ident),* })*) => {
        [$({
            // So that none is forgotten.
            let _all = |structs::$name { $($field: _),* }: structs::$name| ();
            let places = vec![$((stringify!($field).to_owned(), offset_of!(structs::$name, $field))),*];
            (stringify!($name).to_owned(), (size_of::<structs::$name>(), places))
        }),*]
    };
}

#[test]
fn the_structs_lie_in_memory_as_those_of_the_header() {
    let laid: [(String, Laid); 13] = laid! {
        SpanRegistry { at }
        SpanDrain { at }
        SpanLimits { slots, last_generation, max_count, workers, ring }
        SpanLayer { form, kinds, rules }
        SpanRule { prefix_len, level }
        SpanMeta { level, name_len, target_len }
        SpanField { key_len, value_len }
        SpanFound { parent, handles, entries, count, level }
        SpanHeld { id, handles, entries }
        SpanCounts { made, closed, calls, held, open, workers }
        SpanNote { batch, id, layer, kind, worker, level, path_len, message_len }
        SpanHeading { stamp, parent, has_callsite, callsite, level, name_len, target_len }
        SpanSizes { limits, layer, rule, meta, field, found, held, counts }
    };
    let of_c = structs_of_c(&header()).into_iter();
    let wanted: BTreeMap<String, Laid> = of_c.map(|(name, fields)| (name, laid_by_c(&fields))).collect();
    assert_eq!(BTreeMap::from(laid), wanted);
    // What 64 bits make of them.
    let size = |name: &str| wanted[name].0;
    assert_eq!(
        [size("SpanNote"), size("SpanHeading"), size("SpanLimits")],
        [40, 40, 20]
    );
}

#[test]
fn the_constants_are_those_of_the_header() {
    let header = header();
    let defined = header
        .lines()
        .filter_map(|line| line.strip_prefix("#define SPAN_")?.split_once(' '));
    let wanted: BTreeMap<&str, &str> = between(&header, "enum {", "}")
        .flat_map(|constants| list(constants, ','))
        .filter_map(|constant| constant.strip_prefix("SPAN_")?.split_once(" = "))
        .chain(defined)
        .collect();
    let raw = raw();
    let ours: Vec<_> = between(&raw, "const ", ";")
        .filter_map(|text| text.split_once(": u32 = "))
        .collect();
    assert!(ours.len() > 10, "{ours:?}");
    for (name, value) in ours {
        assert_eq!(wanted.get(name), Some(&value), "{name}");
    }
}
