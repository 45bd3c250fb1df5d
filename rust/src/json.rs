//! JSON: texts, numbers and values as it writes them.
#![forbid(unsafe_code)]
use crate::kind::Kind;

/// Whether a byte of a text doesn't stand in a JSON string as it is.
fn is_escaped(byte: u8) -> bool {
    byte < b' ' || byte == b'"' || byte == b'\\'
}

/// Whether none is, of a text.
fn is_plain(text: &[u8]) -> bool {
    // So many are looked at together.
    const CHUNK: usize = 8;
    let are_plain = |bytes: &[u8]| !bytes.iter().fold(false, |found, &byte| found | is_escaped(byte));
    text.chunks_exact(CHUNK).all(are_plain)
        && match text.last_chunk::<CHUNK>() {
            // Some of these were looked at before.
            Some(last) => are_plain(last),
            None => !text.iter().any(|&byte| is_escaped(byte)),
        }
}

/// Puts a text behind others as it stands in a JSON string.
pub(crate) fn put_escaped(text: &[u8], out: &mut Vec<u8>) {
    if is_plain(text) {
        return out.extend_from_slice(text);
    }
    for part in text.split_inclusive(|&byte| is_escaped(byte)) {
        match part.split_last() {
            Some((&byte, before)) if is_escaped(byte) => {
                out.extend_from_slice(before);
                put_escape(byte, out);
            }
            _ => out.extend_from_slice(part),
        }
    }
}

fn put_escape(byte: u8, out: &mut Vec<u8>) {
    let letter = match byte {
        b'\n' => b'n',
        b'\r' => b'r',
        b'\t' => b't',
        b'"' | b'\\' => byte,
        control => {
            // It takes two digits.
            let digit = |number: u8| b"0123456789abcdef"[usize::from(number & 15)];
            out.extend_from_slice(&[b'\\', b'u', b'0', b'0', digit(control >> 4), digit(control)]);
            return;
        }
    };
    out.extend_from_slice(&[b'\\', letter]);
}

/// The digits of the numbers below 100.
const PAIRS: [[u8; 2]; 100] = {
    let mut pairs = [[0; 2]; 100];
    let mut number = 0;
    while number < 100 {
        pairs[number] = [b'0' + number as u8 / 10, b'0' + number as u8 % 10];
        number += 1;
    }
    pairs
};

/// Puts a number behind others, in decimal.
pub(crate) fn put_number(mut number: u64, out: &mut Vec<u8>) {
    if number < 10 {
        return out.push(b'0' + number as u8);
    }
    let mut digits = [0; 20];
    let mut begin = digits.len();
    while number >= 10 {
        begin -= 2;
        digits[begin..begin + 2].copy_from_slice(&PAIRS[(number % 100) as usize]);
        number /= 100;
    }
    // One digit is left, or none.
    if number > 0 {
        begin -= 1;
        digits[begin] = b'0' + number as u8;
    }
    out.extend_from_slice(&digits[begin..]);
}

/// Puts a value of this kind behind others: a number that JSON hasn't as a string.
pub(crate) fn put_value(kind: Kind, value: &[u8], out: &mut Vec<u8>) {
    let stands = match kind {
        Kind::Text => false,
        Kind::Integer => is_integer(value),
        Kind::Float => is_decimal(value),
        Kind::Bool => matches!(value, b"true" | b"false"),
    };
    if !stands {
        out.push(b'"');
        put_escaped(value, out);
        return out.push(b'"');
    }
    out.extend_from_slice(value);
    if kind == Kind::Float && !value.contains(&b'.') {
        out.extend_from_slice(b".0");
    }
}

fn is_integer(value: &[u8]) -> bool {
    match value.strip_prefix(b"-").unwrap_or(value) {
        [b'0'] => true,
        [b'1'..=b'9', rest @ ..] => rest.iter().all(u8::is_ascii_digit),
        _ => false,
    }
}

// As the standard library writes finite numbers, with a fraction or without.
fn is_decimal(value: &[u8]) -> bool {
    let mut parts = value.splitn(2, |&byte| byte == b'.');
    let whole = parts.next().is_some_and(is_integer);
    whole
        && parts
            .next()
            .is_none_or(|fraction| !fraction.is_empty() && fraction.iter().all(u8::is_ascii_digit))
}

#[cfg(test)]
mod tests {
    use super::{put_escaped, put_number, put_value};
    use crate::kind::Kind;

    fn text_of(put: impl FnOnce(&mut Vec<u8>)) -> String {
        // Nothing that stands there is touched.
        let mut out = b"before".to_vec();
        put(&mut out);
        let text = String::from_utf8(out).expect("texts");
        text.strip_prefix("before").expect("it stands there").to_owned()
    }

    fn quoted(text: &str) -> String {
        format!("\"{}\"", text_of(|out| put_escaped(text.as_bytes(), out)))
    }

    #[test]
    fn each_byte_is_escaped_or_not_wherever_it_stands() {
        for byte in 0..=0x7f_u8 {
            let letter = char::from(byte);
            let escaped = match letter {
                '"' => "\\\"".to_owned(),
                '\\' => "\\\\".to_owned(),
                '\n' => "\\n".to_owned(),
                '\r' => "\\r".to_owned(),
                '\t' => "\\t".to_owned(),
                control if byte < 0x20 => format!("\\u{:04x}", u32::from(control)),
                letter => letter.to_string(),
            };
            for (before, behind) in [(0, 0), (1, 0), (15, 1), (16, 15), (17, 40), (31, 0), (32, 16)] {
                let (before, behind) = ("x".repeat(before), "\u{e9}".repeat(behind));
                let text = format!("{before}{letter}{behind}{letter}");
                assert_eq!(quoted(&text), format!("\"{before}{escaped}{behind}{escaped}\""));
            }
        }
    }

    #[test]
    fn numbers_have_their_digits() {
        for number in [0, 1, 9, 10, 1_000_000, u64::MAX - 1, u64::MAX] {
            assert_eq!(text_of(|out| put_number(number, out)), number.to_string());
        }
    }

    #[test]
    fn values_are_json_of_their_kinds() {
        let least = f64::MIN_POSITIVE.to_string();
        let table = [
            (Kind::Text, "1", "\"1\""),
            (Kind::Text, "true", "\"true\""),
            (Kind::Integer, "0", "0"),
            (Kind::Integer, "-7", "-7"),
            (
                Kind::Integer,
                &i128::MIN.to_string(),
                "-170141183460469231731687303715884105728",
            ),
            (
                Kind::Integer,
                &u128::MAX.to_string(),
                "340282366920938463463374607431768211455",
            ),
            (Kind::Integer, "x", "\"x\""),
            (Kind::Integer, "", "\"\""),
            (Kind::Integer, "-", "\"-\""),
            (Kind::Integer, "+7", "\"+7\""),
            (Kind::Integer, "07", "\"07\""),
            (Kind::Float, "1", "1.0"),
            (Kind::Float, "-0", "-0.0"),
            (Kind::Float, "0.1", "0.1"),
            (Kind::Float, &least, &least),
            (Kind::Float, "NaN", "\"NaN\""),
            (Kind::Float, "-inf", "\"-inf\""),
            (Kind::Float, "1.", "\"1.\""),
            (Kind::Float, ".5", "\".5\""),
            (Kind::Float, "1e16", "\"1e16\""),
            (Kind::Float, "1.5.2", "\"1.5.2\""),
            (Kind::Bool, "true", "true"),
            (Kind::Bool, "false", "false"),
            (Kind::Bool, "\"", "\"\\\"\""),
        ];
        for (kind, value, wanted) in table {
            assert_eq!(text_of(|out| put_value(kind, value.as_bytes(), out)), wanted);
        }
    }
}
