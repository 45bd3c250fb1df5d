//! Which texts are names and keys as the proved registry takes them, and how all others are written: by the rule that
//! [`Meta::name`](crate::Meta::name) states. Whoever undoes it gets the same bytes.
#![forbid(unsafe_code)]
use crate::error::Error;
use crate::level::Level;
use crate::meta::{Fields, Given, Meta};
use crate::packed::reserve;
use crate::refusal::Refusal;
use std::borrow::Cow;

/// The longest name, in bytes, as it is written.
const LONGEST: usize = 64;
/// What is written before the bytes.
const MARK: &str = "--";
/// How a text of this kind begins.
const SIGN: u8 = b'-';

/// Of a call that has only keys.
pub(crate) const NO_NAME: &Meta<'_> = &Meta::new(Level::Trace, "", "");

/// Whether it begins as one that is written otherwise than it stands.
#[inline]
pub(crate) fn is_marked(text: impl AsRef<[u8]>) -> bool {
    text.as_ref().starts_with(MARK.as_bytes())
}

/// Whether this name or one of these keys does.
#[inline]
fn are_marked(name: &str, fields: Fields<'_>) -> bool {
    is_marked(name) || fields.iter().any(|(key, _)| is_marked(key))
}

/// Whether the proved registry takes it: 1 to 64 ASCII letters, digits, `_`, `.` and `-`.
fn is_name(text: &str) -> bool {
    let is_plain = |byte: u8| is_itself(byte) || byte == SIGN;
    (1..=LONGEST).contains(&text.len()) && text.bytes().all(is_plain)
}

fn is_itself(byte: u8) -> bool {
    byte.is_ascii_alphanumeric() || matches!(byte, b'_' | b'.')
}

/// The text as it is written; refused where it is too long for that.
pub(crate) fn written(text: &str) -> Result<Cow<'_, str>, Refusal> {
    if is_name(text) && !is_marked(text) {
        return Ok(Cow::Borrowed(text));
    }
    // No byte takes less than one, so a longer one can't be written.
    if text.len() > LONGEST {
        return Err(Refusal::BAD_NAME);
    }
    let mut bytes = Vec::new();
    reserve(&mut bytes, MARK.len() + 3 * text.len())?;
    bytes.extend_from_slice(MARK.as_bytes());
    for byte in text.bytes() {
        if is_itself(byte) {
            bytes.push(byte);
        } else {
            bytes.extend([SIGN, digit(byte >> 4), digit(byte & 15)]);
        }
    }
    if bytes.len() > LONGEST {
        return Err(Refusal::BAD_NAME);
    }
    // They are ASCII.
    Ok(Cow::Owned(String::from_utf8(bytes).unwrap_or_default()))
}

fn digit(number: u8) -> u8 {
    b"0123456789ABCDEF"[usize::from(number)]
}

/// The text that is written so.
pub(crate) fn read(written: &str) -> Cow<'_, str> {
    match written.strip_prefix(MARK) {
        Some(rest) => Cow::Owned(String::from_utf8_lossy(&bytes_of(rest)).into_owned()),
        None => Cow::Borrowed(written),
    }
}

fn bytes_of(rest: &str) -> Vec<u8> {
    let mut parts = rest.split(char::from(SIGN));
    let mut bytes = parts.next().unwrap_or_default().as_bytes().to_vec();
    for part in parts {
        let number = part.get(..2).and_then(|digits| u8::from_str_radix(digits, 16).ok());
        bytes.extend(number);
        bytes.extend(part.bytes().skip(2));
    }
    bytes
}

/// A call with a name and keys, which are any texts. It may be made again.
pub(crate) trait Named<T>: Fn(&Meta<'_>, &Given<'_>) -> Result<T, Refusal> + Copy {}
impl<T, F: Fn(&Meta<'_>, &Given<'_>) -> Result<T, Refusal> + Copy> Named<T> for F {}

/// Makes a call with the name and the keys as they are, or, where they are no names, as they are written.
#[inline(always)]
pub(crate) fn named<T>(meta: &Meta<'_>, given: &Given<'_>, call: impl Named<T>) -> Result<T, Error> {
    let made = if are_marked(meta.name, given.fields) {
        Err(Refusal::BAD_NAME)
    } else {
        call(meta, given)
    };
    match made {
        Ok(answer) => Ok(answer),
        Err(refusal) => {
            let again = call;
            Ok(with_written(refusal, meta, given, &again)?)
        }
    }
}

// Makes a call again that was refused for its names, with the name and the keys as they are written.
#[cold]
#[inline(never)]
fn with_written<T>(refusal: Refusal, meta: &Meta<'_>, given: &Given<'_>, call: &impl Named<T>) -> Result<T, Error> {
    if refusal != Refusal::BAD_NAME {
        return Err(refusal.into());
    }
    let naming = |text: &str, refusal: Refusal| match refusal {
        Refusal::BAD_NAME => Error::bad_name(text),
        other => other.into(),
    };
    let name = &written(meta.name).map_err(|refusal| naming(meta.name, refusal))?;
    let (mut keys, mut fields) = (Vec::new(), Vec::new());
    reserve(&mut keys, given.fields.len())?;
    reserve(&mut fields, given.fields.len())?;
    for (key, _) in given.fields {
        keys.push(written(key).map_err(|refusal| naming(key, refusal))?);
    }
    fields.extend(keys.iter().zip(given.fields).map(|(key, (_, value))| (&**key, *value)));
    let given = Given {
        fields: &fields,
        kinds: given.kinds,
    };
    Ok(call(&Meta { name, ..*meta }, &given)?)
}

#[cfg(test)]
mod tests {
    use super::{is_marked, is_name, read, written, LONGEST};

    #[test]
    fn names_stand_as_they_are() {
        for name in ["a", "GET", "http.method", "a-b_c.9", "-a--b-", &"n".repeat(64)] {
            assert!(is_name(name) && written(name).as_deref() == Ok(name), "{name}");
            assert_eq!(read(name), name);
        }
        for name in ["", "GET /users", "r#type", "\u{e9}", "a:b", "a\n", &"n".repeat(65)] {
            assert!(!is_name(name), "{name}");
        }
    }

    #[test]
    fn others_are_written_with_their_bytes_numbers() {
        let table = [
            ("GET /users", "--GET-20-2Fusers"),
            ("", "--"),
            ("--", "---2D-2D"),
            ("--a-b", "---2D-2Da-2Db"),
            ("\u{e9}\0", "---C3-A9-00"),
        ];
        for (text, wanted) in table {
            assert_eq!(written(text).as_deref(), Ok(wanted));
            assert_eq!(read(wanted), text);
        }
        assert!(written(&" ".repeat(20)).is_ok() && written(&" ".repeat(21)).is_err());
        assert!(written(&"n".repeat(65)).is_err());
    }

    #[test]
    fn what_is_written_is_read_again() {
        let mut random = 7_u64;
        let mut next = |bound: u64| {
            random = random.wrapping_mul(6_364_136_223_846_793_005).wrapping_add(1);
            (random >> 33) % bound
        };
        let letters: Vec<char> = "-- \0/azAZ09_.:\u{7f}\u{e9}\u{20ac}\u{1f600}".chars().collect();
        let mut long = 0;
        for _ in 0..20_000 {
            let length = next(24);
            let text: String = (0..length)
                .map(|_| letters[next(letters.len() as u64) as usize])
                .collect();
            let Ok(name) = written(&text) else {
                long += 1;
                continue;
            };
            assert!(is_name(&name) && name.len() <= LONGEST, "{text:?}");
            assert_eq!(read(&name), text);
            assert!(*name == *text || is_marked(&*name));
        }
        assert!((1..10_000).contains(&long));
    }
}
