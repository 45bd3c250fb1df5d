//! A strict reader of JSON whose texts borrow from what is read.
use std::borrow::Cow;

/// Arrays and objects stand in one another at most so deep.
const MOST_LEVELS: u32 = 127;

/// The bytes that don't stand in a text as they are.
const ENDS_RUN: [bool; 256] = {
    let mut ends = [false; 256];
    let mut byte = 0;
    while byte < b' ' {
        ends[byte as usize] = true;
        byte += 1;
    }
    ends[b'"' as usize] = true;
    ends[b'\\' as usize] = true;
    ends
};

/// A value. Only what scripts use is told apart.
pub enum Value<'a> {
    Null,
    /// A number in digits alone that a `u64` holds.
    Whole(u64),
    Text(Cow<'a, str>),
    List(Vec<Value<'a>>),
    Object(Members<'a>),
    /// A truth value or another number.
    Other,
}

pub type Members<'a> = Vec<(Cow<'a, str>, Value<'a>)>;

pub struct NotJson;

type Read<T> = Result<T, NotJson>;

/// The value that the text is.
pub fn read(text: &str) -> Read<Value<'_>> {
    let mut reader = Reader { text, place: 0 };
    let value = reader.value(MOST_LEVELS)?;
    reader.skip_blanks();
    if reader.place == text.len() {
        Ok(value)
    } else {
        Err(NotJson)
    }
}

struct Reader<'a> {
    text: &'a str,
    place: usize,
}

impl<'a> Reader<'a> {
    fn peek(&self) -> Option<u8> {
        self.text.as_bytes().get(self.place).copied()
    }

    fn next(&mut self) -> Read<u8> {
        let byte = self.peek().ok_or(NotJson)?;
        self.place += 1;
        Ok(byte)
    }

    fn skip_blanks(&mut self) {
        while matches!(self.peek(), Some(b' ' | b'\t' | b'\r' | b'\n')) {
            self.place += 1;
        }
    }

    /// The next byte that is no blank.
    fn mark(&mut self) -> Read<u8> {
        self.skip_blanks();
        self.next()
    }

    fn word(&mut self, rest: &str, value: Value<'a>) -> Read<Value<'a>> {
        if self.text.as_bytes()[self.place..].starts_with(rest.as_bytes()) {
            self.place += rest.len();
            Ok(value)
        } else {
            Err(NotJson)
        }
    }

    /// A value in which arrays and objects may be nested so many levels deep.
    fn value(&mut self, levels: u32) -> Read<Value<'a>> {
        match self.mark()? {
            b'"' => Ok(Value::Text(self.rest_of_text()?)),
            b'{' => Ok(Value::Object(self.members(levels.checked_sub(1).ok_or(NotJson)?)?)),
            b'[' => Ok(Value::List(self.items(levels.checked_sub(1).ok_or(NotJson)?)?)),
            b'n' => self.word("ull", Value::Null),
            b't' => self.word("rue", Value::Other),
            b'f' => self.word("alse", Value::Other),
            b'-' | b'0'..=b'9' => {
                self.place -= 1;
                self.number()
            }
            _ => Err(NotJson),
        }
    }

    fn members(&mut self, levels: u32) -> Read<Members<'a>> {
        let mut members = Vec::new();
        let mut mark = self.mark()?;
        if mark == b'}' {
            return Ok(members);
        }
        loop {
            if mark != b'"' {
                return Err(NotJson);
            }
            let key = self.rest_of_text()?;
            if self.mark()? != b':' {
                return Err(NotJson);
            }
            members.push((key, self.value(levels)?));
            match self.mark()? {
                b'}' => return Ok(members),
                b',' => mark = self.mark()?,
                _ => return Err(NotJson),
            }
        }
    }

    fn items(&mut self, levels: u32) -> Read<Vec<Value<'a>>> {
        let mut items = Vec::new();
        self.skip_blanks();
        if self.peek() == Some(b']') {
            self.place += 1;
            return Ok(items);
        }
        loop {
            items.push(self.value(levels)?);
            match self.mark()? {
                b']' => return Ok(items),
                b',' => {}
                _ => return Err(NotJson),
            }
        }
    }

    /// Passes over digits, and answers how many there were.
    fn digits(&mut self) -> usize {
        let start = self.place;
        while matches!(self.peek(), Some(b'0'..=b'9')) {
            self.place += 1;
        }
        self.place - start
    }

    fn need_digits(&mut self) -> Read<()> {
        if self.digits() == 0 {
            return Err(NotJson);
        }
        Ok(())
    }

    /// A number. One that no finite 64-bit float holds is none.
    fn number(&mut self) -> Read<Value<'a>> {
        let start = self.place;
        let mut is_plain = true;
        if self.peek() == Some(b'-') {
            self.place += 1;
            is_plain = false;
        }
        if self.peek() == Some(b'0') {
            self.place += 1;
        } else {
            self.need_digits()?;
        }
        if self.peek() == Some(b'.') {
            self.place += 1;
            self.need_digits()?;
            is_plain = false;
        }
        if matches!(self.peek(), Some(b'e' | b'E')) {
            self.place += 1;
            if matches!(self.peek(), Some(b'+' | b'-')) {
                self.place += 1;
            }
            self.need_digits()?;
            is_plain = false;
        }
        let written = &self.text[start..self.place];
        match written.parse() {
            Ok(number) if is_plain => Ok(Value::Whole(number)),
            _ if written.parse().is_ok_and(f64::is_finite) => Ok(Value::Other),
            _ => Err(NotJson),
        }
    }

    /// Passes over what stands in a text as it is.
    fn run(&mut self) -> &'a str {
        let start = self.place;
        let rest = &self.text.as_bytes()[start..];
        self.place += rest
            .iter()
            .position(|byte| ENDS_RUN[usize::from(*byte)])
            .unwrap_or(rest.len());
        &self.text[start..self.place]
    }

    /// A text after its first quotation mark.
    fn rest_of_text(&mut self) -> Read<Cow<'a, str>> {
        let first = self.run();
        if self.peek() == Some(b'"') {
            self.place += 1;
            return Ok(Cow::Borrowed(first));
        }
        let mut text = first.to_string();
        loop {
            match self.next()? {
                b'"' => return Ok(Cow::Owned(text)),
                b'\\' => text.push(self.escape()?),
                _ => return Err(NotJson),
            }
            text.push_str(self.run());
        }
    }

    /// What an escape means, after its backslash. Half of a surrogate pair alone is none.
    fn escape(&mut self) -> Read<char> {
        Ok(match self.next()? {
            b'"' => '"',
            b'\\' => '\\',
            b'/' => '/',
            b'b' => '\u{8}',
            b'f' => '\u{c}',
            b'n' => '\n',
            b'r' => '\r',
            b't' => '\t',
            b'u' => {
                let first = self.four_hex()?;
                if !(0xd800..0xdc00).contains(&first) {
                    return char::from_u32(first).ok_or(NotJson);
                }
                if self.next()? != b'\\' || self.next()? != b'u' {
                    return Err(NotJson);
                }
                let second = self.four_hex()?;
                if !(0xdc00..0xe000).contains(&second) {
                    return Err(NotJson);
                }
                let code = 0x10000 + ((first - 0xd800) << 10) + (second - 0xdc00);
                return char::from_u32(code).ok_or(NotJson);
            }
            _ => return Err(NotJson),
        })
    }

    fn four_hex(&mut self) -> Read<u32> {
        let mut code = 0;
        for _ in 0..4 {
            code = code << 4 | char::from(self.next()?).to_digit(16).ok_or(NotJson)?;
        }
        Ok(code)
    }
}
