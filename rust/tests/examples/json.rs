//! A strict reader of JSON.
use std::str::Chars;

#[derive(Clone, Debug, PartialEq)]
pub enum Json {
    Null,
    Bool(bool),
    Number(f64),
    Text(String),
    List(Vec<Json>),
    // No two have the same key.
    Object(Vec<(String, Json)>),
}

impl Json {
    /// What a text is; what is wrong with it, and what stands behind that, where it isn't JSON.
    pub fn read(text: &str) -> Result<Json, String> {
        let mut reader = Reader(text.chars());
        let value = reader.value();
        let value = value.map_err(|wrong| format!("{wrong} before {:?}", reader.rest()))?;
        reader.skip_blanks();
        match reader.rest() {
            "" => Ok(value),
            rest => Err(format!("more than a value: {rest:?}")),
        }
    }

    pub fn get(&self, key: &str) -> Option<&Json> {
        let Json::Object(members) = self else { return None };
        members.iter().find(|(name, _)| name == key).map(|(_, value)| value)
    }

    pub fn text(&self) -> Option<&str> {
        match self {
            Json::Text(text) => Some(text),
            _ => None,
        }
    }

    pub fn number(&self) -> Option<f64> {
        match self {
            Json::Number(number) => Some(*number),
            _ => None,
        }
    }

    pub fn list(&self) -> Option<&[Json]> {
        match self {
            Json::List(values) => Some(values),
            _ => None,
        }
    }
}

struct Reader<'a>(Chars<'a>);

impl<'a> Reader<'a> {
    fn rest(&self) -> &'a str {
        self.0.as_str()
    }

    fn skip_blanks(&mut self) {
        self.0 = self.rest().trim_start_matches([' ', '\t', '\n', '\r']).chars();
    }

    fn takes(&mut self, word: &str) -> bool {
        let behind = self.rest().strip_prefix(word);
        self.0 = behind.unwrap_or(self.rest()).chars();
        behind.is_some()
    }

    fn value(&mut self) -> Result<Json, String> {
        self.skip_blanks();
        let words = [
            ("null", Json::Null),
            ("true", Json::Bool(true)),
            ("false", Json::Bool(false)),
        ];
        if let Some((_, value)) = words.into_iter().find(|(word, _)| self.takes(word)) {
            Ok(value)
        } else if self.takes("\"") {
            self.text().map(Json::Text)
        } else if self.takes("[") {
            self.all("]", Reader::value).map(Json::List)
        } else if self.takes("{") {
            let members = self.all("}", Reader::member)?;
            let is_twice =
                |(place, (key, _)): (usize, &(String, Json))| members[..place].iter().any(|(it, _)| it == key);
            match members.iter().enumerate().any(is_twice) {
                true => Err("an object that has a key twice".to_owned()),
                false => Ok(Json::Object(members)),
            }
        } else {
            self.number()
        }
    }

    // One after another, up to `end`.
    fn all<T>(&mut self, end: &str, one: impl Fn(&mut Self) -> Result<T, String>) -> Result<Vec<T>, String> {
        let mut all = Vec::new();
        self.skip_blanks();
        if self.takes(end) {
            return Ok(all);
        }
        loop {
            all.push(one(self)?);
            self.skip_blanks();
            if self.takes(end) {
                return Ok(all);
            }
            if !self.takes(",") {
                return Err(format!("neither a comma nor {end}"));
            }
        }
    }

    fn member(&mut self) -> Result<(String, Json), String> {
        self.skip_blanks();
        if !self.takes("\"") {
            return Err("no key".to_owned());
        }
        let key = self.text()?;
        self.skip_blanks();
        if !self.takes(":") {
            return Err("no colon".to_owned());
        }
        Ok((key, self.value()?))
    }

    fn text(&mut self) -> Result<String, String> {
        let mut text = String::new();
        loop {
            match self.0.next().ok_or("a text without an end")? {
                '"' => return Ok(text),
                '\\' => text.push(self.escaped()?),
                control if control < ' ' => return Err("a control character in a text".to_owned()),
                letter => text.push(letter),
            }
        }
    }

    fn escaped(&mut self) -> Result<char, String> {
        Ok(match self.0.next().ok_or("a text without an end")? {
            letter @ ('"' | '\\' | '/') => letter,
            'n' => '\n',
            'r' => '\r',
            't' => '\t',
            'b' => '\u{8}',
            'f' => '\u{c}',
            'u' => {
                let digits: String = self.0.by_ref().take(4).collect();
                let number = u32::from_str_radix(&digits, 16).map_err(|_| "no four digits")?;
                // (of letters beyond the first 65,536 nobody here writes the two halves)
                char::from_u32(number).ok_or("half a letter")?
            }
            _ => return Err("an escape that there isn't".to_owned()),
        })
    }

    fn number(&mut self) -> Result<Json, String> {
        let rest = self.rest();
        let end = rest.find(|letter: char| !letter.is_ascii_digit() && !"+-.eE".contains(letter));
        let word = &rest[..end.unwrap_or(rest.len())];
        let digits = word.strip_prefix('-').unwrap_or(word);
        let whole = digits.split(['.', 'e', 'E']).next().unwrap_or_default();
        let are_digits = !whole.is_empty() && whole.bytes().all(|digit| digit.is_ascii_digit());
        let is_whole = whole == "0" || are_digits && !whole.starts_with('0');
        // (Rust reads a number without digits behind its point)
        let number: f64 = word.parse().map_err(|_| "no value")?;
        if !is_whole || digits.split(['e', 'E']).any(|part| part.ends_with('.')) {
            return Err("no value".to_owned());
        }
        self.0 = rest[word.len()..].chars();
        Ok(Json::Number(number))
    }
}

#[test]
fn it_reads_json_and_nothing_else() {
    let good = r#" {"a": [1, -2.5e3, 0, "x\"\\\u0041\n", true, false, null, {}], "b": []} "#;
    let read = Json::read(good).expect("it is JSON");
    let list = read.get("a").and_then(Json::list).expect("a list");
    assert_eq!(list[1].number(), Some(-2500.0));
    assert_eq!(list[3].text(), Some("x\"\\A\n"));
    assert_eq!(
        (list.len(), &list[6], &list[7]),
        (8, &Json::Null, &Json::Object(Vec::new()))
    );
    let wrong = [
        "",
        "[1,]",
        "[1 2]",
        "{\"a\":1,}",
        "{a:1}",
        "{\"a\":1,\"a\":2}",
        "01",
        "1.",
        ".5",
        "+1",
        "NaN",
        "inf",
        "\"\n\"",
        "\"",
        "\"\\x\"",
        "\"\\u12\"",
        "[",
        "1 1",
        "tru",
        "--1",
        "'a'",
    ];
    for text in wrong {
        assert!(Json::read(text).is_err(), "{text:?}");
    }
}
