//! Keys that macros make of identifiers.
#![forbid(unsafe_code)]

/// A key without the `r#` of raw identifiers, made while the program is compiled. For the macros.
#[doc(hidden)]
#[derive(Debug)]
pub struct Key<const LONGEST: usize> {
    bytes: [u8; LONGEST],
    length: usize,
}

impl<const LONGEST: usize> Key<LONGEST> {
    /// Of identifiers with dots between them, of so many bytes as they stand.
    #[must_use]
    pub const fn of(identifiers: &str) -> Key<LONGEST> {
        let from = identifiers.as_bytes();
        let (mut bytes, mut length, mut place) = ([0; LONGEST], 0, 0);
        while place < from.len() {
            let begins = place == 0 || from[place - 1] == b'.';
            // (an identifier has no `#` elsewhere)
            if begins && place + 1 < from.len() && from[place] == b'r' && from[place + 1] == b'#' {
                place += 2;
            } else {
                bytes[length] = from[place];
                (length, place) = (length + 1, place + 1);
            }
        }
        Key { bytes, length }
    }

    /// Its text.
    #[must_use]
    pub const fn text(&self) -> &str {
        let (text, _) = self.bytes.split_at(self.length);
        // Whole letters alone were left out.
        match std::str::from_utf8(text) {
            Ok(text) => text,
            Err(_) => "",
        }
    }
}

#[cfg(test)]
mod tests {
    use super::Key;

    #[test]
    fn a_raw_identifier_is_the_identifier() {
        let table = [
            ("user", "user"),
            ("r#type", "type"),
            ("r#type.r#in.name", "type.in.name"),
            ("http.r#type", "http.type"),
            ("r.r", "r.r"),
            ("größe.r#ä", "größe.ä"),
            ("r", "r"),
        ];
        for (identifiers, key) in table {
            assert_eq!(Key::<32>::of(identifiers).text(), key);
        }
    }
}
