//! JSON as far as the cases use it: objects, arrays, texts, whole numbers from 0 on, and null.

use std::fmt;

use crate::unfit::Unfit;

/// A value.
#[derive(Clone, Debug, PartialEq, Eq)]
pub enum Json {
    /// `null`.
    Null,
    /// A whole number.
    Number(usize),
    /// A text.
    Text(String),
    /// An array.
    List(Vec<Json>),
    /// An object; its fields keep their order.
    Fields(Vec<(String, Json)>),
}

/// Reads a text that is one value.
pub fn read(text: &str) -> Result<Json, Unfit> {
    let mut reader = Reader { text, place: 0 };
    let value = reader.value()?;
    match reader.next() {
        None => Ok(value),
        Some(_) => reader.wrong("the end"),
    }
}

struct Reader<'a> {
    text: &'a str,
    place: usize,
}

impl Reader<'_> {
    fn wrong<T>(&self, wanted: &str) -> Result<T, Unfit> {
        Err(Unfit(format!("no JSON that is known here: {wanted} is wanted at octet {}", self.place)))
    }

    /// The octet that comes next, blanks left out.
    fn next(&mut self) -> Option<u8> {
        let rest = &self.text.as_bytes()[self.place..];
        self.place += rest.iter().take_while(|octet| octet.is_ascii_whitespace()).count();
        self.text.as_bytes().get(self.place).copied()
    }

    /// Whether this octet comes next; it is then taken.
    fn takes(&mut self, octet: u8) -> bool {
        let there = self.next() == Some(octet);
        self.place += usize::from(there);
        there
    }

    fn value(&mut self) -> Result<Json, Unfit> {
        match self.next() {
            Some(b'{') => self.row(b'}', Reader::field).map(Json::Fields),
            Some(b'[') => self.row(b']', Reader::value).map(Json::List),
            Some(b'"') => self.text().map(Json::Text),
            Some(b'0'..=b'9') => self.number(),
            _ if self.text[self.place..].starts_with("null") => {
                self.place += 4;
                Ok(Json::Null)
            }
            _ => self.wrong("a value"),
        }
    }

    /// What stands between two brackets, parted by commas. The first bracket has been seen.
    fn row<T>(&mut self, last: u8, item: fn(&mut Self) -> Result<T, Unfit>) -> Result<Vec<T>, Unfit> {
        self.place += 1;
        let mut items = Vec::new();
        if self.takes(last) {
            return Ok(items);
        }
        loop {
            items.push(item(self)?);
            if self.takes(last) {
                return Ok(items);
            }
            if !self.takes(b',') {
                return self.wrong("a comma or a bracket");
            }
        }
    }

    fn field(&mut self) -> Result<(String, Json), Unfit> {
        if self.next() != Some(b'"') {
            return self.wrong("the name of a field");
        }
        let name = self.text()?;
        if !self.takes(b':') {
            return self.wrong("a colon");
        }
        Ok((name, self.value()?))
    }

    fn number(&mut self) -> Result<Json, Unfit> {
        let rest = &self.text[self.place..];
        let end = rest.find(|char: char| !char.is_ascii_digit()).unwrap_or(rest.len());
        match rest[..end].parse() {
            Ok(number) => {
                self.place += end;
                Ok(Json::Number(number))
            }
            Err(_) => self.wrong("a number that fits"),
        }
    }

    /// The quote that a text begins with has been seen.
    fn text(&mut self) -> Result<String, Unfit> {
        self.place += 1;
        let mut text = String::new();
        loop {
            let rest = &self.text[self.place..];
            let Some(end) = rest.find(['"', '\\']) else {
                return self.wrong("the end of a text");
            };
            text += &rest[..end];
            self.place += end + 1;
            if rest[end..].starts_with('"') {
                return Ok(text);
            }
            text.push(self.escaped()?);
        }
    }

    fn escaped(&mut self) -> Result<char, Unfit> {
        let char = match self.text.as_bytes().get(self.place) {
            Some(b'n') => '\n',
            Some(b'"') => '"',
            Some(b'\\') => '\\',
            _ => return self.wrong("an escape that the cases have"),
        };
        self.place += 1;
        Ok(char)
    }
}

impl fmt::Display for Json {
    fn fmt(&self, out: &mut fmt::Formatter) -> fmt::Result {
        match self {
            Json::Null => out.write_str("null"),
            Json::Number(number) => write!(out, "{number}"),
            Json::Text(text) => write!(out, "{text:?}"),
            Json::List(items) => {
                let items: Vec<String> = items.iter().map(Json::to_string).collect();
                write!(out, "[{}]", items.join(", "))
            }
            Json::Fields(fields) => {
                let fields: Vec<String> = fields.iter().map(|(name, value)| format!("{name:?}: {value}")).collect();
                write!(out, "{{{}}}", fields.join(", "))
            }
        }
    }
}

#[cfg(test)]
mod tests {
    use super::{read, Json};

    #[test]
    fn every_form_is_read_and_written() {
        let text = r#"{"a": [], "b": [0, 65536, null], "c": {}, "d": "x\n\"\\"}"#;
        let value = read(text).expect("the text is JSON");
        assert_eq!(value.to_string(), text);
        let tight: String = text.chars().filter(|&char| char != ' ').collect();
        assert_eq!(read(&tight), Ok(value));
    }

    #[test]
    fn other_texts_are_errors() {
        let wrong = [
            "",
            "[",
            "[1",
            "[1 2]",
            "[1,]",
            "{1: 2}",
            r#"{"a" 1}"#,
            r#"{"a": 1"#,
            "1.5",
            "-1",
            "true",
            "nul",
            r#""a"#,
            r#""\t""#,
            r#""\"#,
            "1 2",
            "99999999999999999999",
        ];
        for text in wrong {
            assert!(read(text).is_err(), "{text} is read as JSON");
        }
        assert_eq!(read(" 1 "), Ok(Json::Number(1)));
    }
}
