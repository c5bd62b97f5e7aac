//! JSON as the program writes it: its numbers are whole and not below 0.
use crate::Error;
use std::{iter::Peekable, str::CharIndices};

/// A value of JSON.
#[derive(Clone, Debug, PartialEq, Eq)]
pub enum Json {
    /// `null`
    Null,
    /// `true` or `false`
    Boolean(bool),
    /// A number; a moment in nanoseconds may be above 2^64.
    Number(u128),
    /// A text.
    Text(String),
    /// An array.
    Array(Vec<Json>),
    /// An object, in the order in which it was written.
    Object(Vec<(String, Json)>),
}

impl Json {
    /// The value of a text.
    pub fn read(text: &str) -> Result<Json, Error> {
        let mut reader = Reader { text, rest: text.char_indices().peekable() };
        let value = reader.value(0);
        reader.pass_space();
        match value {
            Some(value) if reader.rest.peek().is_none() => Ok(value),
            _ => Err(Error::Unreadable(text.chars().take(200).collect())),
        }
    }

    /// The value of a key, if this is an object that has it.
    pub fn get(&self, key: &str) -> Option<&Json> {
        match self {
            Json::Object(members) => members.iter().find(|(name, _)| name == key).map(|(_, value)| value),
            _ => None,
        }
    }

    pub(crate) fn at(&self, key: &str) -> Result<&Json, Error> {
        self.get(key).ok_or_else(|| Error::Unreadable(format!("no key {key}")))
    }

    /// The number of a key.
    pub(crate) fn number(&self, key: &str) -> Result<u64, Error> {
        match self.at(key)? {
            Json::Number(number) => u64::try_from(*number).map_err(|_| Error::Unreadable(format!("{key} is {number}"))),
            _ => Err(Error::Unreadable(format!("{key} is no number"))),
        }
    }

    /// The text of a key.
    pub(crate) fn text(&self, key: &str) -> Result<String, Error> {
        match self.at(key)? {
            Json::Text(text) => Ok(text.clone()),
            _ => Err(Error::Unreadable(format!("{key} is no text"))),
        }
    }

    /// The truth of a key.
    pub(crate) fn boolean(&self, key: &str) -> Result<bool, Error> {
        match self.at(key)? {
            Json::Boolean(value) => Ok(*value),
            _ => Err(Error::Unreadable(format!("{key} is no boolean"))),
        }
    }

    /// The elements of the array of a key, each read.
    pub(crate) fn array<T>(&self, key: &str, read: impl Fn(&Json) -> Result<T, Error>) -> Result<Vec<T>, Error> {
        match self.at(key)? {
            Json::Array(elements) => elements.iter().map(read).collect(),
            _ => Err(Error::Unreadable(format!("{key} is no array"))),
        }
    }

    /// What is read of this, if it has a key.
    pub(crate) fn if_has<T>(&self, key: &str, read: impl Fn(&Json) -> Result<T, Error>) -> Result<Option<T>, Error> {
        self.get(key).map(|_| read(self)).transpose()
    }
}

const DEEPEST: usize = 64;

struct Reader<'a> {
    text: &'a str,
    rest: Peekable<CharIndices<'a>>,
}

impl Reader<'_> {
    fn pass_space(&mut self) {
        while self.rest.next_if(|(_, c)| matches!(c, ' ' | '\t' | '\n' | '\r')).is_some() {}
    }

    /// Passes space and a character; none where another one stands.
    fn pass(&mut self, wanted: char) -> Option<()> {
        self.pass_space();
        self.rest.next_if(|(_, c)| *c == wanted).map(|_| ())
    }

    fn word(&mut self, word: &str, value: Json) -> Option<Json> {
        word.chars().all(|c| self.rest.next_if(|(_, next)| *next == c).is_some()).then_some(value)
    }

    fn value(&mut self, depth: usize) -> Option<Json> {
        self.pass_space();
        match self.rest.peek()?.1 {
            _ if depth > DEEPEST => None,
            '{' => self.elements('{', '}', |reader| reader.member(depth)).map(Json::Object),
            '[' => self.elements('[', ']', |reader| reader.value(depth + 1)).map(Json::Array),
            '"' => self.string().map(Json::Text),
            't' => self.word("true", Json::Boolean(true)),
            'f' => self.word("false", Json::Boolean(false)),
            'n' => self.word("null", Json::Null),
            _ => self.digits().map(Json::Number),
        }
    }

    /// Elements between two marks, with commas between them.
    fn elements<T>(&mut self, open: char, close: char, read: impl Fn(&mut Self) -> Option<T>) -> Option<Vec<T>> {
        self.pass(open)?;
        let mut elements = Vec::new();
        while self.pass(close).is_none() {
            if !elements.is_empty() {
                self.pass(',')?;
            }
            elements.push(read(self)?);
        }
        Some(elements)
    }

    fn member(&mut self, depth: usize) -> Option<(String, Json)> {
        self.pass_space();
        let key = self.string()?;
        self.pass(':')?;
        Some((key, self.value(depth + 1)?))
    }

    fn digits(&mut self) -> Option<u128> {
        let begin = self.rest.peek()?.0;
        while self.rest.next_if(|(_, c)| c.is_ascii_digit()).is_some() {}
        let end = self.rest.peek().map_or(self.text.len(), |(place, _)| *place);
        self.text[begin..end].parse().ok()
    }

    fn string(&mut self) -> Option<String> {
        self.rest.next_if(|(_, c)| *c == '"')?;
        let mut text = String::new();
        loop {
            match self.rest.next()?.1 {
                '"' => return Some(text),
                '\\' => text.push(self.escaped()?),
                c if c < ' ' => return None,
                c => text.push(c),
            }
        }
    }

    fn escaped(&mut self) -> Option<char> {
        match self.rest.next()?.1 {
            c @ ('"' | '\\' | '/') => Some(c),
            'b' => Some('\u{8}'),
            'f' => Some('\u{c}'),
            'n' => Some('\n'),
            'r' => Some('\r'),
            't' => Some('\t'),
            'u' => self.code(),
            _ => None,
        }
    }

    /// A character by its code, of which one above U+FFFF is written as two.
    fn code(&mut self) -> Option<char> {
        let first = self.half()?;
        if !(0xd800..0xdc00).contains(&first) {
            return char::from_u32(first);
        }
        self.word("\\u", Json::Null)?;
        let second = self.half()?.checked_sub(0xdc00).filter(|rest| *rest < 0x400)?;
        char::from_u32(0x10000 + ((first - 0xd800) << 10) + second)
    }

    fn half(&mut self) -> Option<u32> {
        (0..4).try_fold(0, |code, _| Some(code * 16 + self.rest.next()?.1.to_digit(16)?))
    }
}

#[cfg(test)]
mod tests {
    use super::*;

    #[test]
    fn values_are_read() {
        let value = Json::read(r#" {"a": [1, true, null], "b": {"c": "\"\\\u00e9\ud83d\ude00\n"}, "d": []} "#).unwrap();
        assert_eq!(value.get("a"), Some(&Json::Array(vec![Json::Number(1), Json::Boolean(true), Json::Null])));
        assert_eq!(value.at("b").unwrap().text("c").unwrap(), "\"\\é😀\n");
        assert_eq!(value.array("d", |_| Ok(())).unwrap(), []);
        assert_eq!(Json::read("109223372036854775807").unwrap(), Json::Number(109_223_372_036_854_775_807));
        assert!(value.number("a").is_err() && value.text("x").is_err() && value.boolean("a").is_err());
    }

    #[test]
    fn other_texts_are_refused() {
        let deep = "[".repeat(100_000);
        for text in [
            "",
            "{",
            "[1,]",
            "{\"a\" 1}",
            "{\"a\": 1,}",
            "1 2",
            "-1",
            "1.5",
            "1e3",
            "tru",
            "\"a",
            "\"\\x\"",
            "\"\\ud83d\"",
            "\"\n\"",
            &deep,
        ] {
            assert!(Json::read(text).is_err(), "{text:.20}");
        }
    }
}
