//! Scripts and turns as TOML.
use std::fmt::{self, Write};

/// A tree of data. Its text is a value of TOML on one line.
#[derive(Clone, Debug, PartialEq, Eq)]
pub enum Data {
    /// `true` or `false`
    Boolean(bool),
    /// A whole number.
    Integer(i128),
    /// A text.
    Text(String),
    /// An array, of elements of any kinds.
    Array(Vec<Data>),
    /// A table.
    Table(Table),
}

/// A script, a setup, a turn, or a table in one of these. Its text is a document of TOML, with a line for each key.
#[derive(Clone, Debug, Default, PartialEq, Eq)]
pub struct Table(Vec<(String, Data)>);

/// A [`Table`] of these keys and values: `table! { client: "c", at_least: 5 }`.
#[macro_export]
macro_rules! table {
    ($($key:ident : $value:expr),* $(,)?) => { $crate::Table::new()$(.with(stringify!($key), $value))* };
}

impl Table {
    /// A table without keys.
    pub fn new() -> Table {
        Table::default()
    }

    /// The table with one more key.
    #[must_use]
    pub fn with(mut self, key: &str, value: impl Into<Data>) -> Table {
        self.0.push((key.to_owned(), value.into()));
        self
    }
}

impl fmt::Display for Table {
    fn fmt(&self, to: &mut fmt::Formatter<'_>) -> fmt::Result {
        self.0.iter().try_for_each(|(key, value)| {
            write_text(to, key)?;
            writeln!(to, " = {value}")
        })
    }
}

impl fmt::Display for Data {
    fn fmt(&self, to: &mut fmt::Formatter<'_>) -> fmt::Result {
        match self {
            Data::Boolean(value) => value.fmt(to),
            Data::Integer(number) => number.fmt(to),
            Data::Text(text) => write_text(to, text),
            Data::Array(elements) => write_all(to, '[', elements, ']', |to, element| element.fmt(to)),
            Data::Table(Table(pairs)) => write_all(to, '{', pairs, '}', |to, (key, value)| {
                write_text(to, key)?;
                write!(to, " = {value}")
            }),
        }
    }
}

type Written<'a, T> = fn(&mut fmt::Formatter<'a>, &T) -> fmt::Result;

/// Writes elements with commas between them.
fn write_all<'a, T>(
    to: &mut fmt::Formatter<'a>,
    open: char,
    elements: &[T],
    close: char,
    write: Written<'a, T>,
) -> fmt::Result {
    to.write_char(open)?;
    for (place, element) in elements.iter().enumerate() {
        if place > 0 {
            to.write_str(", ")?;
        }
        write(to, element)?;
    }
    to.write_char(close)
}

/// Writes a text, or a key, in quotes.
fn write_text(to: &mut fmt::Formatter<'_>, text: &str) -> fmt::Result {
    to.write_char('"')?;
    for character in text.chars() {
        match character {
            '"' | '\\' => write!(to, "\\{character}")?,
            '\0'..' ' | '\u{7f}' => write!(to, "\\u{:04x}", u32::from(character))?,
            _ => to.write_char(character)?,
        }
    }
    to.write_char('"')
}

impl From<bool> for Data {
    fn from(value: bool) -> Data {
        Data::Boolean(value)
    }
}

impl From<&str> for Data {
    fn from(text: &str) -> Data {
        Data::Text(text.to_owned())
    }
}

impl From<String> for Data {
    fn from(text: String) -> Data {
        Data::Text(text)
    }
}

impl From<&String> for Data {
    fn from(text: &String) -> Data {
        Data::Text(text.clone())
    }
}

impl From<Table> for Data {
    fn from(table: Table) -> Data {
        Data::Table(table)
    }
}

impl<T: Into<Data>> From<Vec<T>> for Data {
    fn from(elements: Vec<T>) -> Data {
        Data::Array(elements.into_iter().map(Into::into).collect())
    }
}

impl<T: Into<Data>, const N: usize> From<[T; N]> for Data {
    fn from(elements: [T; N]) -> Data {
        Data::Array(elements.into_iter().map(Into::into).collect())
    }
}

/// A pair is an array of two: a validator's key and power, a certificate's update.
impl<A: Into<Data>, B: Into<Data>> From<(A, B)> for Data {
    fn from((one, other): (A, B)) -> Data {
        Data::Array(vec![one.into(), other.into()])
    }
}

macro_rules! integers {
    ($($number:ty)*) => { $(
        impl From<$number> for Data {
            fn from(number: $number) -> Data {
                Data::Integer(number.into())
            }
        }
    )* };
}

integers! { i32 i64 u8 u16 u32 u64 }

#[cfg(test)]
mod tests {
    use super::*;

    #[test]
    fn trees_are_written() {
        let table = table! { a: [1u64, 2], b: [("x", 3)], c: Vec::<Table>::new(), d: table! { e: true, f: -1 } };
        let lines = ["\"a\" = [1, 2]", "\"b\" = [[\"x\", 3]]", "\"c\" = []", "\"d\" = {\"e\" = true, \"f\" = -1}", ""];
        assert_eq!(table.to_string(), lines.join("\n"));
    }

    #[test]
    fn texts_are_escaped() {
        assert_eq!(Data::from("a\"\\\n\u{7f}é😀").to_string(), r#""a\"\\\u000a\u007fé😀""#);
        assert_eq!(Table::new().with("a b", 1).to_string(), "\"a b\" = 1\n");
    }
}
