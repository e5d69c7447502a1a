//! Values of a JSON document, written in plain ASCII.

use crate::safe;
use std::fmt::{self, Display, Formatter};
use std::io::Write;

/// A value; members stand in the order given.
#[derive(Clone, Debug, PartialEq)]
pub enum Value {
    Null,
    Bool(bool),
    Number(i64),
    /// Bytes of a feed; what isn't UTF-8 is written as U+FFFD.
    Text(Vec<u8>),
    List(Vec<Value>),
    Members(Members),
}

/// The members of an object.
pub type Members = Vec<(&'static str, Value)>;

impl Value {
    /// A text.
    pub fn text(text: impl AsRef<[u8]>) -> Self {
        Value::Text(text.as_ref().to_vec())
    }

    /// A count, a line or another size.
    pub fn size(size: usize) -> Self {
        Value::Number(size as i64)
    }

    /// A list of texts.
    pub fn texts<Text: AsRef<[u8]>>(texts: impl IntoIterator<Item = Text>) -> Self {
        Value::List(texts.into_iter().map(Value::text).collect())
    }

    /// A size, or null.
    pub fn maybe(size: Option<usize>) -> Self {
        size.map_or(Value::Null, Value::size)
    }

    /// Adds the value as it is written.
    pub fn write(&self, out: &mut Vec<u8>) {
        match self {
            Value::Null => out.extend(b"null"),
            Value::Bool(true) => out.extend(b"true"),
            Value::Bool(false) => out.extend(b"false"),
            // A vector takes all.
            Value::Number(number) => drop(write!(out, "{number}")),
            Value::Text(bytes) => write_text(bytes, out),
            Value::List(list) => write_all(b"[]", list.iter().map(|value| ("", value)), out),
            Value::Members(members) => write_all(b"{}", members.iter().map(|(name, value)| (*name, value)), out),
        }
    }
}

impl Display for Value {
    fn fmt(&self, out: &mut Formatter) -> fmt::Result {
        let mut written = Vec::new();
        self.write(&mut written);
        out.write_str(&String::from_utf8_lossy(&written))
    }
}

/// Adds a string; most are as they stand.
fn write_text(bytes: &[u8], out: &mut Vec<u8>) {
    let is_plain = |byte: &u8| matches!(byte, b' '..=b'~') && !matches!(byte, b'"' | b'\\');
    if bytes.iter().all(is_plain) {
        out.push(b'"');
        out.extend(bytes);
        out.push(b'"');
    } else {
        out.extend(safe::json(bytes).as_bytes());
    }
}

/// Adds elements between two brackets, with commas between them, each behind its name where it has one.
fn write_all<'a>(brackets: &[u8; 2], all: impl Iterator<Item = (&'a str, &'a Value)>, out: &mut Vec<u8>) {
    out.push(brackets[0]);
    for (place, (name, value)) in all.enumerate() {
        out.extend(if place == 0 { &b""[..] } else { b", " });
        if !name.is_empty() {
            write_text(name.as_bytes(), out);
            out.extend(b": ");
        }
        value.write(out);
    }
    out.push(brackets[1]);
}
