//! The fields of a line, for words about them: what is a field is the check's to say, and a test holds this to the model.

use crate::memory;
use std::borrow::Cow;
use std::ops::Range;

/// What is wrong with a line's quotation marks.
#[derive(Clone, Copy, Debug, PartialEq, Eq)]
pub enum Wrong {
    MarkInBareField,
    TextAfterClosingMark,
    NotClosed,
}

#[derive(Clone, Copy, PartialEq)]
enum State {
    Start,
    Bare,
    Quoted,
    Closed,
}

/// The most fields that rule 7 allows a line.
pub const MOST_FIELDS: usize = 32;

/// Where the fields of a line stand, or what is wrong at which place; places count from 0. Of a line that has too many it is the first ones:
/// there may be millions, and nobody asks for them.
pub fn split(line: &[u8]) -> Result<Vec<Range<usize>>, (Wrong, usize)> {
    let mut fields = Vec::new();
    each(line, |field| {
        if fields.len() < MOST_FIELDS {
            fields.push(field);
        }
    })?;
    Ok(fields)
}

/// How many fields a line has, or what is wrong with it.
pub fn count(line: &[u8]) -> Result<usize, (Wrong, usize)> {
    let mut count = 0;
    each(line, |_| count += 1)?;
    Ok(count)
}

/// Walks over the fields of a line.
fn each(line: &[u8], mut take: impl FnMut(Range<usize>)) -> Result<(), (Wrong, usize)> {
    let (mut state, mut from) = (State::Start, 0);
    for (place, &byte) in line.iter().enumerate() {
        state = match (state, byte) {
            (State::Quoted, b'"') => State::Closed,
            (State::Quoted, _) => State::Quoted,
            (_, b',') => {
                take(from..place);
                from = place + 1;
                State::Start
            }
            (State::Start | State::Closed, b'"') => State::Quoted,
            (State::Bare, b'"') => return Err((Wrong::MarkInBareField, place)),
            (State::Closed, _) => return Err((Wrong::TextAfterClosingMark, place)),
            _ => State::Bare,
        };
    }
    if state == State::Quoted {
        return Err((Wrong::NotClosed, from));
    }
    take(from..line.len());
    Ok(())
}

/// Where the field under a column stands in a line, if there is one; columns count from 1.
pub fn field(line: &[u8], column: usize) -> Option<Range<usize>> {
    let (mut place, mut found) = (0, None);
    let walked = each(line, |field| {
        place += 1;
        if place == column {
            found = Some(field);
        }
    });
    walked.ok().and(found)
}

/// A field without its outer marks, if it has them.
fn inside(raw: &[u8]) -> Option<&[u8]> {
    raw.strip_prefix(b"\"").and_then(|rest| rest.strip_suffix(b"\""))
}

/// Is this the value of a field? Such a name has no marks in it, so nothing is copied.
pub fn is_named(raw: &[u8], name: &str) -> bool {
    inside(raw).unwrap_or(raw) == name.as_bytes()
}

/// The value of a field: outer marks taken off, a doubled mark inside means one.
pub fn value(raw: &[u8]) -> Cow<'_, [u8]> {
    let Some(inside) = inside(raw) else { return Cow::Borrowed(raw) };
    let marks = inside.iter().filter(|byte| **byte == b'"').count();
    if marks == 0 {
        return Cow::Borrowed(inside);
    }
    let mut seen = 0;
    let kept = |byte: &u8| {
        seen += usize::from(*byte == b'"');
        *byte != b'"' || seen % 2 == 1
    };
    Cow::Owned(memory::list(inside.iter().copied().filter(kept), inside.len() - marks / 2))
}

#[cfg(test)]
mod tests {
    use super::*;

    fn values(line: &str) -> Vec<String> {
        let fields = split(line.as_bytes()).expect("good marks");
        fields.into_iter().map(|field| String::from_utf8_lossy(&value(&line.as_bytes()[field])).into_owned()).collect()
    }

    /// The starred lines of document 01, and lines after its table.
    #[test]
    fn lines_of_fields() {
        assert_eq!(values("\"a\"\"b\",c"), ["a\"b", "c"]);
        assert_eq!(values(""), [""]);
        assert_eq!(values("a,"), ["a", ""]);
        assert_eq!(values("\"\",\"a,b\",\"\"\"\"\"\""), ["", "a,b", "\"\""]);
        assert_eq!(split(b"x,a\"b"), Err((Wrong::MarkInBareField, 3)));
        assert_eq!(split(b"\"a\"b"), Err((Wrong::TextAfterClosingMark, 3)));
        assert_eq!(split(b"x,\"a"), Err((Wrong::NotClosed, 2)));
    }

    #[test]
    fn fields_by_their_columns() {
        let line = b"a,\"b,c\",,d";
        assert_eq!([1, 2, 3, 4].map(|column| field(line, column)), [Some(0..1), Some(2..7), Some(8..8), Some(9..10)]);
        assert_eq!([field(line, 0), field(line, 5), field(b"a,b\"", 1)], [None, None, None]);
        assert_eq!([&line[..], b"", b"a,"].map(count), [Ok(4), Ok(1), Ok(2)]);
        assert_eq!(count(b"a,b\""), Err((Wrong::MarkInBareField, 3)));
        let many = b",".repeat(99);
        assert_eq!((count(&many), split(&many).map(|fields| fields.len())), (Ok(100), Ok(MOST_FIELDS)));
    }

    #[test]
    fn names_with_and_without_marks() {
        for (raw, is_it) in
            [("a", true), ("\"a\"", true), ("\"a", false), ("\"\"a\"\"", false), ("", false), ("A", false)]
        {
            assert_eq!(is_named(raw.as_bytes(), "a"), is_it, "{raw}");
        }
    }
}
