//! Lines of a feed in pieces, with the fields marked that a finding or a refusal is about.

use super::Fault;
use crate::carets::goes_left;
use crate::facts::{breaking, About};
use crate::feed::Feed;
use crate::fields::{self, split};
use crate::names::Names;
use crate::safe;
use crate::value::Value;
use std::cell::RefCell;
use std::collections::HashMap;
use std::ops::Range;

/// A line longer than this many bytes is shown with gaps; so much is kept of a marked field, before a gap and after it.
const WHOLE: usize = safe::SHOWN_LINE;
const KEPT_MARKED: usize = 120;
const KEPT_BEFORE: usize = 100;
const KEPT_AFTER: usize = 40;

/// A line that is shown with a finding: its own, or another that it names.
#[derive(Debug, PartialEq)]
pub struct Shown {
    pub file: usize,
    pub line: usize,
    pub pieces: Vec<Piece>,
}

/// A piece of a line, safe to show.
#[derive(Debug, PartialEq)]
pub enum Piece {
    Plain(String),
    /// A marked field, and what it is called.
    Marked(String, String),
    /// So many bytes are left out.
    Gap(usize),
    /// What stands between two fields. The page shows what lies between two of these, or beside a gap, in a direction of its own.
    Comma,
}

/// A line longer than this is split once, however many findings name it: one of 100 MB may be named by 100,000.
const LONG: usize = 4096;

/// Where the fields of a line stand.
type Fields = Vec<Range<usize>>;

/// The headers of a feed, and its long lines by file and line, split once.
pub struct Headers<'a> {
    feed: &'a Feed,
    names: Names<'a>,
    long: RefCell<HashMap<(usize, usize), Fields>>,
}

/// A part of a line that is to be marked, and what it is called.
type Mark = (Range<usize>, String);

impl<'a> Headers<'a> {
    pub fn new(feed: &'a Feed) -> Self {
        Headers { feed, names: Names::new(feed), long: RefCell::default() }
    }

    /// Where the value of a column stands in a line, if it does.
    pub fn field(&self, file: usize, line: usize, column: &str) -> Option<Range<usize>> {
        let place = self.names.place(file, column)?;
        let text = self.feed.line(file, line)?;
        if text.len() <= LONG {
            return split(text).ok()?.into_iter().nth(place);
        }
        let mut long = self.long.borrow_mut();
        long.entry((file, line)).or_insert_with(|| split(text).unwrap_or_default()).get(place).cloned()
    }

    /// The lines that go with a finding or a refusal: its own first, then those that its members name.
    pub fn lines(&self, fault: &Fault, about: &About) -> Vec<Shown> {
        let Fault { file, line, number, .. } = *fault;
        let own = self.shown(file, line, self.marks(fault, about));
        let others = others(file, about).into_iter().filter(|other| *other != (file, line));
        let others = others.filter_map(|(file, line)| {
            let marks = other_columns(number).iter().filter_map(|column| self.mark(file, line, column));
            self.shown(file, line, marks.collect())
        });
        own.into_iter().chain(others).collect()
    }

    fn mark(&self, file: usize, line: usize, column: &str) -> Option<Mark> {
        self.field(file, line, column).map(|field| (field, column.to_string()))
    }

    /// What is marked in the line itself.
    fn marks(&self, fault: &Fault, about: &About) -> Vec<Mark> {
        let Fault { file, line, column, number } = *fault;
        let text = self.feed.line(file, line).unwrap_or(&[]);
        // A field that is told by its column is that one, also where its name stands twice.
        let mut marks: Vec<Mark> = match column {
            Some(column) => {
                let field = fields::field(text, column);
                field.map(|field| (field, format!("column {column}"))).into_iter().collect()
            }
            None => columns(number, about).iter().filter_map(|name| self.mark(file, line, name)).collect(),
        };
        if let Some(byte) = size(about, "byte") {
            marks.push((byte - 1..text.len().min(byte), format!("byte {byte}")));
        }
        marks.sort_by_key(|(range, _)| range.start);
        marks
    }

    fn shown(&self, file: usize, line: usize, marks: Vec<Mark>) -> Option<Shown> {
        let text = self.feed.line(file, line)?;
        Some(Shown { file, line, pieces: apart(pieces(text, marks)) })
    }
}

/// A member of what is said, if it is a number above 0.
fn size(about: &About, name: &str) -> Option<usize> {
    about.members.iter().find(|(have, _)| *have == name).and_then(|(_, value)| number(value))
}

fn number(value: &Value) -> Option<usize> {
    let Value::Number(number) = value else { return None };
    usize::try_from(*number).ok().filter(|number| *number > 0)
}

/// The columns that are named in what is said, else those that the rule speaks of.
fn columns(number: usize, about: &About) -> Vec<String> {
    let mut named = Vec::new();
    about.members.iter().for_each(|(name, value)| named_columns(name, value, &mut named));
    if number < 20 || !named.is_empty() {
        return named;
    }
    let breaking = breaking(number, about);
    let columns: &[&str] = match number {
        22 => &["location_type", "parent_station"],
        23 => &["stop_id"],
        24 => &["start_date", "end_date"],
        26 | 27 => &["arrival_time", "departure_time"],
        28 => &["stop_sequence"],
        29 => &["arrival_time"],
        30 | 31 => &["trip_id"],
        60.. => &breaking,
        _ => &[],
    };
    columns.iter().map(|column| column.to_string()).collect()
}

/// Every `column`, `columns` and `date` among members, however deep.
fn named_columns(name: &str, value: &Value, named: &mut Vec<String>) {
    match (name, value) {
        ("column" | "columns", Value::Text(text)) => named.push(String::from_utf8_lossy(text).into_owned()),
        // Rule 20 goes by the date too, where it names one.
        ("date", _) => named.push(name.to_string()),
        ("columns" | "references", Value::List(list)) => {
            list.iter().for_each(|value| named_columns(name, value, named))
        }
        ("references", Value::Members(members)) => {
            members.iter().for_each(|(name, value)| named_columns(name, value, named));
        }
        _ => {}
    }
}

/// The columns marked in the other lines that a finding names.
fn other_columns(number: usize) -> &'static [&'static str] {
    match number {
        22 | 23 => &["location_type"],
        28 => &["stop_sequence"],
        29 => &["departure_time"],
        31 => &["arrival_time", "departure_time"],
        _ => &[],
    }
}

/// The other lines that members name: file and line.
fn others(file: usize, about: &About) -> Vec<(usize, usize)> {
    let of = |(name, value): &(&str, Value)| -> Vec<(usize, usize)> {
        let file = match *name {
            "parent_line" | "stop_line" => 1,
            // Rule 2 counts all lines under the same name, and not in a list.
            "untimed" | "lines" => 5,
            // Those that lack a time are in `untimed`.
            "first_line" | "last_line" => return Vec::new(),
            name if name.ends_with("_line") => file,
            _ => return Vec::new(),
        };
        match value {
            Value::List(list) => list.iter().filter_map(|line| Some((file, number(line)?))).collect(),
            value if *name != "lines" => number(value).map(|line| (file, line)).into_iter().collect(),
            _ => Vec::new(),
        }
    };
    about.members.iter().flat_map(of).collect()
}

/// A line in pieces; marks are in order and don't overlap.
fn pieces(text: &[u8], marks: Vec<Mark>) -> Vec<Piece> {
    let whole = text.len() <= WHOLE;
    let (mut pieces, mut from) = (Vec::new(), 0);
    for (range, name) in marks {
        let (start, end) = (range.start.clamp(from, text.len()), range.end.clamp(from, text.len()));
        plain(&mut pieces, &text[from..start], whole);
        let (kept, cut) =
            if whole { (&text[start..end], false) } else { safe::beginning(&text[start..end], KEPT_MARKED) };
        pieces.push(Piece::Marked(safe::text(kept), name));
        if cut {
            pieces.push(Piece::Gap(end - start - kept.len()));
        }
        from = end;
    }
    plain(&mut pieces, &text[from..], whole);
    pieces
}

/// What isn't marked; of a long stretch the beginning and the end.
fn plain(pieces: &mut Vec<Piece>, text: &[u8], whole: bool) {
    if whole || text.len() <= KEPT_BEFORE + KEPT_AFTER {
        if !text.is_empty() {
            pieces.push(Piece::Plain(safe::text(text)));
        }
        return;
    }
    let (before, _) = safe::beginning(text, KEPT_BEFORE);
    // A byte of the form 10xxxxxx would be the middle of a character.
    let goes_on = |place: &usize| text[*place] & 0xC0 == 0x80;
    let start = text.len() - KEPT_AFTER;
    let start = (start..text.len().min(start + 4)).find(|place| !goes_on(place)).unwrap_or(start);
    pieces.extend([
        Piece::Plain(safe::text(before)),
        Piece::Gap(start - before.len()),
        Piece::Plain(safe::text(&text[start..])),
    ]);
}

/// The same with the fields of a line apart, if letters in it go from right to left: such a letter would turn all around it, commas, digits and
/// other fields. In marks a comma is no end of a field.
fn apart(pieces: Vec<Piece>) -> Vec<Piece> {
    let goes_left =
        |piece: &Piece| matches!(piece, Piece::Plain(text) | Piece::Marked(text, _) if text.contains(goes_left));
    if !pieces.iter().any(goes_left) {
        return pieces;
    }
    let (mut all, mut quoted) = (Vec::new(), false);
    for piece in pieces {
        match piece {
            Piece::Plain(text) => cut(&text, &mut quoted, &mut all),
            piece => {
                quoted = match &piece {
                    Piece::Marked(text, _) => quoted ^ has_odd_marks(text),
                    _ => false,
                };
                all.push(piece);
            }
        }
    }
    all
}

fn has_odd_marks(text: &str) -> bool {
    text.matches('"').count() % 2 == 1
}

/// Cuts a text at each comma that isn't in marks.
fn cut(text: &str, quoted: &mut bool, all: &mut Vec<Piece>) {
    let mut parts = text.split(|char| {
        *quoted ^= char == '"';
        char == ',' && !*quoted
    });
    let plain = |part: &str| (!part.is_empty()).then(|| Piece::Plain(part.to_string()));
    all.extend(parts.next().and_then(plain));
    parts.for_each(|part| all.extend([Some(Piece::Comma), plain(part)].into_iter().flatten()));
}

#[cfg(test)]
mod tests {
    use super::*;

    fn plain(text: &str) -> Piece {
        Piece::Plain(text.to_string())
    }

    fn marked(text: &str) -> Piece {
        Piece::Marked(text.to_string(), "c".to_string())
    }

    fn mark(range: Range<usize>) -> Mark {
        (range, "c".to_string())
    }

    #[test]
    fn a_short_line_is_whole() {
        assert_eq!(pieces(b"a,,c", vec![mark(0..1), mark(2..2)]), [marked("a"), plain(","), marked(""), plain(",c")]);
        assert_eq!(pieces(b"\xFF<", vec![]), [plain("\\xFF<")]);
        assert_eq!(pieces(b"", vec![]), []);
    }

    #[test]
    fn a_long_line_has_gaps_and_keeps_its_marks() {
        let text = [&[b'x'; 1000][..], b",", &[b'y'; 1000], b",z"].concat();
        let wanted = [
            plain(&"x".repeat(100)),
            Piece::Gap(861),
            plain(&format!("{},", "x".repeat(39))),
            marked(&"y".repeat(120)),
            Piece::Gap(880),
            plain(",z"),
        ];
        assert_eq!(pieces(&text, vec![mark(1001..2001)]), wanted);
    }

    /// Fields stand apart where letters go from right to left, a field in marks with all that is in it; else the line is as it was.
    #[test]
    fn fields_of_a_line_that_goes_left() {
        let hebrew = "א,\"ב, ג\"\"\",,d".as_bytes();
        let wanted = [plain("א"), Piece::Comma, plain("\"ב, ג\"\"\""), Piece::Comma, Piece::Comma, plain("d")];
        assert_eq!(apart(pieces(hebrew, vec![])), wanted);
        // The comma in marks stands behind a byte that is marked, and the first one between two marks.
        let pieces = vec![marked("א"), plain(",\"b"), marked("\\x09"), plain(",c\",d"), Piece::Gap(7), plain(",e\"")];
        let field = [plain("\"b"), marked("\\x09"), plain(",c\"")];
        let rest = [Piece::Comma, plain("d"), Piece::Gap(7), Piece::Comma, plain("e\"")];
        let wanted: Vec<Piece> = [marked("א"), Piece::Comma].into_iter().chain(field).chain(rest).collect();
        assert_eq!(apart(pieces), wanted);
        assert_eq!(apart(vec![plain("a,b"), marked("c")]), [plain("a,b"), marked("c")]);
    }
}
