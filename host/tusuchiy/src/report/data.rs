//! What the page's script reads: JSON in elements that nothing in it can end, in blocks that are parsed when they are shown.

use super::marks::{Headers, Piece, Shown};
use super::{faults_at, Fault, Subject};
use crate::explain::meaning;
use crate::feed::NAMES;
use crate::fields::value;
use crate::memory;
use crate::progress;
use crate::safe;
use crate::value::Value;
use std::borrow::Cow;
use std::collections::{BTreeSet, HashMap};
use std::io::{self, Write};
use tusuchiy::WIDTHS;

/// How many findings stand in a block.
const BLOCK: usize = 500;

/// The most stops on the map beside those that the list names.
const MOST_STOPS: usize = 65_536;

/// The longest part of a stop's or a trip's name that is shown, in bytes.
const SHOWN_NAME: usize = safe::SHOWN_VALUE;

/// Lets no byte through that could end a script element or begin markup. In JSON they stand in strings only.
struct InScript<'a>(&'a mut dyn Write);

impl Write for InScript<'_> {
    fn write(&mut self, bytes: &[u8]) -> io::Result<usize> {
        for piece in bytes.split_inclusive(|byte| b"<>&".contains(byte)) {
            match piece.split_last() {
                Some((byte, before)) if b"<>&".contains(byte) => {
                    self.0.write_all(before)?;
                    write!(self.0, "\\u{byte:04x}")?;
                }
                _ => self.0.write_all(piece)?,
            }
        }
        Ok(bytes.len())
    }

    fn flush(&mut self) -> io::Result<()> {
        self.0.flush()
    }
}

/// An element with JSON in it.
fn element(out: &mut dyn Write, id: &str, write: impl FnOnce(&mut dyn Write) -> io::Result<()>) -> io::Result<()> {
    write!(out, "<script type=\"application/json\" id=\"{id}\">")?;
    write(&mut InScript(out))?;
    out.write_all(b"</script>\n")
}

/// A list whose elements are written one by one: all of them at once would take memory for each.
fn list<Element>(
    out: &mut dyn Write,
    all: impl Iterator<Item = Element>,
    write: impl Fn(&mut dyn Write, Element) -> io::Result<()>,
) -> io::Result<()> {
    out.write_all(b"[")?;
    for (place, element) in all.enumerate() {
        out.write_all(if place == 0 { b"" } else { b"," })?;
        write(out, element)?;
    }
    out.write_all(b"]")
}

/// Writes all elements.
pub fn write(out: &mut dyn Write, subject: &Subject) -> io::Result<()> {
    let headers = Headers::new(subject.feed);
    let trips = Trips::of(subject, &headers);
    let blocks = subject.listed.chunks(BLOCK);
    element(out, "data", |out| write!(out, "{}", head(subject, blocks.len())))?;
    element(out, "index", |out| {
        let numbers = subject.listed().flat_map(|fault| [fault.file, fault.line, fault.number, stop(subject, &fault)]);
        list(out, numbers, |out, number| write!(out, "{number}"))
    })?;
    for (number, block) in blocks.enumerate() {
        let faults = faults_at(&subject.report.outcome, block);
        let write_row = |out: &mut dyn Write, fault| write!(out, "{}", row(subject, &headers, &trips, &fault));
        element(out, &format!("block-{number}"), |out| list(out, faults, write_row))?;
        progress::far("writing the report", number * BLOCK, subject.listed.len());
    }
    let write_stop = |out: &mut dyn Write, line| write!(out, "{}", stop_row(subject, &headers, line));
    element(out, "stops", |out| list(out, stop_lines(subject), write_stop))?;
    let write_trip = |out: &mut dyn Write, place| write_trip(out, subject, &headers, trips.lines(place));
    element(out, "trips", |out| list(out, 0..trips.places.len(), write_trip))
}

fn head(subject: &Subject, blocks: usize) -> Value {
    let numbers = subject.counts.keys();
    let meanings = numbers.map(|number| Value::List(vec![Value::size(*number), Value::text(meaning(*number))]));
    Value::Members(vec![
        ("files", Value::texts(NAMES)),
        ("meanings", Value::List(meanings.collect())),
        ("word", Value::text(subject.word())),
        ("total", Value::size(subject.listed.len())),
        ("all", Value::size(subject.count())),
        ("stops", Value::size(stop_count(subject))),
        ("block", Value::size(BLOCK)),
        ("blocks", Value::size(blocks)),
    ])
}

/// A number of the record of a line.
fn number(subject: &Subject, file: usize, line: usize, place: usize) -> i32 {
    let table = &subject.report.tables[file - 1];
    table.get((line - 1) * WIDTHS[file - 1] + place).copied().unwrap_or(0)
}

/// The line in stops.txt of the stop that a finding is about, or at which its line calls; 0 is none.
fn stop(subject: &Subject, fault: &Fault) -> usize {
    match (fault.number, fault.file) {
        (20.., 1) => fault.line,
        (20.., 5) => line_of(number(subject, 5, fault.line, 1)),
        _ => 0,
    }
}

/// The line of a record; 0 for none.
fn line_of(record: i32) -> usize {
    usize::try_from(record).ok().filter(|record| *record > 0).map_or(0, |record| record + 1)
}

/// What is said of a fault, the lines that go with it, its trip among those that are drawn (-1 is none), and its column, if any.
fn row(subject: &Subject, headers: &Headers, trips: &Trips, fault: &Fault) -> Value {
    let about = subject.about(fault);
    let lines = headers.lines(fault, &about);
    let trip = trips.place(subject, headers, fault).map_or(-1, i64::from);
    let mut row = vec![Value::text(about.words), Value::List(lines.iter().map(shown).collect()), Value::Number(trip)];
    row.extend(subject.column(fault).map(Value::text));
    Value::List(row)
}

fn shown(line: &Shown) -> Value {
    let pieces = line.pieces.iter().map(|piece| match piece {
        Piece::Plain(text) => Value::text(text),
        Piece::Marked(text, name) => Value::texts([text, name]),
        Piece::Gap(bytes) => Value::size(*bytes),
        Piece::Comma => Value::text(","),
    });
    Value::List(vec![Value::size(line.file), Value::size(line.line), Value::List(pieces.collect())])
}

/// How many stops a feed has; none if it was refused.
fn stop_count(subject: &Subject) -> usize {
    if subject.refused() {
        0
    } else {
        subject.feed.line_count(1).saturating_sub(1)
    }
}

/// The lines of the stops that stand in the page: those that its list names, and of all as many as a map shows, evenly.
fn stop_lines(subject: &Subject) -> impl Iterator<Item = usize> {
    let count = stop_count(subject);
    let named: BTreeSet<usize> = subject.listed().map(|fault| stop(subject, &fault)).collect();
    let step = count.div_ceil(MOST_STOPS).max(1);
    (2..count + 2).filter(move |line| line % step == 0 || named.contains(line))
}

/// Its line; latitude and longitude in ten-millionths of a degree, both null of a stop without a place; its id and name.
fn stop_row(subject: &Subject, headers: &Headers, line: usize) -> Value {
    let has_place = number(subject, 1, line, 6) == 1;
    let coordinate = |place| Value::Number(number(subject, 1, line, place).into());
    let [latitude, longitude] = [2, 3].map(|place| if has_place { coordinate(place) } else { Value::Null });
    let [id, name] = ["stop_id", "stop_name"].map(|column| Value::text(name(subject, headers, 1, line, column)));
    Value::List(vec![Value::size(line), latitude, longitude, id, name])
}

/// A value that is shown as a name.
fn name(subject: &Subject, headers: &Headers, file: usize, line: usize, column: &str) -> String {
    let value = id(subject, headers, file, line, column);
    let (beginning, cut) = safe::beginning(&value, SHOWN_NAME);
    format!("{}{}", safe::text(beginning), if cut { "..." } else { "" })
}

fn id<'a>(subject: &Subject<'a>, headers: &Headers, file: usize, line: usize, column: &str) -> Cow<'a, [u8]> {
    let text = subject.feed.line(file, line).unwrap_or(&[]);
    headers.field(file, line, column).map_or(Cow::Borrowed(&[]), |field| value(&text[field]))
}

/// The trips that have a finding about time, each with its place in the page, and all their lines of stop_times.txt: by trip, stop_sequence and line.
struct Trips<'a> {
    places: HashMap<Cow<'a, [u8]>, u32>,
    order: Vec<(u32, u32)>,
}

/// Rules about the times and the order of a trip's lines.
fn is_about_time(fault: &Fault) -> bool {
    matches!((fault.number, fault.file), (26..=29 | 60 | 62, 5) | (31, 4))
}

impl<'a> Trips<'a> {
    fn of(subject: &Subject<'a>, headers: &Headers) -> Self {
        let mut places = HashMap::new();
        for fault in subject.listed().filter(is_about_time) {
            let next = places.len() as u32;
            places.entry(id(subject, headers, fault.file, fault.line, "trip_id")).or_insert(next);
        }
        let lines = if places.is_empty() { 0 } else { subject.feed.line_count(5) };
        let with_place = |line| Some((*places.get(&id(subject, headers, 5, line, "trip_id"))?, line as u32));
        let mut order = memory::list((2..=lines).filter_map(with_place), lines);
        order.sort_unstable_by_key(|&(place, line)| (place, number(subject, 5, line as usize, 2), line));
        Trips { places, order }
    }

    /// The lines of the trip at a place.
    fn lines(&self, place: usize) -> impl Iterator<Item = usize> + '_ {
        let start = self.order.partition_point(|&(of, _)| (of as usize) < place);
        self.order[start..].iter().take_while(move |&&(of, _)| of as usize == place).map(|&(_, line)| line as usize)
    }

    fn place(&self, subject: &Subject, headers: &Headers, fault: &Fault) -> Option<u32> {
        let trip = is_about_time(fault).then(|| id(subject, headers, fault.file, fault.line, "trip_id"))?;
        self.places.get(&trip).copied()
    }
}

/// A trip's id, and for each of its lines in the order of stop_sequence: line, sequence, arrival, departure, stop's line.
fn write_trip(
    out: &mut dyn Write,
    subject: &Subject,
    headers: &Headers,
    lines: impl Iterator<Item = usize>,
) -> io::Result<()> {
    let mut lines = lines.peekable();
    let id = lines.peek().map_or(String::new(), |&line| name(subject, headers, 5, line, "trip_id"));
    write!(out, "[{}, ", Value::text(id))?;
    list(out, lines, |out, line| {
        let [sequence, arrival, departure] = [2, 3, 4].map(|place| number(subject, 5, line, place));
        write!(out, "[{line}, {sequence}, {arrival}, {departure}, {}]", line_of(number(subject, 5, line, 1)))
    })?;
    out.write_all(b"]")
}

#[cfg(test)]
mod tests {
    use super::*;

    /// Nothing that HTML looks for in a script element gets through, and the text stays the same to a JSON reader.
    #[test]
    fn nothing_ends_the_element() {
        let mut out = Vec::new();
        let hostile = "</script><!--<script>&amp;\u{2028}\u{2029}]]>";
        element(&mut out, "x", |out| write!(out, "{}", Value::text(hostile))).expect("a vector takes all");
        let wanted = "<script type=\"application/json\" id=\"x\">\
            \"\\u003c/script\\u003e\\u003c!--\\u003cscript\\u003e\\u0026amp;\\u2028\\u2029]]\\u003e\"</script>\n";
        assert_eq!(String::from_utf8(out).expect("ASCII"), wanted);
    }
}
