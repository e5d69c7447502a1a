//! The facts behind a finding or a refusal, each looked up in the plainest way that the documents' words allow.

use crate::columns::{Column, COLUMNS};
use crate::fields::{fields, line_ends, lines, Field, Line};
use crate::reading::{leftmost, twice, Feed, Row, MOST_BYTES, MOST_LINES};
use crate::records::{First, KEYS};
use crate::rules::Finding;
use crate::trips::{by_trip, first_call, last_call, leaves_after, repeats, Call};
use crate::{Files, FILES};
use std::cmp::Reverse;

/// A fact.
#[derive(Clone, Debug, PartialEq, Eq)]
pub enum Fact {
    None,
    Number(i64),
    Text(Vec<u8>),
    List(Vec<Fact>),
    Members(Facts),
}

/// Facts by name.
pub type Facts = Vec<(&'static str, Fact)>;

/// The files, in the order of their numbers.
pub const NAMES: [&str; FILES] =
    ["stops.txt", "routes.txt", "calendar.txt", "trips.txt", "stop_times.txt", "calendar_dates.txt"];

fn text(text: impl AsRef<[u8]>) -> Fact {
    Fact::Text(text.as_ref().to_vec())
}

fn count(count: usize) -> Fact {
    Fact::Number(count as i64)
}

fn stored(row: Row, column: &str) -> Fact {
    Fact::Number(row.number(column).into())
}

/// The first line of a file that has this value under this column.
fn first_line(feed: &Feed, file: usize, column: &str, value: &[u8]) -> Option<usize> {
    feed[file - 1].rows().position(|row| row.value(column) == value).map(|place| place + 2)
}

fn row(feed: &Feed, file: usize, line: usize) -> Row<'_> {
    feed[file - 1].record(line - 1)
}

fn time(row: Row, column: &str) -> Fact {
    clock(row.number(column))
}

/// A time as HH:MM:SS, none where it is empty.
fn clock(seconds: i32) -> Fact {
    match seconds {
        -1 => Fact::None,
        seconds => text(format!("{:02}:{:02}:{:02}", seconds / 3600, seconds % 3600 / 60, seconds % 60)),
    }
}

fn timed(row: Row) -> bool {
    !row.value("arrival_time").is_empty() && !row.value("departure_time").is_empty()
}

/// The lines of stop_times with this trip_id, in file order.
fn lines_of_trip(feed: &Feed, trip: &[u8]) -> Vec<Call> {
    by_trip(feed).remove(trip).unwrap_or_default()
}

/// The line on which a line of stop_times stands.
fn line_of(call: &Call) -> Fact {
    count(call.place + 2)
}

/// The facts behind a finding of a feed.
pub fn of_finding(feed: &Feed, finding: Finding) -> Facts {
    let [file, line, rule] = finding.map(|number| number as usize);
    let own = row(feed, file, line);
    match rule {
        20 => repeated(feed, file, own),
        21 => vec![("references", Fact::List(unresolved(feed, file, own)))],
        22 => parent(feed, own),
        23 => {
            let id = own.value("stop_id");
            let stop = first_line(feed, 1, "stop_id", id).expect("a stop that resolves");
            let kind = stored(row(feed, 1, stop), "location_type");
            vec![("stop_id", text(id)), ("stop_line", count(stop)), ("location_type", kind)]
        }
        24 => ["start_date", "end_date"].map(|column| (column, text(own.value(column)))).to_vec(),
        25 => vec![("columns", Fact::List(["route_short_name", "route_long_name"].map(text).to_vec()))],
        26 => times_given(own),
        27 => times(own),
        28 => same_sequence(feed, line, own),
        29 => late_departure(feed, line, own),
        30 => few_lines(feed, own),
        31 => ends(feed, own),
        60 | 62 => times(own),
        61 => ["pickup_type", "drop_off_type"].map(|column| (column, stored(own, column))).to_vec(),
        _ => panic!("no rule {rule}"),
    }
}

/// Rule 20: the id, in calendar_dates the service and then its date, and the first line that has it.
fn repeated(feed: &Feed, file: usize, own: Row) -> Facts {
    let (id, more) = KEYS[file - 1].split_first().expect("a file with ids");
    let mut facts = vec![("column", text(id)), ("value", text(own.value(id)))];
    facts.extend(more.iter().map(|&column| (column, text(own.value(column)))));
    facts.push(("earlier_line", count(First::new(&feed[file - 1], KEYS[file - 1]).of_line(own) + 1)));
    facts
}

/// Rule 21: the references that name no line, each with the files in which it was looked for.
fn unresolved(feed: &Feed, file: usize, own: Row) -> Vec<Fact> {
    let references: &[(&str, &[usize], &str)] = match file {
        1 => &[("parent_station", &[1], "stop_id")],
        4 => &[("route_id", &[2], "route_id"), ("service_id", &[3, 6], "service_id")],
        _ => &[("trip_id", &[4], "trip_id"), ("stop_id", &[1], "stop_id")],
    };
    let mut facts = Vec::new();
    for &(column, searched, id) in references {
        let value = own.value(column);
        if !value.is_empty() && searched.iter().all(|&file| first_line(feed, file, id, value).is_none()) {
            let searched = ("searched", Fact::List(searched.iter().map(|file| text(NAMES[file - 1])).collect()));
            facts.push(Fact::Members(vec![("column", text(column)), ("value", text(value)), searched]));
        }
    }
    facts
}

/// Rule 22, clause by clause.
fn parent(feed: &Feed, own: Row) -> Facts {
    let id = own.value("parent_station");
    let line = Some(id).filter(|id| !id.is_empty()).and_then(|id| first_line(feed, 1, "stop_id", id));
    let parent = line.map(|line| row(feed, 1, line).number("location_type"));
    let mut clauses = Vec::new();
    match own.number("location_type") {
        1 if !id.is_empty() => clauses.push(text("station_with_parent")),
        2 if id.is_empty() => clauses.push(text("entrance_without_parent")),
        3 if id.is_empty() => clauses.push(text("node_without_parent")),
        4 if id.is_empty() => clauses.push(text("boarding_area_without_parent")),
        _ => {}
    }
    match (own.number("location_type"), parent) {
        (_, None) | (4, Some(0)) | (0..=3, Some(1)) => {}
        (4, Some(_)) => clauses.push(text("parent_is_no_platform")),
        _ => clauses.push(text("parent_is_no_station")),
    }
    let kind = parent.map_or(Fact::None, |kind| Fact::Number(kind.into()));
    vec![
        ("clauses", Fact::List(clauses)),
        ("location_type", stored(own, "location_type")),
        ("parent_station", text(id)),
        ("parent_line", line.map_or(Fact::None, count)),
        ("parent_location_type", kind),
    ]
}

/// Rules 27, 60 and 62: both times, none where one is empty.
fn times(own: Row) -> Facts {
    ["arrival_time", "departure_time"].map(|column| (column, time(own, column))).to_vec()
}

/// Rule 26, clause by clause.
fn times_given(own: Row) -> Facts {
    let given = |column: &str| !own.value(column).is_empty();
    let mut clauses = Vec::new();
    if given("arrival_time") && !given("departure_time") {
        clauses.push(text("arrival_time_only"));
    }
    if given("departure_time") && !given("arrival_time") {
        clauses.push(text("departure_time_only"));
    }
    if own.value("timepoint") == b"1" && !timed(own) {
        clauses.push(text("timepoint_without_times"));
    }
    vec![
        ("clauses", Fact::List(clauses)),
        ("arrival_time", time(own, "arrival_time")),
        ("departure_time", time(own, "departure_time")),
        ("timepoint", stored(own, "timepoint")),
    ]
}

/// Rule 28: the first line of the trip with this sequence.
fn same_sequence(feed: &Feed, line: usize, own: Row) -> Facts {
    let calls = lines_of_trip(feed, own.value("trip_id"));
    let call = calls.iter().find(|call| call.place + 2 == line).expect("its own line at least");
    let earlier = calls.iter().find(|other| repeats(call, other)).expect("an earlier line of this sequence");
    vec![("stop_sequence", Fact::Number(call.sequence.into())), ("earlier_line", line_of(earlier))]
}

/// Rule 29: the line that departs latest of those that depart too late; of several the first in the trip's order.
fn late_departure(feed: &Feed, line: usize, own: Row) -> Facts {
    let calls = lines_of_trip(feed, own.value("trip_id"));
    let call = calls.iter().find(|call| call.place + 2 == line).expect("its own line at least");
    let late = calls.iter().filter(|other| leaves_after(other, call));
    let latest = late.max_by_key(|other| (other.departure, Reverse((other.sequence, other.place))));
    let latest = latest.expect("a line that departs too late");
    vec![
        ("stop_sequence", Fact::Number(call.sequence.into())),
        ("arrival_time", clock(call.arrival)),
        ("other_line", line_of(latest)),
        ("other_stop_sequence", Fact::Number(latest.sequence.into())),
        ("other_departure_time", clock(latest.departure)),
    ]
}

/// Rule 30: the lines of a trip.
fn few_lines(feed: &Feed, own: Row) -> Facts {
    let trip = own.value("trip_id");
    let lines = lines_of_trip(feed, trip).iter().map(line_of).collect();
    vec![("trip_id", text(trip)), ("lines", Fact::List(lines))]
}

/// Rule 31: the first line of a trip and the last, and which of them isn't timed.
fn ends(feed: &Feed, own: Row) -> Facts {
    let calls = lines_of_trip(feed, own.value("trip_id"));
    let [first, last] = [first_call(&calls), last_call(&calls)].map(|end| end.expect("a line of the trip"));
    let mut untimed = vec![first, last];
    untimed.dedup();
    untimed.retain(|end| !end.timed());
    let untimed = Fact::List(untimed.into_iter().map(line_of).collect());
    vec![("first_line", line_of(first)), ("last_line", line_of(last)), ("untimed", untimed)]
}

/// The facts behind a refusal, all but the words for the form that is wanted.
pub fn of_refusal(files: &Files, number: usize, file: usize, line: usize) -> Facts {
    let bytes = &files[file - 1];
    match number {
        1 => return vec![("limit", count(MOST_BYTES))],
        2 => return vec![("lines", count(line_ends(bytes))), ("limit", count(MOST_LINES))],
        4 => {
            let clause = if bytes.is_empty() { "empty" } else { "no_line_end" };
            return vec![("clause", text(clause)), ("missing", Fact::List(Vec::new())), ("guess", utf_16(bytes))];
        }
        _ => {}
    }
    let columns = COLUMNS[file - 1];
    let lines = lines(bytes);
    let own = lines[line - 1];
    let header = || values(fields(lines[0]).expect("a header that is read"));
    let own_fields = || fields(own).expect("a line of good marks");
    match number {
        5 => [stray(own), vec![("guess", utf_16(bytes))]].concat(),
        6 => marks(own),
        7 => vec![("fields", count(own_fields().len())), ("limit", count(32))],
        8 => repeated_name(&header(), columns),
        9 => {
            let missing = columns.iter().filter(|column| column.present && !header().contains(&column.name.into()));
            vec![("columns", Fact::List(missing.map(|column| text(column.name)).collect()))]
        }
        10 => vec![("fields", count(own_fields().len())), ("header_fields", count(header().len()))],
        14 => bad_byte(own, bytes),
        _ => bad_value(number, &header(), own_fields(), columns),
    }
}

fn values(fields: Vec<Field>) -> Vec<Vec<u8>> {
    fields.into_iter().map(|field| field.value).collect()
}

/// Rule 5: the first tab or CR.
fn stray(line: Line) -> Facts {
    let tab = line.text.iter().position(|&byte| byte == b'\t').unwrap_or(usize::MAX);
    let cr = line.text.iter().position(|&byte| byte == b'\r').unwrap_or(usize::MAX);
    let found = if tab < cr { "tab" } else { "CR" };
    vec![("found", text(found)), ("byte", count(tab.min(cr) + 1))]
}

/// Rule 14: the first byte that is left over when characters are taken off the line's front, and what the file may be.
fn bad_byte(line: Line, file: &[u8]) -> Facts {
    let mut rest = line.text;
    while let Some(length) = (1..=4.min(rest.len())).find(|&length| is_character(&rest[..length])) {
        rest = &rest[length..];
    }
    let found = rest.first().expect("a byte that begins no character");
    let guess = match utf_16(file) {
        Fact::None if *found != 0xC2 && *found != 0xC3 && may_be_windows_1252(file) => text("windows-1252"),
        guess => guess,
    };
    vec![("found", text(format!("{found:02X}"))), ("byte", count(line.text.len() - rest.len() + 1)), ("guess", guess)]
}

/// Are these bytes what UTF-8 writes for one character? Their low bits are its number, and it is written again.
fn is_character(bytes: &[u8]) -> bool {
    let first = match bytes.len() {
        1 => bytes[0],
        length => bytes[0] & (0x7F >> length),
    };
    let number = bytes[1..].iter().fold(u32::from(first), |number, byte| number << 6 | u32::from(byte & 0x3F));
    char::from_u32(number).is_some_and(|char| char.to_string().as_bytes() == bytes)
}

/// utf-16 for a file that begins with its mark.
fn utf_16(file: &[u8]) -> Fact {
    match file {
        [0xFF, 0xFE, ..] | [0xFE, 0xFF, ..] => text("utf-16"),
        _ => Fact::None,
    }
}

/// Windows-1252 has no character for five bytes; one that begins a character in UTF-8 has none behind it that goes on.
fn may_be_windows_1252(file: &[u8]) -> bool {
    for (place, byte) in file.iter().enumerate() {
        let next = file.get(place + 1).copied().unwrap_or(b'\n');
        let as_in_utf_8 = (0xC2..=0xF4).contains(byte) && (0x80..=0xBF).contains(&next);
        if as_in_utf_8 || [0x81, 0x8D, 0x8F, 0x90, 0x9D].contains(byte) {
            return false;
        }
    }
    true
}

/// Rule 6: the first byte after which no line end can be good any more, or the mark that nothing closes.
fn marks(line: Line) -> Facts {
    let good = |text: &[u8]| fields(Line { start: 0, text }).is_some();
    let lost = |length: &usize| {
        let beginning = &line.text[..*length];
        !good(beginning) && !good(&[beginning, b"\""].concat())
    };
    let facts = |clause: &str, place: usize| vec![("clause", text(clause)), ("byte", count(place))];
    match (1..=line.text.len()).find(lost) {
        Some(place) if line.text[place - 1] == b'"' => facts("mark_in_bare_field", place),
        Some(place) => facts("text_after_closing_mark", place),
        None => {
            let begins = |place: &usize| *place == 0 || line.text[place - 1] == b',' && good(&line.text[..*place]);
            let opened = (0..line.text.len()).rev().find(begins).expect("a field that isn't closed");
            facts("not_closed", opened + 1)
        }
    }
}

/// Rule 8: the name and where it stands the second time.
fn repeated_name(header: &[Vec<u8>], columns: &[Column]) -> Facts {
    let place = twice(header, columns).expect("a known name that stands twice");
    vec![("column", text(&header[place - 1])), ("field", count(place))]
}

/// Rules 11 to 13: the leftmost value that breaks the rule.
fn bad_value(rule: usize, header: &[Vec<u8>], fields: Vec<Field>, columns: &[Column]) -> Facts {
    let place = leftmost(rule, &fields, columns, header).expect("a value that breaks the rule");
    let value = &fields[place - 1].value;
    let mut facts = vec![("column", text(&header[place - 1])), ("field", count(place))];
    match rule {
        11 => facts.extend([("value", text(value)), ("bytes", count(value.len())), ("limit", count(64))]),
        12 => {}
        _ => facts.push(("value", text(value))),
    }
    facts
}
