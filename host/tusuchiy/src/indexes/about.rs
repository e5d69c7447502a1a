//! What a refusal of an index is about, from the bytes of the index and the ids of its file.

use super::MOST_BYTES;
use crate::columns::IDS;
use crate::facts::{repeated_id, shown, shown_text, value_at, About};
use crate::feed::Feed;
use crate::memory;
use crate::names::Names;
use crate::value::{Members, Value};
use std::borrow::Cow;
use std::collections::HashMap;
use tusuchiy::index::Version;
use tusuchiy::File;

/// What an index begins with, and how many bytes it has at least, whatever its version.
const MARK: [u8; 3] = *b"TTX";
const LEAST: usize = Version::ALL[0].head;

/// Where its version, which takes two bytes, its file number and its count stand.
const VERSION_PLACE: usize = 3;
const VERSION_WIDTH: usize = 2;
const FILE_PLACE: usize = 5;
const COUNT_PLACE: usize = 6;

/// The line that a refusal by 40 to 46 is about, 0 for the whole file, and what it is about.
pub fn of(feed: &Feed, file: File, index: Option<&[u8]>, number: usize) -> (usize, About) {
    let bytes = index.unwrap_or(&[]);
    let about = match number {
        40 => Some(no_mark(index)),
        41 => Some(other_version(feed, file, bytes)),
        42 => Some(other_size(feed, file, bytes)),
        43 => no_such_record(feed, file, bytes),
        44 => not_rising(feed, file, bytes),
        45 => return repeated(feed, file).unwrap_or_default(),
        _ => None,
    };
    (0, about.unwrap_or_default())
}

/// An index whose file isn't supplied.
pub fn of_nothing(file: File) -> About {
    let index = file.index_name().unwrap_or_default();
    let clause = ("clause", Value::text("not_supplied"));
    let members = vec![clause, ("missing", Value::List(Vec::new())), ("guess", Value::Null)];
    About { words: format!("{file} isn't supplied, and {index} is left of an earlier one: take it away"), members }
}

/// A number of so many bytes, low byte first; 0 where the index ends before.
fn number(bytes: &[u8], place: usize, width: usize) -> usize {
    let bytes = bytes.get(place..place + width).unwrap_or(&[]);
    bytes.iter().rev().fold(0, |number, &byte| number << 8 | usize::from(byte))
}

/// The record numbers that an index lists, which has the version that its file asks for.
fn entries<'b>(feed: &Feed, file: File, bytes: &'b [u8]) -> impl Iterator<Item = usize> + 'b {
    let Version { head, entry, .. } = Version::of(records(feed, file));
    bytes.get(head..).unwrap_or(&[]).chunks_exact(entry).map(move |bytes| number(bytes, 0, entry))
}

/// How many records a file has that can be read.
pub fn records(feed: &Feed, file: File) -> usize {
    feed.line_count(file.number()).saturating_sub(1)
}

/// Bytes as two digits of base 16 each.
fn digits(bytes: &[u8]) -> String {
    bytes.iter().map(|byte| format!("{byte:02X}")).collect::<Vec<_>>().join(" ")
}

fn no_mark(index: Option<&[u8]>) -> About {
    let bytes = index.unwrap_or(&[]);
    let begins = digits(&bytes[..bytes.len().min(MARK.len())]);
    let (clause, words) = match index {
        None => ("missing", "there is no such file".to_string()),
        Some(short) if short.len() < LEAST => {
            ("too_short", format!("its length is {}, wanted at least {LEAST}", short.len()))
        }
        Some(_) => ("mark", format!("it begins with {begins}, wanted {} (TTX)", digits(&MARK))),
    };
    let members =
        vec![("clause", Value::text(clause)), ("length", Value::size(bytes.len())), ("found", Value::text(begins))];
    About { words, members }
}

/// The version of an index.
fn version(bytes: &[u8]) -> usize {
    number(bytes, VERSION_PLACE, VERSION_WIDTH)
}

fn other_version(feed: &Feed, file: File, bytes: &[u8]) -> About {
    let (version, wanted) = (version(bytes), Version::of(records(feed, file)).number);
    let members = vec![("version", Value::size(version)), ("wanted", Value::size(wanted))];
    About { words: format!("its version is {version}, wanted {wanted}"), members }
}

/// What an index says of itself, or is: its names in the document, as it is and as its file asks for, and both numbers.
struct Part {
    names: [&'static str; 2],
    found: usize,
    wanted: usize,
}

/// Version, file number, count and length of an index.
fn parts(feed: &Feed, file: File, bytes: &[u8]) -> [Part; 4] {
    let (records, version) = (records(feed, file), version(bytes));
    let wanted = Version::of(records);
    // Any other version is refused before.
    let found = Version::ALL.into_iter().find(|known| known.number == version).unwrap_or(wanted);
    let of_file = bytes.get(FILE_PLACE).map_or(0, |byte| usize::from(*byte));
    let part = |names, found, wanted| Part { names, found, wanted };
    [
        part(["version", "wanted_version"], version, wanted.number),
        part(["file_number", "wanted_file_number"], of_file, file.number()),
        part(["count", "wanted_count"], number(bytes, COUNT_PLACE, found.entry), records),
        part(["length", "wanted_length"], bytes.len(), wanted.length(records)),
    ]
}

/// Each of version, file number, count and length that is wrong, and what was wanted.
fn other_size(feed: &Feed, file: File, bytes: &[u8]) -> About {
    let parts = parts(feed, file, bytes);
    let wrong: Vec<&Part> = parts.iter().filter(|part| part.found != part.wanted).collect();
    let words: Vec<String> = wrong.iter().map(|part| in_words(part)).collect();
    let mut members: Members = vec![("clauses", Value::texts(wrong.iter().map(|part| part.names[0])))];
    members.extend(parts.iter().flat_map(|part| {
        let [found, wanted] = [part.found, part.wanted].map(Value::size);
        [(part.names[0], found), (part.names[1], wanted)]
    }));
    About { words: words.join("; "), members }
}

/// A part that is wrong.
fn in_words(part: &Part) -> String {
    let Part { names: [name, _], found, wanted } = part;
    let found = match *name {
        // No more is read than an index may have, and one byte.
        "length" if *found > MOST_BYTES => format!("more than {MOST_BYTES}"),
        _ => found.to_string(),
    };
    let why = match (*name, *wanted) {
        ("version", 1) => format!(" (up to {} records)", Version::MOST_OF_FIRST),
        ("version", _) => format!(" (above {} records)", Version::MOST_OF_FIRST),
        _ => String::new(),
    };
    format!("its {} is {found}, wanted {wanted}{why}", name.replace('_', " "))
}

/// The first entry that is no record of the file.
fn no_such_record(feed: &Feed, file: File, bytes: &[u8]) -> Option<About> {
    let last = records(feed, file);
    let (place, record) = entries(feed, file, bytes).enumerate().find(|(_, record)| *record == 0 || *record > last)?;
    let entry = place + 1;
    let members = vec![("entry", Value::size(entry)), ("record", Value::size(record)), ("last", Value::size(last))];
    Some(About { words: format!("entry {entry} is record {record}, wanted 1 to {last}"), members })
}

/// The first two entries of which the second doesn't come after the first.
fn not_rising(feed: &Feed, file: File, bytes: &[u8]) -> Option<About> {
    let ids = Ids::new(feed, file)?;
    let entries: Vec<usize> = entries(feed, file, bytes).collect();
    let place = entries.windows(2).position(|pair| ids.on(pair[0] + 1) >= ids.on(pair[1] + 1))?;
    let pair = [entries[place], entries[place + 1]];
    let values = pair.map(|record| ids.on(record + 1));
    let [first, second] = &values;
    let why = match first == second {
        true if pair[0] == pair[1] => "the record is listed twice",
        true => "the id stands twice in the file, which therefore has no index",
        false => "the second id comes before the first",
    };
    let told = |which: usize| {
        let (entry, record, id) = (place + 1 + which, pair[which], shown(&values[which]));
        format!("entry {entry} is record {record}, {} {id} on line {}", ids.column, record + 1)
    };
    let numbers = |numbers: [usize; 2]| Value::List(numbers.map(Value::size).to_vec());
    Some(About {
        words: format!("{}; {}: {why}", told(0), told(1)),
        members: vec![
            ("column", Value::text(ids.column)),
            ("entries", numbers([place + 1, place + 2])),
            ("records", numbers(pair)),
            ("lines", numbers(pair.map(|record| record + 1))),
            ("values", Value::List(values.iter().map(|id| shown_text(id)).collect())),
        ],
    })
}

/// The first line whose id stands on an earlier one.
fn repeated(feed: &Feed, file: File) -> Option<(usize, About)> {
    let ids = Ids::new(feed, file)?;
    let lines = feed.line_count(file.number());
    let mut firsts = HashMap::new();
    firsts.try_reserve(lines).unwrap_or_else(|_| memory::none());
    for line in 2..=lines {
        let earlier = *firsts.entry(ids.on(line)).or_insert(line);
        if earlier < line {
            return Some((line, repeated_id(ids.column, &ids.on(line), None, earlier)));
        }
    }
    None
}

/// The ids of a file.
struct Ids<'a> {
    feed: &'a Feed,
    file: usize,
    column: &'static str,
    place: usize,
}

impl<'a> Ids<'a> {
    fn new(feed: &'a Feed, file: File) -> Option<Self> {
        let file = file.number();
        let column = IDS[file - 1];
        let place = Names::new(feed).place(file, column)?;
        Some(Ids { feed, file, column, place })
    }

    /// The id on a line.
    fn on(&self, line: usize) -> Cow<'a, [u8]> {
        value_at(self.feed, self.file, line, self.place)
    }
}
