//! Likely wrong readings of E4 and of E9's versions: edge cases and files of many records tell every one of them from the right one, generated
//! calls and vectors most.

use cases::index::{by_model, edges, generate, versions, Asked, Case, Outcome};
use cases::limits::{MOST_LINES, MOST_OF_VERSION_1};
use cases::readings::Missed;
use cases::vectors;
use model::columns::COLUMNS;
use model::fields::{fields, line_ends, lines};
use model::index::Answer;
use model::reading::read_alone;
use model::records::KEYS;
use std::cmp::Ordering;

/// How many seeds are looked at: as many as the archive is compared with the model on.
const SEEDS: u64 = 1500;

/// An id: its raw field and its value.
#[derive(Clone, PartialEq)]
struct Id {
    raw: Vec<u8>,
    value: Vec<u8>,
}

/// The ids of a file by record, or its refusal.
type Read = Result<Vec<Id>, Answer>;

/// How a version is laid out: its number, and how many bytes stand before the records, are the count and are a record.
#[derive(Clone, Copy, PartialEq)]
struct Layout {
    version: isize,
    head: usize,
    count: usize,
    record: usize,
}

const ONE: Layout = Layout { version: 1, head: 8, count: 2, record: 2 };
const TWO: Layout = Layout { version: 2, head: 10, count: 4, record: 4 };

/// How a call is read.
#[derive(Clone, Copy)]
struct Reading {
    /// The number that is asked for, and is it that of a file with an index?
    number: fn(i32) -> i32,
    served: fn(i32) -> bool,
    /// Another way to read the file.
    read: Option<fn(usize, &[u8]) -> Read>,
    /// What writer and reader test, in this order: 0 stands for the number asked for, 1 for the file's own rules.
    tests: [&'static [usize]; 2],
    /// Is this one of 40 to 46 broken?
    broken: fn(usize, &Call) -> bool,
    before: fn(&Id, &Id) -> bool,
    sorts: bool,
    /// The versions, from how many records on the second is used, and which bits of its record numbers count.
    layouts: [Layout; 2],
    wide_from: usize,
    record_bits: isize,
    /// The high byte first: in the version, in the count, in record numbers.
    high_first: [bool; 3],
    /// What is added to the count, and to each record number.
    more: [isize; 2],
    /// What is answered to the file's own refusal, to 40 to 46, and as the length of what is good.
    own: fn(Answer) -> Answer,
    refusal: fn(usize, &Call) -> Answer,
    length: fn(usize, &Call) -> usize,
    /// What a refused writer does to the buffer, for which it has these bytes, and one that writes to the rest of it.
    left: fn(usize, &mut [u8], &[u8]),
    rest: fn(&mut [u8]),
}

/// A call while it is read.
struct Call<'a> {
    reading: &'a Reading,
    case: &'a Case,
    number: i32,
    ids: &'a [Id],
}

const WRITER: &[usize] = &[0, 1, 45, 46];
const READER: &[usize] = &[0, 1, 40, 41, 42, 43, 44];

const RIGHT: Reading = Reading {
    number: |number| number,
    served: |number| (1..=4).contains(&number),
    read: None,
    tests: [WRITER, READER],
    broken,
    before: |one, other| one.value < other.value,
    sorts: true,
    layouts: [ONE, TWO],
    wide_from: MOST_OF_VERSION_1 + 1,
    record_bits: 0xFFFF_FFFF,
    high_first: [false; 3],
    more: [0; 2],
    own: |answer| answer,
    refusal: |number, _| Answer { number, ..Answer::default() },
    length: |length, _| length,
    left: |_, _, _| (),
    rest: |_| (),
};

const fn order(before: fn(&Id, &Id) -> bool) -> Reading {
    Reading { before, ..RIGHT }
}

const fn rule(broken: fn(usize, &Call) -> bool) -> Reading {
    Reading { broken, ..RIGHT }
}

const fn file(read: fn(usize, &[u8]) -> Read) -> Reading {
    Reading { read: Some(read), ..RIGHT }
}

const fn reader(tests: &'static [usize]) -> Reading {
    Reading { tests: [WRITER, tests], ..RIGHT }
}

const fn writer(tests: &'static [usize]) -> Reading {
    Reading { tests: [tests, READER], ..RIGHT }
}

/// Readings of the order of ids.
const ORDERS: [(&str, Reading); 12] = [
    ("signed bytes", order(|one, other| signed(one) < signed(other))),
    ("a prefix last", order(|one, other| ended(one) < ended(other))),
    ("raw bytes", order(|one, other| one.raw < other.raw)),
    ("the closing mark stays", order(|one, other| opened(one) < opened(other))),
    ("shorter ids first", order(|one, other| (one.value.len(), &one.value) < (other.value.len(), &other.value))),
    ("in any case", order(|one, other| one.value.to_ascii_lowercase() < other.value.to_ascii_lowercase())),
    ("by UTF-16", order(|one, other| utf_16(one) < utf_16(other))),
    ("up to a NUL", order(|one, other| up_to_nul(one) < up_to_nul(other))),
    ("by 63 bytes", order(|one, other| cut(one) < cut(other))),
    ("falling", order(|one, other| one.value > other.value)),
    ("blanks taken off", order(|one, other| trimmed(one) < trimmed(other))),
    ("written in file order", Reading { sorts: false, ..RIGHT }),
];

/// Readings of an index's bytes, and of 40 and 41.
const BYTES: [(&str, Reading); 16] = [
    ("big end first", Reading { high_first: [true; 3], ..RIGHT }),
    ("the version's big end first", Reading { high_first: [true, false, false], ..RIGHT }),
    ("the count's big end first", Reading { high_first: [false, true, false], ..RIGHT }),
    ("records' big end first", Reading { high_first: [false, false, true], ..RIGHT }),
    ("the header counts", Reading { more: [1, 0], ..RIGHT }),
    ("records from 0", Reading { more: [0, -1], ..RIGHT }),
    ("lines for records", Reading { more: [0, 1], ..RIGHT }),
    ("40 by 8 bytes", rule(|number, call| barred(number, call, 40, |call| call.case.lent.len() == 8))),
    ("40 below 6 bytes", rule(|number, call| spared(number, call, 40, |call| call.begins(6, b"TTX")))),
    ("a mark in small letters", rule(|number, call| spared(number, call, 40, small_mark))),
    ("two bytes of the mark", rule(|number, call| spared(number, call, 40, |call| call.begins(8, b"TT")))),
    ("any mark", rule(|number, call| spared(number, call, 40, |call| call.begins(8, b"")))),
    ("any version", rule(|number, call| spared(number, call, 41, |_| true))),
    ("version 0", rule(|number, call| spared(number, call, 41, |call| call.version() < 1))),
    ("later versions", rule(|number, call| spared(number, call, 41, |call| call.version() > 2))),
    ("the version's low byte", rule(|number, call| spared(number, call, 41, |call| matches!(call.byte(3), 1 | 2)))),
];

/// Readings of 42 to 44.
const ENTRIES: [(&str, Reading); 18] = [
    ("any file byte", rule(|number, call| spared(number, call, 42, |call| !wrong_count(call) && call.over() == 0))),
    ("the byte of any file", rule(|number, call| spared(number, call, 42, of_any_file))),
    ("any count", rule(|number, call| spared(number, call, 42, |call| !wrong_file(call) && call.over() == 0))),
    ("its own count", rule(|number, call| spared(number, call, 42, of_its_own_length))),
    ("a longer index", rule(|number, call| spared(number, call, 42, |call| off_by(call, 1..=999)))),
    ("half an entry more", rule(|number, call| spared(number, call, 42, |call| off_by(call, 1..=1)))),
    ("a shorter index", rule(|number, call| spared(number, call, 42, |call| off_by(call, -999..=-1)))),
    ("half an entry less", rule(|number, call| spared(number, call, 42, |call| off_by(call, -1..=-1)))),
    ("record 0", rule(|number, call| spared(number, call, 43, |call| call.within(0..=call.last())))),
    ("records beyond", rule(|number, call| spared(number, call, 43, |call| call.within(1..=65_535)))),
    ("one record beyond", rule(|number, call| spared(number, call, 43, |call| call.within(1..=call.last() + 1)))),
    ("44 but for the first pair", rule(|number, call| spared(number, call, 44, |call| call.falls() == [0]))),
    ("44 but for the last pair", rule(|number, call| spared(number, call, 44, last_falls))),
    ("44 by the first pair", rule(|number, call| spared(number, call, 44, |call| !call.falls().contains(&0)))),
    ("a record twice", rule(|number, call| spared(number, call, 44, |call| only(call, |one, other| one == other)))),
    ("equal ids", rule(|number, call| spared(number, call, 44, |call| only(call, |one, other| one != other)))),
    ("entry by entry", rule(|number, call| spared(number, call, 43, falls_sooner))),
    ("any order", rule(|number, call| spared(number, call, 44, |_| true))),
];

/// Readings of which refusal speaks.
const TURNS: [(&str, Reading); 17] = [
    ("41 before 40", reader(&[0, 1, 41, 40, 42, 43, 44])),
    ("42 before 40", reader(&[0, 1, 42, 40, 41, 43, 44])),
    ("42 before 41", reader(&[0, 1, 40, 42, 41, 43, 44])),
    ("43 before 42", reader(&[0, 1, 40, 41, 43, 42, 44])),
    ("44 before 42", reader(&[0, 1, 40, 41, 44, 42, 43])),
    ("44 before 43", reader(&[0, 1, 40, 41, 42, 44, 43])),
    ("40 before the file", reader(&[0, 40, 1, 41, 42, 43, 44])),
    ("40 and 41 before the file", reader(&[0, 40, 41, 1, 42, 43, 44])),
    ("the reader's file before the number", reader(&[1, 0, 40, 41, 42, 43, 44])),
    ("40 before the number", reader(&[40, 0, 1, 41, 42, 43, 44])),
    ("the number in its turn", reader(&[1, 40, 41, 0, 42, 43, 44])),
    ("45 by the reader", reader(&[0, 1, 45, 40, 41, 42, 43, 44])),
    ("45 by the reader at last", reader(&[0, 1, 40, 41, 42, 43, 45, 44])),
    ("46 before 45", writer(&[0, 1, 46, 45])),
    ("46 before the file", writer(&[0, 46, 1, 45])),
    ("the writer's file before the number", writer(&[1, 0, 45, 46])),
    ("46 before the number", writer(&[46, 0, 1, 45])),
];

/// Readings of the number and of the file.
const FILES: [(&str, Reading); 14] = [
    ("the number's low byte", Reading { number: |number| (number as u8).into(), ..RIGHT }),
    ("the number's low half", Reading { number: |number| (number as u16).into(), ..RIGHT }),
    ("the number without its sign", Reading { number: i32::saturating_abs, ..RIGHT }),
    ("file 5 too", Reading { served: |number| (1..=5).contains(&number), ..RIGHT }),
    ("file 6 too", Reading { served: |number| (1..=4).contains(&number) || number == 6, ..RIGHT }),
    ("rule 3", file(with_rule_3)),
    ("rule 20", file(with_rule_20)),
    (
        "an empty calendar",
        file(|number, file| if number == 3 { empty_or(number, file) } else { right_ids(number, file) }),
    ),
    ("any empty file", file(empty_or)),
    ("a file without its end", file(unended)),
    ("4 before 2", file(four_first)),
    ("any number of lines", file(first_lines)),
    ("the first field", file(first_fields)),
    ("the first known column", file(|number, file| ids(number, file, COLUMNS[number - 1][0].name))),
];

/// Readings of the answer, of 45 and 46, and of what happens to the buffer.
const ANSWERS: [(&str, Reading); 23] = [
    ("no file", Reading { own: |answer| Answer { file: 0, ..answer }, ..RIGHT }),
    ("no line", Reading { own: |answer| Answer { line: 0, ..answer }, ..RIGHT }),
    ("no column", Reading { own: |answer| Answer { column: 0, ..answer }, ..RIGHT }),
    ("40 to 46 name the file", Reading { refusal: with_file, ..RIGHT }),
    ("46 tells the need", Reading { refusal: with_need, ..RIGHT }),
    ("no length", Reading { length: |_, _| 0, ..RIGHT }),
    ("the reader tells no length", Reading { length: |length, call| length * usize::from(call.writes()), ..RIGHT }),
    ("the writer tells no length", Reading { length: |length, call| length * usize::from(!call.writes()), ..RIGHT }),
    ("the count for the length", Reading { length: |_, call| call.ids.len(), ..RIGHT }),
    ("the buffer's length", Reading { length: |_, call| call.case.lent.len(), ..RIGHT }),
    ("any repeated id", rule(|number, call| spared(number, call, 45, |_| true))),
    ("45 by lines in a row", rule(|number, call| spared(number, call, 45, apart))),
    ("45 by raw bytes", rule(|number, call| spared(number, call, 45, differently_written))),
    ("45 in any case", rule(|number, call| barred(number, call, 45, equal_in_any_case))),
    ("46 at the need", rule(|number, call| barred(number, call, 46, |call| call.over() == 0))),
    ("46 above the need", rule(|number, call| barred(number, call, 46, |call| call.over() > 0))),
    ("46 one byte late", rule(|number, call| spared(number, call, 46, |call| call.over() == -1))),
    ("46 without the head", rule(|number, call| spared(number, call, 46, |call| call.over() >= -8))),
    ("46 by a byte a record", rule(|number, call| spared(number, call, 46, |call| call.over() >= -call.last()))),
    ("46 writes what fits", Reading { left: |number, buffer, bytes| put(number == 46, buffer, bytes), ..RIGHT }),
    ("45 writes the head", Reading { left: |number, buffer, bytes| put(number == 45, buffer, &bytes[..8]), ..RIGHT }),
    ("a refusal clears", Reading { left: |number, buffer, _| put(number > 14, buffer, &[0; 999]), ..RIGHT }),
    ("the rest cleared", Reading { rest: |rest| rest.fill(0), ..RIGHT }),
];

const fn laid_out(two: Layout) -> Reading {
    Reading { layouts: [ONE, two], ..RIGHT }
}

const fn wide_from(wide_from: usize) -> Reading {
    Reading { wide_from, ..RIGHT }
}

/// Readings of E9's two versions.
const VERSIONS: [(&str, Reading); 19] = [
    ("version 2 from 65,535 records on", wide_from(MOST_OF_VERSION_1)),
    ("version 1 up to 65,536 records", wide_from(MOST_OF_VERSION_1 + 2)),
    ("version 1 always", wide_from(usize::MAX)),
    ("version 2 always", wide_from(0)),
    ("a 16-bit count in version 2", laid_out(Layout { count: 2, ..TWO })),
    ("8 bytes before 32-bit records", laid_out(Layout { head: 8, count: 2, ..TWO })),
    ("16-bit records behind 10 bytes", laid_out(Layout { record: 2, ..TWO })),
    ("version 2 laid out as version 1", laid_out(Layout { version: 2, ..ONE })),
    ("41 to version 2", rule(|number, call| barred(number, call, 41, |call| call.version() == 2))),
    ("version 2 beside few records", rule(|number, call| spared(number, call, 42, |call| call.fits(TWO)))),
    ("version 1 beside many records", rule(|number, call| spared(number, call, 42, |call| call.fits(ONE)))),
    ("42 by the count's low half", rule(|number, call| spared(number, call, 42, low_count))),
    ("the low halves of records", Reading { record_bits: 0xFFFF, ..RIGHT }),
    ("40 to version 2 of 8 or 9 bytes", rule(|number, call| barred(number, call, 40, cut_short))),
    ("43 to version 2 of 8 or 9 bytes", Reading { refusal: later_if_cut_short, ..RIGHT }),
    ("46 by version 1's length", rule(|number, call| spared(number, call, 46, |call| call.room_for(ONE)))),
    ("46 by version 2's length", rule(|number, call| barred(number, call, 46, |call| !call.room_for(TWO)))),
    ("44 up to record 65,535", rule(|number, call| spared(number, call, 44, late_records))),
    ("44 up to entry 65,535", rule(|number, call| spared(number, call, 44, late_entries))),
];

impl Call<'_> {
    /// The version for so many records.
    fn chosen(&self) -> Layout {
        self.reading.layouts[usize::from(self.ids.len() >= self.reading.wide_from)]
    }

    /// The version that the index names, or the one for so many records where it names none.
    fn named(&self) -> Layout {
        let named = self.reading.layouts.into_iter().find(|layout| layout.version == self.version());
        named.unwrap_or(self.chosen())
    }

    /// Has the index this version, and file, count and length that go with it?
    fn fits(&self, layout: Layout) -> bool {
        self.version() == layout.version && !wrong_file(self) && !wrong_count(self) && self.over_by(layout) == 0
    }

    fn room_for(&self, layout: Layout) -> bool {
        self.over_by(layout) >= 0
    }

    fn writes(&self) -> bool {
        self.case.asked == Asked::Write
    }

    /// A byte of what is lent, 0 behind its end.
    fn byte(&self, place: usize) -> usize {
        self.case.lent.get(place).map_or(0, |&byte| byte.into())
    }

    /// The number of so many bytes, of the version (0), the count (1) or a record (2).
    fn number_at(&self, place: usize, width: usize, which: usize) -> isize {
        let high_first = self.reading.high_first[which];
        let byte = |from_high: usize| if high_first { place + from_high } else { place + width - 1 - from_high };
        (0..width).fold(0, |number, from_high| 256 * number + self.byte(byte(from_high)) as isize)
    }

    fn begins(&self, length: usize, mark: &[u8]) -> bool {
        self.case.lent.len() >= length && self.case.lent.starts_with(mark)
    }

    fn version(&self) -> isize {
        self.number_at(3, 2, 0)
    }

    /// The last record.
    fn last(&self) -> isize {
        self.ids.len() as isize
    }

    /// How many bytes more than a version's need are lent.
    fn over_by(&self, layout: Layout) -> isize {
        self.case.lent.len() as isize - self.need(layout)
    }

    /// How many bytes a version needs.
    fn need(&self, layout: Layout) -> isize {
        layout.head as isize + layout.record as isize * self.last()
    }

    /// How many bytes more than the need are lent.
    fn over(&self) -> isize {
        self.over_by(self.chosen())
    }

    /// The records that are listed, as many as there are at most.
    fn records(&self) -> Vec<isize> {
        let Layout { head, record: width, .. } = self.named();
        let whole = self.case.lent.len().saturating_sub(head) / width;
        let number = |entry| self.number_at(head + width * entry, width, 2) & self.reading.record_bits;
        (0..whole.min(self.ids.len())).map(|entry| number(entry) - self.reading.more[1]).collect()
    }

    fn within(&self, range: std::ops::RangeInclusive<isize>) -> bool {
        self.records().iter().all(|record| range.contains(record))
    }

    /// The id of a record, if there is one.
    fn id(&self, record: isize) -> Option<&Id> {
        self.ids.get(usize::try_from(record - 1).ok()?)
    }

    /// The pairs of neighbours among some records that don't rise, by place; a record that isn't there can't be compared.
    fn falls_of(&self, records: &[isize]) -> Vec<usize> {
        let fall = |place: &usize| match (self.id(records[*place]), self.id(records[place + 1])) {
            (Some(one), Some(other)) => !(self.reading.before)(one, other),
            _ => false,
        };
        (0..records.len().saturating_sub(1)).filter(fall).collect()
    }

    fn falls(&self) -> Vec<usize> {
        self.falls_of(&self.records())
    }

    /// All records in the order of their ids.
    fn sorted(&self) -> Vec<isize> {
        let mut records: Vec<isize> = (1..=self.last()).collect();
        let id = |record: &isize| &self.ids[*record as usize - 1];
        let before = |one: &isize, other: &isize| (self.reading.before)(id(one), id(other));
        records.sort_by(|one, other| match (before(one, other), before(other, one)) {
            (true, _) => Ordering::Less,
            (_, true) => Ordering::Greater,
            _ => Ordering::Equal,
        });
        records
    }

    /// What the writer writes.
    fn bytes(&self) -> Vec<u8> {
        let number = |number: isize, width: usize, which: usize| {
            let mut bytes = number.to_le_bytes()[..width].to_vec();
            if self.reading.high_first[which] {
                bytes.reverse();
            }
            bytes
        };
        let records = if self.reading.sorts { self.sorted() } else { (1..=self.last()).collect() };
        let ([more, shift], layout) = (self.reading.more, self.chosen());
        let mut bytes = [&b"TTX"[..], &number(layout.version, 2, 0), &[self.number as u8]].concat();
        bytes.extend(number(self.last() + more, layout.count, 1));
        bytes.resize(layout.head, 0);
        records.into_iter().for_each(|listed| bytes.extend(number(listed + shift, layout.record, 2)));
        bytes
    }
}

fn broken(number: usize, call: &Call) -> bool {
    match number {
        40 => !call.begins(8, b"TTX"),
        41 => call.reading.layouts.iter().all(|layout| layout.version != call.version()),
        42 => call.named() != call.chosen() || wrong_file(call) || wrong_count(call) || call.over() != 0,
        43 => !call.within(1..=call.last()),
        44 => !call.falls().is_empty(),
        45 => !call.falls_of(&call.sorted()).is_empty(),
        _ => call.over() < 0,
    }
}

/// Broken as it should be, or where it is this one and the call is so.
fn barred(number: usize, call: &Call, own: usize, so: fn(&Call) -> bool) -> bool {
    broken(number, call) || number == own && so(call)
}

/// Broken as it should be, but not where it is this one and the call is so.
fn spared(number: usize, call: &Call, own: usize, so: fn(&Call) -> bool) -> bool {
    broken(number, call) && !(number == own && so(call))
}

fn wrong_file(call: &Call) -> bool {
    call.byte(5) as i32 != call.number
}

/// As many bits of the count as there are in the index are looked at.
fn wrong_count(call: &Call) -> bool {
    let width = call.named().count;
    let other_bits = call.number_at(6, width, 1) ^ (call.last() + call.reading.more[0]);
    other_bits & ((1 << (8 * width)) - 1) != 0
}

/// Is only the count wrong, and right in its low half?
fn low_count(call: &Call) -> bool {
    let low_half = call.number_at(6, 4, 1) & 0xFFFF == call.last() & 0xFFFF;
    call.named() == call.chosen() && !wrong_file(call) && low_half && call.over() == 0
}

fn cut_short(call: &Call) -> bool {
    call.version() == TWO.version && call.case.lent.len() < TWO.head
}

fn later_if_cut_short(number: usize, call: &Call) -> Answer {
    let number =
        if number == 42 && !call.writes() && (RIGHT.served)(call.number) && cut_short(call) { 43 } else { number };
    (RIGHT.refusal)(number, call)
}

/// Are all pairs that don't rise of a record that version 1 can't name?
fn late_records(call: &Call) -> bool {
    let records = call.records();
    let late = |place: &usize| records[*place..place + 2].iter().any(|&record| record > MOST_OF_VERSION_1 as isize);
    call.falls().iter().all(late)
}

/// Do all pairs that don't rise stand behind as many entries as version 1 has?
fn late_entries(call: &Call) -> bool {
    call.falls().iter().all(|&place| place + 1 >= MOST_OF_VERSION_1)
}

fn of_any_file(call: &Call) -> bool {
    (1..=4).contains(&call.byte(5)) && !wrong_count(call) && call.over() == 0
}

fn of_its_own_length(call: &Call) -> bool {
    let Layout { head, count, record, .. } = call.named();
    !wrong_file(call) && call.case.lent.len() as isize == head as isize + record as isize * call.number_at(6, count, 1)
}

fn off_by(call: &Call, bytes: std::ops::RangeInclusive<isize>) -> bool {
    !wrong_file(call) && !wrong_count(call) && bytes.contains(&call.over())
}

fn small_mark(call: &Call) -> bool {
    call.begins(8, b"") && call.case.lent[..3].eq_ignore_ascii_case(b"ttx")
}

fn last_falls(call: &Call) -> bool {
    call.falls() == [call.records().len().saturating_sub(2)]
}

/// Are all pairs that don't rise of two records with one id, of which this is true?
fn only(call: &Call, so: fn(isize, isize) -> bool) -> bool {
    let records = call.records();
    let value = |record| call.id(record).map(|id| &id.value);
    let equal = |[one, other]: [isize; 2]| value(one) == value(other) && so(one, other);
    call.falls().iter().all(|&place| equal([records[place], records[place + 1]]))
}

/// Does a pair that doesn't rise end before the first record that isn't there?
fn falls_sooner(call: &Call) -> bool {
    let missing = call.records().iter().position(|&record| call.id(record).is_none());
    call.falls().first().zip(missing).is_some_and(|(place, missing)| place + 1 < missing)
}

fn apart(call: &Call) -> bool {
    call.ids.windows(2).all(|pair| pair[0].value != pair[1].value)
}

fn differently_written(call: &Call) -> bool {
    (0..call.ids.len()).all(|place| !call.ids[..place].iter().any(|id| id.raw == call.ids[place].raw))
}

fn equal_in_any_case(call: &Call) -> bool {
    let same = |one: &Id, other: &Id| one.value.eq_ignore_ascii_case(&other.value);
    (0..call.ids.len()).any(|place| call.ids[..place].iter().any(|id| same(id, &call.ids[place])))
}

fn signed(id: &Id) -> Vec<i8> {
    id.value.iter().map(|&byte| byte as i8).collect()
}

/// The bytes, and an end that is above every byte.
fn ended(id: &Id) -> Vec<u16> {
    id.value.iter().map(|&byte| byte.into()).chain([256]).collect()
}

fn opened(id: &Id) -> &[u8] {
    id.raw.strip_prefix(b"\"").unwrap_or(&id.raw)
}

fn utf_16(id: &Id) -> Vec<u16> {
    String::from_utf8_lossy(&id.value).encode_utf16().collect()
}

fn trimmed(id: &Id) -> String {
    String::from_utf8_lossy(&id.value).trim().to_string()
}

fn up_to_nul(id: &Id) -> &[u8] {
    id.value.split(|&byte| byte == 0).next().unwrap_or_default()
}

fn cut(id: &Id) -> &[u8] {
    &id.value[..id.value.len().min(63)]
}

fn with_file(number: usize, call: &Call) -> Answer {
    Answer { number, file: usize::try_from(call.number).unwrap_or(0), ..Answer::default() }
}

fn with_need(number: usize, call: &Call) -> Answer {
    let length = if number == 46 { call.need(call.chosen()) as usize } else { 0 };
    Answer { number, length, ..Answer::default() }
}

/// Puts as many of these bytes into a buffer as fit.
fn put(so: bool, buffer: &mut [u8], bytes: &[u8]) {
    let end = if so { buffer.len().min(bytes.len()) } else { 0 };
    buffer[..end].copy_from_slice(&bytes[..end]);
}

/// A refusal of a whole file.
fn whole(number: usize, file: usize) -> Answer {
    Answer { number, file, ..Answer::default() }
}

/// The ids of a file under a column.
fn ids(number: usize, file: &[u8], column: &str) -> Read {
    let id =
        |field: &model::fields::Field| Id { raw: file[field.start..field.end].to_vec(), value: field.value.clone() };
    match read_alone(file, number) {
        Ok(sheet) => Ok(sheet.rows().map(|row| id(row.field(column))).collect()),
        Err(model::Answer::Refused { number, file, line, column }) => {
            Err(Answer { number, file, line, column, length: 0 })
        }
        Err(other) => panic!("{other:?}"),
    }
}

fn right_ids(number: usize, file: &[u8]) -> Read {
    ids(number, file, KEYS[number - 1].first().unwrap_or(&"trip_id"))
}

fn with_rule_3(number: usize, file: &[u8]) -> Read {
    match right_ids(number, file) {
        Err(answer) if answer.number < 3 => Err(answer),
        _ if line_ends(file) > 0 => Err(whole(3, number)),
        read => read,
    }
}

fn with_rule_20(number: usize, file: &[u8]) -> Read {
    let ids = right_ids(number, file)?;
    let again = (0..ids.len()).find(|&place| ids[..place].iter().any(|id| id.value == ids[place].value));
    again.map_or(Ok(ids), |place| Err(Answer { line: place + 2, ..whole(20, number) }))
}

fn empty_or(number: usize, file: &[u8]) -> Read {
    if file.is_empty() {
        Ok(Vec::new())
    } else {
        right_ids(number, file)
    }
}

/// A file without its last LF, but for an empty one.
fn unended(number: usize, file: &[u8]) -> Read {
    let end: &[u8] = if file.is_empty() || file.ends_with(b"\n") { b"" } else { b"\n" };
    right_ids(number, &[file, end].concat())
}

fn four_first(number: usize, file: &[u8]) -> Read {
    if file.last() == Some(&b'\n') {
        right_ids(number, file)
    } else {
        Err(whole(4, number))
    }
}

/// A file up to the last line that rule 2 allows.
fn first_lines(number: usize, file: &[u8]) -> Read {
    let ends = (0..file.len()).filter(|&place| file[place] == b'\n').nth(MOST_LINES - 1);
    right_ids(number, &file[..ends.filter(|_| line_ends(file) > MOST_LINES).map_or(file.len(), |end| end + 1)])
}

fn first_fields(number: usize, file: &[u8]) -> Read {
    right_ids(number, file)?;
    let first = |line| fields(line).expect("a line that is read").swap_remove(0);
    let id = |field: model::fields::Field| Id { raw: file[field.start..field.end].to_vec(), value: field.value };
    Ok(lines(file).into_iter().skip(1).map(first).map(id).collect())
}

/// The file as it is read for a number; for none that a file has there are no ids.
fn read_for(number: i32, file: &[u8], read: fn(usize, &[u8]) -> Read) -> Read {
    let known = usize::try_from(number).ok().filter(|number| (1..=6).contains(number));
    known.map_or(Ok(Vec::new()), |number| read(number, file))
}

/// What a call gives by a reading; the file is at hand as it is read rightly.
fn by(reading: &Reading, case: &Case, rightly: &Read) -> Outcome {
    let number = (reading.number)(case.number);
    let otherwise = (number != case.number || reading.read.is_some())
        .then(|| read_for(number, &case.file, reading.read.unwrap_or(right_ids)));
    let read = otherwise.as_ref().unwrap_or(rightly);
    let call = Call { reading, case, number, ids: read.as_deref().unwrap_or_default() };
    let bytes = if call.writes() { call.bytes() } else { Vec::new() };
    let mut lent = case.lent.clone();
    for &test in reading.tests[usize::from(!call.writes())] {
        let refusal = match test {
            0 => (!(reading.served)(number)).then(|| (reading.refusal)(42, &call)),
            1 => read.as_ref().err().map(|answer| (reading.own)(*answer)),
            _ => (reading.broken)(test, &call).then(|| (reading.refusal)(test, &call)),
        };
        if let Some(answer) = refusal {
            if call.writes() {
                (reading.left)(answer.number, &mut lent, &bytes);
            }
            return Outcome { answer, lent };
        }
    }
    put(true, &mut lent, &bytes);
    if let (true, Some(rest)) = (call.writes(), lent.get_mut(bytes.len()..)) {
        (reading.rest)(rest);
    }
    let length = if call.writes() { bytes.len() } else { case.lent.len() };
    Outcome { answer: Answer { length: (reading.length)(length, &call), ..Answer::default() }, lent }
}

/// A call with what the model makes of it.
fn with_outcome(case: Case) -> (Case, Outcome) {
    let outcome = by_model(&case);
    (case, outcome)
}

/// Fails unless the right reading gives the outcome wanted of every call, and each of these wrong ones but those named another of some.
fn told_apart(cases: impl Iterator<Item = (Case, Outcome)>, wrong: &[&[(&'static str, Reading)]], but: &[&str]) {
    let mut missed = Missed::new(RIGHT, &wrong.concat());
    let mut read = (0, Vec::new(), Ok(Vec::new()));
    for (case, wanted) in cases {
        // Several calls in a row may be about one file.
        if (read.0, &read.1) != (case.number, &case.file) {
            read = (case.number, case.file.clone(), read_for(case.number, &case.file, right_ids));
        }
        let rightly = &read.2;
        missed.try_case(&case.name, &wanted, |reading| by(reading, &case, rightly));
    }
    missed.are(but);
}

const ALL: [&[(&str, Reading)]; 7] = [&ORDERS, &BYTES, &ENTRIES, &TURNS, &FILES, &ANSWERS, &VERSIONS];

/// Readings of the versions that few records don't tell apart.
const OF_MANY: [&str; 13] = [
    "16-bit records behind 10 bytes",
    "42 by the count's low half",
    "44 up to entry 65,535",
    "44 up to record 65,535",
    "46 by version 1's length",
    "8 bytes before 32-bit records",
    "a 16-bit count in version 2",
    "the low halves of records",
    "version 1 always",
    "version 1 beside many records",
    "version 1 up to 65,536 records",
    "version 2 from 65,535 records on",
    "version 2 laid out as version 1",
];

/// What the customer's calls lack: files of many records, and of too many lines; an index that is wrong in 41 and 42; ids that differ in the
/// last of 64 bytes, or behind a NUL.
#[test]
fn by_the_vectors() {
    let of_few =
        ["4 before 2", "42 before 41", "a mark in small letters", "any number of lines", "by 63 bytes", "up to a NUL"];
    let but = [&of_few[..], &OF_MANY].concat();
    told_apart(vectors::indexes().into_iter(), &ALL, &but);
}

#[test]
fn by_the_edge_cases() {
    told_apart(edges::cases().into_iter().map(with_outcome), &ALL, &OF_MANY);
}

#[test]
fn by_files_of_many_records() {
    told_apart((0..versions::CALLS).map(versions::beside_many), &[&VERSIONS], &[]);
}

/// Files of too many lines are left to the edge cases.
#[test]
fn by_generated_calls() {
    let but = [&["4 before 2", "any number of lines"], &OF_MANY[..]].concat();
    told_apart((0..SEEDS).map(generate::case).map(with_outcome), &ALL, &but);
}
