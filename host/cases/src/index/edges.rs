//! Indexes at their edges: every two ids in either order, every way to be a wrong index beside every other, files that can't be read, buffers.

use super::versions::beside_few;
use super::{base_line, sorted, Asked, Case};
use crate::limits::MOST_LINES;
use crate::nodes;
use model::columns::COLUMNS;
use model::fields::value;
use model::forms::Form;
use model::index::bytes;
use model::records::KEYS;
use std::array::from_fn;
use std::collections::BTreeSet;

/// Numbers that are no file's with an index: those of other files, and those that a narrower number would take for one.
pub const OUTSIDE: [i32; 11] = [0, 5, 6, -1, 255, 257, 65_537, 65_540, i32::MIN + 1, i32::MIN, i32::MAX];

/// Ids as raw fields, in spellings that only the right comparison tells apart or takes for one.
const IDS: [&str; 45] = [
    // Prefixes of one another, letters of either case, digits, and bytes below and above a mark.
    "A",
    "AA",
    "AB",
    "B",
    "a",
    "b",
    "1",
    "10",
    "9",
    "01",
    " A",
    "A ",
    "!",
    "A!",
    "A#",
    "\0",
    "A\0",
    "A\0B",
    "A\0C",
    // In quotes: the same ids again, commas, doubled marks.
    "\"A\"",
    "\"AB\"",
    "\"!\"",
    "\"\0\"",
    "\"A,\"",
    "\"A,B\"",
    "\"A\"\"B\"",
    "\"A\"\"\"",
    "\"\"\"\"",
    "\"\"\"A\"",
    "\"\"\"A\"\"\"",
    "\"\"\"\"\"\"",
    // Bytes above 127, and characters at the edges of their lengths.
    "z",
    "z\u{7f}",
    "zé",
    "\u{7f}",
    "\u{80}",
    "é",
    "ê",
    "\"é\"",
    "éA",
    "駅",
    "\u{feff}",
    "\u{ffff}",
    "\u{10000}",
    "\u{10ffff}",
];

/// The ids, and longer ones that differ in the last byte of 64, or not at all.
fn ids() -> Vec<Vec<u8>> {
    let x = |count: usize| "x".repeat(count);
    let long = [x(63), x(64), x(63) + "a", x(63) + "b", format!("\"{}b\"", x(63)), x(62) + "é", x(62) + "ê"];
    IDS.into_iter().map(String::from).chain(long).map(String::into_bytes).collect()
}

/// How a file is written around its ids.
pub(super) struct Layout {
    before: &'static str,
    ending: &'static str,
    /// So many columns that nobody reads stand left of the others.
    unread: usize,
    backward: bool,
}

pub(super) const PLAIN: Layout = Layout { before: "", ending: "\n", unread: 0, backward: false };

/// The last one fills a line of calendar.txt up to 32 fields.
const LAYOUTS: [Layout; 4] = [
    PLAIN,
    Layout { before: "\u{feff}", ending: "\r\n", unread: 1, backward: true },
    Layout { before: "", ending: "\r\n", unread: 11, backward: true },
    Layout { before: "\u{feff}", ending: "\n", unread: 22, backward: false },
];

/// A file with these ids as raw fields, all other values being those of the base feed.
pub(super) fn file<I: AsRef<[u8]>>(number: usize, layout: &Layout, ids: &[I]) -> Vec<u8> {
    let [names, good] = base_line(number).map(|fields| fields.into_iter().map(str::as_bytes).collect::<Vec<_>>());
    let place = names.iter().position(|name| *name == KEYS[number - 1][0].as_bytes()).expect("a column of ids");
    let line = |mut fields: Vec<&[u8]>, unread: &[u8]| {
        if layout.backward {
            fields.reverse();
        }
        let fields = [vec![unread; layout.unread], fields].concat();
        [&fields.join(&b","[..])[..], layout.ending.as_bytes()].concat()
    };
    let mut file = [layout.before.as_bytes(), &line(names, b"note")].concat();
    for id in ids {
        let mut fields = good.clone();
        fields[place] = id.as_ref();
        file.extend(line(fields, b"\"a,b\""));
    }
    file
}

/// A call of the reader.
pub(super) fn check(number: i32, file: &[u8], index: Vec<u8>) -> Case {
    Case { name: String::new(), asked: Asked::Check, number, file: file.to_vec(), lent: index }
}

/// A call of the writer with a buffer of so many bytes, no two of which in a row are alike.
pub(super) fn write(number: i32, file: &[u8], length: usize) -> Case {
    let buffer = (0..length).map(|place| (place * 7 + 1) as u8).collect();
    Case { asked: Asked::Write, ..check(number, file, buffer) }
}

/// Every two ids, and each id twice: the writer, or the reader with the records as they stand, one of them before the other.
fn pairs() -> Vec<Case> {
    let ids = ids();
    let mut cases = Vec::new();
    for (place, one) in ids.iter().enumerate() {
        for other in &ids[place..] {
            // Files, layouts, functions and orders by turns.
            let turn = cases.len();
            let (number, layout) = (1 + turn % 4, &LAYOUTS[turn / 4 % 4]);
            let file = file(number, layout, &if turn % 3 > 0 { [one, other] } else { [other, one] });
            cases.push(match turn % 5 {
                0 | 2 => write(number as i32, &file, 13),
                _ => check(number as i32, &file, bytes(number, &[1, 2])),
            });
        }
    }
    cases
}

/// All ids that differ in one file: the right index, and each two neighbours in it the other way round.
fn all_ids() -> Vec<Case> {
    let mut ids = ids();
    let mut seen = BTreeSet::new();
    ids.retain(|id| seen.insert(value(id)));
    let mut cases = Vec::new();
    for (number, layout) in (1..).zip(&LAYOUTS) {
        let file = file(number, layout, &ids);
        let right = sorted(number, &file);
        cases.push(write(number as i32, &file, 8 + 2 * ids.len()));
        cases.push(check(number as i32, &file, bytes(number, &right)));
        for place in 1..right.len() {
            let mut swapped = right.clone();
            swapped.swap(place - 1, place);
            cases.push(check(number as i32, &file, bytes(number, &swapped)));
        }
    }
    cases
}

/// Ids of three records; the right order is 2, 3, 1.
pub(super) const THREE: [&str; 3] = ["B", "A", "\"AB\""];

/// Every version beside every other number of an index that is right or wrong, for each file by turns.
fn every_way_at_once() -> Vec<Case> {
    let mut cases = Vec::new();
    // 43 alone, 44 alone, and both, either first.
    for list in [[2, 3, 1], [2, 3, 0], [3, 2, 1], [3, 2, 4], [0, 3, 2]] {
        for (count, end) in [3, 2, 4].into_iter().flat_map(|count| [14, 13, 16].map(|end| (count, end))) {
            for (mark, version) in
                [b"TTX", b"TTY"].into_iter().flat_map(|mark| [1, 2, 3].map(|version| (mark, version)))
            {
                for more in [0, 1] {
                    let number = 1 + cases.len() / 3 % 4;
                    let mut index = [&mark[..], &[version, 0, number as u8 + more, count, 0]].concat();
                    index.extend(&bytes(number, &list)[8..]);
                    index.resize(end, 0);
                    cases.push(check(number as i32, &file(number, &PLAIN, &THREE), index));
                }
            }
        }
    }
    cases
}

/// Every list of three records, over ids that fall and that repeat.
fn every_list() -> Vec<Case> {
    let mut cases = Vec::new();
    for (number, ids) in [(4, THREE), (1, ["B", "A", "\"B\""])] {
        let file = file(number, &PLAIN, &ids);
        let lists = (0..125).map(|list| [list / 25, list / 5 % 5, list % 5]);
        cases.extend(lists.map(|list| check(number as i32, &file, bytes(number, &list))));
    }
    cases
}

/// Every length and every changed byte of an index, of each file, with records and without; every length of a buffer.
fn every_byte() -> Vec<Case> {
    let mut cases = Vec::new();
    for (number, ids) in (1..=4).flat_map(|number| [&THREE[..], &[]].map(|ids| (number, ids))) {
        let file = file(number, &PLAIN, ids);
        let right = bytes(number, &sorted(number, &file));
        let mut indexes = vec![right.clone(); right.len() + 4];
        indexes.iter_mut().enumerate().for_each(|(length, index)| index.resize(length, 0));
        for (place, byte) in right.iter().enumerate() {
            // All files' numbers for one another; the low bit, the one that makes small letters, the sign.
            let changes: &[u8] = if place == 5 { &[1, 2, 3, 4, 5, 6, 7] } else { &[1, 0x20, 0x80] };
            indexes
                .extend(changes.iter().map(|change| [&right[..place], &[byte ^ change], &right[place + 1..]].concat()));
        }
        cases.extend(indexes.into_iter().map(|index| check(number as i32, &file, index)));
        cases.extend((0..right.len() + 6).map(|length| write(number as i32, &file, length)));
    }
    cases
}

/// The right index of three records with its numbers' high bytes first: all of them, or only those of one kind.
fn high_bytes_first() -> Vec<Case> {
    let (file, right) = (file(2, &PLAIN, &THREE), bytes(2, &[2, 3, 1]));
    let swapped = |places: &[usize]| {
        let mut index = right.clone();
        places.iter().for_each(|&place| index.swap(place, place + 1));
        check(2, &file, index)
    };
    [&[3, 6, 8, 10, 12][..], &[3], &[6], &[8, 10, 12], &[6, 8, 10, 12]].map(swapped).to_vec()
}

/// About as many records as a byte counts, and more, the ids falling: the right index, and with one byte of a number changed.
fn many_records() -> Vec<Case> {
    let mut cases = Vec::new();
    for count in [255, 256, 300] {
        let ids: Vec<String> = (0..count).map(|id| format!("i{:03}", 999 - id)).collect();
        let (number, length) = (1 + count % 4, 8 + 2 * count);
        let file = file(number, &PLAIN, &ids);
        let right = bytes(number, &sorted(number, &file));
        cases.extend([length - 1, length, length + 1].map(|length| write(number as i32, &file, length)));
        for place in [5, 6, 7, 8, 9, length - 2, length - 1] {
            for change in [0, 1] {
                let mut index = right.clone();
                index[place] ^= change;
                cases.push(check(number as i32, &file, index));
            }
        }
        cases.push(check(number as i32, &file, right[..8 + 2 * (count % 256)].to_vec()));
    }
    cases
}

/// A file of three records with another text in place of one of its lines (0 is the header).
fn with_line(number: usize, place: usize, text: &[u8]) -> Vec<u8> {
    let good = file(number, &PLAIN, &THREE);
    let mut lines: Vec<&[u8]> = good.split_inclusive(|&byte| byte == b'\n').collect();
    let text = [text, b"\n"].concat();
    lines[place] = &text;
    lines.concat()
}

/// Files that break rules 5 to 14, one each; then one that breaks 13 on a line and 5 on the next.
fn broken_lines(number: usize) -> Vec<Vec<u8>> {
    let good = file(number, &PLAIN, &THREE);
    let lines: Vec<&[u8]> = good.split(|&byte| byte == b'\n').collect();
    let fields = |place: usize| lines[place].split(|&byte| byte == b',').collect::<Vec<_>>();
    let with_field = |place: usize, column: usize, field: &[u8]| {
        let mut fields = fields(place);
        fields[column] = field;
        with_line(number, place, &fields.join(&b","[..]))
    };
    let id = fields(0).iter().position(|name| *name == KEYS[number - 1][0].as_bytes()).unwrap_or(0);
    let form = COLUMNS[number - 1].iter().position(|column| !matches!(column.form, Form::Text)).unwrap_or(0);
    let two = with_field(1, form, b"x");
    vec![
        with_line(number, 2, &[lines[2], b"\t"].concat()),
        with_line(number, 2, &[b"\"", lines[2]].concat()),
        with_line(number, 0, &[lines[0], &[b','; 32]].concat()),
        with_line(number, 0, &[lines[0], b",", fields(0)[id]].concat()),
        with_line(number, 0, b"note"),
        with_line(number, 2, &[lines[2], b",x"].concat()),
        with_field(3, id, &[b'i'; 65]),
        with_field(2, id, b"\"\""),
        two.clone(),
        with_line(number, 0, &[lines[0], b",\xFF"].concat()),
        [&two[..], b"\t\n"].concat(),
    ]
}

/// A file in every state: good, without records, with an id twice, empty, without its end, broken on a line, of too many lines.
fn states(number: usize) -> Vec<Vec<u8>> {
    let good = file(number, &PLAIN, &THREE);
    let mut states: Vec<Vec<u8>> =
        [&THREE[..], &[], &["B", "A", "\"B\""], &["A", "A"]].map(|ids| file(number, &PLAIN, ids)).to_vec();
    states.extend([&b""[..], b"\xEF\xBB\xBF", b"\n", b"\t\n\t", &good[..good.len() - 1]].map(<[u8]>::to_vec));
    states.extend(broken_lines(number));
    // Rule 2 speaks before 4.
    states.push([&[b'\n'; MOST_LINES + 1][..], b"x"].concat());
    states
}

/// Indexes of three records: right, wrong in each way, and wrong in every way from each number on.
fn indexes(number: usize) -> Vec<Vec<u8>> {
    let right = bytes(number, &[2, 3, 1]);
    let changed = |changes: &[(usize, u8)]| {
        let mut index = right.clone();
        changes.iter().for_each(|&(place, byte)| index[place] = byte);
        index
    };
    let all = [(8, 3), (10, 2), (12, 0), (6, 9), (3, 2), (0, 0)];
    let mut indexes = vec![right.clone(), Vec::new(), right[..7].to_vec(), right[..8].to_vec(), right[..13].to_vec()];
    indexes.extend([(0, b't'), (3, 2), (4, 1), (5, 9), (6, 2), (12, 0), (12, 4), (10, 2)].map(|one| changed(&[one])));
    indexes.extend((2..=all.len()).map(|count| changed(&all[..count])));
    indexes.push([&right[..], &[0, 0]].concat());
    indexes.extend([&[][..], &[1, 2], &[2, 1]].map(|records| bytes(number, records)));
    indexes
}

/// Every state of a file beside every index, and beside buffers of each length around the need, for each file by turns.
fn every_state() -> Vec<Case> {
    let mut cases = Vec::new();
    let all: [Vec<Vec<u8>>; 4] = from_fn(|file| states(file + 1));
    for state in 0..all[0].len() {
        for place in 0..indexes(1).len() {
            let number = 1 + (state + place) % 4;
            cases.push(check(number as i32, &all[number - 1][state], indexes(number).swap_remove(place)));
        }
        for length in [0, 7, 8, 9, 11, 12, 13, 14, 15, 19] {
            let number = 1 + (state + length / 2) % 4;
            cases.push(write(number as i32, &all[number - 1][state], length));
        }
        for (place, outside) in OUTSIDE.into_iter().enumerate() {
            let number = 1 + (state + place) % 4;
            let file = &all[number - 1][state];
            cases.push(match (state + place / 4) % 5 {
                0 => write(outside, file, 0),
                1 => write(outside, file, 19),
                2 => check(outside, file, bytes(number, &[2, 3, 1])),
                3 => check(outside, file, bytes(outside as u8 as usize, &[2, 3, 1])),
                _ => check(outside, file, Vec::new()),
            });
        }
    }
    // A file under another one's number.
    cases.extend((1..=4).map(|number| check(number as i32, &all[number % 4][0], bytes(number, &[2, 3, 1]))));
    cases
}

/// stops.txt with nodes and boarding areas, some of which can't be read.
fn of_nodes() -> Vec<Case> {
    let calls = |case: crate::Case| {
        let index = bytes(1, &sorted(1, &case.files[0]));
        [write(1, &case.files[0], index.len()), check(1, &case.files[0], index)]
    };
    nodes::cases().into_iter().step_by(7).flat_map(calls).collect()
}

/// Every call about an index; those that tell most apart come first.
pub fn cases() -> Vec<Case> {
    let lists = [every_list(), every_byte(), high_bytes_first(), many_records(), every_way_at_once()].concat();
    let mut cases = [every_state(), all_ids(), lists, beside_few(), pairs(), of_nodes()].concat();
    cases.iter_mut().enumerate().for_each(|(place, case)| case.name = format!("edge case {place}"));
    cases
}
