//! Likely wrong readings of E6: edge cases and generated feeds tell every one of them from the right one, vectors some.

use cases::readings::Missed;
use cases::{characters, generate, vectors, Case};
use model::columns::{Column, COLUMNS};
use model::fields::{fields, lines, Line};
use model::reading::read;
use model::{Answer, Files, FILES};
use std::str::from_utf8;

/// How many seeds are looked at.
const SEEDS: u64 = 4000;

const MARK: &[u8] = b"\xEF\xBB\xBF";

/// A file in lines.
struct Sheet<'a> {
    bytes: &'a [u8],
    lines: Vec<Line<'a>>,
    columns: &'static [Column],
}

/// A sequence of bytes, by the first and the last that may stand at each place.
type Row = &'static [[u8; 2]];

/// Which lines are well-formed, and when rule 14 speaks. Lines are told by their places, the header's is 0.
#[derive(Clone, Copy)]
struct Reading {
    /// What is taken for a character besides those of the standard.
    also: &'static [Row],
    /// Does a line pass, ill-formed or not?
    spared: fn(&Sheet, usize) -> bool,
    /// Does a line not pass, well-formed or not?
    barred: fn(&Sheet, usize) -> bool,
    /// Does the first refusal by 14 speak before the first by another rule? Each is file, line and number.
    first: fn([usize; 3], [usize; 3]) -> bool,
}

const RIGHT: Reading =
    Reading { also: &[], spared: |_, _| false, barred: |_, _| false, first: |ill, by| after(5, ill, by) };

const ON: [u8; 2] = [0x80, 0xBF];
const ED: [u8; 2] = [0xED, 0xED];

/// Readings that take more for a character.
const MORE: [(&str, Reading); 13] = [
    ("overlong forms of two bytes", Reading { also: &[&[[0xC0, 0xC1], ON]], ..RIGHT }),
    ("C0 80 for U+0000", Reading { also: &[&[[0xC0, 0xC0], [0x80, 0x80]]], ..RIGHT }),
    ("overlong forms of three bytes", Reading { also: &[&[[0xE0, 0xE0], [0x80, 0x9F], ON]], ..RIGHT }),
    ("overlong forms of four bytes", Reading { also: &[&[[0xF0, 0xF0], [0x80, 0x8F], ON, ON]], ..RIGHT }),
    ("surrogates", Reading { also: &[&[ED, [0xA0, 0xBF], ON]], ..RIGHT }),
    ("surrogates in pairs", Reading { also: &[&[ED, [0xA0, 0xAF], ON, ED, [0xB0, 0xBF], ON]], ..RIGHT }),
    ("F4 90 and above", Reading { also: &[&[[0xF4, 0xF4], [0x90, 0xBF], ON, ON]], ..RIGHT }),
    ("F5 to F7 begin four bytes", Reading { also: &[&[[0xF5, 0xF7], ON, ON, ON]], ..RIGHT }),
    ("F8 to FB begin five bytes", Reading { also: &[&[[0xF8, 0xFB], ON, ON, ON, ON]], ..RIGHT }),
    ("F5 to FF alone", Reading { also: &[&[[0xF5, 0xFF]]], ..RIGHT }),
    ("bytes that only go on, alone", Reading { also: &[&[ON]], ..RIGHT }),
    ("any byte after the first of two", Reading { also: &[&[[0xC2, 0xDF], [0x00, 0xFF]]], ..RIGHT }),
    ("every byte", Reading { also: &[&[[0x80, 0xFF]]], ..RIGHT }),
];

/// Readings that look at less of a line, or want more of it.
const LOOKS: [(&str, Reading); 10] = [
    ("a cut character at a line's end", Reading { spared: |sheet, place| is_cut(sheet.text(place)), ..RIGHT }),
    ("the CR of an ending goes on", Reading { spared: with_its_cr, ..RIGHT }),
    ("the header isn't looked at", Reading { spared: |_, place| place == 0, ..RIGHT }),
    ("only the header is looked at", Reading { spared: |_, place| place > 0, ..RIGHT }),
    ("unread columns aren't looked at", Reading { spared: known_columns_pass, ..RIGHT }),
    ("quoted bytes aren't looked at", Reading { spared: |sheet, place| unquoted_passes(sheet.text(place)), ..RIGHT }),
    ("a second mark is ill-formed", Reading { barred: second_mark, ..RIGHT }),
    ("a mark inside is ill-formed", Reading { barred: |sheet, place| sheet.has(place, MARK), ..RIGHT }),
    ("U+FFFF is ill-formed", Reading { barred: |sheet, place| sheet.has(place, b"\xEF\xBF\xBF"), ..RIGHT }),
    ("U+0000 is ill-formed", Reading { barred: |sheet, place| sheet.has(place, b"\0"), ..RIGHT }),
];

/// Readings in which rule 14 speaks at another turn.
const TURNS: [(&str, Reading); 8] = [
    ("14 before 5", Reading { first: |ill, by| after(4, ill, by), ..RIGHT }),
    ("14 after 6", Reading { first: |ill, by| after(6, ill, by), ..RIGHT }),
    ("14 after 7", Reading { first: |ill, by| after(7, ill, by), ..RIGHT }),
    ("14 after 9", Reading { first: |ill, by| after(9, ill, by), ..RIGHT }),
    ("14 after 13", Reading { first: |ill, by| after(13, ill, by), ..RIGHT }),
    ("14 before all lines of its file", Reading { first: |ill, by| by[1] > 0 && ill[0] <= by[0], ..RIGHT }),
    ("14 before all lines", Reading { first: |_, by| by[1] > 0, ..RIGHT }),
    ("14 before 4", Reading { first: |ill, by| by[2] == 4 || after(5, ill, by), ..RIGHT }),
];

fn wrong() -> Vec<(&'static str, Reading)> {
    [&MORE[..], &LOOKS, &TURNS].concat()
}

/// Does 14 speak first, if on a line it is tested after the rule of this number?
fn after(number: usize, ill: [usize; 3], by: [usize; 3]) -> bool {
    by[1] > 0 && (ill[..2] < by[..2] || ill[..2] == by[..2] && by[2] > number)
}

impl<'a> Sheet<'a> {
    fn text(&self, place: usize) -> &'a [u8] {
        self.lines[place].text
    }

    fn has(&self, place: usize, bytes: &[u8]) -> bool {
        self.text(place).windows(bytes.len()).any(|window| window == bytes)
    }
}

/// Is a text one character after the other, by Rust's own reader or by these rows?
fn passes(text: &[u8], also: &[Row]) -> bool {
    let mut rest = text;
    while !rest.is_empty() {
        let one = |length: &usize| rest.get(..*length).is_some_and(|start| from_utf8(start).is_ok());
        let begins = |row: &&Row| {
            let within = |(byte, [first, last]): (&u8, &[u8; 2])| (first..=last).contains(&byte);
            rest.len() >= row.len() && rest.iter().zip(row.iter()).all(within)
        };
        let length = (1..=4).find(one).or_else(|| also.iter().find(begins).map(|row| row.len()));
        let Some(length) = length else { return false };
        rest = &rest[length..];
    }
    true
}

/// Well-formed up to its end, where more bytes would have to follow.
fn is_cut(text: &[u8]) -> bool {
    from_utf8(text).is_err_and(|error| error.error_len().is_none())
}

/// The last character lacks one byte, and CR LF follows.
fn with_its_cr(sheet: &Sheet, place: usize) -> bool {
    let Line { start, text } = sheet.lines[place];
    sheet.bytes[start + text.len()] == b'\r' && passes(&[text, &[0x80]].concat(), &[])
}

/// The line can be cut into fields, and those under known columns pass.
fn known_columns_pass(sheet: &Sheet, place: usize) -> bool {
    let (Some(names), Some(own)) = (fields(sheet.lines[0]), fields(sheet.lines[place])) else { return false };
    let known = |name: &[u8]| sheet.columns.iter().any(|column| column.name.as_bytes() == name);
    let mut read = own.iter().zip(&names).filter(|(_, name)| place == 0 || known(&name.value));
    read.all(|(field, _)| passes(&sheet.bytes[field.start..field.end], &[]))
}

/// What stands outside of marks passes.
fn unquoted_passes(text: &[u8]) -> bool {
    text.split(|&byte| byte == b'"').step_by(2).all(|piece| passes(piece, &[]))
}

fn second_mark(sheet: &Sheet, place: usize) -> bool {
    place == 0 && sheet.bytes.starts_with(&[MARK, MARK].concat())
}

/// The first refusal by rule 14.
fn ill_formed(reading: &Reading, sheets: &[Sheet]) -> Option<[usize; 3]> {
    for (file, sheet) in sheets.iter().enumerate() {
        let passes = |place| passes(sheet.text(place), reading.also) || (reading.spared)(sheet, place);
        let bad = |place: &usize| !passes(*place) || (reading.barred)(sheet, *place);
        if let Some(place) = (0..sheet.lines.len()).find(bad) {
            return Some([file + 1, place + 1, 14]);
        }
    }
    None
}

/// The files with one plain byte, which no name and no form has, for each byte past ASCII but those of a leading mark.
fn plain(files: &Files) -> Files {
    let mut files = files.clone();
    for file in &mut files {
        let from = if file.starts_with(MARK) { MARK.len() } else { 0 };
        file[from..].iter_mut().filter(|byte| !byte.is_ascii()).for_each(|byte| *byte = 1);
    }
    files
}

/// The refusal of a case by the model, in numbers.
fn refusal(files: &Files, case: &Case) -> Option<[usize; 3]> {
    match read(files, case.tables.each_ref().map(Vec::len)) {
        Err(Answer::Refused { number, file, line, .. }) => Some([file, line, number]),
        _ => None,
    }
}

/// The refusal of a case by a reading: rule 14 beside what the others say of it.
fn by(reading: &Reading, sheets: &[Sheet], others: Option<[usize; 3]>) -> Option<[usize; 3]> {
    match (ill_formed(reading, sheets), others) {
        (Some(ill), Some(by)) => Some(if (reading.first)(ill, by) { ill } else { by }),
        (ill, by) => ill.or(by),
    }
}

/// Fails unless the right reading gives the model's refusal on every case, and each wrong one but these another on some.
fn told_apart(cases: impl Iterator<Item = Case>, but: &[&str]) {
    let mut missed = Missed::new(RIGHT, &wrong());
    for case in cases.filter(|case| case.files.iter().all(|file| file.len() < 100_000)) {
        let sheet = |file: usize| {
            let bytes = &case.files[file][..];
            Sheet { bytes, lines: lines(bytes), columns: COLUMNS[file] }
        };
        let sheets: [Sheet; FILES] = std::array::from_fn(sheet);
        let wanted = refusal(&case.files, &case);
        let others = refusal(&plain(&case.files), &case);
        missed.try_case(&case.name, &wanted, |reading| by(reading, &sheets, others));
    }
    missed.are(but);
}

/// What the customer's feeds lack: several ill-formed sequences, U+FFFF, a rule 5 or 6 broken beside 14, and a file without its end with 14.
#[test]
fn by_the_vectors() {
    let but = [
        "14 after 6",
        "14 before 4",
        "14 before 5",
        "C0 80 for U+0000",
        "F5 to F7 begin four bytes",
        "U+FFFF is ill-formed",
        "a cut character at a line's end",
        "a second mark is ill-formed",
        "overlong forms of two bytes",
        "surrogates in pairs",
        "the CR of an ending goes on",
    ];
    told_apart(vectors::customers().into_iter().map(|(case, _)| case), &but);
}

#[test]
fn by_the_edge_cases() {
    told_apart(characters::cases().into_iter(), &[]);
}

#[test]
fn by_generated_feeds() {
    told_apart((0..SEEDS).map(generate::case), &[]);
}
