//! Likely wrong readings of E7: edge cases and generated feeds tell every one of them from the right one, vectors some.

use cases::generate::{case, kind, Kind};
use cases::readings::Missed;
use cases::{columns, vectors, Case};
use model::columns::{Column, COLUMNS};
use model::fields::{fields, lines, Field, Line};
use model::forms::{number, Form};
use model::reading::{excused, read, value_breaks};
use model::Answer;
use std::str::from_utf8;

/// How many seeds are looked at: as many as the archive is compared with the model on.
const SEEDS: u64 = 8000;

/// A field with the name above it and the bytes of the line before it, and the table of its file's columns.
struct Cell<'a> {
    name: Vec<u8>,
    before: &'a [u8],
    raw: &'a [u8],
    value: Vec<u8>,
    table: &'static [Column],
    /// By E10 the line may leave it empty.
    excused: bool,
}

/// Of each name that stands more than once where it stands, the leftmost name first.
type Standings = [Vec<usize>];

/// How the column of a refusal is found. Places on a line are counted from 0.
#[derive(Clone, Copy)]
struct Reading {
    /// What makes two names the same; none for a name that rule 8 doesn't ask about.
    key: fn(&Cell) -> Option<Vec<u8>>,
    /// The standing that rule 8 names.
    standing: fn(&Standings, &[Cell]) -> Option<usize>,
    /// Does a field break this one of rules 11 to 13?
    breaks: fn(usize, &Cell) -> bool,
    /// Which of the fields that do rules 11 to 13 name?
    pick: fn(&[usize], &[Cell]) -> Option<usize>,
    /// The column of a place.
    count: fn(usize, &[Cell]) -> usize,
    /// The column of any other rule; there are no fields where the line can't be cut into them.
    other: fn(usize, &[Cell]) -> usize,
}

const RIGHT: Reading = Reading {
    key: |cell| cell.column().map(|_| cell.name.clone()),
    standing: |names, _| soonest(names).map(|own| own[1]),
    breaks,
    pick: |places, _| places.first().copied(),
    count: |place, _| place + 1,
    other: |_, _| 0,
};

/// Readings of how columns are counted, and of which rules have one.
const COUNTS: [(&str, Reading); 15] = [
    ("counted from 0", Reading { count: |place, _| place, ..RIGHT }),
    ("unread columns don't count", Reading { count: known_up_to, ..RIGHT }),
    ("the number in the table of columns", Reading { count: |place, cells| turn(&cells[place]) + 1, ..RIGHT }),
    ("commas in quotes count", Reading { count: |place, cells| commas(cells[place].before) + 1, ..RIGHT }),
    ("counted in bytes", Reading { count: |place, cells| cells[place].before.len() + 1, ..RIGHT }),
    ("8 has none", Reading { standing: |_, _| None, ..RIGHT }),
    ("11 to 13 have none", Reading { pick: |_, _| None, ..RIGHT }),
    ("1 to 4 have one", Reading { other: |rule, _| usize::from(rule < 5), ..RIGHT }),
    ("5 has one", Reading { other: |rule, _| usize::from(rule == 5), ..RIGHT }),
    ("6 has one", Reading { other: |rule, _| usize::from(rule == 6), ..RIGHT }),
    ("7 has one", Reading { other: |rule, _| usize::from(rule == 7), ..RIGHT }),
    ("9 has one", Reading { other: |rule, _| usize::from(rule == 9), ..RIGHT }),
    ("10 has one", Reading { other: |rule, _| usize::from(rule == 10), ..RIGHT }),
    ("14 has one", Reading { other: |rule, _| usize::from(rule == 14), ..RIGHT }),
    ("a broken value's, though 7 or 10 speaks", Reading { other: broken_value, ..RIGHT }),
];

/// Readings of rules 11 to 13.
const VALUES: [(&str, Reading); 17] = [
    ("the rightmost value", Reading { pick: |places, _| places.last().copied(), ..RIGHT }),
    ("the first value by the table", Reading { pick: first_in_table, ..RIGHT }),
    ("a value that breaks any of 11 to 13", Reading { breaks: |_, cell| breaks_any(cell), ..RIGHT }),
    ("11 by characters", Reading { breaks: |rule, cell| spared(rule, cell, 11, few_characters), ..RIGHT }),
    ("11 by raw bytes", Reading { breaks: |rule, cell| barred(rule, cell, 11, long_raw), ..RIGHT }),
    ("11 from 64 bytes on", Reading { breaks: |rule, cell| barred(rule, cell, 11, nearly_long), ..RIGHT }),
    ("11 in every known column", Reading { breaks: |rule, cell| barred(rule, cell, 11, long_known), ..RIGHT }),
    ("11 in unread columns of ids", Reading { breaks: |rule, cell| barred(rule, cell, 11, long_unread), ..RIGHT }),
    ("11 not in parent_station", Reading { breaks: |rule, cell| spared(rule, cell, 11, is_parent), ..RIGHT }),
    ("11 not in direction_id", Reading { breaks: |rule, cell| spared(rule, cell, 11, is_direction), ..RIGHT }),
    ("12 by empty times", Reading { breaks: |rule, cell| barred(rule, cell, 12, empty_time), ..RIGHT }),
    ("12 by every empty known value", Reading { breaks: |rule, cell| barred(rule, cell, 12, empty_known), ..RIGHT }),
    ("12 by every empty value", Reading { breaks: |rule, cell| barred(rule, cell, 12, empty), ..RIGHT }),
    ("12 by raw bytes", Reading { breaks: |rule, cell| spared(rule, cell, 12, |cell| !cell.raw.is_empty()), ..RIGHT }),
    ("13 by empty values", Reading { breaks: |rule, cell| barred(rule, cell, 13, empty_form), ..RIGHT }),
    ("13 by another file's columns", Reading { breaks: |rule, cell| barred(rule, cell, 13, bad_elsewhere), ..RIGHT }),
    ("13 by raw bytes", Reading { breaks: |rule, cell| barred(rule, cell, 13, bad_raw), ..RIGHT }),
];

/// Readings of rule 8.
const NAMES: [(&str, Reading); 12] = [
    ("8 the first standing", Reading { standing: |names, _| soonest(names).map(|own| own[0]), ..RIGHT }),
    ("8 the leftmost first standing", Reading { standing: |names, _| names.first().map(|own| own[0]), ..RIGHT }),
    ("8 the last standing", Reading { standing: |names, _| soonest(names)?.last().copied(), ..RIGHT }),
    ("8 the rightmost standing", Reading { standing: |names, _| names.iter().flatten().max().copied(), ..RIGHT }),
    ("8 the rightmost second", Reading { standing: |names, _| names.iter().map(|own| own[1]).max(), ..RIGHT }),
    ("8 the second of the leftmost name", Reading { standing: |names, _| names.first().map(|own| own[1]), ..RIGHT }),
    ("8 the second of the table's first", Reading { standing: second_in_table, ..RIGHT }),
    ("8 by unknown names", Reading { key: |cell| Some(cell.name.clone()), ..RIGHT }),
    ("8 by another file's names", Reading { key: known_anywhere, ..RIGHT }),
    ("8 by raw bytes", Reading { key: |cell| cell.column().map(|_| cell.raw.to_vec()), ..RIGHT }),
    ("8 in any case", Reading { key: in_any_case, ..RIGHT }),
    ("8 by names that must be present", Reading { key: must_be_present, ..RIGHT }),
];

/// Does a field break this one of rules 11 to 13?
fn breaks(rule: usize, cell: &Cell) -> bool {
    let broken = cell.column().is_some_and(|column| value_breaks(rule, column, &cell.value));
    broken && !(rule == 12 && cell.excused)
}

impl Cell<'_> {
    /// Its column, if it is known.
    fn column(&self) -> Option<&'static Column> {
        self.table.get(turn(self))
    }
}

/// Where the table of columns has the name of a field; behind it for an unknown one.
fn turn(cell: &Cell) -> usize {
    let known = cell.table.iter().position(|column| column.name.as_bytes() == cell.name);
    known.unwrap_or(cell.table.len())
}

/// Of the names that stand twice the one whose second standing is the leftmost.
fn soonest(names: &Standings) -> Option<&Vec<usize>> {
    names.iter().min_by_key(|own| own[1])
}

fn second_in_table(names: &Standings, cells: &[Cell]) -> Option<usize> {
    names.iter().min_by_key(|own| turn(&cells[own[0]])).map(|own| own[1])
}

fn in_any_case(cell: &Cell) -> Option<Vec<u8>> {
    let known = cell.table.iter().find(|column| column.name.as_bytes().eq_ignore_ascii_case(&cell.name));
    known.map(|column| column.name.into())
}

fn known_anywhere(cell: &Cell) -> Option<Vec<u8>> {
    in_any_file(cell).map(|column| column.name.into())
}

fn must_be_present(cell: &Cell) -> Option<Vec<u8>> {
    cell.column().filter(|column| column.present).map(|column| column.name.into())
}

fn known_up_to(place: usize, cells: &[Cell]) -> usize {
    cells[..=place].iter().filter(|cell| cell.column().is_some()).count()
}

fn commas(text: &[u8]) -> usize {
    text.iter().filter(|&&byte| byte == b',').count()
}

fn first_in_table(places: &[usize], cells: &[Cell]) -> Option<usize> {
    places.iter().copied().min_by_key(|&place| turn(&cells[place]))
}

fn breaks_any(cell: &Cell) -> bool {
    (11..=13).any(|rule| (RIGHT.breaks)(rule, cell))
}

fn broken_value(rule: usize, cells: &[Cell]) -> usize {
    let place = cells.iter().position(breaks_any).filter(|_| rule == 7 || rule == 10);
    place.map_or(0, |place| place + 1)
}

/// Breaks a rule as it should, or where it is this rule and the field is so.
fn barred(rule: usize, cell: &Cell, own: usize, so: fn(&Cell) -> bool) -> bool {
    (RIGHT.breaks)(rule, cell) || rule == own && so(cell)
}

/// Breaks a rule as it should, but not where it is this rule and the field is so.
fn spared(rule: usize, cell: &Cell, own: usize, so: fn(&Cell) -> bool) -> bool {
    (RIGHT.breaks)(rule, cell) && !(rule == own && so(cell))
}

fn few_characters(cell: &Cell) -> bool {
    from_utf8(&cell.value).is_ok_and(|value| value.chars().count() <= 64)
}

fn long_raw(cell: &Cell) -> bool {
    cell.column().is_some_and(Column::is_id) && cell.raw.len() > 64
}

fn nearly_long(cell: &Cell) -> bool {
    cell.column().is_some_and(Column::is_id) && cell.value.len() >= 64
}

fn long_known(cell: &Cell) -> bool {
    cell.column().is_some() && cell.value.len() > 64
}

fn long_unread(cell: &Cell) -> bool {
    cell.name.ends_with(b"_id") && cell.value.len() > 64
}

fn is_parent(cell: &Cell) -> bool {
    cell.name == b"parent_station"
}

fn is_direction(cell: &Cell) -> bool {
    cell.name == b"direction_id"
}

fn empty(cell: &Cell) -> bool {
    cell.value.is_empty()
}

fn empty_known(cell: &Cell) -> bool {
    empty(cell) && cell.column().is_some()
}

fn empty_time(cell: &Cell) -> bool {
    empty(cell) && cell.column().is_some_and(|column| matches!(column.form, Form::Time))
}

fn empty_form(cell: &Cell) -> bool {
    empty(cell) && cell.column().is_some_and(|column| !matches!(column.form, Form::Text))
}

/// The column of this name, whichever file knows it.
fn in_any_file(cell: &Cell) -> Option<&'static Column> {
    COLUMNS.into_iter().flatten().find(|column| column.name.as_bytes() == cell.name)
}

fn bad_elsewhere(cell: &Cell) -> bool {
    in_any_file(cell).is_some_and(|column| value_breaks(13, column, &cell.value))
}

fn bad_raw(cell: &Cell) -> bool {
    cell.column().is_some_and(|column| number(column.form, cell.raw).is_none())
}

/// Where each name stands that stands more than once.
fn standings(reading: &Reading, cells: &[Cell]) -> Vec<Vec<usize>> {
    let keys: Vec<Option<Vec<u8>>> = cells.iter().map(reading.key).collect();
    let first = |place: &usize| keys[*place].is_some() && !keys[..*place].contains(&keys[*place]);
    let stands = |place: usize| (place..keys.len()).filter(|&other| keys[other] == keys[place]).collect();
    let names: Vec<Vec<usize>> = (0..keys.len()).filter(first).map(stands).collect();
    names.into_iter().filter(|own| own.len() > 1).collect()
}

/// The column by a reading.
fn by(reading: &Reading, rule: usize, cells: &[Cell]) -> usize {
    let place = match rule {
        8 => (reading.standing)(&standings(reading, cells), cells),
        11..=13 => {
            let breaks = |place: &usize| (reading.breaks)(rule, &cells[*place]);
            (reading.pick)(&(0..cells.len()).filter(breaks).collect::<Vec<_>>(), cells)
        }
        _ => return (reading.other)(rule, cells),
    };
    place.map_or(0, |place| (reading.count)(place, cells))
}

/// The fields of a line under their names; none of a whole file, and none where the line or the header can't be cut.
fn cells<'a>(file: &'a [u8], line: usize, table: &'static [Column]) -> Vec<Cell<'a>> {
    let lines = if line > 0 { lines(file) } else { Vec::new() };
    let Some(&Line { start, text }) = lines.get(line.wrapping_sub(1)) else { return Vec::new() };
    let (Some(names), Some(fields)) = (fields(lines[0]), fields(lines[line - 1])) else { return Vec::new() };
    let pairs: Vec<(&Field, &Field)> = names.iter().zip(&fields).collect();
    let under = |name: &str| pairs.iter().find(|pair| pair.0.value == name.as_bytes());
    let excused =
        |name: &[u8]| excused(&String::from_utf8_lossy(name), |name| under(name).map_or(b"", |pair| &pair.1.value));
    let cell = |(name, field): &(&Field, &Field)| {
        let (before, raw) = text[..field.end - start].split_at(field.start - start);
        Cell { name: name.value.clone(), before, raw, value: field.value.clone(), table, excused: excused(&name.value) }
    };
    pairs.iter().map(cell).collect()
}

/// Fails unless the right reading gives the model's column of every refusal, and each wrong one but these another of some.
fn told_apart(cases: impl Iterator<Item = Case>, but: &[&str]) {
    let mut missed = Missed::new(RIGHT, &[&COUNTS[..], &VALUES, &NAMES].concat());
    for case in cases {
        let refusal = read(&case.files, case.tables.each_ref().map(Vec::len)).err();
        let Some(Answer::Refused { number, file, line, column }) = refusal else { continue };
        let cells = cells(&case.files[file - 1], line, COLUMNS[file - 1]);
        missed.try_case(&case.name, &column, |reading| by(reading, number, &cells));
    }
    missed.are(but);
}

/// What the customer's feeds lack: left of the value that is named one that only seems to break the rule; a long direction_id; names right of an
/// unknown one that stands twice, and a name that stands three times.
#[test]
fn by_the_vectors() {
    let but = [
        "11 by raw bytes",
        "11 from 64 bytes on",
        "11 in every known column",
        "11 in unread columns of ids",
        "11 not in direction_id",
        "12 by empty times",
        "13 by another file's columns",
        "13 by raw bytes",
        "8 by another file's names",
        "8 by unknown names",
        "8 in any case",
        "8 the last standing",
    ];
    told_apart(vectors::customers().into_iter().map(|(case, _)| case), &but);
}

#[test]
fn by_the_edge_cases() {
    told_apart(columns::cases().into_iter(), &[]);
}

#[test]
fn by_generated_feeds() {
    told_apart((0..SEEDS).filter(|&seed| matches!(kind(seed), Kind::Refused(3..))).map(case), &[]);
}
