//! Refusals 1 to 14, and the values of a feed that can be read.

use crate::characters::well_formed;
use crate::columns::{Column, COLUMNS, WIDTHS};
use crate::fields::{fields, line_ends, lines, Field, Line};
use crate::forms::number;
use crate::{Answer, Files, FILES};

/// Rules 1 and 2, by E9: the most bytes and the most LF bytes that a file may have.
pub(crate) const MOST_BYTES: usize = 134_217_728;
pub(crate) const MOST_LINES: usize = 1_048_576;

/// The record lines of a file: line n of the file, n from 2, is row n - 2. A file not supplied has none.
#[derive(Clone, Debug)]
pub struct Sheet {
    pub supplied: bool,
    columns: &'static [Column],
    rows: Vec<Vec<Field>>,
}

/// A record line: one field for each known column of its file, empty where the column is absent.
#[derive(Clone, Copy)]
pub struct Row<'a> {
    columns: &'static [Column],
    cells: &'a [Field],
}

impl<'a> Row<'a> {
    /// The field under a known column.
    pub fn field(&self, name: &str) -> &'a Field {
        let place = self.columns.iter().position(|column| column.name == name);
        &self.cells[place.expect("a known column")]
    }

    /// The value under a known column.
    pub fn value(&self, name: &str) -> &'a [u8] {
        &self.field(name).value
    }

    /// The number that the value under a known column stores.
    pub fn number(&self, name: &str) -> i32 {
        let column = self.columns.iter().find(|column| column.name == name);
        number(column.expect("a known column").form, self.value(name)).expect("rule 13 holds")
    }
}

impl Sheet {
    /// The record lines in file order.
    pub fn rows(&self) -> impl Iterator<Item = Row<'_>> {
        let columns = self.columns;
        self.rows.iter().map(move |cells| Row { columns, cells })
    }

    /// The record line with this record number (1 is line 2).
    pub fn record(&self, record: usize) -> Row<'_> {
        Row { columns: self.columns, cells: &self.rows[record - 1] }
    }
}

/// The six files, read.
pub type Feed = [Sheet; FILES];

/// The feed, or the first refusal.
pub fn read(files: &Files, room: [usize; FILES]) -> Result<Feed, Answer> {
    for number in 1..=4 {
        for file in 1..=FILES {
            if whole_file_breaks(number, file, files, room[file - 1]) {
                return Err(Answer::Refused { number, file, line: 0, column: 0 });
            }
        }
    }
    let sheets: Result<Vec<Sheet>, Answer> = (1..=FILES).map(|file| sheet_of(&files[file - 1], file)).collect();
    Ok(sheets?.try_into().expect("six sheets"))
}

/// One file by its own rules, or its refusal. No table is lent, so rule 3 isn't tested, and an empty file breaks rule 4.
pub fn read_alone(bytes: &[u8], file: usize) -> Result<Sheet, Answer> {
    match [1, 2, 4].into_iter().find(|&number| whole_file_broken(number, file, bytes, 0)) {
        Some(number) => Err(Answer::Refused { number, file, line: 0, column: 0 }),
        None => sheet_of(bytes, file),
    }
}

/// Rules 1 to 4 within a feed, where a file may be not supplied, which doesn't break rule 4.
pub fn whole_file_breaks(number: usize, file: usize, files: &Files, room: usize) -> bool {
    let excused = number == 4 && may_be_absent(files, file);
    !excused && whole_file_broken(number, file, &files[file - 1], room)
}

/// Rules 1 to 4: is this one broken by the file of this number, with room for so many numbers in its table?
fn whole_file_broken(number: usize, file: usize, bytes: &[u8], room: usize) -> bool {
    match number {
        1 => bytes.len() > MOST_BYTES,
        2 => line_ends(bytes) > MOST_LINES,
        3 => room < WIDTHS[file - 1] * line_ends(bytes),
        _ => bytes.last() != Some(&b'\n'),
    }
}

/// An empty file that counts as not supplied: calendar_dates, or calendar if calendar_dates isn't empty.
fn may_be_absent(files: &Files, file: usize) -> bool {
    let empty = |file: usize| files[file - 1].is_empty();
    match file {
        3 => empty(3) && !empty(6),
        6 => empty(6),
        _ => false,
    }
}

/// The rule that a line breaks, and the column, counted from 1; rules that name no column have 0.
pub struct Broken {
    pub number: usize,
    pub column: usize,
}

/// A rule that names no column.
fn whole_line(number: usize) -> Broken {
    Broken { number, column: 0 }
}

/// The lines of the file of this number, or its first refusal by a line.
fn sheet_of(bytes: &[u8], file: usize) -> Result<Sheet, Answer> {
    let refuse = |(line, Broken { number, column })| Answer::Refused { number, file, line, column };
    sheet(bytes, COLUMNS[file - 1]).map_err(refuse)
}

/// Reads one file, or tells the line of its first refusal and what it breaks. One not supplied isn't read.
fn sheet(file: &[u8], columns: &'static [Column]) -> Result<Sheet, (usize, Broken)> {
    if file.is_empty() {
        return Ok(Sheet { supplied: false, columns, rows: Vec::new() });
    }
    let lines = lines(file);
    let header = header(lines[0], columns).map_err(|broken| (1, broken))?;
    let mut rows = Vec::new();
    for (place, &line) in lines.iter().enumerate().skip(1) {
        rows.push(row(line, columns, &header).map_err(|broken| (place + 1, broken))?);
    }
    Ok(Sheet { supplied: true, columns, rows })
}

/// Rules 5, 14, 6 and 7, which every line has to hold, tested in this order: its fields.
pub fn fields_of(line: Line) -> Result<Vec<Field>, Broken> {
    if line.text.contains(&b'\t') || line.text.contains(&b'\r') {
        return Err(whole_line(5));
    }
    if !well_formed(line.text) {
        return Err(whole_line(14));
    }
    let fields = fields(line).ok_or(whole_line(6))?;
    if fields.len() > 32 {
        return Err(whole_line(7));
    }
    Ok(fields)
}

/// Rules 5 to 9 and 14: the names of the header line.
pub fn header(line: Line, columns: &[Column]) -> Result<Vec<Vec<u8>>, Broken> {
    let names: Vec<Vec<u8>> = fields_of(line)?.into_iter().map(|field| field.value).collect();
    if let Some(column) = twice(&names, columns) {
        return Err(Broken { number: 8, column });
    }
    if columns.iter().any(|column| column.present && standings(&names, column).is_empty()) {
        return Err(whole_line(9));
    }
    Ok(names)
}

/// Where the name of a known column stands, counted from 1.
fn standings(names: &[Vec<u8>], column: &Column) -> Vec<usize> {
    (1..=names.len()).filter(|&place| names[place - 1] == column.name.as_bytes()).collect()
}

/// Rule 8: the second standing of a known name, the leftmost if there are several.
pub fn twice(names: &[Vec<u8>], columns: &[Column]) -> Option<usize> {
    columns.iter().filter_map(|column| standings(names, column).get(1).copied()).min()
}

/// Rules 5 to 7 and 10 to 14: the fields of a record line under the known columns.
pub fn row(line: Line, columns: &[Column], header: &[Vec<u8>]) -> Result<Vec<Field>, Broken> {
    let fields = fields_of(line)?;
    if fields.len() != header.len() {
        return Err(whole_line(10));
    }
    for number in 11..=13 {
        if let Some(column) = leftmost(number, &fields, columns, header) {
            return Err(Broken { number, column });
        }
    }
    let under = |column: &Column| header.iter().position(|name| name == column.name.as_bytes());
    let cell = |column| under(column).map(|place| fields[place].clone()).unwrap_or_default();
    Ok(columns.iter().map(cell).collect())
}

/// Rules 11 to 13: the leftmost column, counted from 1, whose value breaks this one. Unknown columns break none.
pub fn leftmost(number: usize, fields: &[Field], columns: &[Column], header: &[Vec<u8>]) -> Option<usize> {
    let under = |name: &str| header.iter().zip(fields).find(|(have, _)| *have == name.as_bytes());
    let value = |name: &str| under(name).map_or(&[][..], |(_, field)| &field.value);
    let breaks = |place: &usize| {
        let column = columns.iter().find(|column| column.name.as_bytes() == header[place - 1]);
        let broken = |column| value_breaks(number, column, &fields[place - 1].value);
        column.is_some_and(|column| broken(column) && !(number == 12 && excused(column.name, value)))
    };
    (1..=fields.len()).find(breaks)
}

/// Rule 12 by E10: may a line with these values leave the one under this column empty, though others may not? A node or a boarding area,
/// whose type has to be written as such, may do so with its name, and with its coordinates together.
pub fn excused<'a>(column: &str, value: impl Fn(&str) -> &'a [u8]) -> bool {
    let node_or_area = matches!(value("location_type"), b"3" | b"4");
    match column {
        "stop_name" => node_or_area,
        "stop_lat" | "stop_lon" => node_or_area && value("stop_lat").is_empty() && value("stop_lon").is_empty(),
        _ => false,
    }
}

/// Does a value under a known column break this one of rules 11 to 13, on a line that isn't excused?
pub fn value_breaks(rule: usize, column: &Column, value: &[u8]) -> bool {
    match rule {
        11 => column.is_id() && value.len() > 64,
        12 => column.needed() && value.is_empty(),
        _ => number(column.form, value).is_none(),
    }
}
