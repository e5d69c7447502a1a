//! Refusals 1 to 14: rules 1 to 4 over whole files, then each file once, line by line.

use crate::header::Header;
use crate::lines::{ill_formed, Cut};
use crate::records::{Call, Record, Route, Service, ServiceDate, Stop, Trip};
use crate::row::{Broken, Row};
use model::{Answer, Files, FILES};

/// How many numbers a record of each table has.
pub const WIDTHS: [usize; FILES] = [7, 3, 5, 8, 8, 4];

const MOST_BYTES: usize = 134_217_728;
const MOST_LINES: usize = 1_048_576;

/// The six files, read; one not supplied has no records.
pub struct Feed<'a> {
    pub supplied: [bool; FILES],
    pub stops: Vec<Stop<'a>>,
    pub routes: Vec<Route<'a>>,
    pub services: Vec<Service<'a>>,
    pub trips: Vec<Trip<'a>>,
    pub calls: Vec<Call<'a>>,
    pub dates: Vec<ServiceDate<'a>>,
}

/// The feed, or its first refusal.
pub fn read(files: &Files, rooms: [usize; FILES]) -> Result<Feed<'_>, Answer> {
    let lines = whole_files(files, rooms)?;
    Ok(Feed {
        supplied: files.each_ref().map(|file| !file.is_empty()),
        stops: file(files, lines, 1)?,
        routes: file(files, lines, 2)?,
        services: file(files, lines, 3)?,
        trips: file(files, lines, 4)?,
        calls: file(files, lines, 5)?,
        dates: file(files, lines, 6)?,
    })
}

/// Rules 1 to 4, each over all files: how many lines each file has.
fn whole_files(files: &Files, rooms: [usize; FILES]) -> Result<[usize; FILES], Answer> {
    let refuse = |number, broken: Option<usize>| match broken {
        Some(file) => Err(Answer::Refused { number, file: file + 1, line: 0, column: 0 }),
        None => Ok(()),
    };
    refuse(1, files.iter().position(|file| file.len() > MOST_BYTES))?;
    let lines = files.each_ref().map(|file| line_ends(file));
    refuse(2, lines.iter().position(|&lines| lines > MOST_LINES))?;
    refuse(3, (0..FILES).find(|&file| rooms[file] < WIDTHS[file] * lines[file]))?;
    refuse(4, (0..FILES).find(|&file| files[file].last() != Some(&b'\n') && !may_lack(files, file)))?;
    Ok(lines)
}

/// Is this an empty file that the feed may lack: calendar_dates, or calendar beside one that isn't empty?
fn may_lack(files: &Files, file: usize) -> bool {
    files[file].is_empty() && (file == 5 || file == 2 && !files[5].is_empty())
}

/// How many LF bytes a file has. A sum of up to 255 of them fits in a byte, which lets many be added at once.
fn line_ends(file: &[u8]) -> usize {
    let of = |piece: &[u8]| piece.iter().fold(0_u8, |sum, &byte| sum.wrapping_add(u8::from(byte == b'\n')));
    file.chunks(255).map(|piece| usize::from(of(piece))).sum()
}

/// The records of one of the files, or its first refusal.
fn file<'a, R: Record<'a>>(files: &'a Files, lines: [usize; FILES], number: usize) -> Result<Vec<R>, Answer> {
    if files[number - 1].is_empty() {
        return Ok(Vec::new());
    }
    let mut records = Vec::with_capacity(lines[number - 1]);
    match fill(&files[number - 1], &mut records) {
        Ok(()) => Ok(records),
        Err((line, (rule, column))) => Err(Answer::Refused { number: rule, file: number, line, column }),
    }
}

/// Reads a file's lines into records; the first rule broken comes behind its line.
fn fill<'a, R: Record<'a>>(file: &'a [u8], records: &mut Vec<R>) -> Result<(), (usize, Broken)> {
    let start = if file.starts_with(b"\xEF\xBB\xBF") { 3 } else { 0 };
    let mut line = Cut::new(ill_formed(file));
    let on_line_1 = |broken| (1, broken);
    let mut at = line.cut(file, start).map_err(on_line_1)?;
    let header = Header::read(file, &line, &R::COLUMNS).map_err(on_line_1)?;
    while at < file.len() {
        let on_this = |broken| (records.len() + 2, broken);
        at = line.cut(file, at).map_err(on_this)?;
        let record = record(file, &line, &header).map_err(on_this)?;
        records.push(record);
    }
    Ok(())
}

/// Rules 10 to 13 on a line that is cut, and its record.
fn record<'a, R: Record<'a>>(file: &'a [u8], line: &Cut, header: &Header) -> Result<R, Broken> {
    if line.count != header.count {
        return Err((10, 0));
    }
    let mut row = Row { file, header, line, broken: None };
    let record = R::read(&mut row);
    row.broken.map_or(Ok(record), Err)
}
