//! Likely wrong readings of issue 19: edge cases tell every one of them from the right one, generated calls all but one.

use cases::edges::MARK;
use cases::limits::{MOST_BYTES, MOST_LINES};
use cases::listing::edges::{at_the_limits, cases, OVER_THE_LIMITS};
use cases::listing::generate::case;
use cases::listing::{by_model, Case, Outcome, NUMBERS};
use cases::readings::Missed;
use model::characters::well_formed;
use model::columns::{Column, COLUMNS};
use model::faults::{Answer, Fault};
use model::fields::{fields, line_ends, Field, Line};
use model::reading::{leftmost, twice};
use model::{Files, FILES};

/// How many seeds are looked at: as many as the archive is compared with the model on.
const SEEDS: u64 = 2000;

/// How a call is read. Rules are named in the order in which they are tested.
#[derive(Clone, Copy)]
struct Reading {
    /// The rules of whole files, and those of them that hide the lines of their file and of every file.
    whole: &'static [usize],
    hide: &'static [usize],
    hide_all: &'static [usize],
    /// Is a file not supplied?
    absent: fn(usize, &Files) -> bool,
    /// The lines of a file, their endings taken off.
    lines: fn(&[u8]) -> Vec<&[u8]>,
    /// The rules of the header, of lines below a good one, and of lines below one that breaks these.
    header: &'static [usize],
    later: &'static [usize],
    below: fn(&[usize]) -> &'static [usize],
    /// How many of the rules that a line breaks, of the faults of a file and of the feed are named; how many files have some.
    most: [usize; 4],
    column: fn(usize) -> usize,
    line: fn(i32) -> i32,
    order: fn(&Fault) -> [i32; 4],
    /// Is a fault behind the starting place? What is written of it, and how many numbers does it take?
    behind: fn(&Fault, [i32; 3]) -> bool,
    numbers: fn(Fault) -> Fault,
    width: usize,
    room: fn(usize) -> usize,
    /// The answer from what was written, what is behind the place, and all.
    answer: fn([usize; 3]) -> Answer,
    rest: fn(&mut [i32]),
}

const EVERY: &[usize] = &[5, 14, 6, 7];
const HEADER: &[usize] = &[5, 14, 6, 7, 8, 9];
const LATER: &[usize] = &[5, 14, 6, 7, 10, 11, 12, 13];
const ALL: usize = usize::MAX;

const RIGHT: Reading = Reading {
    whole: &[1, 2, 4],
    hide: &[1, 2],
    hide_all: &[],
    absent: |file, files| files[file].is_empty() && (file == 5 || file == 2 && !files[5].is_empty()),
    lines: lines_to_the_end,
    header: HEADER,
    later: LATER,
    below: |_| EVERY,
    most: [1, ALL, ALL, ALL],
    column: |column| column,
    line: |line| line,
    order: |fault| *fault,
    behind: |fault, start| fault[..3] > start[..],
    numbers: |fault| fault,
    width: NUMBERS,
    room: |length| length / NUMBERS,
    answer: |[written, _, total]| Answer { written, total },
    rest: |_| (),
};

/// Readings of rules 1 and 2, which only large files tell apart.
const LIMITS: [(&str, Reading); 8] = [
    ("no 1", Reading { whole: &[2, 4], hide: &[2], ..RIGHT }),
    ("no 1, which hides", Reading { whole: &[2, 4], ..RIGHT }),
    ("no 2", Reading { whole: &[1, 4], hide: &[1], ..RIGHT }),
    ("no 2, which hides", Reading { whole: &[1, 4], ..RIGHT }),
    ("1 hides nothing", Reading { hide: &[2], ..RIGHT }),
    ("2 hides nothing", Reading { hide: &[1], ..RIGHT }),
    ("1 hides the lines of all files", Reading { hide_all: &[1], ..RIGHT }),
    ("2 hides the lines of all files", Reading { hide_all: &[2], ..RIGHT }),
];

/// Readings of rules 3 and 4.
const WHOLE: [(&str, Reading); 10] = [
    ("3 in the list", Reading { whole: &[1, 2, 3, 4], ..RIGHT }),
    ("no 4", Reading { whole: &[1, 2], ..RIGHT }),
    ("4 hides the lines", Reading { hide: &[1, 2, 4], ..RIGHT }),
    ("4 hides the lines of all files", Reading { hide_all: &[4], ..RIGHT }),
    ("any empty file is not supplied", Reading { absent: |file, files| files[file].is_empty(), ..RIGHT }),
    ("no file is not supplied", Reading { absent: |_, _| false, ..RIGHT }),
    ("calendar is always needed", Reading { absent: |file, files| file == 5 && files[5].is_empty(), ..RIGHT }),
    ("calendar is never needed", Reading { absent: either_empty, ..RIGHT }),
    ("calendar_dates is needed without calendar", Reading { absent: by_each_other, ..RIGHT }),
    ("a mark alone is not supplied", Reading { absent: no_line, ..RIGHT }),
];

/// Readings of lines.
const LINES: [(&str, Reading); 15] = [
    ("the unended line left out", Reading { lines: |file| cut(file, false, trimmed), ..RIGHT }),
    ("the unended header left out", Reading { lines: without_lone_header, ..RIGHT }),
    ("only the unended header is a line", Reading { lines: lone_header_only, ..RIGHT }),
    ("the unended line's CR is an ending", Reading { lines: trimmed_to_the_end, ..RIGHT }),
    ("no CR is an ending", Reading { lines: |file| cut(file, true, |line| line), ..RIGHT }),
    ("every CR before LF is an ending", Reading { lines: |file| cut(file, true, all_trimmed), ..RIGHT }),
    ("a line behind the last LF", Reading { lines: with_one_more, ..RIGHT }),
    ("an empty file has a line", Reading { lines: never_none, ..RIGHT }),
    ("the mark stays", Reading { lines: |file| of(file, true, trimmed, |line| line), ..RIGHT }),
    ("two marks dropped", Reading { lines: |file| lines_to_the_end(unmarked(file)), ..RIGHT }),
    ("lines of no bytes left out", Reading { lines: no_empty_lines, ..RIGHT }),
    ("the last line left out", Reading { lines: without_last, ..RIGHT }),
    ("lines from 0", Reading { line: |line| (line - 1).max(0), ..RIGHT }),
    ("records for lines", Reading { line: |line| if line > 1 { line - 1 } else { line }, ..RIGHT }),
    ("whole files on line 1", Reading { line: |line| line.max(1), ..RIGHT }),
];

const fn below(below: fn(&[usize]) -> &'static [usize]) -> Reading {
    Reading { below, ..RIGHT }
}

const fn later(later: &'static [usize]) -> Reading {
    Reading { later, ..RIGHT }
}

const fn header(header: &'static [usize]) -> Reading {
    Reading { header, ..RIGHT }
}

/// Readings of what a line breaks, and of what a header hides.
const TESTS: [(&str, Reading); 33] = [
    ("two numbers on a line", Reading { most: [2, ALL, ALL, ALL], ..RIGHT }),
    ("all numbers of a line", Reading { most: [ALL; 4], ..RIGHT }),
    ("14 last", Reading { later: &[5, 6, 7, 10, 11, 12, 13, 14], below: |_| &[5, 6, 7, 14], ..RIGHT }),
    ("14 after 6", Reading { later: &[5, 6, 14, 7, 10, 11, 12, 13], below: |_| &[5, 6, 14, 7], ..RIGHT }),
    ("14 after 6 below a good header", later(&[5, 6, 14, 7, 10, 11, 12, 13])),
    ("14 after 6 below a refused one", below(|_| &[5, 6, 14, 7])),
    ("14 first", Reading { later: &[14, 5, 6, 7, 10, 11, 12, 13], below: |_| &[14, 5, 6, 7], ..RIGHT }),
    ("10 before 7", later(&[5, 14, 6, 10, 7, 11, 12, 13])),
    ("12 before 11", later(&[5, 14, 6, 7, 10, 12, 11, 13])),
    ("13 before 12", later(&[5, 14, 6, 7, 10, 11, 13, 12])),
    ("values before 10", later(&[5, 14, 6, 7, 11, 12, 13, 10])),
    ("14 last in the header", header(&[5, 6, 7, 8, 9, 14])),
    ("14 after 6 in the header", header(&[5, 6, 14, 7, 8, 9])),
    ("14 first in the header", header(&[14, 5, 6, 7, 8, 9])),
    ("9 before 8", header(&[5, 14, 6, 7, 9, 8])),
    ("8 before 7", header(&[5, 14, 6, 8, 7, 9])),
    ("10 to 13 below a refused header", below(|_| LATER)),
    ("10 below a refused header", below(|_| &[5, 14, 6, 7, 10])),
    ("11 below a refused header", below(|_| &[5, 14, 6, 7, 11])),
    ("12 below a refused header", below(|_| &[5, 14, 6, 7, 12])),
    ("13 below a refused header", below(|_| &[5, 14, 6, 7, 13])),
    ("10 to 13 below 8", below(|over| if over[0] == 8 { LATER } else { EVERY })),
    ("10 to 13 below 9", below(|over| if over[0] == 9 { LATER } else { EVERY })),
    ("10 to 13 below 7", below(|over| if over[0] == 7 { LATER } else { EVERY })),
    ("10 to 13 below 5 and 14", below(|over| if matches!(over[0], 5 | 14) { LATER } else { EVERY })),
    ("nothing below a refused header", below(|_| &[])),
    ("nothing below 8 and 9", below(|over| if matches!(over[0], 8 | 9) { &[] } else { EVERY })),
    ("nothing below 5, 14, 6 and 7", below(|over| if EVERY.contains(&over[0]) { &[] } else { EVERY })),
    ("nothing below 7", below(|over| if over[0] == 7 { &[] } else { EVERY })),
    ("no 5 below a refused header", below(|_| &[14, 6, 7])),
    ("no 14 below a refused header", below(|_| &[5, 6, 7])),
    ("no 6 below a refused header", below(|_| &[5, 14, 7])),
    ("no 7 below a refused header", below(|_| &[5, 14, 6])),
];

/// Readings of what is named of several faults, and of the list.
const LISTS: [(&str, Reading); 28] = [
    ("the first fault of the feed", Reading { most: [1, ALL, 1, ALL], ..RIGHT }),
    ("the first fault of a file", Reading { most: [1, 1, ALL, ALL], ..RIGHT }),
    ("one file only", Reading { most: [1, ALL, ALL, 1], ..RIGHT }),
    ("no columns", Reading { column: |_| 0, ..RIGHT }),
    ("columns from 0", Reading { column: |column| column.saturating_sub(1), ..RIGHT }),
    ("whole files last", Reading { order: |fault| [fault[0], last(fault[1]), fault[2], 0], ..RIGHT }),
    ("all whole files first", Reading { order: |fault| [fault[1].min(1), fault[0], fault[1], fault[2]], ..RIGHT }),
    ("by number", Reading { order: |fault| [fault[2], fault[0], fault[1], 0], ..RIGHT }),
    ("by line", Reading { order: |fault| [fault[1], fault[0], fault[2], 0], ..RIGHT }),
    ("by number in a file", Reading { order: |fault| [fault[0], fault[2], fault[1], 0], ..RIGHT }),
    ("backward", Reading { order: |fault| fault.map(|number| -number), ..RIGHT }),
    ("the place itself too", Reading { behind: |fault, start| fault[..3] >= start[..], ..RIGHT }),
    ("behind its file and line", Reading { behind: |fault, start| fault[..2] > start[..2], ..RIGHT }),
    ("from its file and line on", Reading { behind: |fault, start| fault[..2] >= start[..2], ..RIGHT }),
    ("behind its file", Reading { behind: |fault, start| fault[0] > start[0], ..RIGHT }),
    ("each number greater", Reading { behind: |fault, start| (0..3).all(|at| fault[at] > start[at]), ..RIGHT }),
    ("places without a sign", Reading { behind: unsigned, ..RIGHT }),
    ("any place", Reading { behind: |_, _| true, ..RIGHT }),
    ("number, file, line, column", Reading { numbers: |fault| [fault[2], fault[0], fault[1], fault[3]], ..RIGHT }),
    ("no column in the list", Reading { width: 3, ..RIGHT }),
    ("room for a part of one", Reading { room: |length| length.div_ceil(NUMBERS), ..RIGHT }),
    ("no room for the last one", Reading { room: |length| (length / NUMBERS).saturating_sub(1), ..RIGHT }),
    ("the total of the page", Reading { answer: |[written, ..]| Answer { written, total: written }, ..RIGHT }),
    ("the total behind the place", Reading { answer: |[written, total, _]| Answer { written, total }, ..RIGHT }),
    ("all behind the place written", Reading { answer: |[_, written, total]| Answer { written, total }, ..RIGHT }),
    ("numbers written", Reading { answer: |[own, _, total]| Answer { written: own * NUMBERS, total }, ..RIGHT }),
    ("the rest cleared", Reading { rest: |rest| rest.fill(0), ..RIGHT }),
    (
        "a number behind the last one",
        Reading { rest: |rest| rest.iter_mut().take(1).for_each(|one| *one = 0), ..RIGHT },
    ),
];

fn either_empty(file: usize, files: &Files) -> bool {
    matches!(file, 2 | 5) && files[file].is_empty()
}

fn by_each_other(file: usize, files: &Files) -> bool {
    files[file].is_empty() && (file == 5 && !files[2].is_empty() || file == 2 && !files[5].is_empty())
}

fn no_line(file: usize, files: &Files) -> bool {
    (RIGHT.absent)(file, files) || matches!(file, 2 | 5) && files[file] == MARK
}

fn trimmed(line: &[u8]) -> &[u8] {
    line.strip_suffix(b"\r").unwrap_or(line)
}

fn all_trimmed(line: &[u8]) -> &[u8] {
    let end = line.iter().rposition(|&byte| byte != b'\r');
    &line[..end.map_or(0, |place| place + 1)]
}

fn unmarked(file: &[u8]) -> &[u8] {
    file.strip_prefix(MARK).unwrap_or(file)
}

/// The lines of a file, the mark taken off so, and those that have their ending trimmed so.
fn of(file: &[u8], to_the_end: bool, trim: fn(&[u8]) -> &[u8], unmark: fn(&[u8]) -> &[u8]) -> Vec<&[u8]> {
    let mut lines: Vec<&[u8]> = unmark(file).split(|&byte| byte == b'\n').collect();
    let rest = lines.pop().unwrap_or_default();
    lines = lines.into_iter().map(trim).collect();
    lines.extend((to_the_end && !rest.is_empty()).then_some(rest));
    lines
}

fn cut(file: &[u8], to_the_end: bool, trim: fn(&[u8]) -> &[u8]) -> Vec<&[u8]> {
    of(file, to_the_end, trim, unmarked)
}

fn lines_to_the_end(file: &[u8]) -> Vec<&[u8]> {
    cut(file, true, trimmed)
}

/// The same with the last bytes trimmed too.
fn trimmed_to_the_end(file: &[u8]) -> Vec<&[u8]> {
    let mut lines = lines_to_the_end(file);
    lines.iter_mut().last().into_iter().for_each(|last| *last = trimmed(last));
    lines
}

fn without_lone_header(file: &[u8]) -> Vec<&[u8]> {
    cut(file, file.contains(&b'\n'), trimmed)
}

fn lone_header_only(file: &[u8]) -> Vec<&[u8]> {
    cut(file, !file.contains(&b'\n'), trimmed)
}

fn with_one_more(file: &[u8]) -> Vec<&[u8]> {
    let mut lines = lines_to_the_end(file);
    lines.extend(file.ends_with(b"\n").then_some(&b""[..]));
    lines
}

fn never_none(file: &[u8]) -> Vec<&[u8]> {
    let lines = lines_to_the_end(file);
    if lines.is_empty() {
        vec![b""]
    } else {
        lines
    }
}

fn no_empty_lines(file: &[u8]) -> Vec<&[u8]> {
    lines_to_the_end(file).into_iter().filter(|line| !line.is_empty()).collect()
}

fn without_last(file: &[u8]) -> Vec<&[u8]> {
    let mut lines = lines_to_the_end(file);
    lines.pop();
    lines
}

fn last(line: i32) -> i32 {
    if line == 0 {
        i32::MAX
    } else {
        line
    }
}

fn unsigned(fault: &Fault, start: [i32; 3]) -> bool {
    [fault[0], fault[1], fault[2]].map(|number| number as u32) > start.map(|number| number as u32)
}

/// Which of rules 1 to 4 a whole file breaks, which has so many LF bytes. Without a table it has none for its lines.
fn broken_as_a_whole(reading: &Reading, file: usize, files: &Files, ends: usize) -> Vec<usize> {
    let unended = !files[file].ends_with(b"\n") && !(reading.absent)(file, files);
    let all = [files[file].len() > MOST_BYTES, ends > MOST_LINES, ends > 0, unended];
    (1..=4).filter(|number| all[number - 1]).collect()
}

/// The fields of a line, as far as the quoting table lets it be cut.
fn cells(line: &[u8]) -> Option<Vec<Field>> {
    fields(Line { start: 0, text: line })
}

/// A line, its fields if it can be cut into them, and the names above it.
struct Words<'a> {
    line: &'a [u8],
    fields: Option<Vec<Field>>,
    names: Option<&'a [Vec<u8>]>,
    columns: &'static [Column],
}

impl Words<'_> {
    /// The values of its fields.
    fn own(&self) -> Vec<Vec<u8>> {
        self.fields.iter().flatten().map(|field| field.value.clone()).collect()
    }

    fn count(&self) -> Option<usize> {
        self.fields.as_ref().map(Vec::len)
    }

    /// The column in which it breaks a rule, 0 where that has none; none where it doesn't.
    fn breaks(&self, number: usize) -> Option<usize> {
        let broken = match number {
            5 => self.line.iter().any(|byte| b"\t\r".contains(byte)),
            14 => !well_formed(self.line),
            6 => self.fields.is_none(),
            7 => self.count() > Some(32),
            8 => return twice(&self.own(), self.columns),
            9 => {
                let own = self.own();
                self.columns
                    .iter()
                    .any(|column| column.present && !own.iter().any(|name| name == column.name.as_bytes()))
            }
            10 => self.names.zip(self.count()).is_some_and(|(names, count)| names.len() != count),
            _ => {
                let (fields, names) = (self.fields.as_ref()?, self.names?);
                return leftmost(number, &fields[..fields.len().min(names.len())], self.columns, names);
            }
        };
        broken.then_some(0)
    }
}

/// What a line breaks of some rules, as many as are named.
fn broken(
    reading: &Reading,
    rules: &[usize],
    line: &[u8],
    names: Option<&[Vec<u8>]>,
    columns: &'static [Column],
) -> Vec<[usize; 2]> {
    let words = Words { line, fields: cells(line), names, columns };
    let all = rules.iter().filter_map(|&number| Some([number, words.breaks(number)?]));
    all.take(reading.most[0]).collect()
}

/// The faults on the lines of a file.
fn of_lines(reading: &Reading, file: usize, bytes: &[u8]) -> Vec<Fault> {
    let (lines, columns) = ((reading.lines)(bytes), COLUMNS[file]);
    let Some((first, below)) = lines.split_first() else { return Vec::new() };
    let on_header = broken(reading, reading.header, first, None, columns);
    let value = |field: Field| field.value;
    let names: Option<Vec<Vec<u8>>> = cells(first).map(|fields| fields.into_iter().map(value).collect());
    let over: Vec<usize> = on_header.iter().map(|[number, _]| *number).collect();
    let rules = if over.is_empty() { reading.later } else { (reading.below)(&over) };
    let below = below.iter().map(|line| broken(reading, rules, line, names.as_deref(), columns));
    let all = std::iter::once(on_header.clone()).chain(below).zip(1..);
    let fault = |line: usize, [number, column]: [usize; 2]| {
        [file + 1, line, number, (reading.column)(column)].map(|number| number as i32)
    };
    all.flat_map(|(broken, line)| broken.into_iter().map(move |one| fault(line, one))).collect()
}

/// All faults by a reading of a feed whose files have so many LF bytes.
fn faults(reading: &Reading, files: &Files, ends: [usize; FILES]) -> Vec<Fault> {
    let whole: [Vec<usize>; FILES] = std::array::from_fn(|file| broken_as_a_whole(reading, file, files, ends[file]));
    // What isn't listed may hide all the same.
    let hides = |file: usize, by: &[usize]| whole[file].iter().any(|number| by.contains(number));
    let none = (0..FILES).any(|file| hides(file, reading.hide_all));
    let mut faults = Vec::new();
    let mut named = 0;
    for file in 0..FILES {
        let listed = whole[file].iter().filter(|number| reading.whole.contains(number));
        let own = listed.map(|&number| [file as i32 + 1, 0, number as i32, 0]);
        let hidden = none || hides(file, reading.hide);
        let lines = if hidden { Vec::new() } else { of_lines(reading, file, &files[file]) };
        let mut all: Vec<Fault> = own.chain(lines).take(reading.most[1]).collect();
        all.iter_mut().for_each(|fault| fault[1] = (reading.line)(fault[1]));
        named += usize::from(!all.is_empty());
        faults.extend(all.into_iter().filter(|_| named <= reading.most[3]));
    }
    faults.truncate(reading.most[2]);
    faults.sort_by_key(reading.order);
    faults
}

/// The outcome by a reading of a call whose files have so many LF bytes.
fn by(reading: &Reading, case: &Case, ends: [usize; FILES]) -> Outcome {
    let all = faults(reading, &case.files, ends);
    let behind: Vec<Fault> = all.iter().filter(|fault| (reading.behind)(fault, case.start)).copied().collect();
    let mut list = case.list.clone();
    let fit = (reading.room)(list.len()).min(behind.len());
    for (fault, place) in behind.iter().take(fit).zip(list.chunks_mut(reading.width)) {
        place.copy_from_slice(&(reading.numbers)(*fault)[..place.len()]);
    }
    let end = (fit * reading.width).min(list.len());
    (reading.rest)(&mut list[end..]);
    Outcome { answer: (reading.answer)([fit, behind.len(), all.len()]), list }
}

/// Fails unless the right reading gives the model's outcome of every call, and each of these wrong ones another of some, but for those named.
fn told_apart(cases: impl Iterator<Item = Case>, wrong: &[&[(&'static str, Reading)]], but: &[&str]) {
    let mut missed = Missed::new(RIGHT, &wrong.concat());
    for case in cases {
        let ends = case.files.each_ref().map(|file| line_ends(file));
        missed.try_case(&case.name, &by_model(&case), |reading| by(reading, &case, ends));
    }
    missed.are(but);
}

#[test]
fn by_the_edge_cases() {
    told_apart(cases().into_iter(), &[&WHOLE, &LINES, &TESTS, &LISTS], &[]);
}

#[test]
fn by_large_files() {
    told_apart((0..=OVER_THE_LIMITS).map(|number| at_the_limits(5, number)), &[&LIMITS], &[]);
}

#[test]
fn by_generated_calls() {
    told_apart((0..SEEDS).map(case), &[&LIMITS, &WHOLE, &LINES, &TESTS, &LISTS], &["two marks dropped"]);
}
