//! Issue 19: every fault of a feed, whether it can be read or not, and the call that hands them out.

use crate::columns::COLUMNS;
use crate::fields::{lines, unended_line, Line};
use crate::page;
use crate::reading::{fields_of, header, row, whole_file_breaks, Broken};
use crate::{Files, FILES};

/// A fault: file, line (0 for the whole file), number and column, 0 where the rule names none.
pub type Fault = [i32; 4];

/// What the call answers: how many faults it wrote to the list, and how many the whole feed has.
#[derive(Clone, Copy, Debug, PartialEq, Eq)]
pub struct Answer {
    pub written: usize,
    pub total: usize,
}

/// Hands out the faults after a starting place, as many as fit. What isn't written stays as lent.
pub fn hand_out(files: &Files, list: &mut [i32], start: [i32; 3]) -> Answer {
    let faults = faults(files);
    Answer { written: page::hand_out(&faults, list, start), total: faults.len() }
}

/// Every fault, by file, line and number.
pub fn faults(files: &Files) -> Vec<Fault> {
    let mut faults: Vec<Fault> = (1..=FILES).flat_map(|file| of_file(files, file)).collect();
    faults.sort();
    faults
}

/// Rules 1, 2 and 4 of a whole file; of one that breaks neither 1 nor 2, what its lines break. Rule 3 is about memory.
fn of_file(files: &Files, file: usize) -> Vec<Fault> {
    let breaks = |number: &usize| whole_file_breaks(*number, file, files, 0);
    let whole: Vec<usize> = [1, 2, 4].into_iter().filter(breaks).collect();
    let mut faults: Vec<Fault> = whole.iter().map(|&number| fault(file, 0, Broken { number, column: 0 })).collect();
    if !whole.contains(&1) && !whole.contains(&2) {
        faults.extend(of_lines(&files[file - 1], file));
    }
    faults
}

fn fault(file: usize, line: usize, Broken { number, column }: Broken) -> Fault {
    [file, line, number, column].map(|number| number as i32)
}

/// What the lines of a file break, each one fault at most; bytes behind the last LF are a last line.
fn of_lines(bytes: &[u8], file: usize) -> Vec<Fault> {
    let lines: Vec<Line> = lines(bytes).into_iter().chain(unended_line(bytes)).collect();
    // A file without a byte, or of the leading mark alone, has no line.
    let Some((&first, later)) = lines.split_first() else { return Vec::new() };
    let columns = COLUMNS[file - 1];
    let names = header(first, columns);
    let broken = |line: Line| match &names {
        Ok(names) => row(line, columns, names).err(),
        // The columns aren't known: only what doesn't look at them.
        Err(_) => fields_of(line).err(),
    };
    let below: Vec<Option<Broken>> = later.iter().map(|&line| broken(line)).collect();
    let all = std::iter::once(names.err()).chain(below).zip(1..);
    all.filter_map(|(broken, line)| Some(fault(file, line, broken?))).collect()
}
