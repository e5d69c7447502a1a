//! The whole check of document 01 with requests E2, E1, E6, E7, E10, E13 and E9, written naively from the documents: files in, tables, list and
//! answer out; request E4's index, and issue 19's list of all faults.
#![forbid(unsafe_code)]

pub mod characters;
pub mod columns;
pub mod facts;
pub mod faults;
pub mod fields;
pub mod forms;
pub mod index;
pub mod page;
pub mod reading;
pub mod records;
pub mod rules;
pub mod trips;

/// How many files there are: 1 stops, 2 routes, 3 calendar, 4 trips, 5 stop_times, 6 calendar_dates.
pub const FILES: usize = 6;

/// The bytes of each file; none means "not supplied" of calendar and calendar_dates.
pub type Files = [Vec<u8>; FILES];

/// The table of each file.
pub type Tables = [Vec<i32>; FILES];

/// What the check answers.
#[derive(Clone, Copy, Debug, PartialEq, Eq)]
pub enum Answer {
    /// No finding on the whole feed.
    Accepted,
    /// How many findings were written to the list, and how many the whole feed has.
    Findings { written: usize, total: usize },
    /// The rule broken (1 to 14), the file (1 to 6), the line (0 for a whole file) and the column, 0 where the rule names none.
    Refused { number: usize, file: usize, line: usize, column: usize },
}

/// What a call asks for beside the rules that are always tested.
#[derive(Clone, Copy, Debug, Default, PartialEq, Eq)]
pub enum Profile {
    /// Nothing more.
    #[default]
    Plain,
    /// The profile for boards: rules 60 to 62 too.
    Boards,
}

/// One check over six files: refused leaves everything as lent, else list and tables are overwritten.
pub fn check(files: &Files, tables: &mut Tables, list: &mut [i32], start: [i32; 3], profile: Profile) -> Answer {
    let feed = match reading::read(files, tables.each_ref().map(Vec::len)) {
        Ok(feed) => feed,
        Err(refusal) => return refusal,
    };
    records::fill(&feed, tables);
    let findings = rules::findings(&feed, profile);
    let written = page::hand_out(&findings, list, start);
    match findings.len() {
        0 => Answer::Accepted,
        total => Answer::Findings { written, total },
    }
}
