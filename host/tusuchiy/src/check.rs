//! A feed's files with the memory lent for them, and what the check hands out, page by page.

use crate::faults::{self, Faults, FaultsAnswer};
use crate::index::IndexAnswer;
use crate::kinds::{Fault, File, Finding, Profile, Refusal, Rule, FILES};
use crate::pages::{Pages, PAGE};
use crate::{try_check, Answer, Verdict, MOST_LINES, WIDTHS};
use std::collections::TryReserveError;
use std::fmt::{self, Display, Formatter};
use std::io;
use std::num::NonZeroU32;

/// How many numbers the table of each file needs: its width times the file's lines.
#[must_use]
pub fn table_sizes(files: [&[u8]; FILES]) -> [usize; FILES] {
    let mut sizes = WIDTHS;
    for (size, file) in sizes.iter_mut().zip(files) {
        // A file with more lines is refused before its table is measured.
        *size *= lines(file);
    }
    sizes
}

/// How many lines a file has, but no more than rule 2 allows.
pub(crate) fn lines(file: &[u8]) -> usize {
    file.iter().filter(|&&byte| byte == b'\n').count().min(MOST_LINES)
}

/// Why a call gave no answer; none of this is the feed's fault.
#[derive(Debug)]
pub enum Error {
    /// There is no memory for the tables or the list.
    Memory(TryReserveError),
    /// There is no thread for the call.
    Thread(io::Error),
    /// An answer that include/tusuchiy.h doesn't know.
    Unknown(Answer),
    /// The same about an index.
    UnknownIndex(IndexAnswer),
    /// The same about the list of faults.
    UnknownFaults(FaultsAnswer),
}

impl Display for Error {
    fn fmt(&self, out: &mut Formatter) -> fmt::Result {
        match self {
            Error::Memory(error) => error.fmt(out),
            Error::Thread(error) => write!(out, "can't run the check: {error}"),
            Error::Unknown(answer) => write!(out, "the check gave an answer that nobody knows: {answer:?}"),
            Error::UnknownIndex(answer) => write!(out, "the index gave an answer that nobody knows: {answer:?}"),
            Error::UnknownFaults(answer) => write!(out, "the list of faults is one that nobody knows: {answer:?}"),
        }
    }
}

impl std::error::Error for Error {}

impl From<TryReserveError> for Error {
    fn from(error: TryReserveError) -> Self {
        Error::Memory(error)
    }
}

/// A place in the order of findings or of faults: file, line, rule or number. They are handed out after one.
#[derive(Clone, Copy, Debug, Default, PartialEq, Eq)]
pub struct Place(pub [i32; 3]);

impl Place {
    /// Before all of them.
    pub const START: Place = Place([0, 0, 0]);
}

impl From<Finding> for Place {
    fn from(finding: Finding) -> Self {
        // Lines are at most those of rule 2.
        Place([finding.file.number() as i32, finding.line as i32, finding.rule.number() as i32])
    }
}

impl From<Fault> for Place {
    fn from(fault: Fault) -> Self {
        // Lines are at most one more than those of rule 2.
        Place([fault.file.number() as i32, fault.line as i32, fault.refusal.number() as i32])
    }
}

/// The findings after a place, as many as there was room for, and the verdict, which depends on neither.
#[derive(Clone, Debug, PartialEq, Eq)]
pub struct Page {
    pub verdict: Verdict,
    pub findings: Vec<Finding>,
}

/// A feed to be checked: its six files, tables that are long enough for them, and which rules are asked for.
#[derive(Debug)]
#[must_use]
pub struct Check<'a> {
    files: [&'a [u8]; FILES],
    tables: [Vec<i32>; FILES],
    profile: Profile,
}

impl<'a> Check<'a> {
    /// Lends tables for these files: stops, routes, calendar, trips, stop_times and calendar_dates; one that isn't
    /// there is empty, and so is its table. No profile is asked for.
    ///
    /// # Errors
    ///
    /// Where there is no memory for them.
    pub fn new(files: [&'a [u8]; FILES]) -> Result<Self, Error> {
        let mut tables: [Vec<i32>; FILES] = Default::default();
        for (table, size) in tables.iter_mut().zip(table_sizes(files)) {
            *table = zeros(size)?;
        }
        Ok(Check { files, tables, profile: Profile::Plain })
    }

    /// The same with these rules asked for, by each of its calls: pages that are joined all ask alike. Refusals, faults and tables don't
    /// depend on it.
    pub fn with_profile(self, profile: Profile) -> Self {
        Check { profile, ..self }
    }

    /// Which rules are asked for.
    #[must_use]
    pub fn profile(&self) -> Profile {
        self.profile
    }

    /// One call: the verdict, and the findings after a place, as many as there is room for.
    ///
    /// # Errors
    ///
    /// Where there is no memory for the list or no thread for the call.
    pub fn page(&mut self, after: Place, room: usize) -> Result<Page, Error> {
        let mut list = zeros(room.min(self.most_findings()) * 3)?;
        let tables = self.tables.each_mut().map(|table| &mut table[..]);
        let answer = try_check(self.files, tables, &mut list, after.0, self.profile).map_err(Error::Thread)?;
        let verdict = answer.verdict().ok_or(Error::Unknown(answer))?;
        let written = if let Verdict::Findings { written, .. } = verdict { written } else { 0 };
        let numbers = list.get(..written * 3).ok_or(Error::Unknown(answer))?;
        let mut findings = Vec::new();
        findings.try_reserve_exact(written)?;
        for numbers in numbers.chunks_exact(3) {
            findings.push(Finding::of(numbers).ok_or(Error::Unknown(answer))?);
        }
        Ok(Page { verdict, findings })
    }

    /// As many findings as there can be: a line breaks a rule once. More room is never used, however much is asked for.
    fn most_findings(&self) -> usize {
        let lines = self.tables.iter().zip(WIDTHS).map(|(table, width)| table.len() / width);
        lines.sum::<usize>() * Rule::all().count()
    }

    /// The verdict alone.
    ///
    /// # Errors
    ///
    /// As [`Check::page`].
    pub fn verdict(&mut self) -> Result<Verdict, Error> {
        self.page(Place::START, 0).map(|page| page.verdict)
    }

    /// All findings in order; there are none where the feed is refused. Pages are asked for as they are needed.
    pub fn findings(&mut self) -> Findings<'_, 'a> {
        self.findings_by(PAGE)
    }

    /// The same with so many findings a page, at least one: less memory, but each page is a check of the whole feed.
    pub fn findings_by(&mut self, room: usize) -> Findings<'_, 'a> {
        Findings { check: self, pages: Pages::of(room) }
    }

    /// All faults in order, of which the verdict names one; there are none where the feed can be read. Pages are asked for
    /// as they are needed.
    pub fn faults(&self) -> Faults<'a> {
        Faults::of(self.files)
    }

    /// The same with so many faults a page, at least one.
    pub fn faults_by(&self, room: usize) -> Faults<'a> {
        Faults::new(self.files, room)
    }

    /// One call: how many faults the feed has, and those after a place, as many as there is room for.
    ///
    /// # Errors
    ///
    /// As [`Check::page`].
    pub fn faults_page(&self, after: Place, room: usize) -> Result<faults::Page, Error> {
        faults::page(self.files, after, room)
    }

    /// The tables, filled by the last call unless the feed was refused; include/tusuchiy.h says what stands in them.
    #[must_use]
    pub fn tables(&self) -> &[Vec<i32>; FILES] {
        &self.tables
    }

    /// The same, to be kept.
    #[must_use]
    pub fn into_tables(self) -> [Vec<i32>; FILES] {
        self.tables
    }
}

/// Findings, one after the other.
#[derive(Debug)]
#[must_use]
pub struct Findings<'c, 'a> {
    check: &'c mut Check<'a>,
    pages: Pages<Finding>,
}

impl Iterator for Findings<'_, '_> {
    type Item = Result<Finding, Error>;

    fn next(&mut self) -> Option<Self::Item> {
        self.pages.next_by(|after, room| Ok(self.check.page(after, room)?.findings))
    }
}

impl std::iter::FusedIterator for Findings<'_, '_> {}

pub(crate) fn zeros<Number: Clone + Default>(length: usize) -> Result<Vec<Number>, TryReserveError> {
    let mut numbers = Vec::new();
    numbers.try_reserve_exact(length)?;
    numbers.resize(length, Number::default());
    Ok(numbers)
}

impl Finding {
    /// A finding from its three numbers.
    fn of(numbers: &[i32]) -> Option<Self> {
        let [file, rule] = [0, 2].map(|place| usize::try_from(numbers[place]).ok());
        Some(Finding { file: File::new(file?)?, line: numbers[1].try_into().ok()?, rule: Rule::new(rule?)? })
    }
}

impl Fault {
    /// A fault from the numbers of an answer: number, file, line and column.
    pub(crate) fn of([number, file, line, column]: [i32; 4]) -> Option<Self> {
        let [number, file] = [number, file].map(|number| usize::try_from(number).ok());
        let [line, column] = [line, column].map(|number| u32::try_from(number).ok());
        Some(Fault {
            file: File::new(file?)?,
            line: line?,
            column: NonZeroU32::new(column?),
            refusal: Refusal::new(number?)?,
        })
    }
}

#[cfg(test)]
mod tests {
    use super::*;

    #[test]
    fn faults_from_their_numbers() {
        let refusal = Refusal::new(13).expect("a refusal");
        let fault = Fault { file: File::StopTimes, line: 4, column: NonZeroU32::new(3), refusal };
        assert_eq!(Fault::of([13, 5, 4, 3]), Some(fault));
        assert_eq!(Fault::of([13, 5, 4, 0]), Some(Fault { column: None, ..fault }));
        for unknown in [[13, 5, 4, -1], [13, 5, -1, 3], [13, 7, 4, 3], [15, 5, 4, 3], [0, 5, 4, 3]] {
            assert_eq!(Fault::of(unknown), None, "{unknown:?}");
        }
    }
}
