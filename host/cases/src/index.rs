//! Calls that write or check an index: what goes in, what comes out, and what the model makes of it.

pub mod edges;
pub mod generate;
pub mod large;
pub mod versions;

use crate::edges::BASE;
use model::fields::line_ends;
use model::index::{self, Answer};

/// Which of the two functions is called.
#[derive(Clone, Copy, Debug, PartialEq, Eq)]
pub enum Asked {
    Write,
    Check,
}

/// Everything that goes into a call. What is lent is the writer's buffer, or the reader's index.
#[derive(Clone, Debug, PartialEq, Eq)]
pub struct Case {
    pub name: String,
    pub asked: Asked,
    pub number: i32,
    pub file: Vec<u8>,
    pub lent: Vec<u8>,
}

/// Everything that comes out of a call: the answer, and what was lent, whole.
#[derive(Clone, Debug, PartialEq, Eq)]
pub struct Outcome {
    pub answer: Answer,
    pub lent: Vec<u8>,
}

impl Case {
    /// What goes into the call, to be read where it fails; of large files the beginning.
    pub fn words(&self) -> String {
        let [file, lent] = [&self.file, &self.lent].map(|bytes| bytes[..bytes.len().min(4096)].escape_ascii());
        format!("{}, {:?} of file number {}: {file}, lent {lent}", self.name, self.asked, self.number)
    }
}

/// What the model makes of a call.
pub fn by_model(case: &Case) -> Outcome {
    let mut lent = case.lent.clone();
    let answer = match case.asked {
        Asked::Write => index::write(case.number, &case.file, &mut lent),
        Asked::Check => index::check(case.number, &case.file, &lent),
    };
    Outcome { answer, lent }
}

/// The same where the ids of its file are known, by record.
pub fn by_model_of(case: &Case, ids: &[Vec<u8>]) -> Outcome {
    let mut lent = case.lent.clone();
    let answer = match case.asked {
        Asked::Write => index::write_ids(case.number, ids, &mut lent),
        Asked::Check => index::check_ids(case.number, ids, &lent),
    };
    Outcome { answer, lent }
}

/// The records of a file by their ids, equal ones in file order; of a file that can't be read one for each line behind the first.
pub fn sorted(number: usize, file: &[u8]) -> Vec<usize> {
    let Ok(ids) = index::ids(number as i32, file) else { return (1..line_ends(file)).collect() };
    let mut records: Vec<usize> = (1..=ids.len()).collect();
    records.sort_by_key(|record| &ids[record - 1]);
    records
}

/// The names of a file's columns in the base feed, and the fields of its first line.
fn base_line(number: usize) -> [Vec<&'static str>; 2] {
    let mut lines = BASE[number - 1].lines().map(|line| line.split(',').collect());
    [lines.next().expect("a header"), lines.next().expect("a line")]
}

/// Says in a line where two outcomes of a call differ; none if they agree.
pub fn difference(wanted: &Outcome, got: &Outcome) -> Option<String> {
    if wanted.answer != got.answer {
        return Some(format!("wanted {:?}, got {:?}", wanted.answer, got.answer));
    }
    let place = (0..wanted.lent.len()).find(|&place| wanted.lent[place] != got.lent[place])?;
    Some(format!("what was lent differs at {place}: wanted {}, got {}", wanted.lent[place], got.lent[place]))
}
