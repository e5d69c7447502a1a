//! Calls for the list of all faults: what goes in, what comes out, and what the model makes of it.

pub mod edges;
pub mod generate;
pub mod mend;

use crate::agree::Lists;
use crate::first_difference;
use model::faults::{self, Answer, Fault};
use model::page::hand_out;
use model::Files;

/// How many numbers of the list a fault takes.
pub const NUMBERS: usize = 4;

/// Everything that goes into a call.
#[derive(Clone, Debug, PartialEq, Eq)]
pub struct Case {
    pub name: String,
    pub files: Files,
    pub list: Vec<i32>,
    pub start: [i32; 3],
}

/// Everything that comes out of a call: the answer, and the list, whole.
#[derive(Clone, Debug, PartialEq, Eq)]
pub struct Outcome {
    pub answer: Answer,
    pub list: Vec<i32>,
}

impl Case {
    /// What goes into the call, to be read where it fails; of large files the beginning.
    pub fn words(&self) -> String {
        let files: Vec<String> =
            self.files.iter().map(|file| file[..file.len().min(2048)].escape_ascii().to_string()).collect();
        let (length, start) = (self.list.len(), self.start);
        format!("{}, list of {length} numbers after {start:?}: {}", self.name, files.join(" | "))
    }
}

/// What the model makes of a call.
pub fn by_model(case: &Case) -> Outcome {
    let mut list = case.list.clone();
    let answer = faults::hand_out(&case.files, &mut list, case.start);
    Outcome { answer, list }
}

/// The same, where all faults of its feed are known.
pub fn of_faults(case: &Case, all: &[Fault]) -> Outcome {
    let mut list = case.list.clone();
    let written = hand_out(all, &mut list, case.start);
    Outcome { answer: Answer { written, total: all.len() }, list }
}

/// Says in a line where two outcomes of a call differ; none if they agree.
pub fn difference(wanted: &Outcome, got: &Outcome) -> Option<String> {
    if wanted.answer != got.answer {
        return Some(format!("wanted {:?}, got {:?}", wanted.answer, got.answer));
    }
    first_difference(&wanted.list, &got.list).map(|place| format!("the list differs {place}"))
}

/// What a call wrote to its list.
pub fn written(outcome: &Outcome) -> Vec<Fault> {
    let faults = outcome.list.chunks_exact(NUMBERS).take(outcome.answer.written);
    faults.map(|numbers| numbers.try_into().expect("four numbers")).collect()
}

/// All faults that a list makes of a feed, page by page.
pub fn whole(lists: Lists, files: &Files) -> Vec<Fault> {
    let mut all: Vec<Fault> = Vec::new();
    loop {
        let start = all.last().map_or([0, 0, 0], |last| [last[0], last[1], last[2]]);
        let outcome = lists(&Case { name: String::new(), files: files.clone(), list: vec![0; 256], start });
        all.extend(written(&outcome));
        if all.len() >= outcome.answer.total || outcome.answer.written == 0 {
            return all;
        }
    }
}
