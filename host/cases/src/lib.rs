//! Test cases for the check: vectors from a file, and feeds made from fixed seeds.
#![forbid(unsafe_code)]

pub mod agree;
pub mod boards;
pub mod characters;
pub mod columns;
pub mod damage;
pub mod edges;
pub mod faults;
pub mod feeds;
pub mod generate;
pub mod index;
pub mod large;
pub mod limits;
pub mod lines;
pub mod listing;
pub mod nodes;
pub mod orders;
pub mod processes;
pub mod random;
pub mod readings;
pub mod render;
pub mod services;
pub mod vectors;
pub mod zips;

use model::{Answer, Files, Profile, Tables, FILES};

/// Everything that goes into one check.
#[derive(Clone, Debug, Default, PartialEq, Eq)]
pub struct Case {
    pub name: String,
    pub files: Files,
    pub tables: Tables,
    pub list: Vec<i32>,
    pub start: [i32; 3],
    pub profile: Profile,
}

/// Everything that comes out of one check: the answer, and tables and list whole.
#[derive(Clone, Debug, PartialEq, Eq)]
pub struct Outcome {
    pub answer: Answer,
    pub tables: Tables,
    pub list: Vec<i32>,
}

/// What the model makes of a case.
pub fn by_model(case: &Case) -> Outcome {
    let mut tables = case.tables.clone();
    let mut list = case.list.clone();
    let answer = model::check(&case.files, &mut tables, &mut list, case.start, case.profile);
    Outcome { answer, tables, list }
}

/// Says in a line where two outcomes of a case differ, without printing whole tables; none if they agree.
pub fn difference(wanted: &Outcome, got: &Outcome) -> Option<String> {
    if wanted.answer != got.answer {
        return Some(format!("wanted {:?}, got {:?}", wanted.answer, got.answer));
    }
    for table in 0..FILES {
        if let Some(place) = first_difference(&wanted.tables[table], &got.tables[table]) {
            return Some(format!("table {} differs {place}", table + 1));
        }
    }
    first_difference(&wanted.list, &got.list).map(|place| format!("the list differs {place}"))
}

fn first_difference(wanted: &[i32], got: &[i32]) -> Option<String> {
    if wanted.len() != got.len() {
        return Some(format!("in length: wanted {}, got {}", wanted.len(), got.len()));
    }
    let place = (0..wanted.len()).find(|&place| wanted[place] != got[place])?;
    Some(format!("at {place}: wanted {}, got {}", wanted[place], got[place]))
}
