//! Writer and reader of an index in the archive against the model and the customer's cases: the answer, and what was lent, whole. By processes
//! of one thread each, so every call is made on the stack of the main thread.

use cases::agree;
use cases::index::{Asked, Case, Outcome};
use cases::processes;
use model::index::Answer;
use std::process::ExitCode;
use tusuchiy::index::{check_here, write_here};

/// How many seeds the archive and the model are compared on.
const SEEDS: usize = 1500;

fn main() -> ExitCode {
    processes::main(&[
        ("on_every_vector", || agree::on_every_vector_about_an_index(by_archive)),
        ("on_every_edge_case", || agree::on_every_edge_case_about_an_index(by_archive)),
        ("on_generated_calls", || agree::on_generated_calls_about_an_index(by_archive, SEEDS)),
        ("on_both_versions", || agree::on_both_versions_of_an_index(by_archive)),
        ("at_the_limits_and_over_them", || agree::on_indexes_at_the_limits(by_archive)),
    ])
}

/// What the archive makes of a call, with guards around what is lent: nothing outside may change.
fn by_archive(case: &Case) -> Outcome {
    const GUARD: usize = 16;
    let mut guarded = [&[77; GUARD][..], &case.lent, &[77; GUARD]].concat();
    let inside = GUARD..GUARD + case.lent.len();
    let answer = match case.asked {
        Asked::Write => write_here(case.number, &case.file, &mut guarded[inside.clone()]),
        Asked::Check => check_here(case.number, &case.file, &guarded[inside.clone()]),
    };
    assert!(guarded[..GUARD].iter().chain(&guarded[inside.end..]).all(|&byte| byte == 77), "{}", case.name);
    let numbers = [answer.number, answer.file, answer.line, answer.column, answer.length];
    let [number, file, line, column, length] = numbers.map(|number| usize::try_from(number).expect("none is below 0"));
    Outcome { answer: Answer { number, file, line, column, length }, lent: guarded[inside].to_vec() }
}
