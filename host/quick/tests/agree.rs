//! The hash-map check against the customer's cases and the model: the answer, all tables and the list, whole.

use cases::large;
use cases::large::families::FAMILIES;
use cases::large::limits::{self, FEEDS};
use cases::limits::MOST_LINES;
use cases::{agree, Case, Outcome};
use model::fields::line_ends;
use model::{Answer, Profile};

/// How many seeds it is compared with the model on.
const SEEDS: usize = 4000;

fn by_quick(case: &Case) -> Outcome {
    let mut tables = case.tables.clone();
    let mut list = case.list.clone();
    let answer = quick::check(&case.files, &mut tables, &mut list, case.start, case.profile);
    Outcome { answer, tables, list }
}

#[test]
fn on_every_vector() {
    agree::on_every_vector(by_quick).on_threads();
}

#[test]
fn on_every_edge_case() {
    agree::on_every_edge_case(by_quick).on_threads();
}

#[test]
fn on_generated_feeds() {
    agree::on_generated_feeds(by_quick, SEEDS).on_threads();
}

/// The benchmark's feeds, with a list for all findings and with one that ends before them.
#[test]
fn on_the_benchmarks_feeds() {
    agree::on_the_benchmarks_feeds(by_quick, &[(64, 1000), (64, 10), (4096, 100_000)]).on_threads();
}

/// The families that come near a limit: with the longest lines, and the latest times and dates.
const NEAR_A_LIMIT: [&str; 4] = ["prefix", "mixed-bytes", "one-trip", "dates-rise"];

/// The model would take too long here, so this only shows that none is refused; those near a limit have as many lines as there may be.
#[test]
fn the_benchmarks_large_feeds_can_be_read() {
    for family in &FAMILIES {
        let lines = if NEAR_A_LIMIT.contains(&family.name) { MOST_LINES } else { 65_536 };
        let files = (family.feed)(lines);
        assert_eq!(files.iter().map(|file| line_ends(file)).max(), Some(lines), "{}", family.name);
        let answer = quick::check(&files, &mut large::tables(&files, 0), &mut [], [0, 0, 0], Profile::Plain);
        assert!(!matches!(answer, Answer::Refused { .. }), "{}: {answer:?}", family.name);
    }
}

#[test]
fn on_feeds_around_16_bits() {
    agree::on_feeds_around_16_bits(by_quick).on_threads();
}

/// Rules 1 and 2, at their limits and over them: the answer alone, since tables of smaller feeds are compared.
#[test]
fn at_the_limits() {
    for number in 0..FEEDS {
        let (files, refusal) = limits::at_the_limits(number);
        let refused = |[number, file]: [usize; 2]| Answer::Refused { number, file, line: 0, column: 0 };
        let answer = quick::check(&files, &mut large::tables(&files, 0), &mut [], [0, 0, 0], Profile::Plain);
        assert_eq!(answer, refusal.map_or(Answer::Accepted, refused), "feed {number}");
    }
}
