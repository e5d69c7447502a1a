//! A check, writer and reader of an index, and the list of all faults, held to the customer's cases and to the model: by threads of this process,
//! or by processes that have one thread each ([`crate::processes`]).

use crate::index::versions;
use crate::large;
use crate::large::families::FAMILIES;
use crate::large::limits::{around_16_bits, at_the_limits, AROUND, FEEDS};
use crate::listing::mend::{mendable, only_what_was_hidden, rounds};
use crate::{by_model, difference, edges, generate, index, listing, vectors, Case, Outcome};
use model::faults::{faults, Fault};
use model::{Answer, Files, Profile};
use std::{panic, thread};

/// So many cases, each compared by its number.
#[must_use]
pub struct Comparison<'a> {
    count: usize,
    each: Box<dyn Fn(usize) + Sync + 'a>,
}

impl<'a> Comparison<'a> {
    pub fn new(count: usize, each: impl Fn(usize) + Sync + 'a) -> Self {
        Comparison { count, each: Box::new(each) }
    }

    /// One case.
    pub fn once(call: impl Fn() + Sync + 'a) -> Self {
        Comparison::new(1, move |_| call())
    }

    /// How many cases there are.
    #[must_use]
    pub fn count(&self) -> usize {
        self.count
    }

    /// All cases, on as many threads as there are processors; where one of them fails, so does this, in the same words.
    pub fn on_threads(&self) {
        assert!(self.count > 0, "nothing to compare");
        let threads = thread::available_parallelism().map_or(1, Into::into);
        thread::scope(|scope| {
            let parts: Vec<_> = (0..threads).map(|first| scope.spawn(move || self.part(first, threads))).collect();
            for part in parts {
                part.join().unwrap_or_else(|words| panic::resume_unwind(words));
            }
        });
    }

    /// One part of several, on this thread: each case whose number leaves `first` when it is divided by `of`. How many they are.
    pub fn part(&self, first: usize, of: usize) -> usize {
        let mut cases = 0;
        for number in (first..self.count).step_by(of) {
            (self.each)(number);
            cases += 1;
        }
        cases
    }
}

/// What a check makes of a case.
pub type Checks = fn(&Case) -> Outcome;

/// Fails where the outcome is not the one wanted.
pub fn with_outcome(check: Checks, case: &Case, wanted: &Outcome) {
    if let Some(difference) = difference(wanted, &check(case)) {
        panic!("{}: {difference}", case.name);
    }
}

/// Fails where the outcome is not the model's.
pub fn with_model(check: Checks, case: &Case) {
    with_outcome(check, case, &by_model(case));
}

pub fn on_every_vector(check: Checks) -> Comparison<'static> {
    let vectors = vectors::customers();
    Comparison::new(vectors.len(), move |place| with_outcome(check, &vectors[place].0, &vectors[place].1))
}

pub fn on_every_edge_case(check: Checks) -> Comparison<'static> {
    let cases = edges::cases();
    Comparison::new(cases.len(), move |place| with_model(check, &cases[place]))
}

pub fn on_generated_feeds(check: Checks, seeds: usize) -> Comparison<'static> {
    Comparison::new(seeds, move |seed| with_model(check, &generate::case(seed as u64)))
}

/// The benchmark's feeds, with so many lines and so long a list, each without a profile and for boards.
pub fn on_the_benchmarks_feeds(check: Checks, sizes: &[(usize, usize)]) -> Comparison<'_> {
    // The families of one size after the other, so that parts are alike.
    let feeds = FAMILIES.len() * sizes.len();
    Comparison::new(feeds * 2, move |number| {
        let profile = if number < feeds { Profile::Plain } else { Profile::Boards };
        let number = number % feeds;
        let (family, (lines, room)) = (&FAMILIES[number % FAMILIES.len()], sizes[number / FAMILIES.len()]);
        let files = (family.feed)(lines);
        let tables = large::tables(&files, -1);
        let name = format!("{}, {lines} lines, {profile:?}", family.name);
        with_model(check, &Case { name, files, tables, list: vec![-1; room], profile, ..Case::default() });
    })
}

/// Feeds at the limits of rules 1 and 2, and over them, where everything stays as lent; with the profile and without it by turns.
pub fn on_feeds_at_the_limits(check: Checks) -> Comparison<'static> {
    Comparison::new(FEEDS, move |number| {
        let (files, refusal) = at_the_limits(number);
        let profile = [Profile::Plain, Profile::Boards][number % 2];
        let tables = large::tables(&files, 5);
        let name = format!("feed {number} at a limit");
        let case = Case { name, files, tables, list: vec![3; 10], profile, ..Case::default() };
        let wanted = match refusal {
            None => by_model(&case),
            Some([number, file]) => {
                let answer = Answer::Refused { number, file, line: 0, column: 0 };
                Outcome { answer, tables: case.tables.clone(), list: case.list.clone() }
            }
        };
        assert_eq!(wanted.answer == Answer::Accepted, refusal.is_none(), "{}", case.name);
        with_outcome(check, &case, &wanted);
    })
}

/// Feeds of as many lines and records as 16 bits count, and more; one list has room for all findings, the others for a few.
pub fn on_feeds_around_16_bits(check: Checks) -> Comparison<'static> {
    Comparison::new(AROUND, move |number| {
        let files = around_16_bits(number);
        let list = vec![3; if number == 1 { 1 << 18 } else { 10 }];
        let tables = large::tables(&files, 5);
        with_model(
            check,
            &Case { name: format!("feed {number} around 16 bits"), files, tables, list, ..Case::default() },
        );
    })
}

/// What writer and reader make of a call about an index.
pub type Indexes = fn(&index::Case) -> index::Outcome;

/// Fails where the outcome of a call about an index is not the one wanted.
pub fn with_index_outcome(indexes: Indexes, case: &index::Case, wanted: &index::Outcome) {
    if let Some(difference) = index::difference(wanted, &indexes(case)) {
        panic!("{difference}: {}", case.words());
    }
}

pub fn on_every_vector_about_an_index(indexes: Indexes) -> Comparison<'static> {
    let vectors = vectors::indexes();
    Comparison::new(vectors.len(), move |place| with_index_outcome(indexes, &vectors[place].0, &vectors[place].1))
}

pub fn on_every_edge_case_about_an_index(indexes: Indexes) -> Comparison<'static> {
    let cases = index::edges::cases();
    let with_model = move |case: &index::Case| with_index_outcome(indexes, case, &index::by_model(case));
    Comparison::new(cases.len(), move |place| with_model(&cases[place]))
}

/// Files of as many records as version 1 counts, and around that.
pub fn on_both_versions_of_an_index(indexes: Indexes) -> Comparison<'static> {
    Comparison::new(versions::CALLS, move |place| {
        let (case, wanted) = versions::beside_many(place);
        with_index_outcome(indexes, &case, &wanted);
    })
}

/// Files at the limits of rules 1 and 2, and over them.
pub fn on_indexes_at_the_limits(indexes: Indexes) -> Comparison<'static> {
    Comparison::new(index::large::CALLS, move |number| {
        let (case, wanted) = index::large::at_the_limits(number);
        with_index_outcome(indexes, &case, &wanted);
    })
}

pub fn on_generated_calls_about_an_index(indexes: Indexes, seeds: usize) -> Comparison<'static> {
    Comparison::new(seeds, move |seed| {
        let case = index::generate::case(seed as u64);
        with_index_outcome(indexes, &case, &index::by_model(&case));
    })
}

/// What a list of faults makes of a call.
pub type Lists = fn(&listing::Case) -> listing::Outcome;

/// Fails where the outcome of a call for the list of faults is not the one wanted.
pub fn with_list_outcome(lists: Lists, case: &listing::Case, wanted: &listing::Outcome) {
    if let Some(difference) = listing::difference(wanted, &lists(case)) {
        panic!("{difference}: {}", case.words());
    }
}

/// Fails where the outcome of a call for the list of faults is not the model's.
pub fn with_model_list(lists: Lists, case: &listing::Case) {
    with_list_outcome(lists, case, &listing::by_model(case));
}

/// Files at the limits of rules 1 and 2, and over them.
pub fn on_faults_at_the_limits(lists: Lists) -> Comparison<'static> {
    Comparison::new(listing::edges::AT_THE_LIMITS, move |number| {
        with_model_list(lists, &listing::edges::at_the_limits(5, number));
    })
}

pub fn on_every_edge_case_about_faults(lists: Lists) -> Comparison<'static> {
    let cases = listing::edges::cases();
    Comparison::new(cases.len(), move |place| with_model_list(lists, &cases[place]))
}

/// Each seed's call, and the whole list of its feed.
pub fn on_generated_calls_about_faults(lists: Lists, seeds: usize) -> Comparison<'static> {
    Comparison::new(seeds, move |seed| {
        let case = listing::generate::case(seed as u64);
        let all = faults(&case.files);
        with_list_outcome(lists, &case, &listing::of_faults(&case, &all));
        let whole = listing::Case { list: vec![-9; 400], start: [0, 0, 0], ..case };
        with_list_outcome(lists, &whole, &listing::of_faults(&whole, &all));
    })
}

/// A feed with damage in several files, mended by what is listed until nothing is: it has to be readable then. What each list named.
pub fn mended(lists: Lists, readable: fn(&Files) -> bool, seed: usize) -> Vec<Vec<Fault>> {
    let feeds = mendable(listing::generate::pair(seed as u64));
    let (named, mended) = rounds(&feeds, |files| listing::whole(lists, files));
    only_what_was_hidden(&named);
    assert!(readable(&mended), "seed {seed} can't be read after {} rounds", named.len());
    named
}

/// How many seeds a list of faults is used on to mend feeds.
pub const MENDED: usize = 500;

/// Mended feeds, by lists that name what the model's lists do.
pub fn on_mended_feeds(lists: Lists, readable: fn(&Files) -> bool) -> Comparison<'static> {
    Comparison::new(MENDED, move |seed| {
        let wanted = rounds(&mendable(listing::generate::pair(seed as u64)), faults).0;
        assert_eq!(mended(lists, readable, seed), wanted, "seed {seed}");
    })
}

#[cfg(test)]
mod tests {
    use super::*;
    use std::sync::Mutex;

    #[test]
    fn every_case_is_in_one_part() {
        for (count, of) in [(0, 1), (1, 1), (1, 3), (7, 1), (7, 2), (7, 7), (7, 9)] {
            let seen = Mutex::new(Vec::new());
            let comparison = Comparison::new(count, |number| seen.lock().expect("no failure").push(number));
            assert_eq!((0..of).map(|first| comparison.part(first, of)).sum::<usize>(), count);
            drop(comparison);
            let mut seen = seen.into_inner().expect("no failure");
            seen.sort_unstable();
            assert!(seen.into_iter().eq(0..count), "{count} in {of} parts");
        }
    }

    #[test]
    #[should_panic(expected = "nothing to compare")]
    fn nothing_to_compare_is_a_failure() {
        on_generated_feeds(by_model, 0).on_threads();
    }

    /// Accepts everything and writes nothing.
    fn wrong(case: &Case) -> Outcome {
        Outcome { answer: Answer::Accepted, tables: case.tables.clone(), list: case.list.clone() }
    }

    #[test]
    #[should_panic(expected = "wanted ")]
    fn a_wrong_check_fails_on_edge_cases() {
        on_every_edge_case(wrong).on_threads();
    }

    #[test]
    #[should_panic(expected = "wanted ")]
    fn a_wrong_check_fails_on_generated_feeds() {
        on_generated_feeds(wrong, 100).on_threads();
    }

    /// The model's outcome, but no refusal has a column.
    fn without_columns(case: &Case) -> Outcome {
        let mut outcome = by_model(case);
        if let Answer::Refused { column, .. } = &mut outcome.answer {
            *column = 0;
        }
        outcome
    }

    #[test]
    #[should_panic(expected = "column: 0")]
    fn a_check_without_columns_fails_on_vectors() {
        on_every_vector(without_columns).on_threads();
    }

    #[test]
    #[should_panic(expected = "column: 0")]
    fn a_check_without_columns_fails_on_edge_cases() {
        on_every_edge_case(without_columns).on_threads();
    }

    #[test]
    #[should_panic(expected = "column: 0")]
    fn a_check_without_columns_fails_on_generated_feeds() {
        on_generated_feeds(without_columns, 100).on_threads();
    }

    /// The model's outcome without the profile, whatever is asked for.
    fn plainly(case: &Case) -> Outcome {
        by_model(&Case { profile: Profile::Plain, ..case.clone() })
    }

    #[test]
    #[should_panic(expected = "wanted Findings")]
    fn a_check_without_the_profile_fails_on_vectors() {
        on_every_vector(plainly).on_threads();
    }

    #[test]
    #[should_panic(expected = "wanted Findings")]
    fn a_check_without_the_profile_fails_on_edge_cases() {
        on_every_edge_case(plainly).on_threads();
    }

    #[test]
    #[should_panic(expected = "wanted Findings")]
    fn a_check_without_the_profile_fails_on_generated_feeds() {
        on_generated_feeds(plainly, 100).on_threads();
    }

    /// The model's outcome, but where the writer is refused its buffer's last byte is lost, the only thing that differs.
    fn losing_a_byte(case: &index::Case) -> index::Outcome {
        let mut outcome = index::by_model(case);
        if let (index::Asked::Write, 45 | 46, Some(last)) = (case.asked, outcome.answer.number, outcome.lent.last_mut())
        {
            *last ^= 1;
        }
        outcome
    }

    #[test]
    #[should_panic(expected = "what was lent differs")]
    fn a_lost_byte_fails_on_vectors() {
        on_every_vector_about_an_index(losing_a_byte).on_threads();
    }

    #[test]
    #[should_panic(expected = "what was lent differs")]
    fn a_lost_byte_fails_on_edge_cases() {
        on_every_edge_case_about_an_index(losing_a_byte).on_threads();
    }

    #[test]
    #[should_panic(expected = "what was lent differs")]
    fn a_lost_byte_fails_on_generated_calls() {
        on_generated_calls_about_an_index(losing_a_byte, 100).on_threads();
    }

    /// Accepts what is right, and refuses all else with 44.
    fn one_refusal(case: &index::Case) -> index::Outcome {
        let mut outcome = index::by_model(case);
        if matches!(outcome.answer.number, 40..=43) {
            outcome.answer.number = 44;
        }
        outcome
    }

    #[test]
    #[should_panic(expected = "number: 44")]
    fn another_refusal_fails_on_vectors() {
        on_every_vector_about_an_index(one_refusal).on_threads();
    }

    /// The model's outcome, but no fault has a column.
    fn list_without_columns(case: &listing::Case) -> listing::Outcome {
        let mut outcome = listing::by_model(case);
        let faults = outcome.list.chunks_exact_mut(listing::NUMBERS).take(outcome.answer.written);
        faults.for_each(|fault| fault[3] = 0);
        outcome
    }

    #[test]
    #[should_panic(expected = "the list differs")]
    fn a_list_without_columns_fails_on_edge_cases() {
        on_every_edge_case_about_faults(list_without_columns).on_threads();
    }

    #[test]
    #[should_panic(expected = "the list differs")]
    fn a_list_without_columns_fails_on_generated_calls() {
        on_generated_calls_about_faults(list_without_columns, 100).on_threads();
    }

    /// Names nothing below the header, so that what is mended can't be read.
    fn headers_only(case: &listing::Case) -> listing::Outcome {
        let mut all = faults(&case.files);
        all.retain(|fault| fault[1] < 2);
        listing::of_faults(case, &all)
    }

    #[test]
    #[should_panic(expected = "can't be read after")]
    fn a_list_that_leaves_lines_out_is_not_enough_to_mend() {
        on_mended_feeds(headers_only, |files| faults(files).is_empty()).on_threads();
    }
}
