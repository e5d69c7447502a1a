//! The archive against the model and the customer's cases: the answer, all tables and the list, whole. By processes of one thread each, so
//! every call is made on the stack of the main thread.

use cases::agree::{self, Comparison};
use cases::boards::HEADER;
use cases::limits::{MOST_BYTES, MOST_LINES};
use cases::{by_model, generate, processes, Case, Outcome};
use model::Profile;
use std::process::ExitCode;
use tusuchiy::{Answer, Verdict};

fn main() -> ExitCode {
    processes::main(&[
        ("on_every_vector", || agree::on_every_vector(by_archive)),
        ("on_every_edge_case", || agree::on_every_edge_case(by_archive)),
        ("on_generated_feeds", || agree::on_generated_feeds(by_archive, SEEDS)),
        ("on_the_benchmarks_feeds", || agree::on_the_benchmarks_feeds(by_archive, &[(64, 12_000), (1024, 12_000)])),
        ("pages_join", pages_join),
        ("on_feeds_around_16_bits", || agree::on_feeds_around_16_bits(by_archive)),
        ("on_feeds_at_the_limits", || agree::on_feeds_at_the_limits(by_archive)),
        ("the_limits_speak_in_their_order", || Comparison::once(the_limits_speak_in_their_order)),
        ("as_many_findings_as_there_can_be", as_many_findings_as_there_can_be),
    ])
}

/// How many seeds the archive and the model are compared on.
const SEEDS: usize = 8000;

/// The seven numbers that an answer must have.
fn numbers(answer: model::Answer) -> Answer {
    let zero = Answer { verdict: 0, number: 0, file: 0, line: 0, column: 0, written: 0, total: 0 };
    match answer {
        model::Answer::Accepted => zero,
        model::Answer::Findings { written, total } => {
            Answer { verdict: 1, written: written as i32, total: total as i32, ..zero }
        }
        model::Answer::Refused { number, file, line, column } => {
            let [number, file, line, column] = [number, file, line, column].map(|number| number as i32);
            Answer { verdict: 2, number, file, line, column, ..zero }
        }
    }
}

/// The answer in the model's words.
fn words(answer: &Answer) -> model::Answer {
    match answer.verdict().unwrap_or_else(|| panic!("unknown answer {answer:?}")) {
        Verdict::Accepted => model::Answer::Accepted,
        Verdict::Findings { written, total } => model::Answer::Findings { written, total },
        Verdict::Refused(fault) => {
            let (number, file, line) = (fault.refusal.number(), fault.file.number(), fault.line as usize);
            let column = fault.column.map_or(0, |column| column.get() as usize);
            model::Answer::Refused { number, file, line, column }
        }
    }
}

/// The profile in the library's words.
fn asked(profile: Profile) -> tusuchiy::Profile {
    match profile {
        Profile::Plain => tusuchiy::Profile::Plain,
        Profile::Boards => tusuchiy::Profile::Boards,
    }
}

/// What the archive makes of a case, with guards around everything lent: nothing outside may change.
fn by_archive(case: &Case) -> Outcome {
    const GUARD: usize = 16;
    let guarded = |lent: &Vec<i32>| [&[77; GUARD][..], lent, &[77; GUARD]].concat();
    let mut tables = case.tables.each_ref().map(guarded);
    let mut list = guarded(&case.list);
    let inside = |length: usize| GUARD..length - GUARD;
    let answer = tusuchiy::check_here(
        case.files.each_ref().map(|file| &file[..]),
        tables.each_mut().map(|table| {
            let range = inside(table.len());
            &mut table[range]
        }),
        {
            let range = inside(list.len());
            &mut list[range]
        },
        case.start,
        asked(case.profile),
    );
    let open = |lent: Vec<i32>| {
        let range = inside(lent.len());
        assert!(lent[..GUARD].iter().chain(&lent[range.end..]).all(|&number| number == 77), "{}", case.name);
        lent[range].to_vec()
    };
    assert_eq!(answer, numbers(words(&answer)), "{}: a number that should be 0", case.name);
    Outcome { answer: words(&answer), tables: tables.map(open), list: open(list) }
}

/// Fails where the archive's outcome is not the one wanted.
fn compare(case: &Case, wanted: &Outcome) {
    agree::with_outcome(by_archive, case, wanted);
}

/// Pages of one and of two findings, each from the last one handed out, join to the whole list: if all ask for the profile to the list with it,
/// if none does to the one without.
fn pages_join() -> Comparison<'static> {
    let seeds: Vec<u64> = (0..400).filter(|&seed| generate::kind(seed) == generate::Kind::Faulty).collect();
    Comparison::new(seeds.len() * 2, move |number| {
        let profile = if number < seeds.len() { Profile::Plain } else { Profile::Boards };
        let made = generate::case(seeds[number % seeds.len()]);
        let case = Case { list: vec![0; 30_000], start: [0, 0, 0], profile, ..made };
        let whole = by_model(&case);
        let model::Answer::Findings { total, .. } = whole.answer else { return };
        for room in [1, 2] {
            assert_eq!(joined(&case, room, total), whole.list[..total * 3], "{}, {profile:?}", case.name);
        }
    })
}

/// All pages of a feed with this room, one after the other.
fn joined(case: &Case, room: usize, total: usize) -> Vec<i32> {
    let mut joined: Vec<i32> = Vec::new();
    for _ in 0..=total {
        let start = joined.last_chunk::<3>().copied().unwrap_or([0, 0, 0]);
        let page = by_archive(&Case { list: vec![0; room * 3 + 1], start, ..case.clone() });
        let model::Answer::Findings { written, total: told } = page.answer else { panic!("no findings") };
        assert_eq!(told, total);
        if written == 0 {
            return joined;
        }
        joined.extend(&page.list[..written * 3]);
    }
    panic!("pages without end")
}

/// Nearly every line of stop_times breaks six rules, three of them the profile's: the whole list with the profile and without it, and the end of
/// the former.
fn as_many_findings_as_there_can_be() -> Comparison<'static> {
    // A quarter of what there may be; then as many as had been enough before E9.
    let asked = [
        (MOST_LINES / 4, Profile::Boards, [0, 0, 0]),
        (65_536, Profile::Plain, [0, 0, 0]),
        (65_536, Profile::Boards, [5, 65_530, 61]),
    ];
    Comparison::new(asked.len(), move |number| {
        let (lines, profile, start) = asked[number];
        let mut files = cases::large::feed(lines - 1);
        let calls = (0..lines - 1).map(|line| format!("nowhere-{},,48:00:00,stop-0,1,2,3,1\n", line / 20));
        files[4] = (HEADER.to_string() + &calls.collect::<String>()).into_bytes();
        let tables = cases::large::tables(&files, 5);
        let name = format!("{lines} lines from {start:?}, {profile:?}");
        agree::with_model(by_archive, &Case { name, files, tables, list: vec![3; lines * 19], start, profile });
    })
}

/// Fails unless a rule of whole files refuses a feed, and everything stays as lent.
fn refused(case: &Case, number: usize, file: usize) {
    let answer = model::Answer::Refused { number, file, line: 0, column: 0 };
    compare(case, &Outcome { answer, tables: case.tables.clone(), list: case.list.clone() });
}

/// Rule 1 speaks before rule 2 whatever the files, and rule 2 before 3 and 4.
fn the_limits_speak_in_their_order() {
    let mut case = Case { list: vec![1; 7], ..Case::default() };
    case.files[0] = vec![b'\n'; MOST_LINES + 1];
    case.files[4] = vec![b'x'; MOST_BYTES + 1];
    refused(&case, 1, 5);
    case.files[4].pop();
    refused(&case, 2, 1);
    case.files[0].pop();
    refused(&case, 3, 1);
    case.tables[0] = vec![9; MOST_LINES * 7];
    refused(&case, 4, 2);
}
