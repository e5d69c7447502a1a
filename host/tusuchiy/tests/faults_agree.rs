//! The list of all faults in the archive against the model: the answer, and the list, whole; and feeds that are mended by what it names. By
//! processes of one thread each, so every call is made on the stack of the main thread.

use cases::agree::{self, with_model_list, Comparison};
use cases::large::tables;
use cases::limits::MOST_LINES;
use cases::listing::edges::several;
use cases::listing::generate::pair;
use cases::listing::mend::{only_what_was_hidden, rounds};
use cases::listing::{whole, Case, Outcome};
use cases::processes;
use model::faults::{faults, Answer, Fault};
use model::Files;
use std::process::ExitCode;
use tusuchiy::Verdict;

/// How many seeds the archive and the model are compared on, with two calls each.
const SEEDS: usize = 2000;

fn main() -> ExitCode {
    processes::main(&[
        ("on_every_edge_case", || agree::on_every_edge_case_about_faults(by_archive)),
        ("on_generated_calls", || agree::on_generated_calls_about_faults(by_archive, SEEDS)),
        ("at_the_limits_and_over_them", || agree::on_faults_at_the_limits(by_archive)),
        ("pages_join", || Comparison::new(61, pages_join)),
        ("as_many_faults_as_there_can_be", || Comparison::once(as_many_faults_as_there_can_be)),
        ("the_list_beside_the_verdict", || Comparison::new(400, the_list_beside_the_verdict)),
        ("a_readable_feed_leaves_the_list_as_lent", || Comparison::once(a_readable_feed_leaves_the_list_as_lent)),
        ("what_is_listed_is_mended", || agree::on_mended_feeds(by_archive, readable)),
        ("faults_in_every_file_are_mended_at_once", || Comparison::once(faults_in_every_file_are_mended_at_once)),
    ])
}

/// What the archive makes of a call, with guards around the list: nothing outside may change.
fn by_archive(case: &Case) -> Outcome {
    const GUARD: usize = 16;
    let mut guarded = [&[77; GUARD][..], &case.list, &[77; GUARD]].concat();
    let inside = GUARD..GUARD + case.list.len();
    let files = case.files.each_ref().map(|file| &file[..]);
    let answer = tusuchiy::faults::faults_here(files, &mut guarded[inside.clone()], case.start);
    assert!(guarded[..GUARD].iter().chain(&guarded[inside.end..]).all(|&number| number == 77), "{}", case.name);
    let [written, total] =
        [answer.written, answer.total].map(|number| usize::try_from(number).expect("none is below 0"));
    Outcome { answer: Answer { written, total }, list: guarded[inside].to_vec() }
}

/// The archive's verdict on a feed, with tables that are long enough: none where it can be read, else its refusal as a fault.
fn refusal(files: &Files) -> Option<Fault> {
    let lent = files.each_ref().map(|file| &file[..]);
    let mut tables = tables(files, 0);
    let tables = tables.each_mut().map(|table| &mut table[..]);
    let answer = tusuchiy::check_here(lent, tables, &mut [], [0, 0, 0], tusuchiy::Profile::Plain);
    match answer.verdict().expect("a verdict") {
        Verdict::Refused(fault) => {
            let column = fault.column.map_or(0, |column| column.get() as i32);
            Some([fault.file.number() as i32, fault.line as i32, fault.refusal.number() as i32, column])
        }
        _ => None,
    }
}

fn readable(files: &Files) -> bool {
    refusal(files).is_none()
}

/// Pages of one and of two faults, each from the last one handed out, join to the whole list.
fn pages_join(seed: usize) {
    // The last one is no seed.
    let files = &if seed == 60 { several() } else { pair(seed as u64)[1].clone() };
    let all = faults(files);
    assert_eq!(whole(by_archive, files), all, "seed {seed}");
    for room in [1, 2] {
        assert_eq!(joined(files, room, all.len()), all.concat(), "seed {seed}");
    }
}

/// All pages of a feed with this room, one after the other.
fn joined(files: &Files, room: usize, total: usize) -> Vec<i32> {
    let mut joined: Vec<i32> = Vec::new();
    for _ in 0..=total {
        let start = joined.rchunks(4).next().map_or([0, 0, 0], |last| [last[0], last[1], last[2]]);
        let page = by_archive(&Case { name: String::new(), files: files.clone(), list: vec![0; room * 4 + 1], start });
        assert_eq!(page.answer.total, total);
        if page.answer.written == 0 {
            return joined;
        }
        joined.extend(&page.list[..page.answer.written * 4]);
    }
    panic!("pages without end")
}

/// Every line of a file with as many as there may be has a fault: below a refused header those behind the last LF, below a good one all.
fn as_many_faults_as_there_can_be() {
    let mut files = several();
    files[4] = vec![b'\n'; MOST_LINES];
    files[4].push(b'\t');
    let list = vec![5; 4 * (MOST_LINES + 64) + 3];
    let mut case = Case { name: "all lines of stop_times".to_string(), files, list, start: [0, 0, 0] };
    with_model_list(by_archive, &case);
    case.files[4].splice(0..0, *b"trip_id,arrival_time,departure_time,stop_id,stop_sequence");
    with_model_list(by_archive, &case);
}

/// With tables that are long enough the feed is readable just when the list is empty, and else the refusal is in it.
fn the_list_beside_the_verdict(seed: usize) {
    let files = &pair(seed as u64)[1];
    let list = whole(by_archive, files);
    match refusal(files) {
        None => assert_eq!(list, [[0; 4]; 0], "seed {seed}"),
        Some(refusal) => assert!(list.contains(&refusal), "seed {seed}: {refusal:?} isn't in {list:?}"),
    }
}

/// A feed that can be read has no fault, and no table is lent that rule 3 could look at: the list stays as lent.
fn a_readable_feed_leaves_the_list_as_lent() {
    let case = Case { name: "good".to_string(), files: cases::edges::base(), list: vec![7; 9], start: [0, 0, 0] };
    assert_eq!(by_archive(&case), Outcome { answer: Answer { written: 0, total: 0 }, list: vec![7; 9] });
}

/// A feed with faults in every file: one list, and each line of it mended, makes it readable where no header is refused.
fn faults_in_every_file_are_mended_at_once() {
    let good = cases::edges::base();
    let bad = good.each_ref().map(|file| {
        let end = file.iter().position(|&byte| byte == b'\n').expect("a header") + 1;
        [&file[..end], b"\t\n\xFF\n\"\n", &[b','; 32], b"\nx\n", &file[end..file.len() - 1]].concat()
    });
    let (lists, mended) = rounds(&[good, bad], |files| whole(by_archive, files));
    only_what_was_hidden(&lists);
    assert_eq!(lists.iter().map(Vec::len).collect::<Vec<_>>(), [6 * 6]);
    assert!(readable(&mended));
}
