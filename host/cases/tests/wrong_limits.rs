//! Likely wrong readings of E9's limits: the feeds and files at the limits tell every one of them from the right one, of the check, of the list of
//! all faults, and of writer and reader of an index.

use cases::index::{large, Asked};
use cases::large::limits::at_the_limits;
use cases::limits::{MOST_BYTES, MOST_LINES};
use cases::listing;
use cases::readings::Missed;
use model::fields::line_ends;

/// The most bytes and the most LF bytes of a file.
type Reading = [usize; 2];

const RIGHT: Reading = [MOST_BYTES, MOST_LINES];

const WRONG: [(&str, Reading); 8] = [
    ("bytes as before E9", [16_777_216, MOST_LINES]),
    ("lines as before E9", [MOST_BYTES, 65_536]),
    ("a byte less", [MOST_BYTES - 1, MOST_LINES]),
    ("a byte more", [MOST_BYTES + 1, MOST_LINES]),
    ("any number of bytes", [usize::MAX, MOST_LINES]),
    ("a line less", [MOST_BYTES, MOST_LINES - 1]),
    ("so many records, and a line more", [MOST_BYTES, MOST_LINES + 1]),
    ("any number of lines", [MOST_BYTES, usize::MAX]),
];

/// The bytes and LF bytes of a file.
fn sizes(file: &[u8]) -> [usize; 2] {
    [file.len(), line_ends(file)]
}

/// The rules of 1 and 2 that a file of these sizes breaks by a reading.
fn broken(reading: &Reading, sizes: [usize; 2]) -> Vec<usize> {
    [1, 2].into_iter().filter(|rule| sizes[rule - 1] > reading[rule - 1]).collect()
}

/// The first refusal by rule 1 or 2 of files of these sizes: rule and file.
fn refusal(reading: &Reading, sizes: &[[usize; 2]]) -> Option<[usize; 2]> {
    let of_rule = |rule: usize| sizes.iter().position(|&sizes| broken(reading, sizes).contains(&rule));
    [1, 2].into_iter().find_map(|rule| of_rule(rule).map(|place| [rule, place + 1]))
}

#[test]
fn of_the_list_of_all_faults() {
    let mut missed = Missed::new(RIGHT, &WRONG);
    // A line too many, a byte too many, and as many of each as there may be.
    for number in [0, 2, 7, 10] {
        let case = listing::edges::at_the_limits(5, number);
        let listed = listing::written(&listing::by_model(&case));
        let wanted = listed.iter().filter(|fault| fault[..2] == [6, 0]).map(|fault| fault[2] as usize);
        let wanted: Vec<usize> = wanted.filter(|number| *number < 4).collect();
        let sizes = sizes(&case.files[5]);
        missed.try_case(&case.name, &wanted, |reading| broken(reading, sizes));
    }
    missed.are(&[]);
}

#[test]
fn of_the_check() {
    let mut missed = Missed::new(RIGHT, &WRONG);
    // The same: the other feeds are over the limits in other files.
    for number in [0, 2, 3, 6] {
        let (files, wanted) = at_the_limits(number);
        let sizes = files.each_ref().map(|file| sizes(file));
        missed.try_case(&format!("feed {number}"), &wanted, |reading| refusal(reading, &sizes));
    }
    missed.are(&[]);
}

/// Writer and reader each for itself.
#[test]
fn of_an_index() {
    let mut missed = [Asked::Write, Asked::Check].map(|_| Missed::new(RIGHT, &WRONG));
    for number in 0..large::CALLS {
        let (case, wanted) = large::at_the_limits(number);
        let wanted = Some(wanted.answer.number).filter(|number| *number < 40 && *number > 0).map(|rule| [rule, 1]);
        let sizes = [sizes(&case.file)];
        let of = usize::from(case.asked == Asked::Check);
        missed[of].try_case(&case.name, &wanted, |reading| refusal(reading, &sizes));
    }
    missed.into_iter().for_each(|missed| missed.are(&[]));
}
