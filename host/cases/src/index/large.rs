//! Calls about files at the limits of rules 1 and 2, and over them.

use super::edges::{check, write};
use super::versions::scattered;
use super::{Case, Outcome};
use crate::limits::{MOST_BYTES, MOST_LINES};
use model::index::{bytes, Answer};

/// How many of these calls there are.
pub const CALLS: usize = 9;

/// routes.txt with these ids.
fn routes(ids: &[String]) -> Vec<u8> {
    let lines: String = ids.iter().map(|id| format!("{id},3\n")).collect();
    format!("route_id,route_type\n{lines}").into_bytes()
}

/// As many ids as rule 2 leaves lines for, in no order, and the index of such a file.
fn most_ids() -> (Vec<String>, Vec<u8>) {
    // All numbers but 0, in as many digits each, so that they rise as their texts do.
    let numbers: Vec<usize> = (1..MOST_LINES).map(scattered).collect();
    let mut records = vec![0; MOST_LINES];
    numbers.iter().zip(1..).for_each(|(&number, record)| records[number] = record);
    (numbers.iter().map(|number| format!("{number:05x}")).collect(), bytes(2, &records[1..]))
}

/// routes.txt of one record and so many bytes.
fn long(bytes: usize) -> Vec<u8> {
    let mut file = b"route_id,route_type,note\nR,3,".to_vec();
    file.resize(bytes - 1, b'x');
    file.push(b'\n');
    file
}

/// A call with what it must give: refused with this number, which leaves everything as lent.
fn refused(case: Case, number: usize) -> (Case, Outcome) {
    let file = if number < 40 { 2 } else { 0 };
    let lent = case.lent.clone();
    (case, Outcome { answer: Answer { number, file, ..Answer::default() }, lent })
}

/// A call with what it must give: this index, written or accepted.
fn good(case: Case, index: &[u8]) -> (Case, Outcome) {
    let lent = [index, &case.lent[index.len()..]].concat();
    (case, Outcome { answer: Answer { length: index.len(), ..Answer::default() }, lent })
}

/// One of the calls, and what it must give. It is made when it is asked for: all of them take much memory.
pub fn at_the_limits(number: usize) -> (Case, Outcome) {
    let (case, outcome) = match number {
        0..=4 => of_most_lines(number),
        5 => good(write(2, &long(MOST_BYTES), 11), &bytes(2, &[1])),
        6 => good(check(2, &long(MOST_BYTES), bytes(2, &[1])), &bytes(2, &[1])),
        7 => refused(write(2, &long(MOST_BYTES + 1), 11), 1),
        _ => refused(check(2, &long(MOST_BYTES + 1), bytes(2, &[1])), 1),
    };
    (Case { name: format!("call {number} at a limit"), ..case }, outcome)
}

/// The last two records of a version 2 index change places.
fn swap_last(index: &mut [u8]) {
    let from = index.len() - 8;
    index[from..].rotate_left(4);
}

/// As many lines as there may be: the index written and judged, and judged with its last two records the other way round; then a line more.
fn of_most_lines(number: usize) -> (Case, Outcome) {
    let (mut ids, mut index) = most_ids();
    match number {
        2 => swap_last(&mut index),
        3 | 4 => ids.push("more".to_string()),
        _ => {}
    }
    let file = routes(&ids);
    match number {
        0 => good(write(2, &file, index.len() + 1), &index),
        1 => good(check(2, &file, index.clone()), &index),
        2 => refused(check(2, &file, index), 44),
        3 => refused(write(2, &file, index.len() + 4), 2),
        _ => refused(check(2, &file, index), 2),
    }
}
