//! Feeds at the limits of rules 1 and 2, which are accepted, and over them; feeds of more lines and records than 16 bits count, and around that.

use super::draft::Draft;
use super::plan::short;
use super::{dates, feed};
use crate::limits::{MOST_BYTES, MOST_LINES, MOST_OF_VERSION_1};
use model::Files;

/// How many of these feeds there are.
pub const FEEDS: usize = 8;

/// One of the feeds, and the rule and the file that refuse it, if it is over a limit. It is made when it is asked for: all of them take much memory.
pub fn at_the_limits(number: usize) -> (Files, Option<[usize; 2]>) {
    match number {
        0 => (feed(MOST_LINES - 1), None),
        1 => (dates(MOST_LINES), None),
        2 => (long(4, MOST_BYTES), None),
        3 => (feed(MOST_LINES), Some([2, 5])),
        4 => (dates(MOST_LINES + 1), Some([2, 6])),
        5 => (long(0, MOST_BYTES + 1), Some([1, 1])),
        6 => (long(4, MOST_BYTES + 1), Some([1, 5])),
        _ => (long(5, MOST_BYTES + 1), Some([1, 6])),
    }
}

/// A small feed with a file of so many bytes: an unread column of its last line fills it up.
fn long(file: usize, bytes: usize) -> Files {
    let mut files = feed(2);
    let text = String::from_utf8_lossy(&files[file]).into_owned();
    let (header, lines) = text.split_once('\n').unwrap_or_default();
    let lines = lines.replace('\n', ",\n");
    files[file] = format!("{header},note\n{}", lines.trim_end()).into_bytes();
    files[file].resize(bytes - 1, b'x');
    files[file].push(b'\n');
    files
}

/// How many feeds are around as many lines and records as 16 bits count.
pub const AROUND: usize = 6;

/// One of these feeds: with so many records in every file, or with a tab on the last line of stop_times, in the end on the last line that there
/// may be.
pub fn around_16_bits(number: usize) -> Files {
    match number {
        0 => mirrored(MOST_OF_VERSION_1),
        1 => mirrored(MOST_OF_VERSION_1 + 2),
        2..=4 => with_last_tab(MOST_OF_VERSION_1 + number - 2),
        _ => with_last_tab(MOST_LINES - 1),
    }
}

/// So many records in every file; each record that refers to others names those that stand as far from the end as it does from the beginning.
fn mirrored(records: usize) -> Files {
    let mut draft = Draft::new();
    for number in 1..=records {
        let [stop, route, service] = ['S', 'R', 'W'].map(|letter| short(letter, number));
        let [other_route, other_service, other_trip] =
            ['R', 'W', 'T'].map(|letter| short(letter, records + 1 - number));
        draft.stop(&stop, 0, "");
        draft.route(&route);
        draft.service(&service);
        draft.date(&service, 20240704);
        draft.trip(&other_route, &other_service, &short('T', number));
        draft.call(&other_trip, 0, &stop);
    }
    draft.0
}

/// A feed whose only fault is on the last of so many lines of stop_times, the header not counted.
fn with_last_tab(lines: usize) -> Files {
    let mut files = feed(lines);
    let last = files[4].len() - 1;
    files[4].insert(last, b'\t');
    files
}
