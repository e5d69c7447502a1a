//! Mends what a list of faults names, and nothing else: each line for that of a readable feed, a missing end by an end.

use crate::edges::MARK;
use crate::limits::MOST_BYTES;
use model::columns::COLUMNS;
use model::fields::{lines, unended_line};
use model::reading::header;
use model::{faults::Fault, Files, FILES};
use std::array::from_fn;

/// The lines of a file with their endings; the last one may have none.
fn raw_lines(file: &[u8]) -> impl Iterator<Item = &[u8]> {
    file.split_inclusive(|&byte| byte == b'\n')
}

/// The feed with every fault of a list mended, by a readable feed's lines.
pub fn mend(feed: &Files, good: &Files, faults: &[Fault]) -> Files {
    let of_file = |file: usize| faults.iter().filter(move |fault| fault[0] as usize == file + 1).copied();
    let mut mended: Files = from_fn(|file| mend_file(&feed[file], &good[file], &of_file(file).collect::<Vec<_>>()));
    // Of calendar and calendar_dates one is enough, and it is calendar that is named where neither is there.
    if faults.contains(&[3, 0, 4, 0]) && mended[2].is_empty() {
        mended[5].clone_from(&good[5]);
    }
    mended
}

/// A file with these faults mended.
fn mend_file(file: &[u8], good: &[u8], faults: &[Fault]) -> Vec<u8> {
    let whole = |number: i32| faults.iter().any(|fault| fault[1] == 0 && fault[2] == number);
    let good_lines: Vec<&[u8]> = raw_lines(good).collect();
    let good_line = |place: usize| good_lines.get(place).copied().unwrap_or_default();
    let most = if whole(1) || whole(2) { good_lines.len() } else { usize::MAX };
    let mut lines: Vec<&[u8]> = raw_lines(file).take(most).collect();
    // What is too long is one line, if it isn't the lines that are too many.
    if whole(1) && lines.iter().map(|line| line.len()).sum::<usize>() > MOST_BYTES {
        let longest = (0..lines.len()).max_by_key(|&place| lines[place].len());
        longest.into_iter().for_each(|place| lines[place] = good_line(place));
    }
    for fault in faults.iter().filter(|fault| fault[1] > 0) {
        let place = fault[1] as usize - 1;
        lines[place] = good_line(place);
    }
    let mut mended = lines.concat();
    // An end is missing where there is a line; the leading mark alone is none.
    if whole(4) && (mended.is_empty() || mended == MARK) {
        return good.to_vec();
    }
    if whole(4) && !mended.ends_with(b"\n") {
        mended.push(b'\n');
    }
    mended
}

/// A feed and a readable one whose lines can stand for its own. Left out are files whose header isn't refused, and yet has other columns,
/// and files that the readable one doesn't supply.
pub fn mendable([good, mut bad]: [Files; 2]) -> [Files; 2] {
    let names = |bytes: &[u8], file: usize| {
        let first = raw_lines(bytes).next()?;
        let first = lines(first).first().copied().or(unended_line(first))?;
        header(first, COLUMNS[file]).ok()
    };
    for file in 0..FILES {
        let stands = names(&bad[file], file);
        let other_columns = stands.is_some() && stands != names(&good[file], file);
        if other_columns || good[file].is_empty() {
            bad[file].clone_from(&good[file]);
        }
    }
    [good, bad]
}

/// A feed that is listed, mended and listed again until nothing is named: the lists, and the feed as it then is.
pub fn rounds([good, bad]: &[Files; 2], list: impl Fn(&Files) -> Vec<Fault>) -> (Vec<Vec<Fault>>, Files) {
    let mut feed = bad.clone();
    let mut lists: Vec<Vec<Fault>> = Vec::new();
    for _ in 0..8 {
        let faults = list(&feed);
        if faults.is_empty() {
            return (lists, feed);
        }
        feed = mend(&feed, good, &faults);
        lists.push(faults);
    }
    panic!("never mended: {lists:?}")
}

/// Fails unless what a list names anew was hidden in the list before: by rule 1 or 2 of the file, or, of rules 10 to 13, by its header.
/// So one round is enough where neither is named, two where only headers are, and three always.
pub fn only_what_was_hidden(lists: &[Vec<Fault>]) {
    for pair in lists.windows(2) {
        for [file, line, number, _] in pair[1].iter().copied() {
            let whole = pair[0].iter().any(|fault| fault[..2] == [file, 0] && matches!(fault[2], 1 | 2));
            let header = pair[0].iter().any(|fault| fault[..2] == [file, 1]);
            let hidden = line > 0 && (whole || header && matches!(number, 10..=13));
            assert!(hidden, "({file}, {line}, {number}) was not hidden: {lists:?}");
        }
    }
    let first = lists.first().map_or(&[][..], |first| first);
    let whole = first.iter().any(|fault| matches!(fault[2], 1 | 2));
    let header = first.iter().any(|fault| fault[1] == 1);
    let most = 1 + usize::from(whole || header) + usize::from(whole);
    assert!(lists.len() <= most, "{} rounds: {lists:?}", lists.len());
}
