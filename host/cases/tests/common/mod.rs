//! What the answers by hand share: the base feed in other words, and what the model makes of it.

use cases::edges::BASE;
use cases::large::tables;
use model::{Answer, Files, Profile, Tables};

/// The base feed, with some files in other words.
pub fn feed(changes: &[(usize, &str)]) -> Files {
    let mut files = BASE.map(|file| file.as_bytes().to_vec());
    for (file, text) in changes {
        files[file - 1] = text.as_bytes().to_vec();
    }
    files
}

/// The answer and the findings of a feed, without a profile.
pub fn check(files: &Files, tables: &mut Tables) -> (Answer, Vec<[i32; 3]>) {
    check_with(Profile::Plain, files, tables)
}

/// The answer and the findings of a feed.
pub fn check_with(profile: Profile, files: &Files, tables: &mut Tables) -> (Answer, Vec<[i32; 3]>) {
    let mut list = vec![0; 300];
    let answer = model::check(files, tables, &mut list, [0, 0, 0], profile);
    let written = if let Answer::Findings { written, .. } = answer { written } else { 0 };
    (answer, list.chunks(3).take(written).map(|found| [found[0], found[1], found[2]]).collect())
}

/// Refused with this number, file, line and column.
pub fn refusal([number, file, line, column]: [usize; 4]) -> Answer {
    Answer::Refused { number, file, line, column }
}

/// Fails unless the feed, with tables as long as rule 3 asks for, is refused with this number, file, line and column.
#[track_caller]
pub fn refused(changes: &[(usize, &str)], wanted: [usize; 4]) {
    let files = feed(changes);
    assert_eq!(check(&files, &mut tables(&files, 0)).0, refusal(wanted));
}

/// Fails unless the feed, with tables as long as rule 3 asks for, has these findings.
#[track_caller]
pub fn findings(changes: &[(usize, &str)], wanted: &[[i32; 3]]) {
    let files = feed(changes);
    let (answer, list) = check(&files, &mut tables(&files, 0));
    assert!(!matches!(answer, Answer::Refused { .. }), "{answer:?}");
    assert_eq!(list, wanted);
    assert_eq!(answer == Answer::Accepted, wanted.is_empty());
}
