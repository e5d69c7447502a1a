//! E9: rules 1 and 2 of the check at their limits, the model against answers written by hand from document 02.

use cases::edges::BASE;
use cases::large::tables;
use cases::limits::{MOST_BYTES, MOST_LINES};
use model::{Answer, Files, Profile, Tables};

/// The base feed with another file 6.
fn with_dates(dates: Vec<u8>) -> Files {
    let mut files = BASE.map(|file| file.as_bytes().to_vec());
    files[5] = dates;
    files
}

/// The answer to a feed without a list, and its tables, lent full of -1.
fn check(files: &Files) -> (Answer, Tables) {
    let mut tables = tables(files, -1);
    let answer = model::check(files, &mut tables, &mut [], [0, 0, 0], Profile::Plain);
    (answer, tables)
}

/// Refused with this number, file and line.
fn refusal([number, file, line]: [usize; 3]) -> Answer {
    Answer::Refused { number, file, line, column: 0 }
}

/// 1,048,576 LF bytes can be read, also where 65,536 were too many; one more is refused, and the table stays.
#[test]
fn lines() {
    let lines = b"W,20240704,2\n".repeat(MOST_LINES - 1);
    let mut files = with_dates([b"service_id,date,exception_type\n", &lines[..]].concat());
    let (answer, tables) = check(&files);
    // All lines but the first say the same again.
    assert_eq!(answer, Answer::Findings { written: 0, total: 1_048_574 });
    assert_eq!(tables[5].len(), 4_194_304);
    // The last line starts behind 31 bytes and 1,048,574 lines of 13.
    assert_eq!(tables[5][4_194_300..], [13_631_493, 13_631_494, 20_240_704, 2]);
    files[5].extend(b"W,20240704,2\n");
    let (answer, tables) = check(&files);
    assert_eq!(answer, refusal([2, 6, 0]));
    assert!(tables[5].iter().all(|&number| number == -1));
}

/// 134,217,728 bytes can be read, one more is refused; rule 1 of a later file speaks before rule 2.
#[test]
fn bytes() {
    let mut long = b"service_id,date,exception_type,note\nW,20240704,2,".to_vec();
    long.resize(MOST_BYTES - 1, b'x');
    long.push(b'\n');
    let mut files = with_dates(long);
    assert_eq!(check(&files).0, Answer::Accepted);
    files[5].push(b'\n');
    files[0] = vec![b'\n'; MOST_LINES + 1];
    assert_eq!(check(&files).0, refusal([1, 6, 0]));
    files[5].pop();
    assert_eq!(check(&files).0, refusal([2, 1, 0]));
    // Rule 4 of file 6 speaks before rule 9 of file 1, which has as many lines as it may.
    files[0].pop();
    assert_eq!(check(&files).0, refusal([9, 1, 1]));
    files[5].pop();
    assert_eq!(check(&files).0, refusal([4, 6, 0]));
}
