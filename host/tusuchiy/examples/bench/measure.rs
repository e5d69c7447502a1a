//! The processor time of one call: of either check on a feed, and of its parts.

use crate::clock;
use cases::Outcome;
use model::{Answer, Files, FILES};
use tusuchiy::{Profile, Verdict};

/// A call is made again until this many seconds are spent, but so many times at most; the fastest counts.
pub const SPENT: f64 = 0.4;
pub const RUNS: usize = 20;

/// The command's list: room for so many findings.
pub const ROOM: usize = 65_536;

#[derive(Clone, Copy)]
pub enum Checker {
    Proved,
    Quick,
}

/// A profile as quick calls it.
fn in_quick(profile: Profile) -> model::Profile {
    match profile {
        Profile::Plain => model::Profile::Plain,
        Profile::Boards => model::Profile::Boards,
    }
}

impl Checker {
    /// One call, and its time.
    fn call(self, files: &Files, profile: Profile, lent: &mut Outcome) -> f64 {
        let (tables, list) = (&mut lent.tables, &mut lent.list[..]);
        let start = clock::seconds();
        lent.answer = match self {
            Checker::Quick => quick::check(files, tables, list, [0, 0, 0], in_quick(profile)),
            Checker::Proved => {
                let files = files.each_ref().map(|file| &file[..]);
                let tables = tables.each_mut().map(|table| &mut table[..]);
                words(&tusuchiy::check(files, tables, list, [0, 0, 0], profile))
            }
        };
        clock::seconds() - start
    }
}

/// The archive's answer in the model's words.
fn words(answer: &tusuchiy::Answer) -> Answer {
    match answer.verdict().expect("a known answer") {
        Verdict::Accepted => Answer::Accepted,
        Verdict::Findings { written, total } => Answer::Findings { written, total },
        Verdict::Refused(fault) => {
            let (number, file, line) = (fault.refusal.number(), fault.file.number(), fault.line as usize);
            let column = fault.column.map_or(0, |column| column.get() as usize);
            Answer::Refused { number, file, line, column }
        }
    }
}

/// What stands in tables and list as lent.
const LENT: i32 = -1;

/// Tables and list, written to before the clock starts, so that their memory is there.
fn lend(files: &Files) -> Outcome {
    Outcome { answer: Answer::Accepted, tables: cases::large::tables(files, LENT), list: vec![LENT; ROOM * 3] }
}

/// The time of the fastest call, and what a call gave.
pub fn fastest(checker: Checker, files: &Files, profile: Profile) -> (f64, Outcome) {
    let mut lent = lend(files);
    let least = least(|| {
        // As they were lent: no second ones, which at a million lines would take as much memory again.
        lent.tables.iter_mut().chain([&mut lent.list]).for_each(|numbers| numbers.fill(LENT));
        checker.call(files, profile, &mut lent)
    });
    (least, lent)
}

/// The least time of a call, which is made again and again.
pub fn least(mut call: impl FnMut() -> f64) -> f64 {
    let (mut least, mut spent) = (f64::INFINITY, 0.0);
    for _ in 0..RUNS {
        let time = call();
        least = least.min(time);
        spent += time;
        if spent >= SPENT {
            break;
        }
    }
    least
}

/// The parts of a call that takes this long: rules 1 to 4, reading, and all that follows. The first two don't depend on a profile.
pub fn parts(checker: Checker, files: &Files, whole: f64) -> [f64; 3] {
    let last = (0..FILES).rfind(|&file| !files[file].is_empty()).expect("a file that is supplied");
    let (wholes, outcome) = fastest(checker, &unended(files, last), Profile::Plain);
    assert_eq!(outcome.answer, Answer::Refused { number: 4, file: last + 1, line: 0, column: 0 });
    let (read, outcome) = fastest(checker, &malformed(files, last), Profile::Plain);
    let end = (13, last + 1, model::fields::line_ends(&files[last]));
    let refused = matches!(outcome.answer, Answer::Refused { number, file, line, .. } if (number, file, line) == end);
    assert!(refused, "{:?}, wanted {end:?}", outcome.answer);
    [wholes, (read - wholes).max(0.0), (whole - read).max(0.0)]
}

/// The feed without its last LF, refused before any line is read.
fn unended(files: &Files, last: usize) -> Files {
    let mut files = files.clone();
    files[last].pop();
    files
}

/// The feed with a letter in its last value, refused after all is read.
fn malformed(files: &Files, last: usize) -> Files {
    let mut files = files.clone();
    let digit = files[last].iter().rposition(u8::is_ascii_digit).expect("a last number");
    files[last][digit] = b'x';
    files
}
