//! The proved check of GTFS feeds, for programs in Rust.
//!
//! [`Check`] takes the bytes of a feed's six files, lends the memory that the check asks for, and gives its verdict and
//! its findings. What they mean is told by [`Rule`] and [`Refusal`].
//!
//! ```
//! use tusuchiy::{Check, File, Verdict};
//!
//! let files: [&[u8]; 6] = [
//!     b"stop_id,stop_name,stop_lat,stop_lon\nA,Alder,1.5,2\n",
//!     b"route_id,route_short_name,route_type\nR,1,3\n",
//!     b"service_id,monday,tuesday,wednesday,thursday,friday,saturday,sunday,start_date,end_date\n",
//!     b"route_id,service_id,trip_id\nR,W,T\n",
//!     b"trip_id,arrival_time,departure_time,stop_id,stop_sequence\n",
//!     b"", // no calendar_dates.txt
//! ];
//! let mut check = Check::new(files)?;
//! match check.verdict()? {
//!     Verdict::Accepted => println!("accepted"),
//!     Verdict::Refused(fault) => println!("{fault}"),
//!     Verdict::Findings { total, .. } => assert_eq!(total, 2),
//! }
//! let mut told = Vec::new();
//! for finding in check.findings() {
//!     let finding = finding?;
//!     told.push((finding.file, finding.line, finding.rule.number()));
//!     println!("{finding}");
//! }
//! assert_eq!(told, [(File::Trips, 2, 21), (File::Trips, 2, 30)]);
//! # Ok::<(), tusuchiy::Error>(())
//! ```
//!
//! A check for departure boards asks for [`Profile::Boards`] and tests three rules more, 60 to 62; all pages of one [`Check`] ask alike.
//!
//! ```
//! use tusuchiy::{Check, Profile, Verdict};
//!
//! # let files: [&[u8]; 6] = [
//! #     b"stop_id,stop_name,stop_lat,stop_lon\nA,Alder,1.5,2\nB,Birch,1.6,2\nC,Cedar,1.7,2\n",
//! #     b"route_id,route_short_name,route_type\nR,1,3\n",
//! #     b"service_id,monday,tuesday,wednesday,thursday,friday,saturday,sunday,start_date,end_date\nW,1,1,1,1,1,0,0,20240101,20241231\n",
//! #     b"route_id,service_id,trip_id\nR,W,T\n",
//! #     b"trip_id,arrival_time,departure_time,stop_id,stop_sequence\nT,8:00:00,8:00:00,A,1\nT,,,B,2\nT,8:09:00,8:09:00,C,3\n",
//! #     b"",
//! # ];
//! // A trip whose second stop has no times.
//! assert_eq!(Check::new(files)?.verdict()?, Verdict::Accepted);
//! let mut check = Check::new(files)?.with_profile(Profile::Boards);
//! let told: Result<Vec<_>, _> = check.findings().collect();
//! assert_eq!(told?[0].to_string(), "stop_times.txt:3: rule 60: the line isn't timed");
//! # Ok::<(), tusuchiy::Error>(())
//! ```
//!
//! [`try_check`] is the function below all this: it takes tables and a list as they are lent, and allocates nothing.
//! [`faults`] names every place of a refused feed that can't be read. [`index`] makes and judges the sorted index of a file.
#![deny(unsafe_code)]

mod check;
pub mod explain;
pub mod faults;
pub mod index;
mod kinds;
mod pages;

pub use check::{table_sizes, Check, Error, Findings, Page, Place};
pub use faults::{try_faults, Faults, FaultsAnswer};
pub use index::IndexAnswer;
pub use kinds::{Fault, File, Finding, IndexRefusal, Profile, Refusal, Rule, FILES};

use std::cell::Cell;
use std::io;
use std::panic;
use std::thread;

/// What a call of one of the archive's functions uses: at most 5 MiB of stack, as include/tusuchiy.h has it, in bytes.
pub const STACK: usize = 5 << 20;

/// How much the thread has that makes the call: twice as much, of which only what is used takes memory.
const THREAD_STACK: usize = 2 * STACK;

/// How many numbers a record of each file has, stops first: a table needs its width times its file's LF count.
pub const WIDTHS: [usize; FILES] = {
    let (mut widths, mut place) = ([0; FILES], 0);
    while place < FILES {
        widths[place] = File::ALL[place].width();
        place += 1;
    }
    widths
};

/// The most bytes that rule 1 allows a file, and the most lines that rule 2 does.
pub const MOST_BYTES: usize = 134_217_728;
pub const MOST_LINES: usize = 1_048_576;

/// The answer as the archive gives it; include/tusuchiy.h says what each number means.
#[repr(C)]
#[derive(Clone, Copy, Debug, PartialEq, Eq)]
#[must_use]
pub struct Answer {
    pub verdict: i32,
    pub number: i32,
    pub file: i32,
    pub line: i32,
    pub column: i32,
    pub written: i32,
    pub total: i32,
}

/// The answer in words.
#[derive(Clone, Copy, Debug, PartialEq, Eq)]
#[must_use]
pub enum Verdict {
    /// The feed can be read and has no finding of the rules that were asked for.
    Accepted,
    /// How many findings were written to the list, and how many the whole feed has.
    Findings { written: usize, total: usize },
    /// A file can't be read; the fault is the first one.
    Refused(Fault),
}

impl Answer {
    /// The answer in words; none for numbers that no answer has.
    pub fn verdict(&self) -> Option<Verdict> {
        let size = |number: i32| usize::try_from(number).ok();
        match self.verdict {
            0 => Some(Verdict::Accepted),
            1 => Some(Verdict::Findings { written: size(self.written)?, total: size(self.total)? }),
            2 => Fault::of([self.number, self.file, self.line, self.column]).map(Verdict::Refused),
            _ => None,
        }
    }
}

#[allow(unsafe_code)]
#[rustfmt::skip]
mod archive {
    use super::{Answer, Profile, FILES};

    extern "C" {
        fn tusuchiy_check(
            stops: *const u8, stops_len: usize, routes: *const u8, routes_len: usize,
            calendar: *const u8, calendar_len: usize, trips: *const u8, trips_len: usize,
            stop_times: *const u8, stop_times_len: usize, calendar_dates: *const u8, calendar_dates_len: usize,
            stops_table: *mut i32, stops_table_len: usize, routes_table: *mut i32, routes_table_len: usize,
            calendar_table: *mut i32, calendar_table_len: usize, trips_table: *mut i32, trips_table_len: usize,
            stop_times_table: *mut i32, stop_times_table_len: usize,
            calendar_dates_table: *mut i32, calendar_dates_table_len: usize,
            findings: *mut i32, findings_len: usize,
            after_file: i32, after_line: i32, after_rule: i32, profile: i32,
        ) -> Answer;
    }

    /// One call on the stack that the caller has.
    pub fn check(
        files: [&[u8]; FILES], tables: [&mut [i32]; FILES], list: &mut [i32], after: [i32; 3], profile: Profile,
    ) -> Answer {
        let [f1, f2, f3, f4, f5, f6] = files;
        let [t1, t2, t3, t4, t5, t6] = tables;
        // SAFETY: the check asks for nothing but valid slices, and slices are what is lent: each pointer comes
        // with its own length, and the borrows keep what is written apart from everything else.
        unsafe {
            tusuchiy_check(
                f1.as_ptr(), f1.len(), f2.as_ptr(), f2.len(), f3.as_ptr(), f3.len(), f4.as_ptr(), f4.len(),
                f5.as_ptr(), f5.len(), f6.as_ptr(), f6.len(),
                t1.as_mut_ptr(), t1.len(), t2.as_mut_ptr(), t2.len(), t3.as_mut_ptr(), t3.len(),
                t4.as_mut_ptr(), t4.len(), t5.as_mut_ptr(), t5.len(), t6.as_mut_ptr(), t6.len(),
                list.as_mut_ptr(), list.len(), after[0], after[1], after[2], profile.number(),
            )
        }
    }
}

/// One check: files, tables, the list of findings, the place after which findings are handed out, and which rules are asked for. Pages that are
/// to be joined all ask for the same profile: [`Check`] sees to that.
///
/// It runs in a thread with a stack of its own size, whatever the caller's; an error says that there is no such thread.
pub fn try_check(
    files: [&[u8]; FILES],
    tables: [&mut [i32]; FILES],
    list: &mut [i32],
    after: [i32; 3],
    profile: Profile,
) -> io::Result<Answer> {
    on_large_stack(move || archive::check(files, tables, list, after, profile))
}

/// The same on the stack that the caller has, in no other thread. [`STACK`] bytes of it must be left: where there are fewer the system may end
/// the process, and that is all that can happen, since the archive's code touches each page of a stack before those below it.
pub fn check_here(
    files: [&[u8]; FILES],
    tables: [&mut [i32]; FILES],
    list: &mut [i32],
    after: [i32; 3],
    profile: Profile,
) -> Answer {
    archive::check(files, tables, list, after, profile)
}

/// Does some work in a thread with so much stack.
fn on_stack<Done: Send>(size: usize, work: impl FnOnce() -> Done + Send) -> io::Result<Done> {
    thread::scope(|scope| {
        let thread = thread::Builder::new().stack_size(size).spawn_scoped(scope, work)?;
        Ok(thread.join().unwrap_or_else(|fault| panic::resume_unwind(fault)))
    })
}

thread_local! {
    /// Was this thread made with a stack that is large enough for every call?
    static IS_LARGE: Cell<bool> = const { Cell::new(false) };
}

/// Does work that makes several calls in one thread, whose stack is large enough for each: none of them makes a thread of its own, as calls elsewhere do.
/// Besides a call's stack the work has [`STACK`] bytes.
///
/// # Errors
///
/// Where the system gives no thread.
pub fn in_one_thread<Done: Send>(work: impl FnOnce() -> Done + Send) -> io::Result<Done> {
    on_stack(THREAD_STACK, || {
        IS_LARGE.set(true);
        work()
    })
}

/// Makes a call where the stack is large enough.
fn on_large_stack<Told: Send>(call: impl FnOnce() -> Told + Send) -> io::Result<Told> {
    if IS_LARGE.get() {
        Ok(call())
    } else {
        in_one_thread(call)
    }
}

/// The same for those who can't go on without a thread.
///
/// # Panics
///
/// Where the system gives no thread.
pub fn check(
    files: [&[u8]; FILES],
    tables: [&mut [i32]; FILES],
    list: &mut [i32],
    after: [i32; 3],
    profile: Profile,
) -> Answer {
    try_check(files, tables, list, after, profile).expect("a thread for the check")
}

#[cfg(test)]
mod tests {
    use super::*;
    use cases::large;
    use std::hint::black_box;

    /// One call on so much stack; the verdict.
    fn verdict_on(stack: usize, files: [&[u8]; FILES]) -> Option<Verdict> {
        let mut tables = table_sizes(files).map(|size| vec![0; size]);
        let tables = tables.each_mut().map(|table| &mut table[..]);
        let answer = on_stack(stack, move || archive::check(files, tables, &mut [0; 30], [0, 0, 0], Profile::Boards));
        answer.expect("a thread").verdict()
    }

    /// The feed of document 01 needs no more than before request E9, and touches no page of what only large feeds use.
    #[test]
    fn a_small_feed_needs_little_stack() {
        let files: [&[u8]; FILES] = [
            include_bytes!("../../../examples/findings/stops.txt"),
            include_bytes!("../../../examples/findings/routes.txt"),
            include_bytes!("../../../examples/findings/calendar.txt"),
            include_bytes!("../../../examples/findings/trips.txt"),
            include_bytes!("../../../examples/findings/stop_times.txt"),
            b"",
        ];
        // Five of document 01, and the line without times.
        assert_eq!(verdict_on(512 << 10, files), Some(Verdict::Findings { written: 6, total: 6 }));
    }

    /// Feeds whose longest file has as many lines as rule 2 allows, on no more stack than the header asks for.
    #[test]
    fn the_stack_that_is_promised_is_enough() {
        for files in [large::feed(MOST_LINES - 1), large::dates(MOST_LINES)] {
            let lines = files.iter().map(|file| check::lines(file)).max();
            assert_eq!(lines, Some(MOST_LINES));
            assert_eq!(verdict_on(STACK, files.each_ref().map(|file| &file[..])), Some(Verdict::Accepted));
        }
    }

    /// A call makes a thread of its own, but none in a thread that was made for several calls.
    #[test]
    fn one_thread_for_several_calls() {
        let here = || thread::current().id();
        let of_call = || on_large_stack(here).expect("a thread");
        assert_ne!(of_call(), here());
        let [work, first, second] = in_one_thread(|| [here(), of_call(), of_call()]).expect("a thread");
        assert_eq!([work, work], [first, second]);
        assert!(work != here() && of_call() != here(), "the thread that waits is none of these");
    }

    /// Calls work under as much stack of the work's own as it may have.
    fn under_a_large_frame<Done>(work: impl FnOnce() -> Done) -> Done {
        let frame = black_box([1_u8; STACK - (64 << 10)]);
        let done = work();
        black_box(&frame);
        done
    }

    /// More records than version 1 lists: the index's calls then use the most stack of all.
    #[test]
    fn the_work_has_stack_besides() {
        let lines: String = (0..70_000).map(|number| format!("{number:05},3\n")).collect();
        let routes = format!("route_id,route_type\n{lines}").into_bytes();
        let work =
            || under_a_large_frame(|| index::of(File::Routes, &routes).expect("an answer").map(|index| index.len()));
        assert_eq!(in_one_thread(work).expect("a thread"), Ok(280_010));
    }

    /// The header has the version of this package.
    #[test]
    fn the_version_is_the_same() {
        let line = format!("#define TUSUCHIY_VERSION \"{}\"\n", env!("CARGO_PKG_VERSION"));
        assert!(include_str!("../../../include/tusuchiy.h").contains(&line), "{line}");
    }

    /// A figure of the header.
    pub fn in_header(name: &str) -> usize {
        let figure = |line: &'static str| line.trim().strip_prefix(name)?.strip_prefix(" = ");
        let text = include_str!("../../../include/tusuchiy.h").lines().find_map(figure).expect("a figure");
        text.split(|byte: char| !byte.is_ascii_digit()).next().and_then(|digits| digits.parse().ok()).expect("a number")
    }

    /// The limits are those of document 02, and the header has them.
    #[test]
    fn the_limits_are_the_same() {
        let limits = [cases::limits::MOST_BYTES, cases::limits::MOST_LINES];
        assert_eq!([MOST_BYTES, MOST_LINES], limits);
        assert_eq!(["TUSUCHIY_MOST_BYTES", "TUSUCHIY_MOST_LINES"].map(in_header), limits);
    }

    /// The README, the header and this library's pages have the same figure.
    #[test]
    fn the_stack_has_one_figure() {
        let figure = format!("at most {} MiB of stack", STACK >> 20);
        let pages =
            [include_str!("../../../README.md"), include_str!("../../../include/tusuchiy.h"), include_str!("lib.rs")];
        for page in pages {
            assert!(page.contains(&figure), "{figure}");
        }
    }
}
