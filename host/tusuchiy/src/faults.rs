//! All faults of a feed at once, where the verdict names one: the archive's function, and pages of faults in words.
//!
//! ```
//! use tusuchiy::{Check, File};
//!
//! let files: [&[u8]; 6] = [
//!     b"stop_id,stop_name,stop_lat,stop_lon\nA,Alder,91,2\nB,,1.5,2\n",
//!     b"route_id,route_type\nR,3", // no last line ending
//!     b"service_id,monday,tuesday,wednesday,thursday,friday,saturday,sunday,start_date,end_date\n",
//!     b"route_id,service_id,trip_id\n",
//!     b"trip_id,arrival_time,departure_time,stop_id,stop_sequence\n",
//!     b"", // no calendar_dates.txt
//! ];
//! let mut told = Vec::new();
//! for fault in Check::new(files)?.faults() {
//!     let fault = fault?;
//!     told.push((fault.file, fault.line, fault.refusal.number()));
//!     println!("{fault}");
//! }
//! assert_eq!(told, [(File::Stops, 2, 13), (File::Stops, 3, 12), (File::Routes, 0, 4)]);
//! # Ok::<(), tusuchiy::Error>(())
//! ```

use crate::check::{lines, zeros, Place};
use crate::kinds::{Fault, FILES};
use crate::pages::{Pages, PAGE};
use crate::{on_large_stack, Error};
use std::io;

/// How many numbers a fault has in the list: file, line, number, column.
pub const WIDTH: usize = 4;

/// The most faults that these files can have: of each file one on every line, on one more without an ending, and 4 of the whole.
#[must_use]
pub fn most(files: [&[u8]; FILES]) -> usize {
    files.iter().map(|file| lines(file) + 2).sum()
}

/// The answer as the archive gives it; include/tusuchiy.h says what each number means.
#[repr(C)]
#[derive(Clone, Copy, Debug, PartialEq, Eq)]
#[must_use]
pub struct FaultsAnswer {
    pub written: i32,
    pub total: i32,
}

#[allow(unsafe_code)]
#[rustfmt::skip]
mod archive {
    use super::{FaultsAnswer, FILES};

    extern "C" {
        fn tusuchiy_faults(
            stops: *const u8, stops_len: usize, routes: *const u8, routes_len: usize,
            calendar: *const u8, calendar_len: usize, trips: *const u8, trips_len: usize,
            stop_times: *const u8, stop_times_len: usize, calendar_dates: *const u8, calendar_dates_len: usize,
            faults: *mut i32, faults_len: usize,
            after_file: i32, after_line: i32, after_number: i32,
        ) -> FaultsAnswer;
    }

    /// One call on the stack that the caller has.
    pub fn faults(files: [&[u8]; FILES], list: &mut [i32], after: [i32; 3]) -> FaultsAnswer {
        let [f1, f2, f3, f4, f5, f6] = files;
        // SAFETY: the function asks for nothing but valid slices, and slices are what is lent: each pointer comes
        // with its own length, and the borrows keep the list apart from the files.
        unsafe {
            tusuchiy_faults(
                f1.as_ptr(), f1.len(), f2.as_ptr(), f2.len(), f3.as_ptr(), f3.len(), f4.as_ptr(), f4.len(),
                f5.as_ptr(), f5.len(), f6.as_ptr(), f6.len(),
                list.as_mut_ptr(), list.len(), after[0], after[1], after[2],
            )
        }
    }
}

/// One call: files, the list of faults, four numbers each, and the place (file, line, number) after which they are handed out.
/// It runs in a thread with a stack of its own size, whatever the caller's; an error says that there is no such thread.
pub fn try_faults(files: [&[u8]; FILES], list: &mut [i32], after: [i32; 3]) -> io::Result<FaultsAnswer> {
    on_large_stack(move || archive::faults(files, list, after))
}

/// The same for those who can't go on without a thread.
///
/// # Panics
///
/// Where the system gives no thread.
pub fn faults(files: [&[u8]; FILES], list: &mut [i32], after: [i32; 3]) -> FaultsAnswer {
    try_faults(files, list, after).expect("a thread for the faults")
}

/// The same on the stack that the caller has, as [`check_here`](crate::check_here).
pub fn faults_here(files: [&[u8]; FILES], list: &mut [i32], after: [i32; 3]) -> FaultsAnswer {
    archive::faults(files, list, after)
}

/// The faults after a place, as many as there was room for, and how many the feed has, which depends on neither.
#[derive(Clone, Debug, PartialEq, Eq)]
pub struct Page {
    pub total: usize,
    pub faults: Vec<Fault>,
}

/// One call: the faults after a place, as many as there is room for, and the total.
///
/// # Errors
///
/// Where there is no memory for the list or no thread for the call.
pub fn page(files: [&[u8]; FILES], after: Place, room: usize) -> Result<Page, Error> {
    // More room is never used.
    let mut list = zeros(room.min(most(files)) * WIDTH)?;
    let answer = try_faults(files, &mut list, after.0).map_err(Error::Thread)?;
    read(&list, answer).ok_or(Error::UnknownFaults(answer))?
}

/// What a call wrote; none for numbers that no answer has.
fn read(list: &[i32], answer: FaultsAnswer) -> Option<Result<Page, Error>> {
    let written = usize::try_from(answer.written).ok()?;
    let total = usize::try_from(answer.total).ok()?;
    let numbers = list.get(..written.checked_mul(WIDTH)?)?;
    let mut faults = Vec::new();
    if let Err(error) = faults.try_reserve_exact(written) {
        return Some(Err(error.into()));
    }
    for numbers in numbers.chunks_exact(WIDTH) {
        let &[file, line, number, column] = numbers else { return None };
        faults.push(Fault::of([number, file, line, column])?);
    }
    Some(Ok(Page { total, faults }))
}

/// Faults, one after the other.
#[derive(Clone, Debug)]
#[must_use]
pub struct Faults<'a> {
    files: [&'a [u8]; FILES],
    pages: Pages<Fault>,
}

impl<'a> Faults<'a> {
    /// All faults of these files in order, so many a page, at least one: less memory, but each page is a walk along all files.
    pub fn new(files: [&'a [u8]; FILES], room: usize) -> Self {
        Faults { files, pages: Pages::of(room) }
    }

    /// The same with as many a page as most feeds need.
    pub fn of(files: [&'a [u8]; FILES]) -> Self {
        Faults::new(files, PAGE)
    }
}

impl Iterator for Faults<'_> {
    type Item = Result<Fault, Error>;

    fn next(&mut self) -> Option<Self::Item> {
        self.pages.next_by(|after, room| Ok(page(self.files, after, room)?.faults))
    }
}

impl std::iter::FusedIterator for Faults<'_> {}

#[cfg(test)]
mod tests {
    use super::*;
    use crate::tests::in_header;
    use crate::{on_stack, STACK};
    use cases::limits::MOST_LINES;

    #[test]
    fn answers_in_words() {
        let list = [1, 2, 13, 3, 2, 0, 4, 0, 9, 9, 9, 9];
        let told = |written, total| read(&list, FaultsAnswer { written, total }).map(|page| page.expect("memory"));
        let faults = [[13, 1, 2, 3], [4, 2, 0, 0]].map(|numbers| Fault::of(numbers).expect("a fault"));
        assert_eq!(told(2, 7), Some(Page { total: 7, faults: faults.to_vec() }));
        assert_eq!(told(0, 0), Some(Page { total: 0, faults: Vec::new() }));
        for (written, total) in [(3, 7), (4, 7), (-1, 7), (2, -1), (i32::MAX, 7), (i32::MIN, 7)] {
            assert_eq!(told(written, total), None, "{written} of {total}");
        }
    }

    /// The header has the same figures.
    #[test]
    fn the_header_has_the_same_figures() {
        assert_eq!(in_header("TUSUCHIY_FAULT_WIDTH"), WIDTH);
        let full = vec![b'\n'; MOST_LINES + 9];
        let header = include_str!("../../../include/tusuchiy.h");
        assert!(header.contains("6,291,468 at most") && most([&full[..]; FILES]) == 6_291_468);
    }

    /// Few faults, and as many as a file can have, on no more stack than the header asks for.
    #[test]
    fn the_stack_that_is_promised_is_enough() {
        for lines in [2, MOST_LINES] {
            let routes = format!("route_id,route_type\n{}R", "R,x\n".repeat(lines - 1)).into_bytes();
            let files: [&[u8]; FILES] = [b"", &routes, b"x\n", b"", b"", b""];
            let mut list = vec![0; WIDTH * (lines + 10)];
            let answer = on_stack(STACK, || archive::faults(files, &mut list, [2, 0, 0])).expect("a thread");
            // 4 of the files without a byte, of routes.txt 4, 13 on all lines but the header, 10 on the last; 9 of calendar.txt.
            let last = lines as i32;
            assert_eq!(answer, FaultsAnswer { written: last + 4, total: last + 5 });
            assert_eq!(list[..8], [2, 0, 4, 0, 2, 2, 13, 2]);
            assert_eq!(list[WIDTH * (lines - 1)..][..12], [2, last, 13, 2, 2, last + 1, 10, 0, 3, 1, 9, 0]);
        }
    }
}
