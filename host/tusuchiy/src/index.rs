//! The sorted index of a file, which stands beside it: the archive's two functions, and an index of just the length that it needs.
//!
//! ```
//! use tusuchiy::{index, File};
//!
//! let stops = b"stop_id,stop_name,stop_lat,stop_lon\nB,Beech,1.5,2\nA,Alder,1.5,2\n";
//! let made = index::of(File::Stops, stops)?.expect("no refusal");
//! // The mark, version 1, file number 1, two records; record 2 comes before record 1.
//! assert_eq!(made, b"TTX\x01\x00\x01\x02\x00\x02\x00\x01\x00");
//! assert!(index::judge(File::Stops, stops, &made)?.is_ok());
//! # Ok::<(), tusuchiy::Error>(())
//! ```

use crate::check::{lines, zeros};
use crate::kinds::{Fault, File, IndexRefusal};
use crate::{on_large_stack, Error};
use std::fmt::{self, Display, Formatter};
use std::io;

/// The files that have an index: 1 to 4.
pub const FILES: [File; 4] = [File::Stops, File::Routes, File::Calendar, File::Trips];

/// A version of the index: its number, the bytes before the record numbers, and those that the count and each record number take.
#[derive(Clone, Copy, Debug, PartialEq, Eq)]
pub struct Version {
    pub number: usize,
    pub head: usize,
    pub entry: usize,
}

impl Version {
    /// The first has count and records in 16 bits, the second in 32.
    pub const ALL: [Version; 2] = [Version { number: 1, head: 8, entry: 2 }, Version { number: 2, head: 10, entry: 4 }];

    /// The most records that an index of the first lists; one of the second lists more.
    pub const MOST_OF_FIRST: usize = 65_535;

    /// The one version that an index of so many records has.
    #[must_use]
    pub const fn of(records: usize) -> Self {
        Version::ALL[(records > Version::MOST_OF_FIRST) as usize]
    }

    /// How many bytes an index of this version has that lists so many records.
    #[must_use]
    pub const fn length(self, records: usize) -> usize {
        self.head + self.entry * records
    }
}

/// The answer as the archive gives it; include/tusuchiy.h says what each number means.
#[repr(C)]
#[derive(Clone, Copy, Debug, PartialEq, Eq)]
#[must_use]
pub struct IndexAnswer {
    pub number: i32,
    pub file: i32,
    pub line: i32,
    pub column: i32,
    pub length: i32,
}

/// Why an index isn't written or accepted.
#[derive(Clone, Copy, Debug, PartialEq, Eq)]
pub enum Refused {
    /// The file can't be read.
    File(Fault),
    /// The file can be read, but it has no index, or not this one.
    Index(IndexRefusal),
}

impl Display for Refused {
    fn fmt(&self, out: &mut Formatter) -> fmt::Result {
        match self {
            Refused::File(fault) => fault.fmt(out),
            Refused::Index(refusal) => refusal.fmt(out),
        }
    }
}

impl IndexAnswer {
    /// The answer in words: the index's length, or why there is none. None for numbers that no answer has.
    pub fn outcome(&self) -> Option<Result<usize, Refused>> {
        let refusal = |number: i32| IndexRefusal::new(usize::try_from(number).ok()?);
        match self.number {
            0 => usize::try_from(self.length).ok().map(Ok),
            number @ 40.. => Some(Err(Refused::Index(refusal(number)?))),
            number => Some(Err(Refused::File(Fault::of([number, self.file, self.line, self.column])?))),
        }
    }
}

#[allow(unsafe_code)]
#[rustfmt::skip]
mod archive {
    use super::IndexAnswer;

    extern "C" {
        fn tusuchiy_index_write(
            file_number: i32, file: *const u8, file_len: usize, buffer: *mut u8, buffer_len: usize,
        ) -> IndexAnswer;
        fn tusuchiy_index_check(
            file_number: i32, file: *const u8, file_len: usize, index: *const u8, index_len: usize,
        ) -> IndexAnswer;
    }

    /// One call on the stack that the caller has.
    pub fn write(file_number: i32, file: &[u8], buffer: &mut [u8]) -> IndexAnswer {
        // SAFETY: the writer asks for nothing but valid slices, and slices are what is lent: each pointer comes with its
        // own length, and the borrows keep what is written apart from what is read.
        unsafe { tusuchiy_index_write(file_number, file.as_ptr(), file.len(), buffer.as_mut_ptr(), buffer.len()) }
    }

    /// The same for the reader.
    pub fn check(file_number: i32, file: &[u8], index: &[u8]) -> IndexAnswer {
        // SAFETY: the reader asks for nothing but valid slices, which it only reads: each pointer comes with its own length.
        unsafe { tusuchiy_index_check(file_number, file.as_ptr(), file.len(), index.as_ptr(), index.len()) }
    }
}

/// Writes the index of a file to the beginning of a buffer; the rest of it, and all of it where there is a refusal, stays as
/// it was. The call runs in a thread with a stack of its own size; an error says that there is no such thread.
pub fn try_write(file_number: i32, file: &[u8], buffer: &mut [u8]) -> io::Result<IndexAnswer> {
    on_large_stack(move || archive::write(file_number, file, buffer))
}

/// Is this the index of a file? The call runs as that of [`try_write`].
pub fn try_check(file_number: i32, file: &[u8], index: &[u8]) -> io::Result<IndexAnswer> {
    on_large_stack(move || archive::check(file_number, file, index))
}

/// [`try_write`] for those who can't go on without a thread.
///
/// # Panics
///
/// Where the system gives no thread.
pub fn write(file_number: i32, file: &[u8], buffer: &mut [u8]) -> IndexAnswer {
    try_write(file_number, file, buffer).expect("a thread for the index")
}

/// [`try_check`] for those who can't go on without a thread.
///
/// # Panics
///
/// Where the system gives no thread.
pub fn check(file_number: i32, file: &[u8], index: &[u8]) -> IndexAnswer {
    try_check(file_number, file, index).expect("a thread for the index")
}

/// [`try_write`] on the stack that the caller has, as [`check_here`](crate::check_here).
pub fn write_here(file_number: i32, file: &[u8], buffer: &mut [u8]) -> IndexAnswer {
    archive::write(file_number, file, buffer)
}

/// [`try_check`] on the stack that the caller has, as [`check_here`](crate::check_here).
pub fn check_here(file_number: i32, file: &[u8], index: &[u8]) -> IndexAnswer {
    archive::check(file_number, file, index)
}

/// How many bytes the index of a file has that can be read: with a record for each line but the header 8, and 2 for each of them, or above
/// 65,535 records 10, and 4 for each.
#[must_use]
pub fn length(file: &[u8]) -> usize {
    let records = lines(file).saturating_sub(1);
    Version::of(records).length(records)
}

/// The index of a file, or why it has none.
///
/// # Errors
///
/// Where there is no memory for the index or no thread for the call.
pub fn of(file: File, bytes: &[u8]) -> Result<Result<Vec<u8>, Refused>, Error> {
    let mut buffer = zeros(length(bytes))?;
    let answer = try_write(file.number() as i32, bytes, &mut buffer).map_err(Error::Thread)?;
    match answer.outcome() {
        Some(Ok(length)) if length == buffer.len() => Ok(Ok(buffer)),
        Some(Err(refused)) => Ok(Err(refused)),
        _ => Err(Error::UnknownIndex(answer)),
    }
}

/// Accepts an index as that of a file, or says why not.
///
/// # Errors
///
/// Where there is no thread for the call.
pub fn judge(file: File, bytes: &[u8], index: &[u8]) -> Result<Result<(), Refused>, Error> {
    let answer = try_check(file.number() as i32, bytes, index).map_err(Error::Thread)?;
    match answer.outcome() {
        Some(Ok(length)) if length == index.len() => Ok(Ok(())),
        Some(Err(refused)) => Ok(Err(refused)),
        _ => Err(Error::UnknownIndex(answer)),
    }
}

#[cfg(test)]
mod tests {
    use super::*;
    use crate::tests::in_header;
    use crate::{on_stack, STACK};
    use cases::limits::MOST_LINES;

    #[test]
    fn answers_in_words() {
        let answer = IndexAnswer { number: 0, file: 0, line: 0, column: 0, length: 18 };
        assert_eq!(answer.outcome(), Some(Ok(18)));
        assert_eq!(IndexAnswer { length: -1, ..answer }.outcome(), None);
        let fault = Fault::of([13, 1, 4, 3]).expect("a fault");
        let of_file = IndexAnswer { number: 13, file: 1, line: 4, column: 3, length: 0 };
        assert_eq!(of_file.outcome(), Some(Err(Refused::File(fault))));
        for number in 40..=46 {
            let Some(Err(Refused::Index(refusal))) = (IndexAnswer { number, length: 0, ..answer }).outcome() else {
                panic!("{number} is no refusal")
            };
            assert_eq!(refusal.number() as i32, number);
        }
        for number in [-1, 15, 39, 47, i32::MIN, i32::MAX] {
            assert_eq!(IndexAnswer { number, file: 1, ..answer }.outcome(), None, "{number}");
        }
    }

    #[test]
    fn the_length_follows_the_lines() {
        assert_eq!([&b""[..], b"x", b"x\n", b"x\ny\n", b"x\ny\nz"].map(length), [8, 8, 8, 10, 10]);
        let of_lines = |lines: usize| length(&vec![b'\n'; lines]);
        // On both sides of 65,535 records, and of as many as rule 2 allows.
        assert_eq!([65_535, 65_536, 65_537, 65_538].map(of_lines), [131_076, 131_078, 262_154, 262_158]);
        assert_eq!(
            [-1, 0, 1].map(|more| of_lines(MOST_LINES.wrapping_add_signed(more))),
            [4_194_306, 4_194_310, 4_194_310]
        );
    }

    /// The header has the same figures.
    #[test]
    fn the_header_has_the_same_figures() {
        let [first, second] = Version::ALL;
        let figures = [
            ("HEAD_BYTES", first.head),
            ("ENTRY_BYTES", first.entry),
            ("1_MOST_RECORDS", Version::MOST_OF_FIRST),
            ("2_HEAD_BYTES", second.head),
            ("2_ENTRY_BYTES", second.entry),
            ("MOST_BYTES", second.length(MOST_LINES - 1)),
        ];
        for (name, figure) in figures {
            assert_eq!(in_header(&format!("TUSUCHIY_INDEX_{name}")), figure, "{name}");
        }
    }

    /// routes.txt with so many records, whose ids fall.
    fn routes(records: usize) -> Vec<u8> {
        let lines: String = (0..records).rev().map(|number| format!("{number:07},3\n")).collect();
        format!("route_id,route_type\n{lines}").into_bytes()
    }

    /// An index of few records, on both sides of 65,535, and of as many as rule 2 allows, on no more stack than the header asks for.
    #[test]
    fn the_stack_that_is_promised_is_enough() {
        let heads: [(usize, &[u8]); 4] = [
            (2, b"TTX\x01\x00\x02\x02\x00\x02\x00\x01\x00"),
            (65_535, b"TTX\x01\x00\x02\xFF\xFF\xFF\xFF\xFE\xFF"),
            (65_536, b"TTX\x02\x00\x02\x00\x00\x01\x00\x00\x00\x01\x00\xFF\xFF\x00\x00"),
            (MOST_LINES - 1, b"TTX\x02\x00\x02\xFF\xFF\x0F\x00\xFF\xFF\x0F\x00\xFE\xFF\x0F\x00"),
        ];
        for (records, head) in heads {
            let routes = routes(records);
            let mut buffer = vec![0; length(&routes)];
            let answer = on_stack(STACK, || archive::write(2, &routes, &mut buffer)).expect("a thread");
            assert_eq!(answer.outcome(), Some(Ok(buffer.len())), "{records} records");
            assert_eq!(buffer[..head.len()], *head, "{records} records");
            let answer = on_stack(STACK, || archive::check(2, &routes, &buffer)).expect("a thread");
            assert_eq!(answer.outcome(), Some(Ok(buffer.len())), "{records} records");
        }
    }
}
