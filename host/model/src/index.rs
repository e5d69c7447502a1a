//! Requests E4 and E9: the sorted index of a file's ids in two versions, written and checked.

use crate::reading::read_alone;
use crate::records::KEYS;
use crate::Answer as Checked;
use std::cmp::Ordering;

/// What writer and reader answer: 0 or the refusal; of the file's own refusal its place; the length of what was written or accepted.
#[derive(Clone, Copy, Debug, Default, PartialEq, Eq)]
pub struct Answer {
    pub number: usize,
    pub file: usize,
    pub line: usize,
    pub column: usize,
    pub length: usize,
}

const MARK: &[u8] = b"TTX";

/// An index of fewer bytes is none.
const FEWEST_BYTES: usize = 8;

/// A version of the index: its number, how many bytes stand before the record numbers, and how many the count and each of them have.
#[derive(Clone, Copy, Debug, PartialEq, Eq)]
pub struct Version {
    pub number: usize,
    pub head: usize,
    pub width: usize,
}

pub const VERSION_1: Version = Version { number: 1, head: 8, width: 2 };
pub const VERSION_2: Version = Version { number: 2, head: 10, width: 4 };

/// The most records that have a version 1 index; more have a version 2 index.
const MOST_OF_VERSION_1: usize = 65_535;

impl Version {
    /// The version for so many records.
    pub fn of(records: usize) -> Version {
        if records <= MOST_OF_VERSION_1 {
            VERSION_1
        } else {
            VERSION_2
        }
    }

    /// How many bytes an index of so many records has.
    pub fn length(self, records: usize) -> usize {
        self.head + self.width * records
    }

    /// The bytes of an index that lists these records, of each number as many as there is room for.
    pub fn bytes(self, file_number: usize, records: &[usize]) -> Vec<u8> {
        let mut bytes = [MARK, &low_first(self.number, 2), &[file_number as u8]].concat();
        bytes.extend(low_first(records.len(), self.width));
        records.iter().for_each(|&record| bytes.extend(low_first(record, self.width)));
        bytes
    }
}

/// A refusal by 40 to 46, which names no place.
fn refused(number: usize) -> Answer {
    Answer { number, ..Answer::default() }
}

/// Good, with so many bytes.
fn good(length: usize) -> Answer {
    Answer { length, ..Answer::default() }
}

/// The ids of the file by record, the first one's being record 1's; 42 at once for another number, else the file's own refusal.
pub fn ids(file_number: i32, file: &[u8]) -> Result<Vec<Vec<u8>>, Answer> {
    if !(1..=4).contains(&file_number) {
        return Err(refused(42));
    }
    let number = file_number as usize;
    let sheet = read_alone(file, number).map_err(|answer| match answer {
        Checked::Refused { number, file, line, column } => Answer { number, file, line, column, length: 0 },
        _ => unreachable!("what can't be read is refused"),
    })?;
    Ok(sheet.rows().map(|row| row.value(KEYS[number - 1][0]).to_vec()).collect())
}

/// The order of ids as byte strings: by the first byte that differs, and a proper prefix first.
fn order(one: &[u8], other: &[u8]) -> Ordering {
    for (byte, beside) in one.iter().zip(other) {
        if byte != beside {
            return byte.cmp(beside);
        }
    }
    one.len().cmp(&other.len())
}

/// Do the ids of these records rise strictly?
fn rising(records: &[usize], ids: &[Vec<u8>]) -> bool {
    records.windows(2).all(|pair| order(&ids[pair[0] - 1], &ids[pair[1] - 1]) == Ordering::Less)
}

/// So many bytes of a number, low byte first.
fn low_first(number: usize, width: usize) -> Vec<u8> {
    number.to_le_bytes()[..width].to_vec()
}

/// The number that bytes are, low byte first.
fn number(bytes: &[u8]) -> usize {
    bytes.iter().rev().fold(0, |number, &byte| 256 * number + usize::from(byte))
}

/// The bytes of an index that lists these records, in the version for so many.
pub fn bytes(file_number: usize, records: &[usize]) -> Vec<u8> {
    Version::of(records.len()).bytes(file_number, records)
}

/// Writes the index of a file into a buffer.
pub fn write(file_number: i32, file: &[u8], buffer: &mut [u8]) -> Answer {
    match ids(file_number, file) {
        Ok(ids) => write_ids(file_number, &ids, buffer),
        Err(answer) => answer,
    }
}

/// Writes the index of a file that has these ids, by record.
pub fn write_ids(file_number: i32, ids: &[Vec<u8>], buffer: &mut [u8]) -> Answer {
    let mut records: Vec<usize> = (1..=ids.len()).collect();
    records.sort_by(|one, other| order(&ids[one - 1], &ids[other - 1]));
    if !rising(&records, ids) {
        return refused(45);
    }
    let length = Version::of(ids.len()).length(ids.len());
    if buffer.len() < length {
        return refused(46);
    }
    buffer[..length].copy_from_slice(&bytes(file_number as usize, &records));
    good(length)
}

/// Checks the index of a file.
pub fn check(file_number: i32, file: &[u8], index: &[u8]) -> Answer {
    match ids(file_number, file) {
        Ok(ids) => check_ids(file_number, &ids, index),
        Err(answer) => answer,
    }
}

/// Checks the index of a file that has these ids, by record: the lowest of 40 to 44 that is broken speaks.
pub fn check_ids(file_number: i32, ids: &[Vec<u8>], index: &[u8]) -> Answer {
    if index.len() < FEWEST_BYTES || &index[..3] != MARK {
        return refused(40);
    }
    let named = number(&index[3..5]);
    let Some(version) = [VERSION_1, VERSION_2].into_iter().find(|version| version.number == named) else {
        return refused(41);
    };
    let wrong_file = i32::from(index[5]) != file_number;
    let wrong_length = version != Version::of(ids.len()) || index.len() != version.length(ids.len());
    // An index of the right length has all bytes of its count.
    if wrong_file || wrong_length || number(&index[6..version.head]) != ids.len() {
        return refused(42);
    }
    let records: Vec<usize> = index[version.head..].chunks(version.width).map(number).collect();
    if records.iter().any(|&record| record == 0 || record > ids.len()) {
        return refused(43);
    }
    if !rising(&records, ids) {
        return refused(44);
    }
    good(index.len())
}
