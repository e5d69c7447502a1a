//! The header: on which field of a line each known column stands.

use crate::lines::Cut;
use crate::row::{inside, Broken};

/// The most known columns that a file has.
const MOST: usize = 10;

/// The known columns of a file: those that must be present, then the others.
pub struct Columns {
    pub must: &'static [&'static str],
    pub may: &'static [&'static str],
}

/// The field of each known column, and how many fields every line has.
pub struct Header {
    places: [Option<u8>; MOST],
    pub count: usize,
}

impl Header {
    /// Reads the header line, already cut, or tells which of rules 8 and 9 it breaks.
    pub fn read(file: &[u8], line: &Cut, columns: &Columns) -> Result<Self, Broken> {
        let mut header = Header { places: [None; MOST], count: line.count };
        for field in 0..line.count {
            let (start, end) = line.bounds(field);
            let name = inside(&file[start..end]);
            let known = || columns.must.iter().chain(columns.may);
            if let Some(column) = known().position(|known| known.as_bytes() == name) {
                // Fields go from left to right, so the first name that has a place already is the leftmost.
                if header.places[column].replace(field as u8).is_some() {
                    return Err((8, field + 1));
                }
            }
        }
        if header.places[..columns.must.len()].contains(&None) {
            return Err((9, 0));
        }
        Ok(header)
    }

    /// The field of a known column, none where it is absent.
    pub fn place(&self, column: usize) -> Option<usize> {
        self.places[column].map(usize::from)
    }
}
