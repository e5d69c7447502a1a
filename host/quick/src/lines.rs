//! A line cut into its fields, in one go along its bytes.

use crate::row::Broken;

/// The most fields that rule 7 allows.
const MOST: usize = 32;

/// Bytes at which a bare field may end, or breaks a rule.
const ENDS_BARE: [bool; 256] = marked(b",\"\t\r\n");

/// Bytes at which a quoted field may end, or breaks a rule.
const ENDS_QUOTED: [bool; 256] = marked(b"\"\t\r\n");

const fn marked(bytes: &[u8]) -> [bool; 256] {
    let mut marks = [false; 256];
    let mut place = 0;
    while place < bytes.len() {
        marks[bytes[place] as usize] = true;
        place += 1;
    }
    marks
}

/// Where the first ill-formed character of a file begins, or the file's length. LF is no part of a character, so that the
/// first line that isn't well-formed is the one with this place.
pub fn ill_formed(file: &[u8]) -> usize {
    std::str::from_utf8(file).map_or_else(|error| error.valid_up_to(), str::len)
}

/// The line cut last: field k is between edge k and the byte before edge k + 1, counted from the file's first byte.
pub struct Cut {
    edges: [usize; MOST + 1],
    /// Where the first ill-formed character begins.
    ill_formed: usize,
    /// How many fields it has.
    pub count: usize,
}

impl Cut {
    pub fn new(ill_formed: usize) -> Self {
        Cut { edges: [0; MOST + 1], ill_formed, count: 0 }
    }

    /// Cuts the line that starts here and tells where the next one starts, or which of rules 5, 14, 6 and 7 it breaks.
    pub fn cut(&mut self, file: &[u8], from: usize) -> Result<usize, Broken> {
        let next = self.fields(file, from).filter(|&next| next <= self.ill_formed);
        next.ok_or_else(|| (self.rule_broken(file, from), 0))
    }

    fn fields(&mut self, file: &[u8], from: usize) -> Option<usize> {
        let mut at = from;
        self.edges[0] = from;
        self.count = 0;
        loop {
            at = field_end(file, at)?;
            self.count += 1;
            *self.edges.get_mut(self.count)? = at + 1;
            match file[at..] {
                [b',', ..] => at += 1,
                [b'\n', ..] => return Some(at + 1),
                [b'\r', b'\n', ..] => return Some(at + 2),
                _ => return None,
            }
        }
    }

    /// Where the raw field starts and ends.
    pub fn bounds(&self, field: usize) -> (usize, usize) {
        (self.edges[field], self.edges[field + 1] - 1)
    }

    /// Which rule a line breaks that couldn't be cut: 5, 14 or 6 wherever it stands on the line, else 7.
    fn rule_broken(&self, file: &[u8], from: usize) -> usize {
        let line = file[from..].split(|&byte| byte == b'\n').next().unwrap_or_default();
        let line = line.strip_suffix(b"\r").unwrap_or(line);
        if line.iter().any(|&byte| byte == b'\t' || byte == b'\r') {
            5
        } else if self.ill_formed < from + line.len() {
            14
        } else if !well_quoted(line) {
            6
        } else {
            7
        }
    }
}

/// The place after the field that starts here.
fn field_end(file: &[u8], from: usize) -> Option<usize> {
    if file[from] == b'"' {
        return quotes_end(file, from + 1);
    }
    let length = file[from..].iter().position(|&byte| ENDS_BARE[usize::from(byte)])?;
    Some(from + length)
}

/// The place after the closing mark of a field whose opening mark stands before this place.
fn quotes_end(file: &[u8], from: usize) -> Option<usize> {
    let mut at = from;
    loop {
        at += file[at..].iter().position(|&byte| ENDS_QUOTED[usize::from(byte)])?;
        match file[at..] {
            [b'"', b'"', ..] => at += 2,
            [b'"', ..] => return Some(at + 1),
            _ => return None,
        }
    }
}

const START: usize = 0;
const BARE: usize = 1;
const QUOTED: usize = 2;
const CLOSED: usize = 3;
const BAD: usize = 4;

/// The quoting table: from each state by comma, mark, any other byte.
const NEXT: [[usize; 3]; 5] =
    [[START, QUOTED, BARE], [START, BAD, BARE], [QUOTED, CLOSED, QUOTED], [START, QUOTED, BAD], [BAD, BAD, BAD]];

/// Does the quoting table find the whole line good?
fn well_quoted(line: &[u8]) -> bool {
    let class = |byte| match byte {
        b',' => 0,
        b'"' => 1,
        _ => 2,
    };
    let end = line.iter().fold(START, |state, &byte| NEXT[state][class(byte)]);
    end != QUOTED && end != BAD
}
