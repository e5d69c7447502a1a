//! A record line: the values under its known columns, and the lowest of rules 11 to 13 that one of them breaks, with its leftmost column.

use crate::header::Header;
use crate::lines::Cut;

/// A rule broken and its column, counted from 1; 0 for rules that name none.
pub type Broken = (usize, usize);

/// The most bytes of an id, by rule 11.
const ID_BYTES: usize = 64;

/// A value with the place of its raw field.
#[derive(Clone, Copy)]
pub struct Id<'a> {
    pub start: i32,
    pub end: i32,
    pub value: &'a [u8],
}

/// The bytes of a raw field without its outer marks. Doubled marks stay doubled: two values are equal just when these
/// bytes are, since a mark is always written doubled, and no form and no known name has a mark in it.
pub fn inside(raw: &[u8]) -> &[u8] {
    match raw {
        [b'"', inside @ .., b'"'] => inside,
        _ => raw,
    }
}

/// How many bytes the value has: of two doubled marks one counts.
fn length(inside: &[u8]) -> usize {
    inside.len() - inside.iter().filter(|&&byte| byte == b'"').count() / 2
}

/// A record line, cut.
pub struct Row<'c, 'a> {
    pub file: &'a [u8],
    pub header: &'c Header,
    pub line: &'c Cut,
    /// The lowest rule broken so far, and the leftmost field that breaks it.
    pub broken: Option<Broken>,
}

impl<'a> Row<'_, 'a> {
    fn breaks(&mut self, rule: usize, column: usize) {
        let broken = (rule, self.header.place(column).map_or(0, |field| field + 1));
        self.broken = Some(self.broken.map_or(broken, |lowest| lowest.min(broken)));
    }

    /// The value under a column, empty where the column is absent.
    #[inline(always)]
    pub fn text(&self, column: usize) -> &'a [u8] {
        match self.header.place(column) {
            Some(field) => inside(self.raw(field)),
            None => b"",
        }
    }

    #[inline(always)]
    fn raw(&self, field: usize) -> &'a [u8] {
        let (start, end) = self.line.bounds(field);
        &self.file[start..end]
    }

    /// Rule 11.
    #[inline(always)]
    fn limited(&mut self, column: usize, value: &'a [u8]) -> &'a [u8] {
        if value.len() > ID_BYTES && length(value) > ID_BYTES {
            self.breaks(11, column);
        }
        value
    }

    /// Rule 12.
    #[inline(always)]
    fn given(&mut self, column: usize, value: &'a [u8]) -> &'a [u8] {
        if value.is_empty() {
            self.breaks(12, column);
        }
        value
    }

    /// Rule 13.
    #[inline(always)]
    fn formed(&mut self, column: usize, number: Option<i32>) -> i32 {
        number.unwrap_or_else(|| {
            self.breaks(13, column);
            0
        })
    }

    /// A text that is needed.
    #[inline(always)]
    pub fn needed_text(&mut self, column: usize) -> &'a [u8] {
        self.given(column, self.text(column))
    }

    /// A reference that may be empty.
    #[inline(always)]
    pub fn reference(&mut self, column: usize) -> &'a [u8] {
        self.limited(column, self.text(column))
    }

    /// A reference that is needed.
    #[inline(always)]
    pub fn needed_reference(&mut self, column: usize) -> &'a [u8] {
        let value = self.needed_text(column);
        self.limited(column, value)
    }

    /// The id of the line.
    #[inline(always)]
    pub fn needed_id(&mut self, column: usize) -> Id<'a> {
        let value = self.needed_reference(column);
        let (start, end) = self.header.place(column).map_or((0, 0), |field| self.line.bounds(field));
        Id { start: start as i32, end: end as i32, value }
    }

    /// The number under a column that is needed.
    #[inline(always)]
    pub fn needed(&mut self, column: usize, form: impl Fn(&[u8]) -> Option<i32>) -> i32 {
        let value = self.needed_text(column);
        self.formed(column, form(value))
    }

    /// The number under a column, or what empty means.
    #[inline(always)]
    pub fn number(&mut self, column: usize, empty: i32, form: impl Fn(&[u8]) -> Option<i32>) -> i32 {
        match self.text(column) {
            b"" => empty,
            value => self.formed(column, form(value)),
        }
    }
}
