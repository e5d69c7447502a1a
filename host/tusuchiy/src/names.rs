//! The names in a feed's headers, and where they stand: a header is split once, however often it is asked for.

use crate::feed::{Feed, FILES};
use crate::fields::{is_named, split};
use std::cell::OnceCell;
use std::ops::Range;

pub struct Names<'a> {
    feed: &'a Feed,
    fields: [OnceCell<Vec<Range<usize>>>; FILES],
}

impl<'a> Names<'a> {
    pub fn new(feed: &'a Feed) -> Self {
        Names { feed, fields: Default::default() }
    }

    /// Where the fields of a header stand that has 32 at most.
    pub fn fields(&self, file: usize) -> &[Range<usize>] {
        let header = || split(self.feed.line(file, 1).unwrap_or(&[])).unwrap_or_default();
        self.fields[file - 1].get_or_init(header)
    }

    /// A field of the header as it is written, places counted from 0.
    pub fn written(&self, file: usize, place: usize) -> Option<&'a [u8]> {
        Some(&self.feed.line(file, 1)?[self.fields(file).get(place)?.clone()])
    }

    /// Where a known column stands in the header, counted from 0; none where it is absent.
    pub fn place(&self, file: usize, column: &str) -> Option<usize> {
        let is_column = |place: &usize| self.written(file, *place).is_some_and(|field| is_named(field, column));
        (0..self.fields(file).len()).find(is_column)
    }
}
