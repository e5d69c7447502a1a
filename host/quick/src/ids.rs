//! The ids of a file by value, each with the record of its first line.

use std::collections::HashMap;

pub struct Ids<'a> {
    /// The first record with each id.
    pub first: HashMap<&'a [u8], u32>,
    /// For each line: an earlier line has its id.
    pub repeated: Vec<bool>,
}

impl<'a> Ids<'a> {
    /// Takes the ids of a file in the order of their lines.
    pub fn new(ids: impl ExactSizeIterator<Item = &'a [u8]>) -> Self {
        let mut first = HashMap::with_capacity(ids.len());
        let mut repeated = Vec::with_capacity(ids.len());
        for (id, record) in ids.zip(1..) {
            repeated.push(*first.entry(id).or_insert(record) != record);
        }
        Ids { first, repeated }
    }

    /// The first record with this id, 0 if there is none.
    pub fn record(&self, id: &[u8]) -> usize {
        self.first.get(id).map_or(0, |&record| record as usize)
    }
}
