//! The whole check of document 01 with E2, E1, E6, E7, E10, E13 and E9 by hash maps, written for speed: lines are sorted only where they have to be.
#![forbid(unsafe_code)]

mod filling;
mod findings;
mod forms;
mod header;
mod ids;
mod lines;
mod reading;
mod records;
mod row;
mod trips;

use model::{Answer, Files, Profile, Tables};

/// One check over six files: refused leaves everything as lent, else list and tables are overwritten.
pub fn check(files: &Files, tables: &mut Tables, list: &mut [i32], start: [i32; 3], profile: Profile) -> Answer {
    let rooms = tables.each_ref().map(Vec::len);
    let feed = match reading::read(files, rooms) {
        Ok(feed) => feed,
        Err(refusal) => return refusal,
    };
    let found = filling::fill(&feed, tables.each_mut().map(|table| &mut table[..]), profile);
    found.hand_out(list, start)
}
