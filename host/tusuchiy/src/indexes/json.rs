//! What became of a feed's indexes, as one JSON document on one line; docs/JSON.md explains it.

use super::{name, Done, Outcome};
use crate::json;
use crate::refusals::Reasons;
use crate::value::Value;
use std::io::{self, Write};
use std::os::unix::ffi::OsStrExt;
use tusuchiy::index::FILES;
use tusuchiy::File;

/// The version of the document's form.
const VERSION: usize = 1;

/// Writes the document; every member stands in every document, in this order.
pub fn write(out: &mut dyn Write, done: &Done) -> io::Result<()> {
    let indexes = FILES.into_iter().zip(&done.outcomes).map(|(file, outcome)| of_file(done, file, outcome));
    let output = done.asked.output.as_ref().map_or(Value::Null, |folder| Value::text(folder.as_os_str().as_bytes()));
    let document = Value::Members(vec![
        ("version", Value::size(VERSION)),
        ("verdict", Value::text(done.verdict())),
        ("indexes", Value::List(indexes.collect())),
        ("feed", Value::text(done.feed.place.path.as_os_str().as_bytes())),
        ("folder", json::folder(&done.feed)),
        ("output", output),
    ]);
    writeln!(out, "{document}")
}

fn of_file(done: &Done, file: File, outcome: &Outcome) -> Value {
    let (verdict, length, refusal) = match outcome {
        Outcome::Good(length) => (done.good(), Some(*length), Value::Null),
        Outcome::NotSupplied => ("not_supplied", None, Value::Null),
        Outcome::Refused(refusal, about) => {
            ("refused", None, json::refused(&done.feed, &Reasons::new(&done.feed), refusal, about.clone()))
        }
    };
    let listed = length.map(|_| done.records(file));
    Value::Members(vec![
        ("file", Value::size(file.number())),
        ("name", Value::text(file.name())),
        ("index", Value::text(name(file))),
        ("verdict", Value::text(verdict)),
        ("version", Value::maybe(listed.map(|(_, version)| version.number))),
        ("records", Value::maybe(listed.map(|(records, _)| records))),
        ("length", Value::maybe(length)),
        ("refusal", refusal),
    ])
}
