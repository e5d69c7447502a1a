//! What became of a feed's indexes, as text: the verdict, then each index or why it is refused.

use super::{is_of_index, name, Done, Outcome};
use crate::paging::Refusal;
use crate::safe;
use crate::style::Style;
use crate::text;
use std::io::{self, Write};
use std::os::unix::ffi::OsStrExt;
use tusuchiy::index::{Version, FILES};
use tusuchiy::File;

/// Writes all that is to be said of a feed.
pub fn write(out: &mut dyn Write, done: &Done, style: Style) -> io::Result<()> {
    writeln!(out, "{}", verdict(done, style))?;
    text::write_folder(out, &done.feed)?;
    for (file, outcome) in FILES.into_iter().zip(&done.outcomes) {
        match outcome {
            Outcome::Good(length) => {
                let path = style.path(&done.path(name(file)));
                writeln!(out, "{path}: {} ({}bytes {length})", done.good(), listed(done, file))?;
            }
            Outcome::NotSupplied => writeln!(out, "not supplied: {file}")?,
            Outcome::Refused(refusal, about) => {
                let index = is_of_index(refusal);
                let path = if index { done.path(name(file)) } else { done.feed.place.of(file.name()) };
                text::write_refusal(out, &done.feed, &path, (refusal, about), style)?;
            }
        }
    }
    done.refused().next().map_or(Ok(()), |(refusal, _)| text::write_hint(out, refusal.number))
}

/// How many records an index lists, and its version where older programs wouldn't read it.
fn listed(done: &Done, file: File) -> String {
    let (records, version) = done.records(file);
    let first = version == Version::ALL[0];
    format!("{}records {records}, ", if first { String::new() } else { format!("version {}, ", version.number) })
}

/// The verdict in a word.
pub fn verdict(done: &Done, style: Style) -> String {
    match done.refused().next() {
        None => style.good(done.verdict()),
        Some(_) => style.bad(done.verdict()),
    }
}

/// The verdict of one of many feeds: one line, with what is refused first and how much else is.
pub fn verdict_line(done: &Done, style: Style) -> String {
    let path = safe::name(done.feed.place.path.as_os_str().as_bytes());
    let mut refused = done.refused();
    let first = refused.next().map(|(refusal, about)| format!(": {}", text::in_short(named(refusal), refusal, about)));
    let words = first.unwrap_or_default() + &text::and_more(refused.count());
    format!("{}: {}{words}", style.path(&path), verdict(done, style))
}

/// The name of what is refused: the index, or its file.
fn named(refusal: &Refusal) -> &'static str {
    let named = |file| if is_of_index(refusal) { name(file) } else { file.name() };
    File::new(refusal.file).map_or("", named)
}
