//! The report as one JSON document on one line; docs/JSON.md explains it.

use crate::explain::meaning;
use crate::facts::{About, Facts};
use crate::feed::{Feed, NAMES};
use crate::paging::{Faults, Finding, Findings, Outcome, Page, Refusal, Report};
use crate::progress;
use crate::refusals::Reasons;
use crate::safe;
use crate::text::totals;
use crate::value::{Members, Value};
use std::io::{self, Write};
use std::os::unix::ffi::OsStrExt;

/// The version of the document's form.
const VERSION: usize = 3;

/// Writes the document; every member stands in every document, in this order.
pub fn write(out: &mut dyn Write, feed: &Feed, report: &Report) -> io::Result<()> {
    let none = Findings::default();
    let (verdict, list, total) = match &report.outcome {
        Outcome::Accepted => ("accepted", &none, 0),
        Outcome::Findings { list, total } => ("findings", list, *total),
        Outcome::Refused { .. } => ("refused", &none, 0),
    };
    write!(out, "{{\"version\": {VERSION}, \"verdict\": \"{verdict}\", \"profile\": \"{}\", ", report.profile)?;
    write_faults(out, feed, &report.outcome)?;
    write!(out, "\"total\": {total}, \"written\": {}, ", list.len())?;
    write!(out, "\"page\": {}, \"findings\": ", report.page.as_ref().map_or(Value::Null, page))?;
    let facts = Facts::new(feed, &report.tables);
    write_list(out, list.iter(), list.len(), |finding| found(feed, &facts, &finding))?;
    let counts = if report.page.is_some() { Value::Null } else { counts(list) };
    write!(out, ", \"totals\": {counts}, \"feed\": {}, ", Value::text(feed.place.path.as_os_str().as_bytes()))?;
    let folder = folder(feed);
    writeln!(out, "\"folder\": {folder}, \"records\": {}, \"unread\": {}}}", records(feed, report), unread(feed))
}

/// After how many elements it is told how far a list is.
const TOLD_EACH: usize = 1 << 14;

/// A list, element by element: all of them at once would take memory for each.
fn write_list<Element>(
    out: &mut dyn Write,
    list: impl Iterator<Item = Element>,
    length: usize,
    value: impl Fn(Element) -> Value,
) -> io::Result<()> {
    progress::step(|| "writing the list".to_string());
    let mut written = b"[".to_vec();
    for (place, element) in list.enumerate() {
        if place % TOLD_EACH == 0 {
            progress::far("writing the list", place, length);
        }
        written.extend(if place == 0 { &b""[..] } else { b", " });
        value(element).write(&mut written);
        out.write_all(&written)?;
        written.clear();
    }
    written.push(b']');
    out.write_all(&written)
}

/// What the verdict names, how many faults there are, and the list of them; null, 0 and none for a feed that can be read.
fn write_faults(out: &mut dyn Write, feed: &Feed, outcome: &Outcome) -> io::Result<()> {
    let reasons = Reasons::new(feed);
    let none = Faults::default();
    let (refusal, list, total) = match outcome {
        Outcome::Refused { first, faults, total } => {
            (refused(feed, &reasons, first, reasons.about(first)), faults, *total)
        }
        _ => (Value::Null, &none, 0),
    };
    write!(out, "\"refusal\": {refusal}, \"faults_total\": {total}, \"faults\": ")?;
    write_list(out, list.iter(), list.len(), |fault| refused(feed, &reasons, &fault, reasons.listed(&fault)))?;
    out.write_all(b", ")
}

/// The place of a refusal.
pub fn refused(feed: &Feed, reasons: &Reasons, refusal: &Refusal, about: About) -> Value {
    let name = reasons.column_name(refusal).map_or(Value::Null, Value::text);
    let column = vec![("column", Value::size(refusal.column.unwrap_or(0))), ("column_name", name)];
    place(feed, (refusal.file, refusal.line), column, ("number", refusal.number), about)
}

fn found(feed: &Feed, facts: &Facts, finding: &Finding) -> Value {
    place(feed, (finding.file, finding.line), Vec::new(), ("rule", finding.rule), facts.about(finding))
}

/// The folder of a zip file that has the feed, or null.
pub fn folder(feed: &Feed) -> Value {
    Some(&feed.place.folder).filter(|folder| !folder.is_empty()).map_or(Value::Null, Value::text)
}

/// A place in the feed, with its column where it may have one, and the rule broken there; `text` is null where there is no line.
fn place(
    feed: &Feed,
    (file, line): (usize, usize),
    column: Members,
    (word, number): (&'static str, usize),
    about: About,
) -> Value {
    let shown = feed.line(file, line).map(|text| safe::beginning(text, safe::SHOWN_LINE));
    let mut members: Members =
        vec![("file", Value::size(file)), ("name", Value::text(NAMES[file - 1])), ("line", Value::size(line))];
    members.extend(column);
    members.extend([
        (word, Value::size(number)),
        ("meaning", Value::text(meaning(number))),
        ("text", shown.map_or(Value::Null, |(text, _)| Value::text(text))),
        ("cut", Value::Bool(shown.is_some_and(|(_, cut)| cut))),
        ("words", Value::text(about.words)),
        ("about", Value::Members(about.members)),
    ]);
    Value::Members(members)
}

fn page(page: &Page) -> Value {
    let after = page.after.map(|number| Value::Number(number.into())).to_vec();
    Value::Members(vec![("after", Value::List(after)), ("room", Value::maybe(page.room))])
}

fn counts(list: &Findings) -> Value {
    let counted = |(rule, count): (usize, usize)| {
        let meaning = ("meaning", Value::text(meaning(rule)));
        Value::Members(vec![("rule", Value::size(rule)), ("count", Value::size(count)), meaning])
    };
    Value::List(totals(list).into_iter().map(counted).collect())
}

/// How many records each file has, null where it is left out; null for a feed that was refused.
fn records(feed: &Feed, report: &Report) -> Value {
    match report.outcome {
        Outcome::Refused { .. } => Value::Null,
        _ => Value::List(feed.records().map(|(_, count)| Value::maybe(count)).to_vec()),
    }
}

fn unread(feed: &Feed) -> Value {
    let names = Value::texts(&feed.unread.names);
    Value::Members(vec![("count", Value::size(feed.unread.count)), ("names", names)])
}
