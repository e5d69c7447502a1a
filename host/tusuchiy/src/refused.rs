//! A refused feed as text: what the verdict names, then every fault, those of a number together, the first few or all.

use crate::explain::meaning;
use crate::feed::{Feed, NAMES};
use crate::hidden;
use crate::paging::{self, Page, Refusal};
use crate::refusals::Reasons;
use crate::style::Style;
use crate::text::{self, Layout, FEW};
use std::collections::BTreeMap;
use std::io::{self, Write};

/// The list of faults, or a page of it, and how many the feed has.
pub struct Faults<'a> {
    pub list: &'a paging::Faults,
    pub total: usize,
    pub page: Option<&'a Page>,
}

/// Writes all that is to be said below the verdict.
pub fn write(out: &mut dyn Write, feed: &Feed, first: &Refusal, faults: &Faults, layout: &Layout) -> io::Result<()> {
    let reasons = Reasons::new(feed);
    let path = feed.place.of(NAMES[first.file - 1]);
    text::write_refusal(out, feed, &path, (first, &reasons.about(first)), layout.style)?;
    if let Some(page) = faults.page {
        return write_page(out, feed, &reasons, faults, page, layout.style);
    }
    if faults.total > 1 {
        write_numbers(out, feed, &reasons, faults, layout)?;
    }
    writeln!(out, "{}, then check again for findings", advice(faults.list))?;
    hidden::sentences(feed, faults.list.iter()).iter().try_for_each(|sentence| writeln!(out, "{sentence}"))?;
    text::write_hint(out, first.number)
}

/// One page, in the order in which faults are handed out.
fn write_page(
    out: &mut dyn Write,
    feed: &Feed,
    reasons: &Reasons,
    faults: &Faults,
    page: &Page,
    style: Style,
) -> io::Result<()> {
    writeln!(out)?;
    for fault in faults.list.iter() {
        let words = format!("refusal {}: {}", fault.number, reasons.listed(&fault).words);
        write_fault(out, feed, &fault, &words, style)?;
    }
    let [file, line, number] = page.after;
    writeln!(out, "page after {file},{line},{number}: {} of {} faults", faults.list.len(), faults.total)
}

/// The faults of each number under a heading.
fn write_numbers(
    out: &mut dyn Write,
    feed: &Feed,
    reasons: &Reasons,
    faults: &Faults,
    layout: &Layout,
) -> io::Result<()> {
    writeln!(out, "faults: {}, this one among them", faults.total)?;
    let mut totals = BTreeMap::new();
    faults.list.iter().for_each(|fault| *totals.entry(fault.number).or_insert(0) += 1);
    for (number, count) in totals {
        let heading = format!("refusal {number}: {} ({count})", meaning(number));
        writeln!(out, "\n{}", layout.style.heading(&heading))?;
        let shown = if layout.all { count } else { count.min(FEW) };
        for fault in faults.list.iter().filter(|fault| fault.number == number).take(shown) {
            write_fault(out, feed, &fault, &reasons.listed(&fault).words, layout.style)?;
        }
        text::write_left_out(out, count - shown)?;
    }
    writeln!(out)
}

/// The place of a fault with words about it, and its line, with carets where it has a column.
fn write_fault(out: &mut dyn Write, feed: &Feed, fault: &Refusal, words: &str, style: Style) -> io::Result<()> {
    let place = format!("{}{}", feed.place.of(NAMES[fault.file - 1]), text::numbers(fault.line, fault.column));
    writeln!(out, "{}: {words}", style.path(&place))?;
    text::write_marked(out, feed, (fault.file, fault.line), fault.column.as_slice(), style)
}

/// What to do now.
fn advice(faults: &paging::Faults) -> &'static str {
    match faults.get(0) {
        Some(fault) if faults.len() == 1 && fault.line == 0 => "nothing else is refused: mend this",
        Some(_) if faults.len() == 1 => "nothing else is refused: mend the whole of this line",
        _ => "mend all of these",
    }
}
