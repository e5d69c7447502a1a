//! The report as text: the verdict, then the findings of each rule with their lines, the first few or all.

use crate::carets;
use crate::explain::meaning;
use crate::facts::{About, Facts};
use crate::feed::{Feed, NAMES};
use crate::paging::{Finding, Findings, Outcome, Page, Refusal, Report};
use crate::refusals::Reasons;
use crate::refused::{self, Faults};
use crate::safe;
use crate::style::Style;
use std::collections::BTreeMap;
use std::io::{self, Write};
use std::os::unix::ffi::OsStrExt;
use std::time::Duration;
use tusuchiy::Profile;

/// How many findings of a rule, or faults of a number, are shown unless all are asked for.
pub const FEW: usize = 5;

/// How a report is printed.
pub struct Layout {
    pub style: Style,
    pub all: bool,
    /// How long the check took.
    pub time: Duration,
}

/// Writes the whole report.
pub fn write(out: &mut dyn Write, feed: &Feed, report: &Report, layout: &Layout) -> io::Result<()> {
    let style = layout.style;
    writeln!(out, "{}", verdict(report, style))?;
    write_folder(out, feed)?;
    match &report.outcome {
        Outcome::Accepted => write_read(out, feed, layout),
        Outcome::Refused { first, faults, total } => {
            let faults = Faults { list: faults, total: *total, page: report.page.as_ref() };
            refused::write(out, feed, first, &faults, layout)
        }
        Outcome::Findings { list, total } => {
            let facts = Facts::new(feed, &report.tables);
            match &report.page {
                Some(page) => write_page(out, feed, &facts, list, *total, page, style),
                None => write_rules(out, feed, &facts, list, layout),
            }
        }
    }
}

/// The folder of a zip file that has the feed, if it isn't the top.
pub fn write_folder(out: &mut dyn Write, feed: &Feed) -> io::Result<()> {
    match &feed.place.folder[..] {
        [] => Ok(()),
        folder => writeln!(out, "in the folder {} of the zip file", safe::name(folder)),
    }
}

/// The verdict in a word or two, and the profile that it goes by.
pub fn verdict(report: &Report, style: Style) -> String {
    let word = match &report.outcome {
        Outcome::Accepted => style.good("accepted"),
        Outcome::Findings { total, .. } => style.bad(&format!("findings: {total}")),
        Outcome::Refused { .. } => style.bad("refused"),
    };
    word + &asked(report.profile)
}

/// The profile that was asked for, behind the verdict; nothing where none was.
pub fn asked(profile: Profile) -> String {
    match profile {
        Profile::Plain => String::new(),
        profile => format!(" (profile {profile})"),
    }
}

/// The verdict of one of many feeds: one line, with the place and the words of a refusal and how many other faults there are.
pub fn verdict_line(feed: &Feed, report: &Report, style: Style) -> String {
    let path = safe::name(feed.place.path.as_os_str().as_bytes());
    let more = match &report.outcome {
        Outcome::Refused { first, total, .. } => {
            let words = in_short(NAMES[first.file - 1], first, &Reasons::new(feed).about(first));
            format!(": {words}{}", and_more(total.saturating_sub(1)))
        }
        _ => String::new(),
    };
    format!("{}: {}{more}", style.path(&path), verdict(report, style))
}

/// Place, number and words of a refusal; where it has none, its meaning.
pub fn in_short(name: &str, refusal: &Refusal, about: &About) -> String {
    let Refusal { number, line, column, .. } = *refusal;
    let words = if about.words.is_empty() { meaning(number) } else { &about.words };
    format!("{name}{}: refusal {number}: {words}", numbers(line, column))
}

/// How many others are refused, where there are any.
pub fn and_more(count: usize) -> String {
    Some(count).filter(|count| *count > 0).map_or(String::new(), |count| format!(" (and {count} more)"))
}

/// What was read of an accepted feed, what wasn't, and the time that it took.
fn write_read(out: &mut dyn Write, feed: &Feed, layout: &Layout) -> io::Result<()> {
    let read = feed.records().into_iter().filter_map(|(file, count)| count.map(|count| format!("{file} {count}")));
    writeln!(out, "records read: {}", read.collect::<Vec<_>>().join(", "))?;
    let left_out = feed.records().into_iter().filter(|(_, count)| count.is_none()).map(|(file, _)| file.name());
    let left_out: Vec<&str> = left_out.collect();
    if !left_out.is_empty() {
        writeln!(out, "not supplied: {}", left_out.join(", "))?;
    }
    if feed.unread.count > 0 {
        let names: Vec<String> = feed.unread.names.iter().map(|name| safe::name(name)).collect();
        let more = feed.unread.count - names.len();
        let more = if more == 0 { String::new() } else { format!(" and {more} more") };
        writeln!(out, "files not read: {}{more}", names.join(", "))?;
    }
    writeln!(out, "time: {:.3} s", layout.time.as_secs_f64())
}

/// Place, number, meaning and words of a refusal, and the line that is refused.
pub fn write_refusal(
    out: &mut dyn Write,
    feed: &Feed,
    path: &str,
    (refusal, about): (&Refusal, &About),
    style: Style,
) -> io::Result<()> {
    let Refusal { number, line, column, .. } = *refusal;
    let place = style.path(&format!("{path}{}", numbers(line, column)));
    let words = if about.words.is_empty() { String::new() } else { format!(": {}", about.words) };
    writeln!(out, "{place}: refusal {number}: {}{words}", meaning(number))?;
    write_marked(out, feed, (refusal.file, line), column.as_slice(), style)
}

/// A line, unless it is the whole file, and a column where there is one, as editors take them.
pub fn numbers(line: usize, column: Option<usize>) -> String {
    let line = Some(line).filter(|line| *line > 0);
    line.into_iter().chain(column).map(|number| format!(":{number}")).collect()
}

/// The text of a line, if there is one.
fn write_line(out: &mut dyn Write, feed: &Feed, file: usize, line: usize) -> io::Result<()> {
    let Some(bytes) = feed.line(file, line) else { return Ok(()) };
    let (shown, cut) = safe::beginning(bytes, safe::SHOWN_LINE);
    let more = if cut { format!(" ... ({} bytes)", bytes.len()) } else { String::new() };
    writeln!(out, "    {}{more}", safe::text(shown))
}

/// A line with carets under the columns that are refused or break a rule of a profile, if any.
pub fn write_marked(
    out: &mut dyn Write,
    feed: &Feed,
    (file, line): (usize, usize),
    columns: &[usize],
    style: Style,
) -> io::Result<()> {
    let Some(marked) = feed.line(file, line).and_then(|text| carets::under(text, columns)) else {
        return write_line(out, feed, file, line);
    };
    writeln!(out, "    {}", marked.text)?;
    marked.carets.map_or(Ok(()), |carets| writeln!(out, "    {}", style.bad(&carets)))
}

/// Where to read on.
pub fn write_hint(out: &mut dyn Write, number: usize) -> io::Result<()> {
    writeln!(out, "`tusuchiy explain {number}` says more")
}

/// One page, in the order in which the check hands findings out.
fn write_page(
    out: &mut dyn Write,
    feed: &Feed,
    facts: &Facts,
    list: &Findings,
    total: usize,
    page: &Page,
    style: Style,
) -> io::Result<()> {
    write_findings(out, feed, facts, list.iter(), style, |finding| format!("rule {}: ", finding.rule))?;
    let [file, line, rule] = page.after;
    writeln!(out, "page after {file},{line},{rule}: {} of {total} findings", list.len())
}

/// The findings of each rule under a heading.
fn write_rules(out: &mut dyn Write, feed: &Feed, facts: &Facts, list: &Findings, layout: &Layout) -> io::Result<()> {
    let totals = totals(list);
    for (&rule, &count) in &totals {
        let heading = format!("rule {rule}: {} ({count})", meaning(rule));
        writeln!(out, "\n{}", layout.style.heading(&heading))?;
        let shown = if layout.all { count } else { count.min(FEW) };
        let findings = list.iter().filter(|finding| finding.rule == rule).take(shown);
        write_findings(out, feed, facts, findings, layout.style, |_| String::new())?;
        write_left_out(out, count - shown)?;
    }
    writeln!(out)?;
    write_hint(out, totals.keys().next().copied().unwrap_or_default())
}

/// How many aren't shown, where there are any.
pub fn write_left_out(out: &mut dyn Write, count: usize) -> io::Result<()> {
    if count == 0 {
        return Ok(());
    }
    writeln!(out, "and {count} more, which --all shows")
}

/// The place of each finding with words about it, behind those that it is called by, and its line.
fn write_findings(
    out: &mut dyn Write,
    feed: &Feed,
    facts: &Facts,
    findings: impl Iterator<Item = Finding>,
    style: Style,
    called: impl Fn(&Finding) -> String,
) -> io::Result<()> {
    for finding in findings {
        let about = facts.about(&finding);
        let place = format!("{}{}", feed.place.of(NAMES[finding.file - 1]), numbers(finding.line, None));
        writeln!(out, "{}: {}{}", style.path(&place), called(&finding), about.words)?;
        write_marked(out, feed, (finding.file, finding.line), &facts.marked(&finding, &about), style)?;
    }
    Ok(())
}

/// How many findings each rule has.
pub fn totals(list: &Findings) -> BTreeMap<usize, usize> {
    let mut totals = BTreeMap::new();
    for finding in list.iter() {
        *totals.entry(finding.rule).or_insert(0) += 1;
    }
    totals
}
