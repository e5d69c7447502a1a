//! The report: one page with all that was found, which opens anywhere and loads nothing.

mod data;
mod digest;
mod marks;
mod parts;

use crate::facts::{About, Facts};
use crate::feed::{Feed, NAMES};
use crate::folder::{self, Folder};
use crate::many;
use crate::paging::{self, Finding, Outcome, Refusal, Report};
use crate::progress;
use crate::refusals::Reasons;
use crate::style::{self, When};
use crate::{hidden, safe, source, text, whole};
use std::collections::BTreeMap;
use std::ffi::OsStr;
use std::fs::{self, File, Metadata};
use std::io::{self, BufWriter, IsTerminal, Write};
use std::os::fd::AsFd;
use std::os::unix::ffi::OsStrExt;
use std::path::{Path, PathBuf};
use tusuchiy::Profile;

const PAGE: &str = include_str!("page.html");
const STYLE: &str = include_str!("page.css");
const SCRIPT: &str = include_str!("page.js");

/// What `report` is asked for.
#[derive(Debug, Default, PartialEq, Eq)]
pub struct Asked {
    pub feed: PathBuf,
    /// The file to write; none is standard output.
    pub output: Option<PathBuf>,
    pub profile: Profile,
    pub follow_links: bool,
}

/// Checks a feed, writes the page and gives the exit status, which is that of `check`.
pub fn run(asked: &Asked) -> Result<u8, String> {
    if asked.output.is_none() && io::stdout().is_terminal() {
        return Err("report writes a page, and a terminal shows none: give --output FILE".to_string());
    }
    let feed = source::read(&asked.feed, asked.follow_links)?;
    let cannot =
        |path: &Path, error: io::Error| format!("can't write {}: {error}", safe::name(path.as_os_str().as_bytes()));
    // Asked first, so that nobody waits for a check in vain.
    let place =
        asked.output.as_ref().map(|path| place(path, &feed).map_err(|error| cannot(path, error))).transpose()?;
    let report = paging::check(&feed, None, asked.profile)?;
    progress::step(|| "writing the report".to_string());
    match (&asked.output, place) {
        (Some(path), Some((folder, name))) => {
            to_file(&folder, name, &feed, &report).map_err(|error| cannot(path, error))?;
            let verdict = text::verdict(&report, style::of_output(When::Auto, true));
            many::last_words();
            many::write(|out| writeln!(out, "{verdict}"))?;
        }
        _ => many::write(|out| write(out, &feed, &report))?,
    }
    Ok(many::status(&report))
}

fn to_file(folder: &Folder, name: &OsStr, feed: &Feed, report: &Report) -> io::Result<()> {
    whole::put(folder, name, |file| {
        let mut out = BufWriter::new(file);
        write(&mut out, feed, report)?;
        out.flush()
    })
}

/// The folder of the page and its name there, if a page may take the place of what stands there: nothing, or a file that isn't the feed's.
fn place<'p>(path: &'p Path, feed: &Feed) -> io::Result<(Folder, &'p OsStr)> {
    let wrong = |why: &str| Err(io::Error::other(why));
    let name = path.file_name().filter(|_| !path.as_os_str().as_bytes().ends_with(b"/"));
    let Some(name) = name else { return wrong("it is no name of a file") };
    let parent = path.parent().filter(|parent| !parent.as_os_str().is_empty());
    let folder = Folder::open(parent.unwrap_or(Path::new(".")))?;
    let about = folder.about(name, true)?;
    if about.as_ref().is_some_and(|about| !about.is_file()) {
        return wrong("it isn't a regular file; without --output the page goes to standard output");
    }
    let own = File::from(io::stdout().as_fd().try_clone_to_owned()?).metadata()?;
    if about.as_ref().is_some_and(|about| folder::same(about, &own)) {
        return wrong("standard output goes there; without --output the page does");
    }
    if is_of(feed, &folder, name, about.as_ref()) {
        return wrong("it is of the feed");
    }
    Ok((folder, name))
}

/// Is this the zip file, one of the six files, under whatever name, or the place where one would stand?
fn is_of(feed: &Feed, folder: &Folder, name: &OsStr, about: Option<&Metadata>) -> bool {
    let is =
        |input: Option<Metadata>| matches!((about, input), (Some(about), Some(input)) if folder::same(about, &input));
    let is_input = |opened: &Folder, known: &OsStr| {
        opened.is(folder) && name == known || is(opened.about(known, true).ok().flatten())
    };
    match &feed.opened {
        Some(opened) => NAMES.iter().any(|known| is_input(opened, OsStr::new(known))),
        None => feed.place.is_zip && is(fs::metadata(&feed.place.path).ok()),
    }
}

/// A finding or a refusal, which may have a column.
#[derive(Clone, Copy, Debug, PartialEq, Eq)]
struct Fault {
    file: usize,
    line: usize,
    column: Option<usize>,
    number: usize,
}

/// The most findings or faults that stand in the page: a browser still opens it, and nobody reads more.
const MOST_LISTED: usize = 100_000;

/// What the page is about: the feed, and what the check answered.
struct Subject<'a> {
    feed: &'a Feed,
    report: &'a Report,
    facts: Facts<'a>,
    reasons: Reasons<'a>,
    /// How many findings or faults there are of each number.
    counts: BTreeMap<usize, usize>,
    /// The places of those that stand in the page, in their order.
    listed: Vec<u32>,
}

impl From<Refusal> for Fault {
    fn from(refusal: Refusal) -> Self {
        let Refusal { number, file, line, column } = refusal;
        Fault { file, line, column, number }
    }
}

impl From<Finding> for Fault {
    fn from(finding: Finding) -> Self {
        let Finding { file, line, rule } = finding;
        Fault { file, line, column: None, number: rule }
    }
}

/// The finding at a place, or the fault of a refused feed.
fn fault_at(outcome: &Outcome, place: usize) -> Option<Fault> {
    match outcome {
        Outcome::Accepted => None,
        Outcome::Findings { list, .. } => list.get(place).map(Fault::from),
        Outcome::Refused { faults, .. } => faults.get(place).map(Fault::from),
    }
}

/// Those at these places.
fn faults_at<'o>(outcome: &'o Outcome, places: &'o [u32]) -> impl Iterator<Item = Fault> + 'o {
    places.iter().filter_map(|place| fault_at(outcome, *place as usize))
}

impl<'a> Subject<'a> {
    fn new(feed: &'a Feed, report: &'a Report) -> Self {
        let (facts, reasons) = (Facts::new(feed, &report.tables), Reasons::new(feed));
        let mut subject = Subject { feed, report, facts, reasons, counts: BTreeMap::new(), listed: Vec::new() };
        for fault in subject.faults() {
            *subject.counts.entry(fault.number).or_insert(0) += 1;
        }
        subject.listed = subject.first_of_each();
        subject
    }

    /// The places of all, or where there are too many of the first of each number.
    fn first_of_each(&self) -> Vec<u32> {
        let (most, mut seen) = (self.share(), BTreeMap::new());
        let mut is_listed = |fault: &Fault| {
            let seen = seen.entry(fault.number).or_insert(0);
            *seen += 1;
            *seen <= most
        };
        let places = (0..).zip(self.faults()).filter(|(_, fault)| is_listed(fault)).map(|(place, _)| place);
        places.collect()
    }

    /// How many of a number stand in the page at most.
    fn share(&self) -> usize {
        if self.count() <= MOST_LISTED {
            MOST_LISTED
        } else {
            MOST_LISTED / self.counts.len()
        }
    }

    /// How many there are.
    fn count(&self) -> usize {
        match &self.report.outcome {
            Outcome::Accepted => 0,
            Outcome::Findings { list, .. } => list.len(),
            Outcome::Refused { faults, .. } => faults.len(),
        }
    }

    /// All of them in their order.
    fn faults(&self) -> impl Iterator<Item = Fault> + 'a {
        let outcome = &self.report.outcome;
        (0..self.count()).filter_map(|place| fault_at(outcome, place))
    }

    /// Those that stand in the page, in their order.
    fn listed(&self) -> impl Iterator<Item = Fault> + '_ {
        faults_at(&self.report.outcome, &self.listed)
    }

    /// What the verdict names, if the feed is refused.
    fn first(&self) -> Option<Fault> {
        match &self.report.outcome {
            Outcome::Refused { first, .. } => Some(Fault::from(*first)),
            _ => None,
        }
    }

    fn refused(&self) -> bool {
        self.first().is_some()
    }

    /// What stands in the list: findings, or the faults of a refused feed.
    fn word(&self) -> &'static str {
        if self.refused() {
            "fault"
        } else {
            "finding"
        }
    }

    /// What the list leaves open, since something else is to be mended first.
    fn hidden(&self) -> Vec<String> {
        match &self.report.outcome {
            Outcome::Refused { faults, .. } => hidden::sentences(self.feed, faults.iter()),
            _ => Vec::new(),
        }
    }

    /// What a fault is about.
    fn about(&self, fault: &Fault) -> About {
        let Fault { file, line, column, number } = *fault;
        if self.refused() {
            self.reasons.listed(&Refusal { number, file, line, column })
        } else {
            self.facts.about(&Finding { file, line, rule: number })
        }
    }

    /// The column that is refused, with its name in the header, if one is.
    fn column(&self, fault: &Fault) -> Option<String> {
        let Fault { file, line, column, number } = *fault;
        let name = self.reasons.column_name(&Refusal { number, file, line, column })?;
        Some(format!("column {} ({})", column?, safe::text(&name)))
    }
}

/// Writes the page: its frame, with each `{{name}}` in it replaced by the part of that name.
fn write(out: &mut dyn Write, feed: &Feed, report: &Report) -> io::Result<()> {
    let subject = Subject::new(feed, report);
    let mut pieces = PAGE.split("{{");
    out.write_all(pieces.next().unwrap_or("").as_bytes())?;
    for piece in pieces {
        let (name, text) = piece.split_once("}}").unwrap_or((piece, ""));
        part(out, name, &subject)?;
        out.write_all(text.as_bytes())?;
    }
    Ok(())
}

fn part(out: &mut dyn Write, name: &str, subject: &Subject) -> io::Result<()> {
    let text = match name {
        "policy" => policy(),
        "style" => STYLE.to_string(),
        "script" => SCRIPT.to_string(),
        "data" => return data::write(out, subject),
        "title" => parts::title(subject),
        "feed" => parts::feed(subject),
        "verdict" => parts::verdict(subject),
        "records" => parts::records(subject),
        "read" => parts::read(subject),
        "totals" => parts::totals(subject),
        "left-out" => parts::left_out(subject),
        "plain" => parts::plain(subject),
        "rules" => parts::rules(subject),
        // Where there is no fault, nothing is said about faults.
        "none" => if subject.count() == 0 { " hidden" } else { "" }.to_string(),
        "heading" => if subject.refused() { "What is refused" } else { "Findings" }.to_string(),
        "word" => subject.word().to_string(),
        "version" => env!("CARGO_PKG_VERSION").to_string(),
        _ => unreachable!("the frame names no part {name}"),
    };
    out.write_all(text.as_bytes())
}

/// The page's content policy: its own style and script by their digests, and nothing else from anywhere.
fn policy() -> String {
    let hash = |text: &str| format!("'sha256-{}'", digest::base64(&digest::sha256(text.as_bytes())));
    format!(
        "default-src 'none'; style-src {}; script-src {}; base-uri 'none'; form-action 'none'; \
         require-trusted-types-for 'script'",
        hash(STYLE),
        hash(SCRIPT)
    )
}

#[cfg(test)]
mod tests {
    use super::*;

    /// The frame names nothing else than parts that there are, and the script makes text, never markup.
    #[test]
    fn the_sources_are_plain() {
        let ways = ["innerHTML", "outerHTML", "insertAdjacentHTML", "document.write", "eval(", "Function(", "fetch("];
        for way in ways {
            assert!(!SCRIPT.contains(way), "{way}");
        }
        for (text, end) in
            [(SCRIPT, "</script"), (STYLE, "</style"), (SCRIPT, "<!--"), (STYLE, "url("), (STYLE, "@import")]
        {
            assert!(!text.contains(end), "{end}");
        }
    }
}
