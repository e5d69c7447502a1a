//! The parts of the page that stand without its script: verdict, what was read, totals, the first faults, the rules.

use super::digest::{hex, sha256};
use super::marks::{Headers, Piece};
use super::{Fault, Subject};
use crate::explain;
use crate::feed::NAMES;
use crate::paging::Outcome;
use crate::safe;
use crate::text::asked;
use std::os::unix::ffi::OsStrExt;
use tusuchiy::{File, Profile, Rule, MOST_BYTES};

/// How many faults stand in the page for readers without a script.
const PLAIN: usize = 100;

/// Text that can't become markup, in an element or in an attribute.
fn escaped(text: &str) -> String {
    let mut out = String::with_capacity(text.len());
    for char in text.chars() {
        match char {
            '&' => out.push_str("&amp;"),
            '<' => out.push_str("&lt;"),
            '>' => out.push_str("&gt;"),
            '"' => out.push_str("&quot;"),
            '\'' => out.push_str("&#39;"),
            _ => out.push(char),
        }
    }
    out
}

/// A name from the feed or of it, safe to show.
fn shown(bytes: &[u8]) -> String {
    escaped(&safe::name(bytes))
}

/// A number with commas, as people read it.
fn grouped(number: usize) -> String {
    let digits = number.to_string();
    let comma = |place: usize| if place > 0 && (digits.len() - place) % 3 == 0 { "," } else { "" };
    digits.char_indices().map(|(place, digit)| format!("{}{digit}", comma(place))).collect()
}

fn word(number: usize) -> &'static str {
    if number < 20 {
        "refusal"
    } else {
        "rule"
    }
}

fn path(subject: &Subject) -> String {
    shown(subject.feed.place.path.as_os_str().as_bytes())
}

pub fn title(subject: &Subject) -> String {
    let verdict = match subject.report.outcome {
        Outcome::Accepted => "accepted".to_string(),
        Outcome::Findings { total, .. } => several(total, "finding"),
        Outcome::Refused { total, .. } => format!("refused, {}", several(total, "fault")),
    };
    format!("{}: {verdict}{}", path(subject), asked(subject.report.profile))
}

/// The feed's path, and its folder in a zip file.
pub fn feed(subject: &Subject) -> String {
    let folder = &subject.feed.place.folder;
    let folder = if folder.is_empty() { String::new() } else { format!(" <small>folder {}</small>", shown(folder)) };
    path(subject) + &folder
}

/// The verdict in a word, and what it says.
pub fn verdict(subject: &Subject) -> String {
    let (kind, sign, head, words) = match subject.report.outcome {
        Outcome::Accepted => ("accepted", "✓", "Accepted".to_string(), "All files can be read, and no rule is broken."),
        Outcome::Findings { total, .. } => ("findings", "!", several(total, "finding"), unfit(subject)),
        Outcome::Refused { .. } => ("refused", "✕", "Refused".to_string(), "The files can't be read as they stand."),
    };
    format!(
        "<p class=\"verdict {kind}\" id=\"verdict\"><span class=\"sign\" aria-hidden=\"true\">{sign}</span>{head}</p>\n\
         <p class=\"lead\">{words}</p>{}{}",
        profile(subject),
        refusal(subject)
    )
}

/// Which rules were asked for, where they aren't those of every check: whoever gets the page forwarded doesn't know the command line.
fn profile(subject: &Subject) -> String {
    let name = subject.report.profile;
    let [when, tested] =
        if subject.refused() { ["once the files can be read, ", "are tested"] } else { ["", "were tested"] };
    match name {
        Profile::Plain => String::new(),
        Profile::Boards => format!(
            "\n<p class=\"lead\" id=\"profile\">Profile {name}: {when}rules 60 to 62, which say what a departure board can't show, {tested} \
             beside rules 20 to 31.</p>"
        ),
    }
}

/// What findings say of a feed: those that only the profile has say less.
fn unfit(subject: &Subject) -> &'static str {
    let plain = |fault: Fault| Rule::new(fault.number).is_some_and(|rule| rule.profile() == Profile::Plain);
    if subject.faults().any(plain) {
        "All files can be read, but something in them doesn't fit together. Not accepted until each finding is mended."
    } else {
        "All files can be read and fit together, but a departure board can't show all of it. Not accepted for boards until each finding is mended."
    }
}

/// Of a refused feed: how many faults there are and what to do, what the verdict names, and what wasn't judged.
fn refusal(subject: &Subject) -> String {
    let Some(first) = subject.first() else { return String::new() };
    let total = subject.count();
    let these = if total == 1 { "it" } else { "all of these" };
    let lead = |kind: &str, words: &str| format!("\n<p class=\"lead {kind}\">{}</p>", escaped(words));
    let advice = format!("{}: mend {these}, then check again for findings.", several(total, "fault"));
    let named = format!("The verdict names refusal {} in {}.", first.number, place(subject, &first));
    // A sentence begins with a capital letter, unless it begins with the name of a file.
    let begins = |sentence: &str| NAMES.iter().any(|name| sentence.starts_with(name));
    let written = |sentence: &String| if begins(sentence) { sentence.clone() } else { capital(sentence) };
    let hidden =
        subject.hidden().iter().map(|sentence| lead("hidden-faults", &(written(sentence) + "."))).collect::<String>();
    lead("advice", &advice) + &lead("named", &named) + &hidden
}

/// A number of something, of which there may be one.
fn several(count: usize, word: &str) -> String {
    format!("{} {word}{}", grouped(count), if count == 1 { "" } else { "s" })
}

/// Where a fault stands: file, line and column, as far as it has them.
fn place(subject: &Subject, fault: &Fault) -> String {
    let line = (fault.line > 0).then(|| format!("line {}", fault.line));
    let parts = [Some(NAMES[fault.file - 1].to_string()), line, subject.column(fault)];
    parts.into_iter().flatten().collect::<Vec<_>>().join(", ")
}

/// How many records were read, in a line; of a feed that was refused nobody says what its records are.
pub fn records(subject: &Subject) -> String {
    if subject.refused() {
        return String::new();
    }
    let of_file = |(file, count): (File, Option<usize>)| {
        format!("{file} {}", count.map_or_else(|| "not supplied".to_string(), grouped))
    };
    let files = subject.feed.records().map(of_file);
    format!("<p class=\"lead\" id=\"records\">Records read: {}. <a href=\"#read\">More</a></p>", files.join(", "))
}

/// The six files with what was read of them, and the others, which weren't.
pub fn read(subject: &Subject) -> String {
    let feed = subject.feed;
    let missing = feed.missing();
    let row = |(file, count): (File, Option<usize>)| {
        let none = |class: &str, words: &str| {
            format!("<tr><th scope=\"row\">{file}</th><td colspan=\"3\" class=\"{class}\">{words}</td></tr>\n")
        };
        if missing.contains(&file) {
            return none("missing", "missing");
        }
        if feed.left_out(file) {
            return none("left-out", "not supplied");
        }
        let records = count.filter(|_| !subject.refused()).map_or(String::new(), grouped);
        let bytes = feed.bytes(file);
        // Of a longer file the beginning was read, and its digest would be that of no file.
        let (length, digest) = match bytes.len() {
            length if length > MOST_BYTES => {
                (format!("over {}", grouped(MOST_BYTES)), "not read to its end".to_string())
            }
            length => (grouped(length), format!("<code>{}</code>", hex(&sha256(bytes)))),
        };
        format!(
            "<tr><th scope=\"row\">{file}</th><td class=\"number\">{records}</td><td class=\"number\">{length}</td>\
             <td class=\"digest\">{digest}</td></tr>\n"
        )
    };
    let rows: String = feed.records().map(row).concat();
    format!(
        "<div class=\"wide\"><table id=\"read\">\n<thead><tr><th scope=\"col\">File</th><th scope=\"col\" class=\"number\">Records</th>\
         <th scope=\"col\" class=\"number\">Bytes</th><th scope=\"col\">SHA-256</th></tr></thead>\n<tbody>\n{rows}</tbody></table></div>\n{}",
        unread(subject)
    )
}

fn unread(subject: &Subject) -> String {
    let unread = &subject.feed.unread;
    if unread.count == 0 {
        return String::new();
    }
    let names: Vec<String> = unread.names.iter().map(|name| format!("<code>{}</code>", shown(name))).collect();
    let more = unread.count - names.len();
    let more = if more == 0 { String::new() } else { format!(" and {} more", grouped(more)) };
    format!("<p class=\"note\" id=\"unread\">Not looked at: {}{more}.</p>\n", names.join(", "))
}

/// The totals by rule; the script makes each number a filter.
pub fn totals(subject: &Subject) -> String {
    let counts = &subject.counts;
    let most = counts.values().copied().max().unwrap_or(1);
    let row = |(&number, &count): (&usize, &usize)| {
        // A bar is seen however short it is.
        let width = (count * 100).div_ceil(most);
        format!(
            "<tr data-number=\"{number}\"><th scope=\"row\"><a href=\"#rule-{number}\">{} {number}</a></th><td>{}</td>\
             <td class=\"number count\">{}</td><td class=\"bar\" aria-hidden=\"true\"><svg width=\"100\" height=\"10\" \
             viewBox=\"0 0 100 10\"><rect width=\"{width}\" height=\"10\" rx=\"2\"/></svg></td></tr>\n",
            capital(word(number)),
            escaped(explain::meaning(number)),
            grouped(count)
        )
    };
    if counts.is_empty() {
        return "<p>No refusal, and no rule is broken.</p>".to_string();
    }
    let rows: String = counts.iter().map(row).collect();
    format!(
        "<table id=\"totals\">\n<thead><tr><th scope=\"col\">Rule</th><th scope=\"col\">What it says</th>\
         <th scope=\"col\" class=\"number\">Count</th><th class=\"bar\" aria-hidden=\"true\"></th></tr></thead>\n<tbody>\n{rows}</tbody></table>"
    )
}

fn capital(word: &str) -> String {
    let (first, rest) = word.split_at(1);
    first.to_uppercase() + rest
}

/// A line in pieces, what is marked in it marked, and each field in a direction of its own where they stand apart.
fn pieces(pieces: &[Piece]) -> String {
    let markup = |piece: &Piece| match piece {
        Piece::Plain(text) => escaped(text),
        Piece::Marked(text, _) => {
            format!("<mark{}>{}</mark>", if text.is_empty() { " class=\"empty\"" } else { "" }, escaped(text))
        }
        Piece::Gap(bytes) => format!("</bdi> … {} bytes … <bdi>", grouped(*bytes)),
        Piece::Comma => "</bdi>,<bdi>".to_string(),
    };
    let line: String = pieces.iter().map(markup).collect();
    format!("<bdi>{line}</bdi>").replace("<bdi></bdi>", "")
}

/// What the list leaves out, where there are too many for a page, and who has all of them.
pub fn left_out(subject: &Subject) -> String {
    let (word, listed, all) = (subject.word(), subject.listed.len(), subject.count());
    if listed == all {
        return String::new();
    }
    let each = if subject.refused() { "refusal" } else { "rule" };
    format!(
        "<p class=\"note\" id=\"left-out\">Listed here are {} of {} {word}s, the first {} of each {each}. \
         <code>tusuchiy check --json</code> has all of them.</p>\n",
        grouped(listed),
        grouped(all),
        grouped(subject.share())
    )
}

/// The first faults as a plain list.
pub fn plain(subject: &Subject) -> String {
    let headers = Headers::new(subject.feed);
    let item = |fault: Fault| {
        let about = subject.about(&fault);
        let lines = headers.lines(&fault, &about);
        let own = lines.iter().find(|shown| (shown.file, shown.line) == (fault.file, fault.line));
        format!(
            "<li><b>{}</b>, {} {}: {}{}</li>\n",
            escaped(&place(subject, &fault)),
            word(fault.number),
            fault.number,
            escaped(&about.words),
            own.map_or(String::new(), |own| format!("<br><code>{}</code>", pieces(&own.pieces)))
        )
    };
    let items: String = subject.listed().take(PLAIN).map(item).collect();
    let more = subject.count().saturating_sub(PLAIN);
    let more = if more == 0 { String::new() } else { format!("<p>And {} more.</p>", grouped(more)) };
    format!("<ol>\n{items}</ol>{more}")
}

/// What each broken rule means and how to mend it, from the clerk's page.
pub fn rules(subject: &Subject) -> String {
    let article = |number: usize| {
        let page = explain::page(number).unwrap_or_default();
        let (_, body) = page.split_once('\n').unwrap_or((page, ""));
        format!(
            "<article id=\"rule-{number}\"><h3>{} {number}: {}</h3>\n<div class=\"body\">{}</div></article>\n",
            capital(word(number)),
            escaped(explain::meaning(number)),
            marked_up(body)
        )
    };
    subject.counts.keys().map(|&number| article(number)).collect()
}

/// The little Markdown that docs/RULES.md has: paragraphs, lines, bold words, code.
fn marked_up(text: &str) -> String {
    let mut out = String::new();
    for (place, part) in text.split("```").enumerate() {
        if place % 2 == 1 {
            out += &format!("<pre>{}</pre>\n", escaped(part.trim_matches('\n')));
            continue;
        }
        for paragraph in part.split("\n\n").map(str::trim).filter(|paragraph| !paragraph.is_empty()) {
            out += &format!("<p>{}</p>\n", inline(paragraph).replace('\n', "<br>\n"));
        }
    }
    out
}

/// Code between backquotes, and bold words outside of it.
fn inline(text: &str) -> String {
    let part = |(place, part): (usize, &str)| match place % 2 {
        1 => format!("<code>{}</code>", escaped(part)),
        _ => {
            let bold = |(place, part): (usize, &str)| match place % 2 {
                1 => format!("<strong>{}</strong>", escaped(part)),
                _ => escaped(part),
            };
            part.split("**").enumerate().map(bold).collect()
        }
    };
    text.split('`').enumerate().map(part).collect()
}

#[cfg(test)]
mod tests {
    use super::*;

    #[test]
    fn text_is_no_markup() {
        assert_eq!(escaped("<b a=\"1\" c='2'>&"), "&lt;b a=&quot;1&quot; c=&#39;2&#39;&gt;&amp;");
        assert_eq!(shown(b"<\xFF\x1b"), "&lt;\\xFF\\x1B");
    }

    #[test]
    fn numbers_have_commas() {
        let shown = [0, 999, 1000, 65_536, 1_234_567].map(grouped);
        assert_eq!(shown, ["0", "999", "1,000", "65,536", "1,234,567"]);
    }

    #[test]
    fn the_clerks_page_becomes_paragraphs() {
        let text = "**What.** `<A>` is **so**\nand so.\n\n**Example.** Of\n```\nA,1\nB,2\n```\n\n**How.** Mend.";
        let wanted = "<p><strong>What.</strong> <code>&lt;A&gt;</code> is <strong>so</strong><br>\nand so.</p>\n\
            <p><strong>Example.</strong> Of</p>\n<pre>A,1\nB,2</pre>\n<p><strong>How.</strong> Mend.</p>\n";
        assert_eq!(marked_up(text), wanted);
        for number in (1..=14).chain(20..=31).chain(60..=62) {
            let page = explain::page(number).expect("a section");
            let body = marked_up(page);
            assert!(!body.contains("**") && !body.contains('`'), "{number}: {body}");
        }
    }
}
