//! What a refusal is about, from the place that the check names: file, line and column.

use crate::columns::{Column, COLUMNS};
use crate::encoding::{all_fit, guess, guess_by_mark, ill_formed, windows_1252, Guess};
use crate::facts::{shown, shown_value, About};
use crate::feed::{Feed, FILES, MOST_BYTES, MOST_LINES};
use crate::fields::{self, field, value, Wrong, MOST_FIELDS};
use crate::names::Names;
use crate::paging::Refusal;
use crate::value::{Members, Value};
use std::borrow::Cow;
use std::cell::OnceCell;
use tusuchiy::File;

/// The most bytes that rule 11 allows an id.
const MOST_ID_BYTES: usize = 64;

/// What the refusals of a feed are about. What is asked of a file for each of its lines is looked up once: a header, or a whole
/// file, may have 128 MiB, and each of a million lines a fault.
pub struct Reasons<'a> {
    feed: &'a Feed,
    names: Names<'a>,
    header_counts: [OnceCell<usize>; FILES],
    all_fit: [OnceCell<bool>; FILES],
}

impl<'a> Reasons<'a> {
    pub fn new(feed: &'a Feed) -> Self {
        let (header_counts, all_fit) = Default::default();
        Reasons { feed, names: Names::new(feed), header_counts, all_fit }
    }

    /// What the verdict's refusal is about; where a file is missing, all that are.
    pub fn about(&self, refusal: &Refusal) -> About {
        self.told(refusal, true)
    }

    /// What a fault of the list is about, in which each missing file stands by itself.
    pub fn listed(&self, refusal: &Refusal) -> About {
        self.told(refusal, false)
    }

    fn told(&self, refusal: &Refusal, alone: bool) -> About {
        let (feed, Refusal { number, file, line, .. }) = (self.feed, *refusal);
        let text = feed.line(file, line).unwrap_or(&[]);
        let bytes = feed.slices()[file - 1];
        let no_end = |file| guessed(no_end(feed, file, alone), guess_by_mark(bytes));
        match number {
            1 => one_number(format!("it has more than {MOST_BYTES} bytes"), "limit", MOST_BYTES),
            2 => counted(format!("it has {} lines", feed.line_count(file)), "lines", feed.line_count(file), MOST_LINES),
            4 => File::new(file).map_or_else(About::default, no_end),
            5 => guessed(stray(text), guess_by_mark(bytes)),
            6 => marks(text),
            7 => many(self.field_count(file, line, text)),
            9 => self.missing(file),
            10 => counts(field_count(text), self.names.fields(file).len()),
            8 | 11..=13 => self.in_column(refusal, text).unwrap_or_default(),
            14 => self.bad_byte(file, text).unwrap_or_default(),
            _ => About::default(),
        }
    }

    /// How many fields a line has: a header's are counted once, though the verdict and the list name it.
    fn field_count(&self, file: usize, line: usize, text: &[u8]) -> usize {
        match line {
            1 => *self.header_counts[file - 1].get_or_init(|| field_count(text)),
            _ => field_count(text),
        }
    }

    /// The name that the header has for the column of a refusal: a known one, and so a short one.
    pub fn column_name(&self, refusal: &Refusal) -> Option<Cow<'a, [u8]>> {
        self.names.written(refusal.file, refusal.column?.checked_sub(1)?).map(value)
    }

    /// A byte at which no UTF-8 character begins.
    fn bad_byte(&self, file: usize, text: &[u8]) -> Option<About> {
        let (bytes, place) = (self.feed.slices()[file - 1], ill_formed(text)?);
        let byte = text[place];
        let guess = guess(bytes, byte, || *self.all_fit[file - 1].get_or_init(|| all_fit(bytes)));
        let letter = windows_1252(byte).filter(|_| guess == Some(Guess::Windows1252)).map(String::from);
        let hint =
            letter.map_or(String::new(), |letter| format!("; in Windows-1252 it is {}", shown(letter.as_bytes())));
        let about = About {
            words: format!("byte {} of the line, {byte:02X}, begins no UTF-8 character{hint}", place + 1),
            members: vec![("found", Value::text(format!("{byte:02X}"))), ("byte", Value::size(place + 1))],
        };
        Some(guessed(about, guess))
    }

    fn missing(&self, file: usize) -> About {
        let there = |column: &Column| self.names.place(file, column.name).is_some();
        let must = COLUMNS[file - 1].iter().filter(|column| column.must);
        let missing: Vec<&str> = must.filter(|column| !there(column)).map(|column| column.name).collect();
        About {
            words: format!("the header lacks {}", missing.join(", ")),
            members: vec![("columns", Value::texts(missing))],
        }
    }

    /// What is wrong under the column that the check names: a known one, since rules 8 and 11 to 13 look at no other.
    fn in_column(&self, refusal: &Refusal, text: &[u8]) -> Option<About> {
        let (place, name) = (refusal.column?, self.column_name(refusal)?);
        let column = COLUMNS[refusal.file - 1].iter().find(|column| *column.name.as_bytes() == *name)?;
        let mut members: Members = vec![("column", Value::text(column.name)), ("field", Value::size(place))];
        let value = value(&text[field(text, place)?]);
        let words = match refusal.number {
            8 => format!("{} is field {place} again", column.name),
            11 => {
                let (bytes, limit) = (("bytes", Value::size(value.len())), ("limit", Value::size(MOST_ID_BYTES)));
                members.extend([shown_value(&value), bytes, limit]);
                format!("{} {} has {} bytes", column.name, shown(&value), value.len())
            }
            12 => format!("{} is empty{}", column.name, self.why_needed(refusal.file, column.name, text)),
            _ => {
                members.extend([shown_value(&value), ("wanted", Value::text(column.form))]);
                format!("{} is {}, wanted: {}", column.name, shown(&value), column.form)
            }
        };
        Some(About { words, members })
    }

    /// Why a stop may not lack a value that a node or a boarding area may.
    fn why_needed(&self, file: usize, column: &str, text: &[u8]) -> String {
        let other = match (file, column) {
            (1, "stop_name") => None,
            (1, "stop_lat") => Some("stop_lon"),
            (1, "stop_lon") => Some("stop_lat"),
            _ => return String::new(),
        };
        let own = self.names.place(1, "location_type").and_then(|place| field(text, place + 1));
        let kind = own.map_or(Cow::Borrowed(&[][..]), |field| value(&text[field]));
        match (&*kind, other) {
            (b"3" | b"4", Some(other)) => format!(" and {other} isn't, wanted: both or neither"),
            (b"" | b"0" | b"1" | b"2", _) => String::new(),
            _ => format!("; location_type {} counts as 0", shown(&kind)),
        }
    }
}

fn one_number(words: String, name: &'static str, number: usize) -> About {
    About { words, members: vec![(name, Value::size(number))] }
}

fn counted(words: String, name: &'static str, count: usize, limit: usize) -> About {
    About { words, members: vec![(name, Value::size(count)), ("limit", Value::size(limit))] }
}

fn no_end(feed: &Feed, file: File, alone: bool) -> About {
    let missing = feed.missing();
    let (clause, words) = match (missing.contains(&file), feed.bytes(file).is_empty()) {
        (true, _) => ("missing", "the file is missing"),
        (_, true) => ("empty", "the file is empty"),
        _ => ("no_line_end", "the last line has no line ending"),
    };
    let mut words = vec![words.to_string()];
    if clause == "missing" || clause == "empty" && file.may_be_missing() {
        let others = if alone { &missing[..] } else { &[] };
        words.extend(lacking(feed, others).filter(|_| alone || file.may_be_missing()));
    }
    let missing = Value::texts(missing.iter().map(|file| file.name()));
    About { words: words.join("; "), members: vec![("clause", Value::text(clause)), ("missing", missing)] }
}

/// What a feed lacks: the files that it needs, and where it has none of those of which one is enough, one of them.
fn lacking(feed: &Feed, missing: &[File]) -> impl Iterator<Item = String> {
    let either: Vec<File> = File::ALL.into_iter().filter(|file| file.may_be_missing()).collect();
    let joined = |files: &[File], word| files.iter().map(|file| file.name()).collect::<Vec<_>>().join(word);
    let needed: Vec<File> = missing.iter().copied().filter(|file| !either.contains(file)).collect();
    let lacks = (!needed.is_empty()).then(|| format!("the feed lacks {}", joined(&needed, ", ")));
    let neither = || format!("the feed has neither {}: supply one of them", joined(&either, " nor "));
    lacks.into_iter().chain((!feed.has_services()).then(neither))
}

/// A tab, or a CR outside an ending.
fn stray(text: &[u8]) -> About {
    let place = text.iter().position(|byte| matches!(byte, b'\t' | b'\r')).unwrap_or(0);
    let found = if text.get(place) == Some(&b'\t') { "tab" } else { "CR" };
    About {
        words: format!("byte {} of the line is a {found}", place + 1),
        members: vec![("found", Value::text(found)), ("byte", Value::size(place + 1))],
    }
}

/// The same with the encoding that the file may have; in UTF-16 no line ends where a reader of bytes looks for it.
fn guessed(mut about: About, guess: Option<Guess>) -> About {
    if guess == Some(Guess::Utf16) {
        about.words += "; the file begins with the mark of UTF-16: save it as UTF-8";
    }
    about.members.push(("guess", guess.map_or(Value::Null, |guess| Value::text(guess.name()))));
    about
}

fn marks(text: &[u8]) -> About {
    let Err((wrong, place)) = fields::count(text) else { return About::default() };
    let (clause, words) = match wrong {
        Wrong::MarkInBareField => ("mark_in_bare_field", "a quotation mark stands in a field that has none around it"),
        Wrong::TextAfterClosingMark => ("text_after_closing_mark", "text follows a closing quotation mark"),
        Wrong::NotClosed => ("not_closed", "a quotation mark opens a field and none closes it"),
    };
    About {
        words: format!("at byte {} of the line {words}", place + 1),
        members: vec![("clause", Value::text(clause)), ("byte", Value::size(place + 1))],
    }
}

fn field_count(text: &[u8]) -> usize {
    fields::count(text).unwrap_or(0)
}

fn many(fields: usize) -> About {
    counted(format!("it has {fields} fields"), "fields", fields, MOST_FIELDS)
}

fn counts(fields: usize, header: usize) -> About {
    About {
        words: format!("it has {fields} fields, the header {header}"),
        members: vec![("fields", Value::size(fields)), ("header_fields", Value::size(header))],
    }
}
