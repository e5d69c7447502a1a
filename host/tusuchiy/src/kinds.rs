//! The files, rules and refusals that the check has numbers for, with names and meanings.

use crate::explain;
use std::fmt::{self, Display, Formatter};
use std::num::NonZeroU32;

/// How many files there are.
pub const FILES: usize = 6;

/// One of the six files.
#[derive(Clone, Copy, Debug, PartialEq, Eq, PartialOrd, Ord, Hash)]
pub enum File {
    Stops = 1,
    Routes,
    Calendar,
    Trips,
    StopTimes,
    CalendarDates,
}

/// What is known of a file: its name, that of its index, the width of its table, and whether a feed may lack it.
struct Known {
    name: &'static str,
    index: Option<&'static str>,
    width: usize,
    may_be_missing: bool,
}

/// All that differs from file to file, in the order of their numbers.
const KNOWN: [Known; FILES] = [
    Known { name: "stops.txt", index: Some("stops.ttx"), width: 7, may_be_missing: false },
    Known { name: "routes.txt", index: Some("routes.ttx"), width: 3, may_be_missing: false },
    Known { name: "calendar.txt", index: Some("calendar.ttx"), width: 5, may_be_missing: true },
    Known { name: "trips.txt", index: Some("trips.ttx"), width: 8, may_be_missing: false },
    Known { name: "stop_times.txt", index: None, width: 8, may_be_missing: false },
    Known { name: "calendar_dates.txt", index: None, width: 4, may_be_missing: true },
];

impl File {
    /// In the order of their numbers.
    pub const ALL: [File; FILES] =
        [File::Stops, File::Routes, File::Calendar, File::Trips, File::StopTimes, File::CalendarDates];

    /// The file with this number, 1 to 6.
    #[must_use]
    pub fn new(number: usize) -> Option<Self> {
        File::ALL.get(number.checked_sub(1)?).copied()
    }

    /// Its number, 1 to 6.
    #[must_use]
    pub const fn number(self) -> usize {
        self as usize
    }

    /// Its name in a feed.
    #[must_use]
    pub const fn name(self) -> &'static str {
        KNOWN[self.number() - 1].name
    }

    /// The name of its index, which stands beside it; stop_times.txt and calendar_dates.txt have none.
    #[must_use]
    pub const fn index_name(self) -> Option<&'static str> {
        KNOWN[self.number() - 1].index
    }

    /// How many numbers one of its records has in its table.
    #[must_use]
    pub const fn width(self) -> usize {
        KNOWN[self.number() - 1].width
    }

    /// A feed may lack it, which is to lend it as no bytes; but of the files of which this is true it needs one.
    #[must_use]
    pub const fn may_be_missing(self) -> bool {
        KNOWN[self.number() - 1].may_be_missing
    }
}

impl Display for File {
    fn fmt(&self, out: &mut Formatter) -> fmt::Result {
        out.write_str(self.name())
    }
}

/// Which rules a call asks for: part of the call, not of the feed.
#[derive(Clone, Copy, Debug, Default, PartialEq, Eq, PartialOrd, Ord, Hash)]
pub enum Profile {
    /// Rules 20 to 31.
    #[default]
    Plain = 0,
    /// Rules 60 to 62 too: what a departure board can't show.
    Boards = 1,
}

impl Profile {
    /// In the order of their numbers.
    pub const ALL: [Profile; 2] = [Profile::Plain, Profile::Boards];

    /// Its number, as include/tusuchiy.h has it.
    #[must_use]
    pub const fn number(self) -> i32 {
        self as i32
    }

    /// Its name, as the command takes it.
    #[must_use]
    pub const fn name(self) -> &'static str {
        match self {
            Profile::Plain => "plain",
            Profile::Boards => "boards",
        }
    }
}

impl Display for Profile {
    fn fmt(&self, out: &mut Formatter) -> fmt::Result {
        out.write_str(self.name())
    }
}

/// A rule that a feed which can be read may break, 20 to 31, or 60 to 62 where the profile for boards is asked for.
#[derive(Clone, Copy, Debug, PartialEq, Eq, PartialOrd, Ord, Hash)]
pub struct Rule(u8);

/// A reason why a feed can't be read, 1 to 14.
#[derive(Clone, Copy, Debug, PartialEq, Eq, PartialOrd, Ord, Hash)]
pub struct Refusal(u8);

/// A reason why an index isn't written or accepted though its file can be read, 40 to 46.
#[derive(Clone, Copy, Debug, PartialEq, Eq, PartialOrd, Ord, Hash)]
pub struct IndexRefusal(u8);

macro_rules! numbered {
    ($name:ident, $word:literal, $($least:literal..=$most:literal),+) => {
        impl $name {
            /// The one with this number, if there is one.
            #[must_use]
            pub fn new(number: usize) -> Option<Self> {
                matches!(number, $($least..=$most)|+).then_some($name(number as u8))
            }

            /// All of them, in order.
            pub fn all() -> impl Iterator<Item = Self> {
                [$($least..=$most),+].into_iter().flatten().map($name)
            }

            /// Its number.
            #[must_use]
            pub fn number(self) -> usize {
                self.0.into()
            }

            /// What it says, in a few words; the words may change, the numbers don't.
            #[must_use]
            pub fn meaning(self) -> &'static str {
                explain::meaning(self.number())
            }

            /// What it means and how to mend it: its section of docs/RULES.md.
            #[must_use]
            pub fn explanation(self) -> &'static str {
                explain::page(self.number()).unwrap_or_default()
            }
        }

        impl Display for $name {
            fn fmt(&self, out: &mut Formatter) -> fmt::Result {
                write!(out, concat!($word, " {}: {}"), self.0, self.meaning())
            }
        }
    };
}

numbered!(Rule, "rule", 20..=31, 60..=62);
numbered!(Refusal, "refusal", 1..=14);
numbered!(IndexRefusal, "refusal", 40..=46);

impl Rule {
    /// The profile that asks for it first: `Plain` for a rule that every call tests.
    #[must_use]
    pub fn profile(self) -> Profile {
        if self.0 < 60 {
            Profile::Plain
        } else {
            Profile::Boards
        }
    }
}

/// A place where a rule is broken.
#[derive(Clone, Copy, Debug, PartialEq, Eq, PartialOrd, Ord, Hash)]
pub struct Finding {
    pub file: File,
    /// The header is line 1.
    pub line: u32,
    pub rule: Rule,
}

impl Display for Finding {
    fn fmt(&self, out: &mut Formatter) -> fmt::Result {
        write!(out, "{}:{}: {}", self.file, self.line, self.rule)
    }
}

/// A place that can't be read.
#[derive(Clone, Copy, Debug, PartialEq, Eq, PartialOrd, Ord, Hash)]
pub struct Fault {
    pub file: File,
    /// The header is line 1; 0 is the whole file.
    pub line: u32,
    /// The field of the line that is refused, counted from 1, unread ones too: refusals 8, 11, 12 and 13 have one.
    pub column: Option<NonZeroU32>,
    pub refusal: Refusal,
}

impl Display for Fault {
    fn fmt(&self, out: &mut Formatter) -> fmt::Result {
        write!(out, "{}", self.file)?;
        let line = (self.line > 0).then_some(self.line);
        for number in line.into_iter().chain(self.column.map(NonZeroU32::get)) {
            write!(out, ":{number}")?;
        }
        write!(out, ": {}", self.refusal)
    }
}

#[cfg(test)]
mod tests {
    use super::*;

    #[test]
    fn numbers_go_both_ways() {
        for file in File::ALL {
            assert_eq!(File::new(file.number()), Some(file));
        }
        assert!([0, 7].iter().all(|&number| File::new(number).is_none()));
        assert!(Rule::all().map(Rule::number).eq((20..=31).chain(60..=62)));
        assert!(Refusal::all().map(Refusal::number).eq(1..=14));
        assert!(Rule::all().all(|rule| Rule::new(rule.number()) == Some(rule)));
        assert!([19, 32, 59, 63, 276, 316].iter().all(|&number| Rule::new(number).is_none()));
        assert!([0, 15, 257].iter().all(|&number| Refusal::new(number).is_none()));
        assert!(IndexRefusal::all().map(IndexRefusal::number).eq(40..=46));
        assert!([14, 39, 47].iter().all(|&number| IndexRefusal::new(number).is_none()));
    }

    /// Rules of the profile for boards are those above all others; profiles have the header's numbers and the command's names.
    #[test]
    fn profiles() {
        let of_boards = Rule::all().filter(|rule| rule.profile() == Profile::Boards);
        assert!(of_boards.map(Rule::number).eq(60..=62));
        assert_eq!(Profile::ALL.map(Profile::number), [0, 1]);
        assert_eq!(Profile::ALL.map(|profile| profile.to_string()), ["plain", "boards"]);
        assert_eq!(Profile::default(), Profile::Plain);
    }

    #[test]
    fn in_words() {
        let finding = Finding { file: File::Trips, line: 3, rule: Rule(21) };
        assert_eq!(finding.to_string(), "trips.txt:3: rule 21: a reference names no line");
        let fault = Fault { file: File::Stops, line: 0, column: None, refusal: Refusal(2) };
        assert_eq!(fault.to_string(), "stops.txt: refusal 2: the file has more than 1,048,576 lines");
        let fault = Fault { file: File::Trips, line: 7, column: None, refusal: Refusal(6) };
        assert_eq!(fault.to_string(), "trips.txt:7: refusal 6: quotation marks are misplaced");
        let fault = Fault { file: File::Trips, line: 7, column: NonZeroU32::new(3), refusal: Refusal(12) };
        assert_eq!(fault.to_string(), "trips.txt:7:3: refusal 12: a value that is needed is empty");
        assert!(Rule(21).explanation().contains("**How to mend it.**"));
    }
}
