//! The command line: what is asked for, or one line that says what is wrong with it.

use crate::manual::{COLORS, GENERATED, PROFILES, VERBS};
use crate::paging::{Page, MOST_FINDINGS};
use crate::safe;
use crate::style::When;
use crate::{indexes, report};
use lexopt::{Arg, Error, Parser};
use std::ffi::{OsStr, OsString};
use std::os::unix::ffi::OsStrExt;
use std::path::PathBuf;
use tusuchiy::Profile;

/// The most feeds that may be checked at a time.
const MOST_JOBS: usize = 256;

/// What each of the words for colours means.
const WHEN: [When; COLORS.len()] = [When::Auto, When::Always, When::Never];

/// How a report is printed.
#[derive(Clone, Copy, Debug, Default, PartialEq, Eq)]
pub enum Form {
    #[default]
    Text,
    Json,
    Quiet,
}

/// What `check` is asked for.
#[derive(Debug, Default, PartialEq, Eq)]
pub struct Check {
    pub feeds: Vec<PathBuf>,
    pub form: Form,
    pub all: bool,
    pub profile: Profile,
    pub page: Option<Page>,
    pub follow_links: bool,
    pub jobs: Option<usize>,
    pub color: When,
}

/// What the command line asks for.
#[derive(Debug, PartialEq, Eq)]
pub enum Command {
    Help,
    Version,
    Generate(usize),
    Explain(usize),
    Check(Check),
    Index(indexes::Asked),
    Report(report::Asked),
}

/// What was found so far on the command line.
#[derive(Default)]
struct Found {
    words: Vec<OsString>,
    /// The options of a command that were there.
    given: Vec<&'static str>,
    after: Option<[i32; 3]>,
    room: Option<usize>,
    jobs: Option<usize>,
    color: usize,
    profile: Profile,
    output: Option<PathBuf>,
}

impl Found {
    /// Was this option there?
    fn has(&self, name: &str) -> bool {
        self.given.contains(&name)
    }
}

/// Reads the words after the command's own name.
pub fn parse(words: &[OsString]) -> Result<Command, String> {
    let mut parser = Parser::from_args(words.to_vec());
    let mut found = Found::default();
    while let Some(word) = parser.next().map_err(said)? {
        let name = match word {
            Arg::Short('h') | Arg::Long("help") => return Ok(Command::Help),
            Arg::Short('V') | Arg::Long("version") => return Ok(Command::Version),
            Arg::Long("generate") => {
                let kind = parser.value().map_err(said)?;
                return one_of("--generate", GENERATED, &kind).map(Command::Generate);
            }
            Arg::Short('a') | Arg::Long("all") => "all",
            Arg::Short('q') | Arg::Long("quiet") => "quiet",
            Arg::Short('L') | Arg::Long("follow-links") => "follow-links",
            Arg::Long("json") => "json",
            Arg::Long("check") => "check",
            Arg::Long("after") => "after",
            Arg::Long("room") => "room",
            Arg::Long("jobs") => "jobs",
            Arg::Long("color") => "color",
            Arg::Long("profile") => "profile",
            Arg::Short('o') | Arg::Long("output") => "output",
            Arg::Long(other) => return Err(format!("unknown option {}", shown(format!("--{other}").as_ref()))),
            Arg::Short(other) => return Err(format!("unknown option {}", shown(format!("-{other}").as_ref()))),
            Arg::Value(word) => {
                found.words.push(word);
                continue;
            }
        };
        option(&mut found, name, &mut parser)?;
    }
    finish(found)
}

/// Reads one option of a command, with its value where it has one; none may stand twice.
fn option(found: &mut Found, name: &'static str, parser: &mut Parser) -> Result<(), String> {
    if found.given.contains(&name) {
        return Err(format!("--{name} stands twice"));
    }
    found.given.push(name);
    match name {
        "after" => found.after = Some(after(&parser.value().map_err(said)?)?),
        "room" => found.room = Some(number("--room", &parser.value().map_err(said)?, 0, MOST_FINDINGS)?),
        "jobs" => found.jobs = Some(number("--jobs", &parser.value().map_err(said)?, 1, MOST_JOBS)?),
        "color" => found.color = one_of("--color", COLORS, &parser.value().map_err(said)?)?,
        "profile" => found.profile = Profile::ALL[one_of("--profile", PROFILES, &parser.value().map_err(said)?)?],
        "output" => found.output = Some(PathBuf::from(parser.value().map_err(said)?)),
        _ => {}
    }
    Ok(())
}

/// A word of the command line, safe to print.
fn shown(word: &OsStr) -> String {
    format!("'{}'", safe::name(word.as_bytes()))
}

/// What the parser has to say, in one line.
fn said(error: Error) -> String {
    match error {
        Error::MissingValue { option: Some(option) } => format!("{} needs a value", safe::name(option.as_bytes())),
        Error::UnexpectedValue { option, value } => {
            format!("{} takes no value, and not {}", safe::name(option.as_bytes()), shown(&value))
        }
        other => safe::name(other.to_string().as_bytes()),
    }
}

/// Three numbers with commas between them.
fn after(word: &OsStr) -> Result<[i32; 3], String> {
    let numbers = word.to_str().and_then(|word| {
        let numbers: Result<Vec<i32>, _> = word.split(',').map(str::parse).collect();
        numbers.ok()?.try_into().ok()
    });
    numbers.ok_or_else(|| format!("--after takes three numbers, as 5,120,28, and not {}", shown(word)))
}

/// A number within its bounds.
fn number(option: &str, word: &OsStr, least: usize, most: usize) -> Result<usize, String> {
    let number = word.to_str().and_then(|word| word.parse().ok());
    let within = number.filter(|number| (least..=most).contains(number));
    within.ok_or_else(|| format!("{option} takes a number from {least} to {most}, and not {}", shown(word)))
}

/// The place of a word among the only ones that there are.
fn one_of(option: &str, choices: &[&str], word: &OsStr) -> Result<usize, String> {
    let place = choices.iter().position(|choice| OsStr::new(choice) == word);
    place.ok_or_else(|| format!("{option} takes {}, and not {}", choices.join(", "), shown(word)))
}

/// Puts together what was found.
fn finish(mut found: Found) -> Result<Command, String> {
    if found.words.is_empty() {
        return Err("say what to do: check FEED, report FEED, index FEED, explain RULE, or --help".to_string());
    }
    let verb = found.words.remove(0);
    let name = verb.to_str().unwrap_or_default();
    if let Some(other) = found.given.iter().find(|option| !takes(name, option)) {
        return Err(format!("{name} takes no --{other}"));
    }
    match verb.to_str() {
        Some("check") => check(found).map(Command::Check),
        Some("report") => report(found).map(Command::Report),
        Some("index") => index(found).map(Command::Index),
        Some("explain") => explain(&found.words),
        Some("help") => Ok(Command::Help),
        _ => Err(format!("unknown command {}; there are check, report, index, explain and --help", shown(&verb))),
    }
}

/// Does a command take this option? What is no command is complained of as such.
fn takes(name: &str, option: &str) -> bool {
    match VERBS.iter().find(|verb| verb.name == name) {
        Some(verb) => verb.flags.iter().any(|flag| flag.long == option),
        None => name != "help",
    }
}

fn report(mut found: Found) -> Result<report::Asked, String> {
    if found.words.len() != 1 {
        return Err("report takes one feed: a folder or a zip file".to_string());
    }
    Ok(report::Asked {
        follow_links: found.has("follow-links"),
        profile: found.profile,
        feed: PathBuf::from(found.words.remove(0)),
        output: found.output,
    })
}

fn index(found: Found) -> Result<indexes::Asked, String> {
    if found.words.is_empty() {
        return Err("index needs a feed: a folder or a zip file".to_string());
    }
    if found.words.len() > 1 && found.output.is_some() {
        return Err("--output takes one feed: those of several would have the same names".to_string());
    }
    Ok(indexes::Asked {
        form: form(&found)?,
        check: found.has("check"),
        follow_links: found.has("follow-links"),
        jobs: found.jobs,
        color: WHEN[found.color],
        output: found.output,
        feeds: found.words.into_iter().map(PathBuf::from).collect(),
    })
}

fn explain(words: &[OsString]) -> Result<Command, String> {
    let [word] = words else {
        return Err("explain takes one number: 1 to 14, 20 to 31, 40 to 46 or 60 to 62".to_string());
    };
    let number = word.to_str().and_then(|word| word.parse().ok());
    number.map(Command::Explain).ok_or_else(|| format!("explain takes a number, and {} is none", shown(word)))
}

/// How a report is to be printed.
fn form(found: &Found) -> Result<Form, String> {
    match (found.has("json"), found.has("quiet")) {
        (true, true) => Err("--json and --quiet don't go together".to_string()),
        (true, false) => Ok(Form::Json),
        (false, true) => Ok(Form::Quiet),
        (false, false) => Ok(Form::Text),
    }
}

/// What `check` is asked for; --after or --room ask for a page.
fn check(found: Found) -> Result<Check, String> {
    if found.words.is_empty() {
        return Err("check needs a feed: a folder or a zip file".to_string());
    }
    let form = form(&found)?;
    let paged = found.after.is_some() || found.room.is_some();
    if found.words.len() > 1 && form != Form::Json && (paged || found.has("all")) {
        return Err("--all, --after and --room take one feed, or many with --json".to_string());
    }
    Ok(Check {
        form,
        all: found.has("all"),
        profile: found.profile,
        page: paged.then(|| Page { after: found.after.unwrap_or([0, 0, 0]), room: found.room }),
        follow_links: found.has("follow-links"),
        jobs: found.jobs,
        color: WHEN[found.color],
        feeds: found.words.into_iter().map(PathBuf::from).collect(),
    })
}

#[cfg(test)]
mod tests {
    use super::*;
    use crate::manual;

    fn parsed(line: &str) -> Result<Command, String> {
        parse(&line.split(' ').filter(|word| !word.is_empty()).map(OsString::from).collect::<Vec<_>>())
    }

    fn checks(form: Form, page: Option<Page>) -> Result<Command, String> {
        Ok(Command::Check(Check { feeds: vec![PathBuf::from("f")], form, page, ..Check::default() }))
    }

    #[test]
    fn good_words() {
        for line in ["--help", "-h", "help", "check --help", "check f -h", "explain --help", "-hV", "check f --help x"]
        {
            assert_eq!(parsed(line), Ok(Command::Help), "{line}");
        }
        for line in ["--version", "-V", "check -V"] {
            assert_eq!(parsed(line), Ok(Command::Version), "{line}");
        }
        assert_eq!(parsed("explain 31"), Ok(Command::Explain(31)));
        assert_eq!(parsed("check f"), checks(Form::Text, None));
        assert_eq!(parsed("check --json f"), checks(Form::Json, None));
        for line in ["check f --quiet", "check -q f", "--quiet check f", "check -q -- f"] {
            assert_eq!(parsed(line), checks(Form::Quiet, None), "{line}");
        }
        let page = Page { after: [-1, 2, 3], room: Some(0) };
        for line in ["check --after -1,2,3 f --room 0", "check --after=-1,2,3 --room=0 f"] {
            assert_eq!(parsed(line), checks(Form::Text, Some(page)), "{line}");
        }
        let page = Page { after: [0, 0, 0], room: Some(MOST_FINDINGS) };
        assert_eq!(parsed("check --room 18874368 -- f"), checks(Form::Text, Some(page)));
        let page = Page { after: [5, 3, 29], room: None };
        assert_eq!(parsed("check --after 5,3,29 f"), checks(Form::Text, Some(page)));
        assert!(parsed("check f g --all --room 3 --json").is_ok());
    }

    #[test]
    fn a_report_and_its_file() {
        let asked = |output: Option<&str>, follow_links| {
            let output = output.map(PathBuf::from);
            let asked = report::Asked { feed: PathBuf::from("f"), output, follow_links, ..Default::default() };
            Ok(Command::Report(asked))
        };
        assert_eq!(parsed("report f"), asked(None, false));
        for line in ["report f -o g", "report -og f", "report --output=g f", "report --output g -- f"] {
            assert_eq!(parsed(line), asked(Some("g"), false), "{line}");
        }
        assert_eq!(parsed("report f -L -o g"), asked(Some("g"), true));
    }

    /// Without the option it is as with the profile plain, for one feed and for many.
    #[test]
    fn a_profile() {
        for (words, profile) in
            [("", Profile::Plain), ("--profile plain", Profile::Plain), ("--profile=boards", Profile::Boards)]
        {
            let Ok(Command::Check(check)) = parsed(&format!("check {words} f g")) else { panic!("no check: {words}") };
            let Ok(Command::Report(report)) = parsed(&format!("report f {words}")) else {
                panic!("no report: {words}")
            };
            assert_eq!([check.profile, report.profile], [profile; 2], "{words}");
        }
        let wrong = "--profile takes plain, boards, and not 'board'";
        assert_eq!(parsed("check f --profile board"), Err(wrong.to_string()));
        for verb in ["index f", "explain 60"] {
            let name = verb.split(' ').next().unwrap_or_default();
            for words in ["--profile boards", "--profile plain"] {
                assert_eq!(parsed(&format!("{verb} {words}")), Err(format!("{name} takes no --profile")));
            }
        }
    }

    #[test]
    fn an_index_and_its_folder() {
        let feeds = || vec![PathBuf::from("f")];
        let asked = || indexes::Asked { feeds: feeds(), ..Default::default() };
        let output = Some(PathBuf::from("g"));
        assert_eq!(parsed("index f"), Ok(Command::Index(asked())));
        for line in ["index f --check", "--check index f"] {
            assert_eq!(parsed(line), Ok(Command::Index(indexes::Asked { check: true, ..asked() })), "{line}");
        }
        for line in ["index f -og", "index --output=g f"] {
            let asked = indexes::Asked { output: output.clone(), ..asked() };
            assert_eq!(parsed(line), Ok(Command::Index(asked)), "{line}");
        }
        let asked = indexes::Asked {
            form: Form::Json,
            follow_links: true,
            jobs: Some(3),
            color: When::Never,
            feeds: ["f", "g"].map(PathBuf::from).to_vec(),
            ..Default::default()
        };
        assert_eq!(parsed("index --json -L --jobs 3 --color never f g"), Ok(Command::Index(asked)));
        assert!(parsed("index -q f g").is_ok());
    }

    /// Whatever stands in the table of options is read, and with a value where it has one.
    #[test]
    fn the_table_is_true() {
        let of_verbs = VERBS.iter().flat_map(|verb| verb.flags.iter().map(move |flag| (verb.name, flag)));
        let everywhere = VERBS.iter().flat_map(|verb| manual::FLAGS.iter().map(move |flag| (verb.name, flag)));
        for (verb, flag) in of_verbs.chain(everywhere) {
            let value = match (flag.value, flag.choices) {
                (Some(_), []) if flag.long == "after" => "=1,2,3".to_string(),
                (Some(_), []) => "=1".to_string(),
                (Some(_), choices) => format!("={}", choices[0]),
                (None, _) => String::new(),
            };
            let read = parsed(&format!("{verb} f --{}{value}", flag.long));
            assert!(read.is_ok(), "--{}: {read:?}", flag.long);
            let other = if flag.value.is_some() { "" } else { "=1" };
            let wrong = parsed(&format!("{verb} --{}{other}", flag.long));
            assert!(wrong.is_err() || matches!(wrong, Ok(Command::Help | Command::Version)), "--{}", flag.long);
            if let Some(short) = flag.short {
                assert_eq!(parsed(&format!("{verb} f -{short}{value}")), read);
            }
        }
        assert!(manual::help().contains(&format!("0 to {MOST_FINDINGS}")));
        assert!(manual::help().contains(&format!("1 to {MOST_JOBS}")));
    }

    #[test]
    fn bad_words() {
        let bad = [
            "",
            "chek f",
            "check",
            "check f --fast",
            "check f --room",
            "check f --room -1",
            "check f --room x",
            "check f --room 18874369",
            "check f --room=",
            "check f --jobs 0",
            "check f --color blue",
            "check f --profile",
            "check f --profile=",
            "check f --profile Boards",
            "check f --profile 1",
            "check f --profile boards --profile boards",
            "check f --after 1,2",
            "check f --after 1,2,3,4",
            "check f --after 1,2,x",
            "check f --json --quiet",
            "check f g --all",
            "check f g --room 3",
            "check f g --after 1,2,3 -q",
            "check f --json --json",
            "check f --json=1",
            "check f --room 1 --room 2",
            "check f -x",
            "check f --jso",
            "check f --output g",
            "report",
            "report f g",
            "report f -o",
            "report f -o g -o h",
            "report f --json",
            "report f --room 3",
            "report f --check",
            "report f --profile none",
            "check f --check",
            "index",
            "index f --json --quiet",
            "index f --all",
            "index f --room 3",
            "index f g -o h",
            "index f -o",
            "index f --check=1",
            "explain",
            "explain x",
            "explain 1 2",
            "explain 1 --json",
            "--generate tea",
        ];
        for line in bad {
            assert!(parsed(line).is_err(), "{line}");
        }
    }

    #[test]
    fn an_option_that_is_not_utf8() {
        let odd = OsStr::from_bytes(b"--\xFF").to_os_string();
        let words = [OsString::from("check"), OsString::from("f"), odd];
        assert_eq!(parse(&words), Err("unknown option '--\u{FFFD}'".to_string()));
        let path = OsStr::from_bytes(b"\xFF").to_os_string();
        let Ok(Command::Check(check)) = parse(&["check".into(), "--".into(), path.clone()]) else { panic!("no check") };
        assert_eq!(check.feeds, [PathBuf::from(path)]);
    }
}
