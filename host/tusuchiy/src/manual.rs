//! The words of the command line, in one table: the help, the manual page and what shells complete are made from it.

use tusuchiy::{Profile, MOST_BYTES, MOST_LINES};

/// An option.
pub struct Flag {
    pub long: &'static str,
    pub short: Option<char>,
    /// What its value is called, if it has one.
    pub value: Option<&'static str>,
    /// The only values that there are, if they can be told.
    pub choices: &'static [&'static str],
    pub help: &'static str,
}

/// A command with its options.
pub struct Verb {
    pub name: &'static str,
    pub operand: &'static str,
    pub help: &'static str,
    pub flags: &'static [Flag],
}

const fn flag(long: &'static str, short: Option<char>, help: &'static str) -> Flag {
    Flag { long, short, value: None, choices: &[], help }
}

const fn valued(long: &'static str, value: &'static str, help: &'static str) -> Flag {
    Flag { long, short: None, value: Some(value), choices: &[], help }
}

// Options that several commands have.
const JSON: Flag = flag("json", None, "one JSON document a line for each feed (docs/JSON.md)");
const QUIET: Flag = flag("quiet", Some('q'), "the verdict alone");
const FOLLOW_LINKS: Flag = flag("follow-links", Some('L'), "read what symbolic links in a feed's folder name");
const JOBS: Flag =
    valued("jobs", "N", "at most N feeds at a time, 1 to 256; as many as there are processors if not given");
const COLOR: Flag = Flag {
    choices: COLORS,
    ..valued("color", "WHEN", "colours: auto (on a terminal, unless NO_COLOR is set), always or never")
};

const PROFILE: Flag = Flag {
    choices: PROFILES,
    ..valued(
        "profile",
        "NAME",
        "the rules: plain (20 to 31) if not given; boards adds 60 to 62, what a departure board can't show",
    )
};

pub const COLORS: &[&str] = &["auto", "always", "never"];
pub const PROFILES: &[&str] = &[Profile::ALL[0].name(), Profile::ALL[1].name()];
pub const GENERATED: &[&str] = &["man", "complete-bash", "complete-fish", "complete-zsh"];

pub const VERBS: &[Verb] = &[
    Verb {
        name: "check",
        operand: "FEED...",
        help: "checks feeds; FEED is a folder or a zip file with stops.txt, routes.txt, trips.txt, stop_times.txt and calendar.txt, calendar_dates.txt or both",
        flags: &[
            JSON,
            flag("all", Some('a'), "every finding or fault, not just the first five of each number"),
            QUIET,
            PROFILE,
            valued("after", "FILE,LINE,RULE", "the findings or faults after this place only (0,0,0 is the beginning)"),
            valued("room", "N", "one page: at most N findings or faults, 0 to 18874368"),
            FOLLOW_LINKS,
            JOBS,
            COLOR,
        ],
    },
    Verb {
        name: "report",
        operand: "FEED",
        help: "checks a feed and writes one page about it, for a browser: findings or faults with filters, up to 100000, a map, time diagrams",
        flags: &[
            Flag { short: Some('o'), ..valued("output", "FILE", "the file to write, as report.html, whole or not at all and never over the feed; standard output if not given") },
            PROFILE,
            FOLLOW_LINKS,
        ],
    },
    Verb {
        name: "index",
        operand: "FEED...",
        help: "writes a sorted index of ids beside each of stops.txt, routes.txt, calendar.txt and trips.txt: stops.ttx and so on; each whole or not at all",
        flags: &[
            flag("check", None, "write nothing, and judge the indexes that are there"),
            Flag {
                short: Some('o'),
                ..valued("output", "FOLDER", "the folder of the indexes, if not that of the feed; a zip file needs one to be written")
            },
            JSON,
            QUIET,
            FOLLOW_LINKS,
            JOBS,
            COLOR,
        ],
    },
    Verb {
        name: "explain",
        operand: "RULE",
        help: "what a refusal (1 to 14, of an index 40 to 46) or a rule (20 to 31, of the profile boards 60 to 62) means, and how to mend it",
        flags: &[],
    },
];

/// Options that stand with every command or alone.
pub const FLAGS: &[Flag] = &[
    flag("help", Some('h'), "these words"),
    flag("version", Some('V'), "the command's version"),
    Flag {
        choices: GENERATED,
        ..valued(
            "generate",
            "KIND",
            "the manual page (man), or what a shell completes (complete-bash, complete-fish, complete-zsh)",
        )
    },
];

/// What an exit status says.
pub const STATUSES: [(u8, &str); 4] = [
    (0, "accepted; of index, all are written or accepted"),
    (1, "findings: the files can be read, and a rule is broken"),
    (2, "refused: a file can't be read as it stands, or an index isn't that of its file"),
    (3, "the command couldn't run, for want of memory, room or time too"),
];

/// What people type most.
const EXAMPLES: [(&str, &str); 8] = [
    ("tusuchiy check feed.zip", "the verdict and the first findings of each rule, or faults of each number"),
    ("tusuchiy check --quiet feed && publish feed", "go on only with an accepted feed"),
    ("tusuchiy check --profile boards feed.zip", "what a departure board can't show is a finding too"),
    ("tusuchiy check --json *.zip | jq .verdict", "many feeds, for a program"),
    ("tusuchiy report feed.zip --output report.html", "a page to forward or to file"),
    ("tusuchiy index feed", "the indexes of a feed's ids, beside its files"),
    ("tusuchiy index --check --quiet feed && use feed", "go on only with indexes that are those of the files"),
    ("tusuchiy explain 21", "what rule 21 means"),
];

const TITLE: &str = "checks the six files of GTFS feeds, and writes indexes beside them";
const MANY: &str = "With several feeds there is one verdict a line, and the exit status is the highest of theirs.";
const PLACE: &str = "A place is FILE:LINE, or FILE:LINE:COLUMN where one field is refused; columns count from 1.";
const PROGRESS: &str = "On a terminal one line on standard error says where a run is that takes a while.";
const REFUSED: &str = "Of a refused feed every fault is named: mend all of them, then check again for findings.";

/// What rules 1 and 2 allow.
fn limits() -> String {
    format!("A file may have {MOST_BYTES} bytes and {MOST_LINES} lines.")
}

impl Flag {
    /// The option as it is typed: `-q, --quiet` or `--room N`.
    fn typed(&self) -> String {
        let short = self.short.map_or(String::new(), |short| format!("-{short}, "));
        let value = self.value.map_or(String::new(), |value| format!(" {value}"));
        format!("{short}--{}{value}", self.long)
    }
}

/// All options of all commands.
pub fn all_flags() -> impl Iterator<Item = &'static Flag> {
    VERBS.iter().flat_map(|verb| verb.flags).chain(FLAGS)
}

/// The page that --help prints.
pub fn help() -> String {
    let mut page = format!("tusuchiy: {TITLE}\n\n");
    let line = |flag: &Flag| entry(&format!("      {}", flag.typed()), flag.help);
    for verb in VERBS {
        page += &entry(&format!("  tusuchiy {} {}", verb.name, verb.operand), verb.help);
        verb.flags.iter().for_each(|flag| page += &line(flag));
    }
    FLAGS.iter().for_each(|flag| page += &entry(&format!("  tusuchiy {}", flag.typed()), flag.help));
    page += "\nExit status:\n";
    STATUSES.iter().for_each(|(status, words)| page += &format!("  {status}  {words}\n"));
    page += &format!("{REFUSED}\n{MANY}\n{PLACE}\n{}\n{PROGRESS}\n\nExamples:\n", limits());
    EXAMPLES.iter().for_each(|(line, words)| page += &format!("  {line}\n      {words}\n"));
    page
}

/// Two columns; what is too wide for the first one puts the second on lines of its own.
fn entry(left: &str, right: &str) -> String {
    const COLUMN: usize = 33;
    const WIDTH: usize = 100;
    let mut lines = vec![String::new()];
    for word in right.split(' ') {
        let last = lines.last_mut().expect("a line");
        if COLUMN + last.len() + word.len() >= WIDTH {
            lines.push(word.to_string());
        } else {
            *last += if last.is_empty() { "" } else { " " };
            *last += word;
        }
    }
    let first = if left.len() + 2 > COLUMN { format!("{left}\n{:COLUMN$}", "") } else { format!("{left:COLUMN$}") };
    first + &lines.join(&format!("\n{:COLUMN$}", "")) + "\n"
}

/// Text for the manual page: nothing in it is an order to the formatter.
fn roff(text: &str) -> String {
    let escaped = text.replace('\\', "\\e").replace('-', "\\-");
    if escaped.starts_with(['.', '\'']) {
        format!("\\&{escaped}")
    } else {
        escaped
    }
}

/// The manual page.
pub fn man() -> String {
    let mut page = format!(".TH TUSUCHIY 1 \"\" \"tusuchiy {}\"\n", env!("CARGO_PKG_VERSION"));
    page += &format!(".SH NAME\ntusuchiy \\- {}\n.SH SYNOPSIS\n", roff(TITLE));
    page.extend(
        VERBS.iter().map(|verb| {
            format!(".B tusuchiy {}\n[\\fIoption\\fR]... \\fI{}\\fR\n.br\n", verb.name, roff(verb.operand))
        }),
    );
    page += ".SH DESCRIPTION\nThe check is proved: a feed is accepted exactly when no rule is broken.\n";
    page += "So is the index: it is accepted exactly when it lists every record once, its ids rising.\n";
    page.extend([REFUSED, MANY, PLACE, &limits(), PROGRESS].map(|sentence| roff(sentence) + "\n"));
    let item = |flag: &Flag| format!(".TP\n.B {}\n{}\n", roff(&flag.typed()), roff(flag.help));
    page.extend(VERBS.iter().map(|verb| {
        let heading = format!("\"{} {}\"", verb.name.to_uppercase(), roff(verb.operand));
        let items: String = verb.flags.iter().map(item).collect();
        format!(".SH {heading}\n{}\n{items}", roff(verb.help))
    }));
    page += ".SH OPTIONS\n";
    page.extend(FLAGS.iter().map(item));
    page += ".SH \"EXIT STATUS\"\n";
    page.extend(STATUSES.iter().map(|(status, words)| format!(".TP\n.B {status}\n{}\n", roff(words))));
    page += ".SH EXAMPLES\n";
    page.extend(EXAMPLES.iter().map(|(line, words)| format!(".TP\n.B {}\n{}\n", roff(line), roff(words))));
    page += ".SH ENVIRONMENT\n.TP\n.B NO_COLOR\nIf set and not empty, no colours unless they are asked for.\n";
    page + ".TP\n.B TERM\nIf dumb or not set, neither colours nor progress.\n"
}

/// What bash completes.
pub fn complete_bash() -> String {
    let words = |flags: &[Flag]| flags.iter().map(|flag| format!("--{}", flag.long)).collect::<Vec<_>>().join(" ");
    let reply = |words: &str| format!("COMPREPLY=($(compgen -W '{words}' -- \"$word\"))");
    // Several commands have an option with the same choices, which is asked about once.
    let mut values: Vec<&Flag> = all_flags().filter(|flag| !flag.choices.is_empty()).collect();
    values.sort_by_key(|flag| flag.long);
    values.dedup_by_key(|flag| flag.long);
    let values =
        values.iter().map(|flag| format!("        --{}) {}; return ;;\n", flag.long, reply(&flag.choices.join(" "))));
    let verbs = VERBS.iter().map(|verb| {
        let all = format!("{} {}", words(verb.flags), words(FLAGS));
        format!("        {}) [[ $word == -* ]] && {} ;;\n", verb.name, reply(all.trim_start()))
    });
    let names: Vec<&str> = VERBS.iter().map(|verb| verb.name).collect();
    let first = reply(&format!("{} {}", names.join(" "), words(FLAGS)));
    [
        "_tusuchiy() {\n    local word=${COMP_WORDS[COMP_CWORD]} before=${COMP_WORDS[COMP_CWORD-1]}\n".to_string(),
        format!("    case $before in\n{}    esac\n", values.collect::<String>()),
        format!("    [[ $COMP_CWORD == 1 ]] && {first} && return\n"),
        format!("    case ${{COMP_WORDS[1]}} in\n{}    esac\n", verbs.collect::<String>()),
        "}\ncomplete -o default -F _tusuchiy tusuchiy\n".to_string(),
    ]
    .concat()
}

/// Words between single quotes; none of the table's has such a mark alone.
fn quoted(text: &str) -> String {
    format!("'{}'", text.replace('\'', "'\\''"))
}

/// What fish completes.
pub fn complete_fish() -> String {
    let mut script = String::new();
    let line = |flag: &Flag, only: &str| {
        let short = flag.short.map_or(String::new(), |short| format!(" -s {short}"));
        let value = match (flag.value, flag.choices) {
            (None, _) => String::new(),
            (_, []) => " -x".to_string(),
            (_, choices) => format!(" -x -a {}", quoted(&choices.join(" "))),
        };
        format!("complete -c tusuchiy{only}{short} -l {}{value} -d {}\n", flag.long, quoted(flag.help))
    };
    for verb in VERBS {
        let (name, help) = (verb.name, quoted(verb.help));
        script += &format!("complete -c tusuchiy -f -n __fish_use_subcommand -a {name} -d {help}\n");
        let only = format!(" -n {}", quoted(&format!("__fish_seen_subcommand_from {name}")));
        verb.flags.iter().for_each(|flag| script += &line(flag, &only));
    }
    FLAGS.iter().for_each(|flag| script += &line(flag, ""));
    script
}

/// What zsh completes.
pub fn complete_zsh() -> String {
    let spec = |flag: &Flag| {
        let help = flag.help.replace(['[', ']', ':'], " ");
        let value = match (flag.value, flag.choices) {
            (None, _) => String::new(),
            (Some(value), []) => format!(":{value}:"),
            (Some(value), choices) => format!(":{value}:({})", choices.join(" ")),
        };
        let long = quoted(&format!("--{}[{help}]{value}", flag.long));
        let short =
            flag.short.map_or(String::new(), |short| format!(" {}", quoted(&format!("-{short}[{help}]{value}"))));
        format!(" \\\n        {long}{short}")
    };
    let mut script = "#compdef tusuchiy\n_tusuchiy() {\n    case $words[2] in\n".to_string();
    for verb in VERBS.iter().filter(|verb| !verb.flags.is_empty()) {
        let specs: String = verb.flags.iter().chain(FLAGS).map(spec).collect();
        script += &format!("    {}) _arguments{specs} \\\n        '1:command:' '*:feed:_files' ;;\n", verb.name);
    }
    let names: Vec<&str> = VERBS.iter().map(|verb| verb.name).collect();
    let specs: String = FLAGS.iter().map(spec).collect();
    script += &format!("    *) _arguments{specs} \\\n        '1:command:({})' ;;\n", names.join(" "));
    script + "    esac\n}\n_tusuchiy \"$@\"\n"
}

#[cfg(test)]
mod tests {
    use super::*;

    /// Every option stands in the help, in the manual page and in what each shell completes.
    #[test]
    fn every_option_is_everywhere() {
        for flag in all_flags() {
            let long = format!("--{}", flag.long);
            for page in [help(), complete_bash(), complete_zsh()] {
                assert!(page.contains(&long), "{long} is not in\n{page}");
            }
            assert!(man().contains(&roff(&long)), "{long} is not in the manual page");
            assert!(complete_fish().contains(&format!(" -l {} ", flag.long)), "{long} is not in fish's");
        }
    }

    #[test]
    fn lines_of_the_help_are_not_too_long() {
        for line in help().lines() {
            assert!(line.len() <= 100, "{line}");
        }
    }
}
