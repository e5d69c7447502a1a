//! The command as people run it: exit statuses, text, JSON and messages, on good and bad input.

mod common;

use cases::limits::MOST_LINES;
use common::json::Json;
use common::{
    assert_cannot, command, command_after, document, example, json, out, program, run, said, status, Folder, RUNNER,
};
use std::ffi::OsStr;
use std::fs;
use std::os::unix::ffi::OsStrExt;
use std::process::{Command, Stdio};

#[test]
fn the_accepted_example() {
    let output = run(&["check", &example("feed")]);
    assert_eq!((status(&output), said(&output)), (0, ""));
    let lines: Vec<&str> = out(&output).lines().collect();
    let records = "records read: stops.txt 5, routes.txt 1, calendar.txt 2, trips.txt 2, stop_times.txt 6";
    assert_eq!(lines[..3], ["accepted", records, "not supplied: calendar_dates.txt"]);
    let time = lines[3].strip_prefix("time: ").and_then(|rest| rest.strip_suffix(" s")).expect("the time");
    assert!(time.parse::<f64>().is_ok_and(|time| time >= 0.0), "{time}");
    assert_eq!(lines.len(), 4);
}

/// A feed whose services stand in calendar_dates.txt alone, and the same with a calendar.txt.
#[test]
fn the_example_by_date() {
    let folder = Folder::of("by-date", "by-date");
    let read = |words: &str| {
        let output = run(&["check", folder.path()]);
        assert_eq!((status(&output), said(&output)), (0, ""));
        let lines: Vec<&str> = out(&output).lines().collect();
        assert_eq!(lines[..lines.len() - 1].join("\n"), format!("accepted\n{words}"));
        let records = document(&[folder.path()]);
        let records = records.get("records").list();
        records.iter().map(|count| if count == &Json::Null { -1 } else { count.number() }).collect::<Vec<_>>()
    };
    let of_dates =
        "records read: stops.txt 2, routes.txt 1, trips.txt 2, stop_times.txt 4, calendar_dates.txt 3\nnot supplied: calendar.txt";
    assert_eq!(read(of_dates), [2, 1, -1, 2, 4, 3]);
    folder.put("calendar.txt", b"");
    assert_eq!(read(of_dates), [2, 1, -1, 2, 4, 3], "an empty file is the same as none");
    folder.put("calendar.txt", CALENDAR);
    let of_both =
        "records read: stops.txt 2, routes.txt 1, calendar.txt 0, trips.txt 2, stop_times.txt 4, calendar_dates.txt 3";
    assert_eq!(read(of_both), [2, 1, 0, 2, 4, 3]);
}

/// The header of calendar.txt.
const CALENDAR: &[u8] = b"service_id,monday,tuesday,wednesday,thursday,friday,saturday,sunday,start_date,end_date\n";

#[test]
fn files_that_are_not_read_are_named() {
    let folder = Folder::new("unread-files");
    folder.put("shapes.txt", b"");
    folder.put("agency\n.txt", b"");
    let output = run(&["check", folder.path()]);
    assert_eq!(out(&output).lines().nth(3), Some("files not read: agency\\x0A.txt, shapes.txt"));
    (0..30).for_each(|number| folder.put(&format!("{number:02}"), b""));
    let output = run(&["check", folder.path()]);
    assert!(out(&output).contains("files not read: 00, 01, 02,"), "{}", out(&output));
    assert!(out(&output).contains(", 19 and 12 more\n"), "{}", out(&output));
    let report = document(&[folder.path()]);
    assert_eq!(report.get("unread").get("count").number(), 32);
    assert_eq!(report.get("unread").get("names").list().len(), 20);
}

/// The feed of document 01 with its five findings; lines, order and words by hand.
#[test]
fn the_example_with_findings() {
    let feed = example("findings");
    let output = run(&["check", &feed]);
    assert_eq!((status(&output), said(&output)), (1, ""));
    let wanted = "\
findings: 5

rule 21: a reference names no line (2)
FEED/trips.txt:3: service_id \"X\" stands in neither calendar.txt nor calendar_dates.txt
    R,X,U
FEED/stop_times.txt:4: stop_id \"C\" stands on no line of stops.txt
    T,,,C,2

rule 28: the stop_sequence stands on an earlier line of the trip (1)
FEED/stop_times.txt:4: the trip has stop_sequence 2 on line 3 already
    T,,,C,2

rule 29: the trip arrives before it departs from a stop with a smaller stop_sequence (1)
FEED/stop_times.txt:3: arrival_time 07:59:59 is before departure_time 08:00:00 on line 2, whose stop_sequence 1 is below 2
    T,07:59:59,08:05:00,B,2

rule 30: the trip has fewer than two lines in stop_times.txt (1)
FEED/trips.txt:3: trip_id \"U\" has no line in stop_times.txt
    R,X,U

`tusuchiy explain 21` says more
";
    assert_eq!(out(&output), wanted.replace("FEED", &feed));
}

/// The feed for boards: accepted as any other, and with the profile four findings; order, words and carets by hand.
#[test]
fn the_example_for_boards() {
    let feed = example("boards");
    for plain in [&["check", &feed][..], &["check", "--profile", "plain", &feed], &["check", &feed, "--profile=plain"]]
    {
        let output = run(plain);
        assert_eq!((status(&output), said(&output)), (0, ""), "{plain:?}");
        assert!(out(&output).starts_with("accepted\nrecords read: stops.txt 7, "), "{}", out(&output));
    }
    let output = run(&["check", "--profile", "boards", &feed]);
    assert_eq!((status(&output), said(&output)), (1, ""));
    let wanted = "\
findings: 4 (profile boards)

rule 60: the line isn't timed (1)
FEED/stop_times.txt:3: arrival_time and departure_time are empty
    42-late,,,MILL,2,,
            ^^

rule 61: pickup or drop-off has to be arranged (1)
FEED/stop_times.txt:4: pickup_type is 2 (must phone the agency); drop_off_type is 3 (must arrange with the driver)
    42-late,21:44:00,21:44:00,FARM,3,2,3
                                     ^ ^

rule 62: a time is 48:00:00 or later (2)
FEED/stop_times.txt:8: departure_time is 48:10:00, wanted: before 48:00:00
    COAST-1,47:40:00,48:10:00,CAPE,3,,
                     ^^^^^^^^
FEED/stop_times.txt:9: arrival_time is 58:30:00 and departure_time is 58:30:00, wanted: before 48:00:00
    COAST-1,58:30:00,58:30:00,NORTH,4,1,
            ^^^^^^^^ ^^^^^^^^

`tusuchiy explain 60` says more
";
    assert_eq!(out(&output), wanted.replace("FEED", &feed));
}

/// With the profile each verdict says so; findings of other rules have their words and no carets, as without it.
#[test]
fn the_profile_stands_on_the_verdict() {
    let cases = [("boards", 1, "findings: 4"), ("findings", 1, "findings: 6"), ("refused", 2, "refused")];
    for (name, code, verdict) in cases {
        for words in [&["check", "--quiet"][..], &["check"], &["check", "--room", "0"]] {
            let output = run(&[words, &["--profile", "boards", &example(name)]].concat());
            let first = out(&output).lines().next().expect("a line");
            assert_eq!((status(&output), first), (code, &format!("{verdict} (profile boards)")[..]), "{words:?}");
        }
    }
    let [plain, boards] = ["plain", "boards"].map(|profile| {
        let output = run(&["check", "--profile", profile, &example("findings")]);
        out(&output).lines().skip(1).map(str::to_string).collect::<Vec<_>>()
    });
    let end = plain.len() - 1;
    assert_eq!(boards[..end], plain[..end], "all but the hint, behind what is added");
    let added = [
        "rule 60: the line isn't timed (1)",
        &format!("{}/stop_times.txt:4: arrival_time and departure_time are empty", example("findings")),
        "    T,,,C,2",
        "      ^^",
        "",
        "`tusuchiy explain 21` says more",
    ];
    assert_eq!(boards[end..], added);
}

/// A feed that a board can show is accepted with the profile, and the verdict says by which rules.
#[test]
fn a_feed_that_a_board_can_show() {
    let feed = example("by-date");
    let output = run(&["check", "--profile", "boards", &feed]);
    assert_eq!((status(&output), said(&output)), (0, ""));
    assert!(out(&output).starts_with("accepted (profile boards)\nrecords read: "), "{}", out(&output));
    let coloured = run(&["check", "--profile=boards", "--color=always", &feed]);
    assert!(out(&coloured).starts_with("\u{1b}[1;32maccepted\u{1b}[0m (profile boards)\n"), "{}", out(&coloured));
    let report = document(&["--profile", "boards", &feed]);
    assert_eq!(["verdict", "profile"].map(|name| report.get(name).text()), ["accepted", "boards"]);
}

/// Pages of the list that was asked for: a starting place may be a finding that only the profile has, with the profile or without.
#[test]
fn pages_with_the_profile() {
    let feed = example("findings");
    let page = |words: &[&str]| places(&document(&[words, &[&feed]].concat()));
    let all = [[4, 3, 21], [4, 3, 30], [5, 3, 29], [5, 4, 21], [5, 4, 28], [5, 4, 60]];
    let boards = ["--profile", "boards"];
    assert_eq!(page(&boards), all);
    let mut joined: Vec<[i64; 3]> = Vec::new();
    for turn in 0.. {
        let [file, line, rule] = joined.last().copied().unwrap_or([0, 0, 0]);
        let after = format!("--after={file},{line},{rule}");
        let next = page(&[&boards[..], &[&after, "--room=1"]].concat());
        assert_eq!(next.len(), usize::from(turn < all.len()), "page {turn}");
        if next.is_empty() {
            break;
        }
        joined.extend(next);
    }
    assert_eq!(joined, all);
    assert_eq!(page(&["--after=5,4,28"]), [[0; 3]; 0]);
    assert_eq!(page(&[&boards[..], &["--after=5,4,28"]].concat()), all[5..]);
    assert_eq!(page(&["--after=5,3,62"]), all[3..5]);
    let output = run(&["check", &feed, "--profile", "boards", "--after", "5,4,28"]);
    let wanted = "rule 60: arrival_time and departure_time are empty\n    T,,,C,2\n      ^^\npage after 5,4,28: 1 of 6 findings\n";
    assert!(out(&output).ends_with(wanted), "{}", out(&output));
}

/// Whatever the columns' order, each field is marked; a line that doesn't fit the row is cut around them.
#[test]
fn fields_of_the_profile_are_marked() {
    let folder = Folder::of("boards", "marked");
    let note = "x".repeat(60);
    let times = format!(
        "drop_off_type,note,departure_time,trip_id,stop_id,stop_sequence,arrival_time,pickup_type\n\
         ,,21:30:00,42-late,PORT,1,21:30:00,\n\
         2,{note},\"21:31:00\",42-late,MILL,2,,1\n\
         ,{note},48:00:00,42-late,CHURCH,3,47:59:59,0\n\
         ,,20:00:00,COAST-1,PORT,1,20:00:00,\n\
         3,,20:01:00,COAST-1,PORT,2,20:01:00,2\n\
         2,,20:02:00,COAST-1,PORT,3,20:02:00,1\n"
    );
    folder.put("stop_times.txt", times.as_bytes());
    let output = run(&["check", "--profile", "boards", folder.path(), "--after", "5,3,59"]);
    let lines: Vec<&str> = out(&output).lines().filter(|line| line.starts_with("    ")).collect();
    // 67 columns are left beside the marks of a cut: what stands behind the field, the field, and what fits before it.
    let x = |count: usize| "x".repeat(count);
    let wanted = [
        format!("    ... {},\"21:31:00\",42-late,MILL,2,,1", x(67 - 29)),
        format!("{}^", " ".repeat(8 + 65)),
        format!("    2,{},\"21: ...", x(60)),
        "    ^".to_string(),
        format!("    ... {},48:00:00,42-late,CHURCH,3,47:59:59,0", x(67 - 37)),
        format!("{}^^^^^^^^", " ".repeat(8 + 31)),
        "    3,,20:01:00,COAST-1,PORT,2,20:01:00,2".to_string(),
        "    ^                                   ^".to_string(),
        "    2,,20:02:00,COAST-1,PORT,3,20:02:00,1".to_string(),
        "    ^".to_string(),
    ];
    assert_eq!(lines, wanted, "{}", out(&output));
}

#[test]
fn the_refused_example() {
    let feed = example("refused");
    let output = run(&["check", &feed]);
    assert_eq!((status(&output), said(&output)), (2, ""));
    let wanted = "\
refused
FEED/stop_times.txt:4:3: refusal 13: a value doesn't have the form that its column asks for: departure_time is \"8:5:00\", \
wanted: a time as 8:05:00 or 08:05:00, hours 0 to 99, minutes and seconds 00 to 59
    B7-out-1,8:25:00,8:5:00,HILL,3,1
                     ^^^^^^
nothing else is refused: mend the whole of this line, then check again for findings
`tusuchiy explain 13` says more
";
    assert_eq!(out(&output), wanted.replace("FEED", &feed));
}

#[test]
fn quiet_prints_the_verdict_alone() {
    for (name, code, verdict) in
        [("feed", 0, "accepted\n"), ("findings", 1, "findings: 5\n"), ("refused", 2, "refused\n")]
    {
        let output = run(&["check", "--quiet", &example(name)]);
        assert_eq!((status(&output), out(&output)), (code, verdict));
        assert!(output.stderr.is_empty());
    }
}

/// File, line and rule of each finding of a JSON report.
fn places(report: &Json) -> Vec<[i64; 3]> {
    let number = |found: &Json, name| found.get(name).number();
    report.get("findings").list().iter().map(|found| ["file", "line", "rule"].map(|name| number(found, name))).collect()
}

/// The members of a document, in their order.
const MEMBERS: [&str; 15] = [
    "version",
    "verdict",
    "profile",
    "refusal",
    "faults_total",
    "faults",
    "total",
    "written",
    "page",
    "findings",
    "totals",
    "feed",
    "folder",
    "records",
    "unread",
];

#[test]
fn json_of_findings() {
    let feed = example("findings");
    let output = run(&["check", &feed, "--json"]);
    assert_eq!(status(&output), 1);
    assert_eq!(out(&output).matches('\n').count(), 1, "one document, one line");
    let report = json::read(out(&output));
    assert_eq!(report.names(), MEMBERS);
    assert_eq!(report.get("version").number(), 3);
    assert_eq!(["verdict", "profile"].map(|name| report.get(name).text()), ["findings", "plain"]);
    assert_eq!((report.get("total").number(), report.get("written").number()), (5, 5));
    assert_eq!((report.get("refusal"), report.get("page")), (&Json::Null, &Json::Null));
    assert_eq!(places(&report), [[4, 3, 21], [4, 3, 30], [5, 3, 29], [5, 4, 21], [5, 4, 28]]);
    let first = &report.get("findings").list()[0];
    assert_eq!(first.names(), ["file", "name", "line", "rule", "meaning", "text", "cut", "words", "about"]);
    assert_eq!((first.get("name").text(), first.get("text").text()), ("trips.txt", "R,X,U"));
    assert_eq!(first.get("cut"), &Json::Bool(false));
    let totals: Vec<[i64; 2]> =
        report.get("totals").list().iter().map(|sum| ["rule", "count"].map(|name| sum.get(name).number())).collect();
    assert_eq!(totals, [[21, 2], [28, 1], [29, 1], [30, 1]]);
    assert_eq!((report.get("feed").text(), report.get("folder")), (&feed[..], &Json::Null));
    let (dates, others) = report.get("records").list().split_last().expect("six files");
    assert_eq!(others.iter().map(Json::number).collect::<Vec<_>>(), [2, 1, 1, 2, 3]);
    assert_eq!(dates, &Json::Null, "calendar_dates.txt isn't supplied");
}

#[test]
fn json_of_an_accepted_and_of_a_refused_feed() {
    let output = run(&["check", "--json", &example("feed")]);
    let report = json::read(out(&output));
    assert_eq!((status(&output), report.get("verdict").text()), (0, "accepted"));
    assert!(report.get("findings").list().is_empty() && report.get("totals").list().is_empty());
    assert_eq!((report.get("total").number(), report.get("written").number()), (0, 0));

    let output = run(&["check", "--json", &example("refused")]);
    let report = json::read(out(&output));
    assert_eq!((status(&output), report.get("verdict").text()), (2, "refused"));
    let refusal = report.get("refusal");
    let members =
        ["file", "name", "line", "column", "column_name", "number", "meaning", "text", "cut", "words", "about"];
    assert_eq!(refusal.names(), members);
    assert_eq!(["number", "file", "line", "column"].map(|name| refusal.get(name).number()), [13, 5, 4, 3]);
    assert_eq!(refusal.get("column_name").text(), "departure_time");
    assert_eq!(refusal.get("text").text(), "B7-out-1,8:25:00,8:5:00,HILL,3,1");
    assert_eq!(report.get("records"), &Json::Null);
    assert_eq!((report.get("faults_total").number(), report.get("faults").list()), (1, std::slice::from_ref(refusal)));
}

#[test]
fn one_page() {
    let feed = example("findings");
    let page = |words: &[&str]| {
        let output = run(&[&["check", "--json", &feed], words].concat());
        assert_eq!(status(&output), 1, "the verdict goes by the total");
        json::read(out(&output))
    };
    let report = page(&["--room", "2"]);
    assert_eq!(places(&report), [[4, 3, 21], [4, 3, 30]]);
    assert_eq!((report.get("total").number(), report.get("written").number()), (5, 2));
    assert_eq!(report.get("totals"), &Json::Null);
    assert_eq!(report.get("page").get("room").number(), 2);
    let report = page(&["--after=4,3,21", "--room=2"]);
    assert_eq!(places(&report), [[4, 3, 30], [5, 3, 29]]);
    let report = page(&["--after", "5,3,2147483647"]);
    assert_eq!(places(&report), [[5, 4, 21], [5, 4, 28]]);
    assert_eq!(report.get("page").get("room"), &Json::Null);
    assert!(places(&page(&["--after", "5,4,28"])).is_empty());
    assert!(places(&page(&["--room", "0"])).is_empty());
    assert_eq!(places(&page(&["--after", "-1,99,99", "--room", "18874368"])).len(), 5);
    let output = run(&["check", &feed, "--after", "4,3,30", "--room", "1"]);
    let wanted = format!("findings: 5\n{feed}/stop_times.txt:3: rule 29: arrival_time 07:59:59 is before ");
    assert!(out(&output).starts_with(&wanted), "{}", out(&output));
    assert!(out(&output).ends_with("\npage after 4,3,30: 1 of 5 findings\n"), "{}", out(&output));
}

/// More findings than one call hands out: 65,535 routes without a name, all but the first with an id that was there.
#[test]
fn after_alone_goes_to_the_end() {
    let folder = Folder::new("after");
    folder.put("routes.txt", format!("route_id,route_type\n{}", "B7,3\n".repeat(65_535)).as_bytes());
    let output = run(&["check", "--after", "2,3,20", folder.path()]);
    assert_eq!(status(&output), 1);
    assert_eq!(out(&output).lines().next(), Some("findings: 131069"));
    assert_eq!(out(&output).lines().last(), Some("page after 2,3,20: 131067 of 131069 findings"));
}

/// The examples in docs/JSON.md are what the command prints.
#[test]
fn the_documented_examples_are_true() {
    let page = include_str!("../../../docs/JSON.md");
    let examples: Vec<&str> =
        page.split("```json\n").skip(1).map(|rest| rest.split("```").next().expect("an end")).collect();
    let mut report = run(&["check", "--json", "--room", "2", &example("findings")]);
    report.stdout = out(&report).replace(&example("findings"), "examples/findings").into();
    assert_eq!(json::read(out(&report)), json::read(examples[0]));
    assert_eq!(document(&[&example("refused")]).get("refusal"), &json::read(examples[1]));
    let (faults, shown) = (document(&["--room", "2", &example("faults")]), json::read(examples[2]));
    assert_eq!(
        ["faults_total", "faults"].map(|name| faults.get(name)),
        ["faults_total", "faults"].map(|name| shown.get(name))
    );
    let mut index = run(&["index", "--check", "--json", &example("by-date")]);
    index.stdout = out(&index).replace(&example("by-date"), "examples/by-date").into();
    assert_eq!(json::read(out(&index)), json::read(examples[3]));
    assert_eq!(examples.len(), 4);
}

/// The examples in the README are what the command prints.
#[test]
fn the_readmes_examples_are_true() {
    let page = include_str!("../../../README.md");
    let runs: [(&[&str], &str); 3] = [(&[], "refused"), (&[], "faults"), (&["--profile", "boards"], "boards")];
    for (options, name) in runs {
        let words = [&["check"], options].concat();
        let shown = page.split(&format!("    $ ./tusuchiy {} examples/{name}\n", words.join(" "))).nth(1);
        // An example ends where the page goes on without four blanks.
        let shown = shown.expect("an example").lines().take_while(|line| line.is_empty() || line.starts_with("    "));
        let shown: Vec<&str> = shown.map(|line| line.strip_prefix("    ").unwrap_or(line)).collect();
        let output = run(&[&words[..], &[&example(name)]].concat());
        let said = out(&output).replace(&example(name), &format!("examples/{name}"));
        assert_eq!(shown.join("\n").trim_end(), said.trim_end());
    }
}

#[test]
fn whole_files_are_refused_without_a_line() {
    let folder = Folder::new("whole");
    folder.put("trips.txt", b"");
    let output = run(&["check", folder.path()]);
    assert_eq!(status(&output), 2);
    let wanted = format!("refused\n{}: refusal 4: ", folder.at("trips.txt"));
    assert!(out(&output).starts_with(&wanted), "{}", out(&output));
    assert_eq!(out(&output).lines().count(), 4);
    let report = document(&[folder.path()]);
    assert_eq!(report.get("refusal").get("line").number(), 0);
    assert_eq!(report.get("refusal").get("text"), &Json::Null);
}

#[test]
fn text_from_a_feed_is_printed_safely() {
    let folder = Folder::new("safe");
    let mut stops =
        b"stop_id,stop_name,stop_lat,stop_lon\nA,\x1b[31m\x07\x00\x7f\xC2\x9B\xFF\xE2\x80\xAE\xC2\xA0\xE2\xA0\x80\\,9,"
            .to_vec();
    stops.extend(b"9,9\n");
    folder.put("stops.txt", &stops);
    let output = run(&["check", folder.path()]);
    assert_eq!(status(&output), 2);
    let line = out(&output).lines().nth(2).expect("a line");
    assert_eq!(line, "    A,\\x1B[31m\\x07\\x00\\x7F\\u{009B}\\xFF\\u{202E}\\u{00A0}\\u{2800}\\\\,9,9,9");
    let output = run(&["check", "--json", folder.path()]);
    assert!(output.stdout.iter().all(|&byte| byte == b'\n' || (b' '..=b'~').contains(&byte)));
    let report = json::read(out(&output));
    let text = report.get("refusal").get("text").text().to_string();
    assert_eq!(text, "A,\u{1b}[31m\u{7}\u{0}\u{7f}\u{9b}\u{fffd}\u{202e}\u{a0}\u{2800}\\,9,9,9");
}

#[test]
fn long_lines_are_cut() {
    let folder = Folder::new("long");
    let line = [&b"A,"[..], &[b'x'; 1000], b",1,2,3\n"].concat();
    folder.put("stops.txt", &[&b"stop_id,stop_name,stop_lat,stop_lon\n"[..], &line].concat());
    let output = run(&["check", folder.path()]);
    assert!(out(&output).contains("xxx ... (1008 bytes)\n"), "{}", out(&output));
    let report = document(&[folder.path()]);
    assert_eq!(report.get("refusal").get("cut"), &Json::Bool(true));
    assert_eq!(report.get("refusal").get("text").text().len(), 400);
}

/// Many findings: every route is without a name, and every second one repeats the id above it.
fn many_findings(name: &str) -> Folder {
    let folder = Folder::new(name);
    let mut routes = b"route_id,route_type\n".to_vec();
    (0..2001).for_each(|line| routes.extend(format!("r{},3\n", line / 2).bytes()));
    folder.put("routes.txt", &routes);
    folder
}

/// 2,001 of rule 25, 1,000 of rule 20, and the two trips whose route B7 is gone.
#[test]
fn a_long_list_is_short_unless_all_is_asked_for() {
    let folder = many_findings("many");
    let output = run(&["check", folder.path()]);
    assert_eq!(status(&output), 1);
    assert!(out(&output).starts_with("findings: 3003\n"));
    let headings: Vec<&str> = out(&output).lines().filter(|line| line.starts_with("rule ")).collect();
    let counts: Vec<&str> = headings.iter().map(|line| line.rsplit(' ').next().expect("a word")).collect();
    assert_eq!(counts, ["(1000)", "(2)", "(2001)"]);
    let more: Vec<&str> = out(&output).lines().filter(|line| line.starts_with("and ")).collect();
    assert_eq!(more, ["and 995 more, which --all shows", "and 1996 more, which --all shows"]);
    // A blank line and a heading for each rule, two lines for each finding shown, one for the rest of a rule.
    assert_eq!(out(&output).lines().count(), 1 + 3 * 2 + 2 * (5 + 2 + 5) + 2 + 2);
    let output = run(&["check", "--all", folder.path()]);
    assert_eq!(out(&output).lines().count(), 1 + 3 * 2 + 2 * 3003 + 2);
}

#[test]
fn colours_where_they_are_asked_for() {
    let feeds = [
        ("findings", "\u{1b}[1;31mfindings: 5\u{1b}[0m\n"),
        ("refused", "HILL,3,1\n    \u{1b}[1;31m                 ^^^^^^\u{1b}[0m\n"),
    ];
    for (name, painted) in feeds {
        let coloured = run(&["check", "--color", "always", &example(name)]);
        assert!(out(&coloured).contains(painted), "{}", out(&coloured));
        let plain = run(&["check", "--color=never", &example(name)]);
        assert_eq!(run(&["check", &example(name)]).stdout, plain.stdout);
        let (first, pieces) = out(&coloured).split_once('\u{1b}').expect("an escape");
        let bare = pieces.split('\u{1b}').map(|piece| piece.split_once('m').expect("the end of an escape").1);
        assert_eq!(format!("{first}{}", bare.collect::<String>()), out(&plain), "colours change nothing else");
    }
}

/// What the command writes to a terminal, standard output and standard error together.
fn on_a_terminal(words: &[&str], term: &str, no_color: &str) -> String {
    let quoted: Vec<String> =
        program().iter().map(String::as_str).chain(words.iter().copied()).map(|word| format!("'{word}'")).collect();
    let mut script = Command::new("script");
    script.args(["-qec", &quoted.join(" "), "/dev/null"]).stdin(Stdio::null());
    let output = script.env("TERM", term).env("NO_COLOR", no_color).output().expect("script, which Debian always has");
    String::from_utf8_lossy(&output.stdout).into_owned()
}

/// Colours go to a terminal that can show them, and nothing of it to others or with --quiet.
#[test]
fn colours_go_to_able_terminals_only() {
    let feed = example("feed");
    let check = ["check", &feed];
    let quiet = ["check", "--quiet", &feed];
    assert!(on_a_terminal(&check, "xterm", "").starts_with("\u{1b}[1;32maccepted"));
    for (words, term, no_color) in [(check, "xterm", "1"), (check, "dumb", "")] {
        assert!(!on_a_terminal(&words, term, no_color).contains('\u{1b}'), "{term} {no_color}");
    }
    for term in ["xterm", "dumb"] {
        assert!(!on_a_terminal(&quiet, term, "").contains('\u{1b}'), "{term}");
    }
}

/// What takes the line of progress away.
const WIPE: &str = "\r\u{1b}[K";

/// A feed whose check takes a while, with a finding on every line of stop_times.txt.
fn slow(name: &str) -> Folder {
    let folder = Folder::new(name);
    let calls: String =
        (2..=MOST_LINES).map(|line| format!("T{},8:00:00,8:00:00,HILL,{line}\n", line * 7 % 1000)).collect();
    let header = "trip_id,arrival_time,departure_time,stop_id,stop_sequence\n";
    folder.put("stop_times.txt", format!("{header}{calls}").as_bytes());
    folder
}

/// Fails unless the line of progress told these steps, each time in its own place, and is gone where all is said.
fn assert_progress(terminal: &str, steps: &[&str], last: &str) {
    let lines: Vec<&str> = terminal.split(WIPE).collect();
    for step in steps {
        assert!(lines.iter().any(|line| line.starts_with(&format!("tusuchiy: {step}"))), "{step}: {terminal:?}");
    }
    let [first, shown @ .., end] = &lines[..] else { panic!("{terminal:?}") };
    assert!(first.is_empty() && end.starts_with(last) && end.is_empty() == last.is_empty(), "{terminal:?}");
    let in_place = |line: &&str| line.is_empty() || line.starts_with("tusuchiy: ") && line.ends_with(" s");
    assert!(shown.iter().all(|line| in_place(&line) && !line.contains('\n') && line.len() < 80), "{terminal:?}");
}

/// One line on a terminal says where the run is, and nothing on any other, nor in a file or a pipe.
#[test]
fn progress_is_one_line_on_a_terminal() {
    let slow = slow("slow");
    let feed = slow.path();
    assert_progress(&on_a_terminal(&["check", feed], "xterm", "1"), &["checking "], "findings: ");
    let colored = on_a_terminal(&["check", feed], "xterm", "");
    assert!(colored.contains(&format!("{WIPE}\u{1b}[1;31mfindings: ")), "{colored:?}");
    // The list goes to a file, and the terminal is told how far it is.
    let to_file = format!("{feed}' --json > '{}", slow.at("list"));
    assert_progress(&on_a_terminal(&["check", &to_file], "xterm", ""), &["checking ", "writing the list, "], "");
    let report = ["report", feed, "-o", &slow.at("report.html")];
    assert_progress(&on_a_terminal(&report, "xterm", "1"), &["checking ", "writing the report"], "findings: ");
    for (words, term) in [(&["check", feed][..], "dumb"), (&["check", "--quiet", feed], "xterm")] {
        assert!(!on_a_terminal(words, term, "1").contains('\u{1b}'), "{words:?}");
    }
    let output = command().env("TERM", "xterm").args(["check", feed]).output().expect("the command runs");
    assert_eq!((status(&output), said(&output)), (1, ""));
    assert!(!out(&output).contains('\u{1b}'));
}

/// Of many feeds it says how many are done, and is gone wherever a verdict or a complaint is printed.
#[test]
fn progress_of_many_feeds() {
    let slow = slow("slow-many");
    let (feed, nowhere) = (slow.path(), slow.at("nowhere"));
    let terminal = on_a_terminal(&["check", "--jobs", "1", feed, &nowhere, feed], "xterm", "1");
    let lines: Vec<&str> = terminal.split(WIPE).collect();
    for told in ["tusuchiy: 0 of 3 feeds, ", "tusuchiy: 2 of 3 feeds, "] {
        assert!(lines.iter().any(|line| line.starts_with(told)), "{told}: {terminal:?}");
    }
    let printed: String = lines.into_iter().filter(|line| !line.contains(" of 3 feeds, ")).collect();
    let [one, complaint, other] = printed.lines().collect::<Vec<_>>()[..] else { panic!("{printed:?}") };
    assert!(one == other && one.starts_with(&format!("{feed}: findings: ")), "{printed:?}");
    assert!(complaint.starts_with("tusuchiy: can't read ") && complaint.contains("nowhere: "), "{printed:?}");
}

/// Whoever ends the command gets the line back empty.
#[test]
fn progress_is_gone_after_an_interrupt() {
    let slow = slow("slow-end");
    let to_file = format!("{}' --json > '{}", slow.path(), slow.at("list"));
    let quoted: Vec<String> =
        program().iter().chain([&"check".to_string(), &to_file]).map(|word| format!("'{word}'")).collect();
    let mut script = Command::new("script");
    script.args(["-qec", &format!("timeout --foreground -s INT 1 {}", quoted.join(" ")), "/dev/null"]);
    let output = script.env("TERM", "xterm").stdin(Stdio::null()).output().expect("script, which Debian always has");
    assert_progress(&String::from_utf8_lossy(&output.stdout), &[""], "");
}

#[test]
fn explain_prints_the_clerks_page() {
    for number in (1..=14).chain(20..=31).chain(40..=46).chain(60..=62) {
        let output = run(&["explain", &number.to_string()]);
        assert_eq!(status(&output), 0);
        let word = if matches!(number, 20..=31 | 60..=62) { "Rule" } else { "Refusal" };
        assert!(out(&output).starts_with(&format!("## {word} {number}: ")), "{}", out(&output));
        assert_eq!(out(&output).matches("\n#").count(), 0);
        assert!(out(&output).contains("**How to mend it.**"));
    }
    for bad in ["0", "15", "19", "32", "39", "47", "59", "63"] {
        assert_cannot(&["explain", bad], &["there is no refusal or rule"]);
    }
    for number in 60..=62 {
        assert!(out(&run(&["explain", &number.to_string()])).contains("ested with the profile for boards only"));
    }
}

#[test]
fn bad_words_on_the_command_line() {
    let feed = example("feed");
    assert_cannot(&[], &["say what to do"]);
    assert_cannot(&["chek", &feed], &["unknown command 'chek'"]);
    assert_cannot(&["\u{1b}[2J"], &["'\\x1B[2J'"]);
    assert_cannot(&["check"], &["check needs a feed"]);
    assert_cannot(&["check", &feed, "--fast"], &["unknown option '--fast'"]);
    assert_cannot(&["check", &feed, "-x"], &["unknown option '-x'"]);
    assert_cannot(&["check", &feed, "--room"], &["--room needs a value"]);
    assert_cannot(&["check", &feed, "--room", "-1"], &["--room takes a number from 0 to 18874368, and not '-1'"]);
    assert_cannot(&["check", &feed, "--room", "18874369"], &["--room takes a number from 0 to 18874368"]);
    assert_cannot(&["check", &feed, "--json=yes"], &["--json takes no value"]);
    assert_cannot(&["check", &feed, "--after", "1,2"], &["--after takes three numbers"]);
    assert_cannot(&["check", &feed, "--after", "1,2,99999999999"], &["--after takes three numbers"]);
    assert_cannot(&["check", &feed, "--json", "--quiet"], &["don't go together"]);
    let wrong = "--profile takes plain, boards, and not ";
    assert_cannot(&["check", &feed, "--profile", "board"], &[&format!("{wrong}'board'")]);
    assert_cannot(&["report", &feed, "--profile="], &[&format!("{wrong}''")]);
    assert_cannot(&["check", &feed, "--profile"], &["--profile needs a value"]);
    assert_cannot(&["check", "--profile=plain", &feed, "--profile", "boards"], &["--profile stands twice"]);
    assert_cannot(&["index", &feed, "--profile", "plain"], &["index takes no --profile"]);
    assert_cannot(&["explain", "60", "--profile", "boards"], &["explain takes no --profile"]);
    assert_cannot(&["index"], &["index needs a feed"]);
    assert_cannot(&["index", &feed, "--room", "3"], &["index takes no --room"]);
    assert_cannot(&["index", &feed, &feed, "-o", "x"], &["--output takes one feed"]);
    assert_cannot(&["check", &feed, "--check"], &["check takes no --check"]);
    assert_cannot(&["explain"], &["explain takes one number"]);
    assert_cannot(&["explain", "x"], &["explain takes a number"]);
    let output =
        command().args(["check", &feed]).arg(OsStr::from_bytes(b"--\xFF\x1b")).output().expect("the command runs");
    assert_eq!((status(&output), out(&output)), (3, ""));
    assert_eq!(said(&output), "tusuchiy: unknown option '--\u{FFFD}\\x1B' (see tusuchiy --help)\n");
}

#[test]
fn help_and_version_are_there() {
    let help = run(&["--help"]);
    assert_eq!(status(&help), 0);
    let words = ["check FEED", "--json", "--after", "--room", "--quiet", "--profile NAME", "index FEED", "--check"];
    for word in words.into_iter().chain(["explain", "Exit status", "FILE:LINE:COLUMN"]) {
        assert!(out(&help).contains(word), "{word}");
    }
    for words in [&["-h"][..], &["check", "--help"], &["check", "-h"], &["explain", "--help"], &["help"]] {
        assert_eq!(run(words).stdout, help.stdout, "{words:?}");
    }
    for words in [&["--version"][..], &["-V"], &["check", "--version"]] {
        let output = run(words);
        assert_eq!((status(&output), out(&output)), (0, "tusuchiy 0.10.0\n"), "{words:?}");
    }
}

/// A path behind `--` may look like an option.
#[test]
fn paths_behind_two_dashes() {
    let folder = Folder::empty("dashes");
    folder.put_feed("--json", &common::example_files("feed"));
    let output = command().args(["check", "-q", "--", "--json"]).current_dir(&folder.0).output().expect("it runs");
    assert_eq!((status(&output), out(&output)), (0, "accepted\n"));
}

/// What bash completes is tried in bash.
#[test]
fn bash_completes() {
    let script = run(&["--generate", "complete-bash"]);
    assert_eq!(status(&script), 0);
    let complete = |words: &str, place: usize| {
        let rest = format!("COMP_WORDS=({words}) COMP_CWORD={place}; _tusuchiy; echo \"${{COMPREPLY[@]}}\"");
        let output = Command::new("bash").args(["-c", &format!("{}\n{rest}", out(&script))]).output().expect("bash");
        assert_eq!(said(&output), "");
        out(&output).trim_end().to_string()
    };
    assert_eq!(complete("tusuchiy ch", 1), "check");
    assert_eq!(complete("tusuchiy check --js", 2), "--json");
    assert_eq!(complete("tusuchiy check --fo", 2), "--follow-links");
    assert_eq!(complete("tusuchiy check --color n", 3), "never");
    assert_eq!(complete("tusuchiy report --pro", 2), "--profile");
    assert_eq!(complete("tusuchiy check --profile ''", 3), "plain boards");
    assert_eq!(complete("tusuchiy check --profile b", 3), "boards");
    assert_eq!(complete("tusuchiy index --pro", 2), "");
    assert_eq!(complete("tusuchiy in", 1), "index");
    assert_eq!(complete("tusuchiy index --ch", 2), "--check");
    assert_eq!(complete("tusuchiy check --ch", 2), "");
    assert_eq!(complete("tusuchiy --generate m", 2), "man");
    for option in ["--profile", "--color", "--generate"] {
        assert_eq!(out(&script).matches(&format!(" {option}) ")).count(), 1, "{option}");
    }
}

/// The manual page is one that man takes without a warning, where there is man.
#[test]
fn the_manual_page_is_well_formed() {
    let folder = Folder::empty("man");
    folder.put("tusuchiy.1", &run(&["--generate", "man"]).stdout);
    let man = Command::new("man").args(["--warnings", "-E", "UTF-8", "-l", &folder.at("tusuchiy.1")]).output();
    if let Ok(output) = man {
        assert_eq!(String::from_utf8_lossy(&output.stderr), "");
        for word in ["NAME", "--follow-links", "--profile", "INDEX FEED", "--check", "EXIT STATUS", "couldn't run"] {
            assert!(String::from_utf8_lossy(&output.stdout).contains(word), "{word}");
        }
    }
    for kind in ["complete-fish", "complete-zsh"] {
        let script = run(&["--generate", kind]);
        assert!(["follow-links", "profile", "plain boards"].iter().all(|word| out(&script).contains(word)), "{kind}");
    }
}

/// The check has a stack of its own, whatever the main thread's; an emulator makes the main thread's stack itself.
#[test]
fn a_small_stack_is_enough() {
    let mut small = if std::env::var_os(RUNNER).is_some() { command() } else { command_after("ulimit -s 512") };
    small.env("QEMU_STACK_SIZE", (512 << 10).to_string());
    let output = small.args(["check", "--quiet", &example("findings")]).output().expect("the command runs");
    assert_eq!((output.status.code(), out(&output)), (Some(1), "findings: 5\n"));
}

/// Output that nobody can take is status 3, not a verdict.
#[test]
fn a_full_disk_is_no_verdict() {
    for words in [&["check"][..], &["check", "--json"], &["check", "--quiet"]] {
        let full = fs::OpenOptions::new().write(true).open("/dev/full").expect("Linux has it");
        let output = command().args(words).arg(example("feed")).stdout(full).output().expect("the command runs");
        assert_eq!(status(&output), 3, "{words:?}");
        assert_eq!(said(&output), "tusuchiy: can't write to standard output: No space left on device (os error 28)\n");
    }
}

/// A reader who goes away has read enough: no message, and the status is the verdict's.
#[test]
fn a_closed_pipe_is_no_failure() {
    let folder = many_findings("closed");
    let cases = [
        (&["check", "--all", folder.path()][..], 1),
        (&["check", "--json", folder.path()], 1),
        (&["check", folder.path()], 1),
        (&["--help"], 0),
        (&["explain", "13"], 0),
    ];
    for (words, verdict) in cases {
        let mut child = command();
        let mut child =
            child.args(words).stdout(Stdio::piped()).stderr(Stdio::piped()).spawn().expect("the command runs");
        drop(child.stdout.take());
        let output = child.wait_with_output().expect("the command ends");
        assert_eq!((status(&output), said(&output)), (verdict, ""), "{words:?}");
    }
}
