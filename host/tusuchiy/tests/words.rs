//! What the command says a finding or a refusal is about, against the model, and the words by hand.

mod common;

use cases::generate;
use cases::limits::{MOST_BYTES, MOST_LINES};
use common::json::Json;
use common::{document, example_files, json, out, run, status, Folder};
use model::columns::{Column, COLUMNS};
use model::facts::{of_finding, of_refusal, Fact, Facts};
use model::forms::Form;
use model::{Answer, Profile};
use std::collections::{BTreeMap, BTreeSet};

/// How many seeds the command and the model are compared on, each with both profiles, and how many feeds one run checks.
const SEEDS: u64 = 384;
const AT_A_TIME: u64 = 64;

/// The words for the form that a column's values have, by hand.
fn wanted(form: Form) -> &'static str {
    match form {
        Form::Text => "",
        Form::Time => "a time as 8:05:00 or 08:05:00, hours 0 to 99, minutes and seconds 00 to 59",
        Form::Date => "a day that exists, in eight digits as 20240229",
        Form::Coordinate(90) => "degrees from -90 to 90, as -33.8675: up to 3 digits, a point, up to 20 digits",
        Form::Coordinate(_) => "degrees from -180 to 180, as 151.2: up to 3 digits, a point, up to 20 digits",
        Form::Sequence => "one to nine digits",
        Form::Choice(["0", "1"], _) => "0 or 1",
        Form::Choice(["0", "1", "2"], _) => "0, 1 or 2",
        Form::Choice(["0", "1", "2", "3"], _) => "0, 1, 2 or 3",
        Form::Choice(["0", "1", "2", "3", "4"], _) => "0, 1, 2, 3 or 4",
        Form::Choice(["1", "2"], _) => "1 (added) or 2 (removed)",
        Form::Choice(..) => "0 to 7, 11 or 12",
    }
}

/// A fact as the document has it: bytes that aren't UTF-8 become U+FFFD, and 400 bytes at most are given.
fn in_json(fact: &Fact) -> Json {
    match fact {
        Fact::None => Json::Null,
        Fact::Number(number) => Json::Number(*number),
        Fact::Text(bytes) => {
            let end = (0..=bytes.len().min(400)).rev().find(|&end| end == bytes.len() || bytes[end] & 0xC0 != 0x80);
            Json::Text(String::from_utf8_lossy(&bytes[..end.unwrap_or(0)]).into_owned())
        }
        Fact::List(list) => Json::List(list.iter().map(in_json).collect()),
        Fact::Members(facts) => members(facts),
    }
}

fn members(facts: &Facts) -> Json {
    Json::Members(facts.iter().map(|(name, fact)| (name.to_string(), in_json(fact))).collect())
}

/// Names of members.
type Names = BTreeSet<String>;

/// The profile that a document was asked for.
fn profile(report: &Json) -> Profile {
    match report.get("profile").text() {
        "plain" => Profile::Plain,
        "boards" => Profile::Boards,
        other => panic!("no profile: {other}"),
    }
}

/// Fails where the document of a feed differs from the model's answer and facts; gives the rules that were seen, each
/// with the names of what it is about.
fn compare(name: &str, files: &model::Files, report: &Json) -> Vec<(i64, Names)> {
    let mut tables = cases::large::tables(files, 0);
    let mut list = vec![0; 30_000];
    match model::check(files, &mut tables, &mut list, [0, 0, 0], profile(report)) {
        Answer::Accepted => {
            assert_eq!(report.get("verdict").text(), "accepted", "{name}");
            Vec::new()
        }
        Answer::Refused { number, file, line, column } => {
            let refusal = report.get("refusal");
            let numbers = ["number", "file", "line", "column"].map(|member| refusal.get(member).number());
            assert_eq!(numbers, [number, file, line, column].map(|number| number as i64), "{name}");
            let mut facts = of_refusal(files, number, file, line);
            let told =
                facts.iter().find(|(member, _)| *member == "column").map_or(Json::Null, |(_, fact)| in_json(fact));
            assert_eq!(refusal.get("column_name"), &told, "{name}, refusal {number}");
            if number == 13 {
                let known = COLUMNS[file - 1].iter().find(|known| known.name == told.text()).expect("a known column");
                facts.push(("wanted", Fact::Text(wanted(known.form).into())));
            }
            assert_eq!(refusal.get("about"), &members(&facts), "{name}, refusal {number}");
            assert!(!refusal.get("words").text().is_empty(), "{name}");
            compare_faults(name, files, report);
            vec![(number as i64, names(refusal.get("about")))]
        }
        Answer::Findings { written, .. } => {
            let feed = model::reading::read(files, tables.each_ref().map(Vec::len)).expect("a feed that is read");
            let found = report.get("findings").list();
            assert_eq!(found.len(), written, "{name}");
            for (place, found) in found.iter().enumerate() {
                let finding = [0, 1, 2].map(|number| list[place * 3 + number]);
                let numbers = ["file", "line", "rule"].map(|member| found.get(member).number() as i32);
                assert_eq!(numbers, finding, "{name}");
                assert_eq!(found.get("about"), &members(&of_finding(&feed, finding)), "{name}, {finding:?}");
                assert!(!found.get("words").text().is_empty(), "{name}");
            }
            found.iter().map(|found| (found.get("rule").number(), names(found.get("about")))).collect()
        }
    }
}

/// Fails where what a fault of the list is about differs from the model's facts. The model knows lines with an ending.
fn compare_faults(name: &str, files: &model::Files, report: &Json) {
    for fault in report.get("faults").list() {
        let [number, file, line] = ["number", "file", "line"].map(|member| fault.get(member).number() as usize);
        if line > model::fields::line_ends(&files[file - 1]) {
            continue;
        }
        let mut facts = of_refusal(files, number, file, line);
        if number == 13 {
            let column = fault.get("column_name").text();
            let known = COLUMNS[file - 1].iter().find(|known| known.name == column).expect("a known column");
            facts.push(("wanted", Fact::Text(wanted(known.form).into())));
        }
        assert_eq!(fault.get("about"), &members(&facts), "{name}, {file}:{line}, fault {number}");
        assert!(!fault.get("words").text().is_empty(), "{name}");
    }
}

/// The documents of feeds with a profile, all by one run.
fn documents(feeds: &[String], profile: &str) -> Vec<Json> {
    let words = ["check", "--json", "--profile", profile];
    let words: Vec<&str> = words.into_iter().chain(feeds.iter().map(|feed| &feed[..])).collect();
    let output = run(&words);
    assert!(status(&output) < 3);
    let documents: Vec<Json> = out(&output).lines().map(json::read).collect();
    assert!(documents.iter().map(|report| report.get("feed").text()).eq(feeds), "a document for each feed");
    assert!(documents.iter().all(|report| report.get("profile").text() == profile), "each has the profile");
    documents
}

/// Fails unless the document with the profile for boards is the one without it, but for rules 60 to 62 and what counts them.
fn compare_profiles(name: &str, plain: &Json, boards: &Json) {
    let is_plain = |found: &&Json| found.get("rule").number() < 60;
    for list in ["findings", "totals"] {
        let left: Vec<&Json> = boards.get(list).list().iter().filter(is_plain).collect();
        assert!(left.iter().copied().eq(plain.get(list).list()), "{name}: {list}");
    }
    for same in ["version", "refusal", "faults_total", "faults", "page", "feed", "folder", "records", "unread"] {
        assert_eq!(boards.get(same), plain.get(same), "{name}: {same}");
    }
    let [more, few] = [boards, plain].map(|report| report.get("findings").list().len() as i64);
    for count in ["total", "written"] {
        assert_eq!([boards, plain].map(|report| report.get(count).number()), [more, few], "{name}: {count}");
    }
    let verdict = if more > few { "findings" } else { plain.get("verdict").text() };
    assert_eq!(boards.get("verdict").text(), verdict, "{name}");
}

/// Every refusal but 3, which the command's tables never break, and every rule come up among the seeds. What the profile for boards adds are its
/// own rules and nothing else.
#[test]
fn the_facts_are_the_models() {
    let folder = Folder::empty("facts");
    let mut seen: BTreeMap<i64, Names> = BTreeMap::new();
    for first in (0..SEEDS).step_by(AT_A_TIME as usize) {
        let cases: Vec<_> = (first..first + AT_A_TIME).map(generate::case).collect();
        let feeds: Vec<String> =
            cases.iter().enumerate().map(|(place, case)| folder.put_feed(&place.to_string(), &case.files)).collect();
        let [plain, boards] = ["plain", "boards"].map(|profile| documents(&feeds, profile));
        for (case, (plain, boards)) in cases.iter().zip(plain.iter().zip(&boards)) {
            compare_profiles(&case.name, plain, boards);
            let told = [plain, boards].map(|report| compare(&case.name, &case.files, report));
            for (number, names) in told.into_iter().flatten() {
                seen.entry(number).or_default().extend(names);
            }
        }
    }
    let all: BTreeSet<i64> = (1..=14).filter(|number| *number != 3).chain(20..=31).chain(60..=62).collect();
    assert_eq!(seen.keys().copied().collect::<BTreeSet<_>>(), all);
    for (number, names) in seen {
        assert_eq!(documented(number), names, "docs/JSON.md on {number}");
    }
}

/// A file with this column first: a header without it, and a line whose value there is empty or malformed.
fn spoilt(file: usize, column: &Column) -> [String; 3] {
    let others: Vec<&str> = COLUMNS[file].iter().map(|other| other.name).filter(|name| *name != column.name).collect();
    let with = |value: &str| format!("{},{}\n{value}{}\n", column.name, others.join(","), ",1".repeat(others.len()));
    [format!("{}\n", others.join(",")), with(""), with("?")]
}

/// Each known column alone, spoilt in three ways.
#[test]
fn every_column_has_its_words() {
    let known = || COLUMNS.iter().enumerate().flat_map(|(file, known)| known.iter().map(move |column| (file, column)));
    let (mut feeds, mut paths, folder) = (Vec::new(), Vec::new(), Folder::empty("columns"));
    for (file, column) in known() {
        for lines in spoilt(file, column) {
            let mut files = example_files("feed");
            files[file] = lines.into_bytes();
            paths.push(folder.put_feed(&paths.len().to_string(), &files));
            feeds.push(files);
        }
    }
    let reports = documents(&paths, "plain");
    for ((column, feeds), reports) in known().map(|(_, column)| column).zip(feeds.chunks(3)).zip(reports.chunks(3)) {
        feeds.iter().zip(reports).for_each(|(files, report)| drop(compare(column.name, files, report)));
        let refused = |place: usize, number: i64, column: i64| {
            let refusal = reports[place].get("refusal");
            refusal != &Json::Null && ["number", "column"].map(|name| refusal.get(name).number()) == [number, column]
        };
        assert_eq!(refused(0, 9, 0), column.present, "{}", column.name);
        assert_eq!(refused(1, 12, 1), column.needed(), "{}", column.name);
        assert_eq!(refused(2, 13, 1), !wanted(column.form).is_empty(), "{}", column.name);
    }
}

/// The members of `about` that docs/JSON.md has for a refusal or a rule: names between back marks, but no values.
fn documented(number: i64) -> Names {
    let page = include_str!("../../../docs/JSON.md");
    let row = page.lines().find(|line| line.starts_with(&format!("| {number} | "))).expect("a row");
    let is_name = |word: &&str| word.chars().all(|char| char.is_ascii_lowercase() || char == '_');
    row.split('`').skip(1).step_by(2).filter(is_name).map(str::to_string).collect()
}

/// The names of all members of a value, those of members too.
fn names(value: &Json) -> Names {
    match value {
        Json::Members(members) => {
            members.iter().flat_map(|(name, value)| names(value).into_iter().chain([name.clone()])).collect()
        }
        Json::List(list) => list.iter().flat_map(names).collect(),
        _ => Names::new(),
    }
}

/// The document of the accepted example with one file in another shape.
fn document_of(file: &str, bytes: impl AsRef<[u8]>) -> Json {
    let folder = Folder::new("words");
    folder.put(file, bytes.as_ref());
    document(&[folder.path()])
}

/// What it says: line, number and words of each place.
fn words_of(file: &str, bytes: impl AsRef<[u8]>) -> Vec<String> {
    words_in(&document_of(file, bytes))
}

fn words_in(report: &Json) -> Vec<String> {
    let places = match report.get("refusal") {
        Json::Null => report.get("findings").list(),
        refusal => std::slice::from_ref(refusal),
    };
    places
        .iter()
        .map(|place| {
            let number = if report.get("refusal") == &Json::Null { place.get("rule") } else { place.get("number") };
            format!("{}:{}: {}", place.get("line").number(), number.number(), place.get("words").text())
        })
        .collect()
}

const TIMES: &str = "trip_id,arrival_time,departure_time,stop_id,stop_sequence,timepoint\n";

/// What is said of a feed whose trip is T, with these lines in stop_times.txt.
fn words_of_times(lines: &str) -> Vec<String> {
    words_with(&format!("{TIMES}{lines}"), "plain")
}

/// The same with a whole stop_times.txt and a profile.
fn words_with(times: &str, profile: &str) -> Vec<String> {
    let folder = Folder::new("times");
    folder.put("stops.txt", b"stop_id,stop_name,stop_lat,stop_lon,location_type\nA,a,1,1,\nB,b,1,1,\nS,s,1,1,1\n");
    folder.put("routes.txt", b"route_id,route_short_name,route_type\nR,1,3\n");
    folder.put(
        "calendar.txt",
        b"service_id,monday,tuesday,wednesday,thursday,friday,saturday,sunday,start_date,end_date\n\
          W,1,1,1,1,1,0,0,20240101,20241231\n",
    );
    folder.put("trips.txt", b"route_id,service_id,trip_id\nR,W,T\n");
    folder.put("stop_times.txt", times.as_bytes());
    let report = document(&["--profile", profile, folder.path()]);
    let found = report.get("findings").list();
    found.iter().map(|found| format!("{}: {}", found.get("rule").number(), found.get("words").text())).collect()
}

/// Lines of stop_times.txt and the words about them, found by hand.
const ABOUT_TIMES: [(&str, &[&str]); 11] = [
    ("T,08:00:00,08:00:00,A,1,\n", &["30: trip_id \"T\" has one line in stop_times.txt, line 2"]),
    ("", &["30: trip_id \"T\" has no line in stop_times.txt"]),
    ("T,8:00:00,8:00:00,A,1,\nT,7:59:59,8:05:00,B,01,\n", &["28: the trip has stop_sequence 1 on line 2 already"]),
    // The first line with the sequence is named, not the one above.
    (
        "T,8:00:00,8:00:00,A,1,\nX,8:00:00,8:00:00,A,1,\nT,8:00:00,8:00:00,A,1,\nT,8:00:00,8:00:00,A,001,\n",
        &[
            "21: trip_id \"X\" stands on no line of trips.txt",
            "28: the trip has stop_sequence 1 on line 2 already",
            "28: the trip has stop_sequence 1 on line 2 already",
        ],
    ),
    // Of all smaller sequences the one that departs latest is named, though it stands further down.
    (
        "T,8:30:00,8:30:00,A,3,\nT,8:40:00,8:40:00,B,2,\nT,8:50:00,8:50:00,A,1,\n",
        &[
            "29: arrival_time 08:30:00 is before departure_time 08:50:00 on line 4, whose stop_sequence 1 is below 3",
            "29: arrival_time 08:40:00 is before departure_time 08:50:00 on line 4, whose stop_sequence 1 is below 2",
        ],
    ),
    // Of several that depart then, the first by sequence, and of equal sequences the first line.
    (
        "T,8:00:00,8:00:00,A,3,\nT,8:00:00,9:00:00,B,2,\nT,8:00:00,9:00:00,A,1,\nT,8:00:00,9:00:00,A,1,\n",
        &[
            "29: arrival_time 08:00:00 is before departure_time 09:00:00 on line 4, whose stop_sequence 1 is below 3",
            "29: arrival_time 08:00:00 is before departure_time 09:00:00 on line 4, whose stop_sequence 1 is below 2",
            "28: the trip has stop_sequence 1 on line 4 already",
        ],
    ),
    (
        "T,8:00:00,,A,1,\nT,9:00:00,9:00:00,B,2,\n",
        &[
            "31: its first line by stop_sequence, line 2 of stop_times.txt, lacks departure_time",
            "26: arrival_time is 08:00:00 and departure_time is empty",
        ],
    ),
    (
        "T,8:00:00,8:00:00,A,1,\nT,,8:01:00,B,2,1\nT,9:00:00,9:00:00,B,3,\n",
        &["26: departure_time is 08:01:00 and arrival_time is empty; timepoint is 1 and arrival_time is empty"],
    ),
    (
        "T,8:00:00,8:00:00,A,1,\nT,,,B,2,1\nT,9:00:00,8:59:00,B,3,\n",
        &[
            "26: timepoint is 1 and arrival_time and departure_time are empty",
            "27: departure_time 08:59:00 is before arrival_time 09:00:00",
        ],
    ),
    (
        "T,8:00:00,8:00:00,S,1,\nX,8:00:00,8:00:00,C,1,\nT,9:00:00,9:00:00,B,3,\n",
        &[
            "23: stop_id \"S\" on line 4 of stops.txt has location_type 1",
            "21: trip_id \"X\" stands on no line of trips.txt; stop_id \"C\" stands on no line of stops.txt",
        ],
    ),
    // The last line by sequence stands first, and the first one between others.
    (
        "T,,,A,3,\nT,9:00:00,9:00:00,B,2,\nT,,,A,1,\nT,10:00:00,10:00:00,A,3,\n",
        &[
            "31: its first line by stop_sequence, line 4 of stop_times.txt, lacks arrival_time and departure_time; \
             its last line by stop_sequence, line 2 of stop_times.txt, lacks arrival_time and departure_time",
            "28: the trip has stop_sequence 3 on line 2 already",
        ],
    ),
];

/// The words of each rule about times.
#[test]
fn words_about_times() {
    for (lines, wanted) in ABOUT_TIMES {
        assert_eq!(words_of_times(lines), wanted, "{lines}");
    }
}

/// A line of stop_times.txt between two that are good, by its times and its two types, and what the profile for boards says of it, by hand.
const FOR_BOARDS: [([&str; 4], &[&str]); 14] = [
    (["8:01:00", "8:01:00", "", ""], &[]),
    (["8:01:00", "8:01:00", "0", "1"], &[]),
    (["8:01:00", "8:01:00", "1", "0"], &[]),
    (["47:59:59", "47:59:59", "", ""], &[]),
    (["", "", "", ""], &["60: arrival_time and departure_time are empty"]),
    (["8:01:00", "", "", ""], &[ARRIVAL_ONLY[0], ARRIVAL_ONLY[1]]),
    (["", "8:01:00", "", ""], &[DEPARTURE_ONLY[0], DEPARTURE_ONLY[1]]),
    (["8:01:00", "8:01:00", "2", "1"], &["61: pickup_type is 2 (must phone the agency)"]),
    (["8:01:00", "8:01:00", "3", ""], &["61: pickup_type is 3 (must arrange with the driver)"]),
    (["8:01:00", "8:01:00", "", "2"], &["61: drop_off_type is 2 (must phone the agency)"]),
    (
        ["8:01:00", "8:01:00", "3", "2"],
        &["61: pickup_type is 3 (must arrange with the driver); drop_off_type is 2 (must phone the agency)"],
    ),
    (["47:59:59", "48:00:00", "", ""], &["62: departure_time is 48:00:00, wanted: before 48:00:00"]),
    (
        ["48:00:00", "99:59:59", "", ""],
        &["62: arrival_time is 48:00:00 and departure_time is 99:59:59, wanted: before 48:00:00"],
    ),
    (
        ["48:00:01", "", "2", ""],
        &[
            "26: arrival_time is 48:00:01 and departure_time is empty",
            "60: arrival_time is 48:00:01 and departure_time is empty",
            "61: pickup_type is 2 (must phone the agency)",
            "62: arrival_time is 48:00:01, wanted: before 48:00:00",
        ],
    ),
];

const ARRIVAL_ONLY: [&str; 2] = [
    "26: arrival_time is 08:01:00 and departure_time is empty",
    "60: arrival_time is 08:01:00 and departure_time is empty",
];
const DEPARTURE_ONLY: [&str; 2] = [
    "26: departure_time is 08:01:00 and arrival_time is empty",
    "60: departure_time is 08:01:00 and arrival_time is empty",
];

/// The words of rules 60 to 62; without the profile nothing is said of them.
#[test]
fn words_for_boards() {
    for ([arrival, departure, pickup, drop_off], wanted) in FOR_BOARDS {
        let times = format!(
            "pickup_type,trip_id,arrival_time,departure_time,stop_id,stop_sequence,drop_off_type\n\
             ,T,8:00:00,8:00:00,A,1,\n{pickup},T,{arrival},{departure},B,2,{drop_off}\n,T,8:02:00,8:02:00,A,3,\n"
        );
        let told = |profile: &str| {
            let mut found = words_with(&times, profile);
            // Of the last line, where the one before it departs late.
            found.retain(|words| !words.starts_with("29: "));
            found
        };
        assert_eq!(told("boards"), wanted, "{times}");
        let plain: Vec<&str> = wanted.iter().copied().filter(|words| !words.starts_with('6')).collect();
        assert_eq!(told("plain"), plain, "{times}");
    }
}

/// The clerk's examples of the profile's rules break them, each only its own, and no rule without the profile.
#[test]
fn the_clerks_examples_for_boards_are_true() {
    let types = "trip_id,arrival_time,departure_time,stop_id,stop_sequence,pickup_type,drop_off_type\n";
    let examples = [
        ("60", "60: arrival_time and departure_time are empty"),
        ("61", "61: pickup_type is 2 (must phone the agency); drop_off_type is 3 (must arrange with the driver)"),
        ("62", "62: departure_time is 48:10:00, wanted: before 48:00:00"),
    ];
    for (rule, wanted) in examples {
        let page = run(&["explain", rule]);
        let example = out(&page).split("**Example.**").nth(1).and_then(|rest| rest.split("\n\n").next());
        let example = example.expect("an example");
        let lines = match example.split_once("```\n") {
            Some((_, lines)) => lines.trim_end_matches("```").replace('\n', ",,\n"),
            None => {
                let line = example.split('`').nth(1).expect("a line");
                format!("{line}{}\n", ",".repeat(6 - line.matches(',').count()))
            }
        };
        let told = |profile: &str| {
            let mut found = words_with(&format!("{types}{lines}"), profile);
            // The examples call at stops and are of trips that this feed lacks, and one line is no trip.
            found.retain(|words| !["21: ", "30: "].iter().any(|other| words.starts_with(other)));
            found
        };
        assert_eq!((told("plain"), told("boards")), (vec![], vec![wanted.to_string()]), "{lines}");
    }
}

/// The clerk's examples of a trip's order break the rule that they stand under, where the page says.
#[test]
fn the_clerks_examples_are_true() {
    let examples = [
        ("28", "28: the trip has stop_sequence 2 on line 2 already"),
        (
            "29",
            "29: arrival_time 07:59:59 is before departure_time 08:00:00 on line 3, whose stop_sequence 1 is below 2",
        ),
        ("31", "31: its last line by stop_sequence, line 2 of stop_times.txt, lacks arrival_time and departure_time"),
    ];
    for (rule, wanted) in examples {
        let page = run(&["explain", rule]);
        let lines = out(&page).split("```\n").nth(1).expect("an example of lines").replace('\n', ",\n");
        // The examples also call at a stop that this feed lacks.
        let mut found = words_of_times(&lines);
        found.retain(|words| !words.starts_with("21: "));
        assert_eq!(found, [wanted], "{lines}");
    }
}

/// The clerk's example of a service and date that stand twice breaks rule 20 where the page says.
#[test]
fn the_clerks_example_of_dates_is_true() {
    let page = run(&["explain", "20"]);
    let lines = out(&page).split("```\n").nth(3).expect("a second example of lines");
    assert_eq!(words_of("calendar_dates.txt", &format!("{DATES}{lines}")), [repeated("W", "20241225", 3, 2)]);
}

const DATES: &str = "service_id,date,exception_type\n";

/// What is said of a service and date on a line that stand on an earlier line.
fn repeated(service: &str, date: &str, line: usize, earlier: usize) -> String {
    format!("{line}:20: service_id \"{service}\" with date {date} stands on line {earlier} already")
}

/// The words about calendar_dates.txt, found by hand: the type doesn't count, the service and the date do, by value.
#[test]
fn words_about_dates() {
    let words = |lines: &str| words_of("calendar_dates.txt", &format!("{DATES}{lines}"));
    let lines = "W,20241225,1\nX,20241225,1\nW,20241226,1\n\"W\",20241225,2\nX,\"20241225\",1\nW,20241225,1\n";
    let wanted = [repeated("W", "20241225", 5, 2), repeated("X", "20241225", 6, 3), repeated("W", "20241225", 7, 2)];
    assert_eq!(words(lines), wanted);
    assert_eq!(words("W,09991231,1\nW,09991231,1\n"), [repeated("W", "09991231", 3, 2)]);
    assert_eq!(words(""), [""; 0]);
    let type_wanted = "wanted: 1 (added) or 2 (removed)";
    let date_wanted = "wanted: a day that exists, in eight digits as 20240229";
    for value in ["0", "3", "12", "01"] {
        assert_eq!(
            words(&format!("W,20241225,{value}\n")),
            [format!("2:13: exception_type is \"{value}\", {type_wanted}")]
        );
    }
    assert_eq!(words("W,20230229,1\n"), [format!("2:13: date is \"20230229\", {date_wanted}")]);
    assert_eq!(words("W,20240229,1\nW,,1\n"), ["3:12: date is empty"]);
    assert_eq!(words("W,20240229,\n"), ["2:12: exception_type is empty"]);
    assert_eq!(words("W,20240229,1"), ["0:4: the last line has no line ending"]);
    let header = words_of("calendar_dates.txt", "service_id,dates\n");
    assert_eq!(header, ["1:9: the header lacks date, exception_type"]);
}

/// A trip's service is sought in both files.
#[test]
fn words_about_a_trips_service() {
    let trips = "route_id,service_id,trip_id\nB7,SUNDAYS,B7-out-1\nQ,X,B7-back-1\n";
    let nowhere = "service_id \"X\" stands in neither calendar.txt nor calendar_dates.txt";
    let wanted = [format!("3:21: route_id \"Q\" stands on no line of routes.txt; {nowhere}")];
    assert_eq!(words_of("trips.txt", trips), wanted);
    let folder = Folder::new("sought");
    folder.put("trips.txt", trips.replace("Q,", "B7,").as_bytes());
    folder.put("calendar_dates.txt", format!("{DATES}Y,20240101,1\n\"X\",20240101,2\n").as_bytes());
    assert_eq!(document(&[folder.path()]).get("verdict").text(), "accepted", "a line that removes it counts too");
}

/// The words about stops, routes and services, found by hand.
#[test]
fn words_about_other_files() {
    let stops = "stop_id,stop_name,stop_lat,stop_lon,location_type,parent_station\n\
                 MAIN,m,1,1,1,MAIN\nMAIN,m,1,1,,\nE,e,1,1,2,\nP,p,1,1,0,E\nQ,q,1,1,,X\n\
                 N,,,,3,\nO,,,,3,P\nB,,,,4,\nC,,,,4,MAIN\nD,,,,4,P\nT,t,1,1,1,P\n";
    let found = words_of("stops.txt", stops);
    let (station, platform) = ("a station (location_type 1)", "a stop or platform (location_type 0)");
    let wanted = [
        "2:22: a station has the parent_station \"MAIN\", wanted: none",
        "3:20: stop_id \"MAIN\" stands on line 2 already",
        &format!("4:22: an entrance has no parent_station, wanted: {station}"),
        &format!("5:22: its parent_station \"E\" on line 4 has location_type 2, wanted: {station}"),
        "6:21: parent_station \"X\" stands on no line of stops.txt",
        &format!("7:22: a generic node has no parent_station, wanted: {station}"),
        &format!("8:22: its parent_station \"P\" on line 5 has location_type 0, wanted: {station}"),
        &format!("9:22: a boarding area has no parent_station, wanted: {platform}"),
        &format!("10:22: its parent_station \"MAIN\" on line 2 has location_type 1, wanted: {platform}"),
        "12:22: a station has the parent_station \"P\", wanted: none; its parent_station \"P\" on line 5 has location_type 0",
    ];
    assert_eq!(found[..10], wanted);
    let routes = words_of("routes.txt", "route_id,route_short_name,route_type\nB7,,3\n");
    assert_eq!(routes, ["2:25: route_short_name and route_long_name are both empty"]);
    let header = "service_id,monday,tuesday,wednesday,thursday,friday,saturday,sunday,start_date,end_date\n";
    let services = words_of("calendar.txt", &format!("{header}Z,1,1,1,1,1,1,1,20240102,20240101\n"));
    assert_eq!(services[0], "2:24: end_date 20240101 is before start_date 20240102");
}

/// The words of each refusal, found by hand.
#[test]
fn words_about_refusals() {
    let header = "route_id,route_short_name,route_type\n";
    let cases: [(&str, &str); 13] = [
        ("", "0:4: the file is empty"),
        ("x", "0:4: the last line has no line ending"),
        ("a\tb\n", "1:5: byte 2 of the line is a tab"),
        ("a\rb\n", "1:5: byte 2 of the line is a CR"),
        ("a\"b\n", "1:6: at byte 2 of the line a quotation mark stands in a field that has none around it"),
        ("\"a\"b\n", "1:6: at byte 4 of the line text follows a closing quotation mark"),
        ("a,\"b\n", "1:6: at byte 3 of the line a quotation mark opens a field and none closes it"),
        ("route_id,route_type,\"route_id\"\n", "1:8: route_id is field 3 again"),
        ("Route_id,agency_id\n", "1:9: the header lacks route_id, route_type"),
        ("H\nR,1\n", "2:10: it has 2 fields, the header 3"),
        ("H\nR,1,\n", "2:12: route_type is empty"),
        ("H\nR,1, 3\n", "2:13: route_type is \" 3\", wanted: 0 to 7, 11 or 12"),
        ("H\n\u{a0},1,x\u{202e}\n", "2:13: route_type is \"x\\u{202E}\", wanted: 0 to 7, 11 or 12"),
    ];
    for (bytes, wanted) in cases {
        assert_eq!(words_of("routes.txt", &bytes.replace("H\n", header)), [wanted], "{bytes}");
    }
    let commas = ",".repeat(32);
    assert_eq!(words_of("routes.txt", &format!("{commas}\n")), ["1:7: it has 33 fields"]);
    let id = "i".repeat(65);
    let wanted = format!("2:11: route_id \"{id}\" has 65 bytes");
    assert_eq!(words_of("routes.txt", &format!("{header}{id},1,3\n")), [wanted]);
    let many = "\n".repeat(MOST_LINES + 1);
    assert_eq!(words_of("routes.txt", &many), [format!("0:2: it has {} lines", MOST_LINES + 1)]);
    let long = "x".repeat(MOST_BYTES + 1);
    assert_eq!(words_of("routes.txt", &long), [format!("0:1: it has more than {MOST_BYTES} bytes")]);
}

/// The words about stops that lack a name or a coordinate, which some types may.
#[test]
fn words_about_empty_values_of_stops() {
    let other = |one: &str, other: &str| format!("2:12: {one} is empty and {other} isn't, wanted: both or neither");
    for (line, wanted) in [
        ("N,,1,2,0", "2:12: stop_name is empty"),
        ("N,n,,,", "2:12: stop_lat is empty"),
        ("N,n,1,,2", "2:12: stop_lon is empty"),
        ("N,,1,,3", &other("stop_lon", "stop_lat")),
        ("N,n,,x,\"4\"", &other("stop_lat", "stop_lon")),
        (",,,,3", "2:12: stop_id is empty"),
        ("N,,,,03", "2:12: stop_name is empty; location_type \"03\" counts as 0"),
        ("N,n,1,\"\", 4", "2:12: stop_lon is empty; location_type \" 4\" counts as 0"),
        ("N,n,1,2,5", "2:13: location_type is \"5\", wanted: 0, 1, 2, 3 or 4"),
    ] {
        let stops = format!("stop_id,stop_name,stop_lat,stop_lon,location_type\n{line}\n");
        assert_eq!(words_of("stops.txt", &stops), [wanted], "{line}");
    }
    // Without the column all are of type 0, and a column of another name is none.
    let stops = "stop_id,stop_name,stop_lat,stop_lon,Location_type\nN,,,,3\n";
    assert_eq!(words_of("stops.txt", stops), ["2:12: stop_name is empty"]);
}

/// Files of routes that aren't UTF-8, behind the header where they begin with H, and the words about them, found by hand.
const BAD_BYTES: [(&[u8], &str); 17] = [
    (b"H\nB7,Caf\xE9,3\n", "2:14: byte 7 of the line, E9, begins no UTF-8 character; in Windows-1252 it is \"é\""),
    (b"H\nB7,5 \x80,3\n", "2:14: byte 6 of the line, 80, begins no UTF-8 character; in Windows-1252 it is \"€\""),
    (b"H\nB7,\xA0,3\n", "2:14: byte 4 of the line, A0, begins no UTF-8 character; in Windows-1252 it is \"\\u{00A0}\""),
    (b"H\nB7,\"a,\xFF\",3\n", "2:14: byte 7 of the line, FF, begins no UTF-8 character; in Windows-1252 it is \"ÿ\""),
    (b"H\nB7,\xF5,3\n", "2:14: byte 4 of the line, F5, begins no UTF-8 character; in Windows-1252 it is \"õ\""),
    (b"H\nB7,\x81,3\n", "2:14: byte 4 of the line, 81, begins no UTF-8 character"),
    // Elsewhere in the file a byte is as in UTF-8, or no character of Windows-1252.
    (b"H\nB7,\xE9,3\nB8,Caf\xC3\xA9,3\n", "2:14: byte 4 of the line, E9, begins no UTF-8 character"),
    (b"H\nB7,\xE9,3\nB8,\x9D,3\n", "2:14: byte 4 of the line, E9, begins no UTF-8 character"),
    // Half of é at the end of a line and of a value, and the first two bytes of € and three of an emoji.
    (b"H\nB7,x,3\nB8,Caf\xC3\n", "3:14: byte 7 of the line, C3, begins no UTF-8 character"),
    (b"H\nB7,\xC3\xA9,3\nB8,Caf\xC3\r\n", "3:14: byte 7 of the line, C3, begins no UTF-8 character"),
    (b"H\nB7,\xC3\xA9\xE2\x82,3\n", "2:14: byte 6 of the line, E2, begins no UTF-8 character"),
    (b"H\nB7,\xF0\x9F\x98,3\n", "2:14: byte 4 of the line, F0, begins no UTF-8 character"),
    // A long form of the slash, half of a pair of surrogates, and the number above U+10FFFF.
    (b"H\nB7,\xC0\xAF,3\n", "2:14: byte 4 of the line, C0, begins no UTF-8 character; in Windows-1252 it is \"À\""),
    (b"H\nB7,\xED\xA0\x80,3\n", "2:14: byte 4 of the line, ED, begins no UTF-8 character"),
    (b"H\nB7,\xF4\x90\x80\x80,3\n", "2:14: byte 4 of the line, F4, begins no UTF-8 character"),
    // The header, behind the mark of UTF-8 too.
    (b"caf\xE9\n", "1:14: byte 4 of the line, E9, begins no UTF-8 character; in Windows-1252 it is \"é\""),
    (b"\xEF\xBB\xBFcaf\xE9\n", "1:14: byte 4 of the line, E9, begins no UTF-8 character"),
];

/// Their words, and the model's facts.
#[test]
fn words_about_bad_bytes() {
    for (bytes, wanted) in BAD_BYTES {
        let mut files = example_files("feed");
        files[1] = match bytes.strip_prefix(b"H\n") {
            Some(lines) => [b"route_id,route_short_name,route_type\n", lines].concat(),
            None => bytes.to_vec(),
        };
        let report = document_of("routes.txt", &files[1]);
        assert_eq!(words_in(&report), [wanted]);
        compare(wanted, &files, &report);
    }
}

/// The clerk's examples of bytes that aren't UTF-8 are refused for them.
#[test]
fn the_clerks_examples_of_bytes_are_true() {
    let page = run(&["explain", "14"]);
    let example = out(&page).split("**Example.**").nth(1).and_then(|rest| rest.split("**").next()).expect("an example");
    let lines: Vec<&str> = example.split('`').skip(1).step_by(2).collect();
    let words: Vec<Vec<String>> = lines
        .iter()
        .map(|line| {
            let (before, rest) = line.split_once("\\x").expect("an escape");
            let byte = u8::from_str_radix(&rest[..2], 16).expect("two digits");
            let line = [before.as_bytes(), &[byte], rest[2..].as_bytes(), b"\n"].concat();
            words_of("stops.txt", [b"stop_id,stop_name,stop_lat,stop_lon\n", &line[..]].concat())
        })
        .collect();
    let wanted = |words: &str| [format!("2:14: byte 6 of the line, {words}")];
    let [latin, half] = ["E9, begins no UTF-8 character; in Windows-1252 it is \"é\"", "C3, begins no UTF-8 character"];
    assert_eq!(words, [wanted(latin), wanted(half)]);
}

/// UTF-16 with its mark, by the order of its bytes and by its line ends: which rule it breaks, its words and the model's facts.
#[test]
fn words_about_utf_16() {
    let hint = "the file begins with the mark of UTF-16: save it as UTF-8";
    let utf_16 = |text: &str, bytes: fn(u16) -> [u8; 2]| -> Vec<u8> { text.encode_utf16().flat_map(bytes).collect() };
    let lines = "\u{FEFF}route_id,route_short_name,route_type\nB7,Café,3\n";
    let cases = [
        (utf_16(lines, u16::to_be_bytes), "1:14: byte 1 of the line, FE, begins no UTF-8 character"),
        // The mark and 36 characters take 74 bytes, and NUL goes before CR.
        (utf_16(&lines.replace('\n', "\r\n"), u16::to_be_bytes), "1:5: byte 76 of the line is a CR"),
        (utf_16(lines, u16::to_le_bytes), "0:4: the last line has no line ending"),
        (utf_16(&lines.replace('\n', "\r\n"), u16::to_le_bytes), "0:4: the last line has no line ending"),
    ];
    for (bytes, wanted) in cases {
        let mut files = example_files("feed");
        files[1] = bytes;
        let report = document_of("routes.txt", &files[1]);
        assert_eq!(words_in(&report), [format!("{wanted}; {hint}")]);
        compare(wanted, &files, &report);
        assert_eq!(report.get("refusal").get("about").get("guess").text(), "utf-16");
    }
}
