//! The command's indexes: what is written and judged, in text, JSON and statuses; each file whole or not at all.

mod common;

use cases::limits::{MOST_LINES, MOST_OF_VERSION_1};
use common::json::Json;
use common::zip::{feed, member, write};
use common::{
    assert_cannot, command, command_after, example, example_files, json, out, program, run, said, status, Folder,
};
use std::fs;
use std::os::unix::fs::{symlink, PermissionsExt};
use std::process::{Command, Stdio};

/// The most bytes that an index may have: 10, and 4 for each record that rule 2 allows.
const MOST_INDEX_BYTES: usize = 4_194_310;

const INDEXES: [&str; 4] = ["stops.ttx", "routes.ttx", "calendar.ttx", "trips.ttx"];

/// The indexes of the accepted example, by hand: HILL, MAIN, MAIN-1, MAIN-N, PARK; B7; SUNDAYS, WEEKDAYS; B7-back-1,
/// B7-out-1.
const STOPS: &[u8] = b"TTX\x01\x00\x01\x05\x00\x05\x00\x01\x00\x02\x00\x03\x00\x04\x00";
const ROUTES: &[u8] = b"TTX\x01\x00\x02\x01\x00\x01\x00";
const CALENDAR: &[u8] = b"TTX\x01\x00\x03\x02\x00\x02\x00\x01\x00";
const TRIPS: &[u8] = b"TTX\x01\x00\x04\x02\x00\x02\x00\x01\x00";

/// A copy of the accepted example with its indexes.
fn indexed(name: &str) -> Folder {
    let folder = Folder::new(name);
    INDEXES.iter().zip([STOPS, ROUTES, CALENDAR, TRIPS]).for_each(|(name, bytes)| folder.put(name, bytes));
    folder
}

/// What stands in a folder besides a feed's own files, in order.
fn beside(folder: &Folder) -> Vec<String> {
    let entries = fs::read_dir(&folder.0).expect("a folder").map(|entry| entry.expect("a file").file_name());
    let mut names: Vec<String> = entries.map(|name| name.into_string().expect("UTF-8")).collect();
    names.retain(|name| !name.ends_with(".txt"));
    names.sort();
    names
}

/// The bytes of an index, or none.
fn bytes(folder: &Folder, name: &str) -> Option<Vec<u8>> {
    fs::read(folder.at(name)).ok()
}

/// The document of one feed.
fn document(words: &[&str]) -> Json {
    let output = run(&[&["index", "--json"], words].concat());
    assert!(status(&output) < 3, "{}", said(&output));
    json::read(out(&output))
}

/// The verdict on each file in a document.
fn verdicts(document: &Json) -> Vec<String> {
    document.get("indexes").list().iter().map(|index| index.get("verdict").text().to_string()).collect()
}

/// Runs with these words, and compares status and text; FEED stands for the folder.
fn assert_said(folder: &Folder, words: &[&str], code: i32, wanted: &str) {
    let output = run(&[&["index"], words, &[folder.path()]].concat());
    assert_eq!((out(&output), said(&output)), (&wanted.replace("FEED", folder.path())[..], ""), "{words:?}");
    assert_eq!(status(&output), code, "{words:?}");
}

#[test]
fn the_example_is_indexed_and_accepted() {
    let folder = Folder::new("index");
    let told = |word: &str| {
        let lines = [("stops", 5, 18), ("routes", 1, 10), ("calendar", 2, 12), ("trips", 2, 12)];
        let lines =
            lines.map(|(name, count, length)| format!("FEED/{name}.ttx: {word} (records {count}, bytes {length})\n"));
        format!("{word}\n{}", lines.concat())
    };
    assert_said(&folder, &[], 0, &told("written"));
    assert_eq!(INDEXES.map(|name| bytes(&folder, name).expect("an index")), [STOPS, ROUTES, CALENDAR, TRIPS]);
    assert_eq!(beside(&folder), ["calendar.ttx", "routes.ttx", "stops.ttx", "trips.ttx"]);
    assert_said(&folder, &["--check"], 0, &told("accepted"));
    assert_said(&folder, &["--quiet"], 0, "written\n");
    assert_said(&folder, &["--quiet", "--check"], 0, "accepted\n");
    // Written anew, they are the same; the feed is still accepted, and the indexes are files that `check` doesn't read.
    assert_eq!(INDEXES.map(|name| bytes(&folder, name).expect("an index")), [STOPS, ROUTES, CALENDAR, TRIPS]);
    let check = run(&["check", folder.path()]);
    assert!(
        out(&check).contains("\nfiles not read: calendar.ttx, routes.ttx, stops.ttx, trips.ttx\n"),
        "{}",
        out(&check)
    );
    assert_eq!(status(&check), 0);
}

/// Services by date: calendar.txt isn't there, or is empty, so it has no index and none is asked for.
#[test]
fn a_feed_without_calendar_has_three() {
    let folder = Folder::of("by-date", "index-by-date");
    for calendar in [false, true] {
        if calendar {
            folder.put("calendar.txt", b"");
        }
        let told = |word: &str| {
            format!(
                "{word}\nFEED/stops.ttx: {word} (records 2, bytes 12)\nFEED/routes.ttx: {word} (records 1, bytes 10)\n\
                 not supplied: calendar.txt\nFEED/trips.ttx: {word} (records 2, bytes 12)\n"
            )
        };
        assert_said(&folder, &[], 0, &told("written"));
        assert_eq!(beside(&folder), ["routes.ttx", "stops.ttx", "trips.ttx"]);
        assert_said(&folder, &["--check"], 0, &told("accepted"));
        let document = document(&["--check", folder.path()]);
        assert_eq!(verdicts(&document), ["accepted", "accepted", "not_supplied", "accepted"]);
        let calendar = &document.get("indexes").list()[2];
        assert_eq!(["version", "records", "length", "refusal"].map(|name| calendar.get(name)), [&Json::Null; 4]);
        INDEXES.iter().filter(|name| **name != "calendar.ttx").for_each(|name| folder.take(name));
    }
}

/// An index of a calendar.txt that the feed no longer has is good for nothing, and isn't taken away unasked.
#[test]
fn an_index_without_its_file() {
    let folder = Folder::of("by-date", "index-stale");
    folder.put("calendar.ttx", CALENDAR);
    let words = "calendar.txt isn't supplied, and calendar.ttx is left of an earlier one: take it away";
    let refused =
        format!("FEED/calendar.txt: refusal 4: the file is empty, or its last line has no line ending: {words}\n");
    let told = |word: &str| {
        format!(
            "refused\nFEED/stops.ttx: {word} (records 2, bytes 12)\nFEED/routes.ttx: {word} (records 1, bytes 10)\n\
             {refused}FEED/trips.ttx: {word} (records 2, bytes 12)\n`tusuchiy explain 4` says more\n"
        )
    };
    assert_said(&folder, &[], 2, &told("written"));
    assert_said(&folder, &["--check"], 2, &told("accepted"));
    assert_eq!(bytes(&folder, "calendar.ttx").as_deref(), Some(CALENDAR));
    let document = document(&["--check", folder.path()]);
    let refusal = document.get("indexes").list()[2].get("refusal");
    assert_eq!(refusal.get("about").get("clause").text(), "not_supplied");
    // Without any services calendar.txt is missing, as `check` says it.
    folder.take("calendar_dates.txt");
    let neither = "the file is missing; the feed has neither calendar.txt nor calendar_dates.txt: supply one of them";
    let output = run(&["index", folder.path()]);
    assert!(out(&output).contains(&format!("no line ending: {neither}\n")), "{}", out(&output));
    assert_eq!(status(&output), 2);
}

/// What a file is refused for is said as `check` says it. The others are written, and what stood beside it stays.
#[test]
fn a_file_that_is_refused() {
    let folder = indexed("index-refused");
    folder.take("trips.ttx");
    folder.put("stops.txt", b"stop_id,stop_name,stop_lat,stop_lon\nA,Alder,1.5,2\nB,Beech,+1.5,2\n");
    let own = "FEED/stops.txt:3:3: refusal 13: a value doesn't have the form that its column asks for: stop_lat is \"+1.5\", \
               wanted: degrees from -90 to 90, as -33.8675: up to 3 digits, a point, up to 20 digits\n    \
               B,Beech,+1.5,2\n            ^^^^\n";
    let others = |word: &str| {
        format!(
            "FEED/routes.ttx: {word} (records 1, bytes 10)\nFEED/calendar.ttx: {word} (records 2, bytes 12)\n\
             FEED/trips.ttx: {word} (records 2, bytes 12)\n"
        )
    };
    let hint = "`tusuchiy explain 13` says more\n";
    assert_said(&folder, &[], 2, &format!("refused\n{own}{}{hint}", others("written")));
    assert_eq!(bytes(&folder, "stops.ttx").as_deref(), Some(STOPS), "a refusal changes nothing");
    assert_eq!(bytes(&folder, "trips.ttx").as_deref(), Some(TRIPS));
    assert_said(&folder, &["--check"], 2, &format!("refused\n{own}{}{hint}", others("accepted")));
    let check = run(&["check", folder.path()]);
    let advice = "nothing else is refused: mend the whole of this line, then check again for findings\n";
    assert_eq!(out(&check), format!("refused\n{own}{advice}{hint}").replace("FEED", folder.path()), "the same words");
    let told = document(&[folder.path()]);
    let refusal = told.get("indexes").list()[0].get("refusal");
    assert_eq!(refusal, json::read(out(&run(&["check", "--json", folder.path()]))).get("refusal"), "the same document");
    assert_eq!(verdicts(&told), ["refused", "written", "written", "written"]);
}

/// Files that are missing are refused, each on its own; of a feed with findings all indexes are written.
#[test]
fn other_rules_do_not_matter() {
    let folder = Folder::of("findings", "index-findings");
    assert_said(&folder, &["--quiet"], 0, "written\n");
    folder.take("routes.txt");
    folder.take("stop_times.txt");
    let output = run(&["index", folder.path()]);
    assert_eq!(status(&output), 2);
    let missing =
        "/routes.txt: refusal 4: the file is empty, or its last line has no line ending: the file is missing; ";
    assert!(out(&output).contains(missing), "{}", out(&output));
    assert_eq!(verdicts(&document(&[folder.path()])), ["written", "refused", "written", "written"]);
}

#[test]
fn an_id_that_stands_twice() {
    let folder = indexed("index-twice");
    folder.put("routes.txt", b"route_type,route_id\n3,B\n3,A\n3,\"B\"\n3,A\n");
    let meaning = "an id stands on two lines, so the file has no index";
    let wanted = format!(
        "refused\nFEED/stops.ttx: written (records 5, bytes 18)\n\
         FEED/routes.txt:4: refusal 45: {meaning}: route_id \"B\" stands on line 2 already\n    3,\"B\"\n\
         FEED/calendar.ttx: written (records 2, bytes 12)\nFEED/trips.ttx: written (records 2, bytes 12)\n\
         `tusuchiy explain 45` says more\n"
    );
    assert_said(&folder, &[], 2, &wanted);
    assert_eq!(bytes(&folder, "routes.ttx").as_deref(), Some(ROUTES), "a refusal changes nothing");
    let document = document(&[folder.path()]);
    let refusal = document.get("indexes").list()[1].get("refusal");
    assert_eq!(["number", "file", "line", "column"].map(|name| refusal.get(name).number()), [45, 2, 4, 0]);
    assert_eq!(refusal.get("text").text(), "3,\"B\"");
    assert_eq!(refusal.get("about"), &json::read(r#"{"column": "route_id", "value": "B", "earlier_line": 2}"#));
}

/// An index, the number that refuses it, the words and what they are about.
type Wrong = (&'static [u8], i64, &'static str, &'static str);

/// Wrong indexes of the example's stops.txt, whose ids in order are records 5, 1, 2, 3, 4.
const WRONG: &[Wrong] = &[
    (b"", 40, "its length is 0, wanted at least 8", r#"{"clause": "too_short", "length": 0, "found": ""}"#),
    (
        b"TTX\x01\x00\x01\x05",
        40,
        "its length is 7, wanted at least 8",
        r#"{"clause": "too_short", "length": 7, "found": "54 54 58"}"#,
    ),
    (
        b"TTx\x01\x00\x01\x05\x00",
        40,
        "it begins with 54 54 78, wanted 54 54 58 (TTX)",
        r#"{"clause": "mark", "length": 8, "found": "54 54 78"}"#,
    ),
    (b"TTX\x02\x01\x01\x05\x00", 41, "its version is 258, wanted 1", r#"{"version": 258, "wanted": 1}"#),
    (b"TTX\x00\x00\x01\x05\x00", 41, "its version is 0, wanted 1", r#"{"version": 0, "wanted": 1}"#),
    (b"TTX\x03\x00\x01\x05\x00", 41, "its version is 3, wanted 1", r#"{"version": 3, "wanted": 1}"#),
    (
        b"TTX\x02\x00\x01\x05\x00\x00\x00\x05\x00\x00\x00\x01\x00\x00\x00\x02\x00\x00\x00\x03\x00\x00\x00\x04\x00\x00\x00",
        42,
        "its version is 2, wanted 1 (up to 65535 records); its length is 30, wanted 18",
        r#"{"clauses": ["version", "length"], "version": 2, "wanted_version": 1, "file_number": 1, "wanted_file_number": 1,
            "count": 5, "wanted_count": 5, "length": 30, "wanted_length": 18}"#,
    ),
    (
        b"TTX\x02\x00\x01\x05\x00\x00",
        42,
        "its version is 2, wanted 1 (up to 65535 records); its count is 0, wanted 5; its length is 9, wanted 18",
        r#"{"clauses": ["version", "count", "length"], "version": 2, "wanted_version": 1, "file_number": 1,
            "wanted_file_number": 1, "count": 0, "wanted_count": 5, "length": 9, "wanted_length": 18}"#,
    ),
    (
        ROUTES,
        42,
        "its file number is 2, wanted 1; its count is 1, wanted 5; its length is 10, wanted 18",
        r#"{"clauses": ["file_number", "count", "length"], "version": 1, "wanted_version": 1, "file_number": 2, "wanted_file_number": 1, "count": 1,
            "wanted_count": 5, "length": 10, "wanted_length": 18}"#,
    ),
    (
        b"TTX\x01\x00\x01\x05\x01\x05\x00\x01\x00\x02\x00\x03\x00\x04\x00",
        42,
        "its count is 261, wanted 5",
        r#"{"clauses": ["count"], "version": 1, "wanted_version": 1, "file_number": 1, "wanted_file_number": 1, "count": 261, "wanted_count": 5,
            "length": 18, "wanted_length": 18}"#,
    ),
    (
        b"TTX\x01\x00\x01\x05\x00\x05\x00\x01\x00\x02\x00\x03\x00\x04\x00\x00",
        42,
        "its length is 19, wanted 18",
        r#"{"clauses": ["length"], "version": 1, "wanted_version": 1, "file_number": 1, "wanted_file_number": 1, "count": 5, "wanted_count": 5,
            "length": 19, "wanted_length": 18}"#,
    ),
    (
        b"TTX\x01\x00\x01\x05\x00\x05\x00\x01\x00\x00\x00\x06\x00\x04\x00",
        43,
        "entry 3 is record 0, wanted 1 to 5",
        r#"{"entry": 3, "record": 0, "last": 5}"#,
    ),
    (
        b"TTX\x01\x00\x01\x05\x00\x05\x00\x01\x00\x02\x00\x03\x00\x04\x01",
        43,
        "entry 5 is record 260, wanted 1 to 5",
        r#"{"entry": 5, "record": 260, "last": 5}"#,
    ),
    (
        b"TTX\x01\x00\x01\x05\x00\x05\x00\x02\x00\x01\x00\x03\x00\x04\x00",
        44,
        "entry 2 is record 2, stop_id \"MAIN-1\" on line 3; entry 3 is record 1, stop_id \"MAIN\" on line 2: \
         the second id comes before the first",
        r#"{"column": "stop_id", "entries": [2, 3], "records": [2, 1], "lines": [3, 2], "values": ["MAIN-1", "MAIN"]}"#,
    ),
    (
        b"TTX\x01\x00\x01\x05\x00\x05\x00\x01\x00\x02\x00\x04\x00\x04\x00",
        44,
        "entry 4 is record 4, stop_id \"PARK\" on line 5; entry 5 is record 4, stop_id \"PARK\" on line 5: \
         the record is listed twice",
        r#"{"column": "stop_id", "entries": [4, 5], "records": [4, 4], "lines": [5, 5], "values": ["PARK", "PARK"]}"#,
    ),
];

#[test]
fn indexes_that_are_refused() {
    let folders: Vec<Folder> = WRONG.iter().map(|_| indexed("index-wrong")).collect();
    folders.iter().zip(WRONG).for_each(|(folder, (index, ..))| folder.put("stops.ttx", index));
    let output = command().args(["index", "--check", "--json"]).args(folders.iter().map(Folder::path)).output();
    let output = output.expect("the command runs");
    assert_eq!((status(&output), out(&output).lines().count()), (2, WRONG.len()));
    for (line, (index, number, words, about)) in out(&output).lines().zip(WRONG) {
        let document = json::read(line);
        assert_eq!(verdicts(&document), ["refused", "accepted", "accepted", "accepted"], "{words}");
        let refusal = document.get("indexes").list()[0].get("refusal");
        assert_eq!((refusal.get("words").text(), refusal.get("about")), (*words, &json::read(about)));
        let told = ["number", "file", "line", "column"].map(|name| refusal.get(name).number());
        assert_eq!((told, refusal.get("text")), ([*number, 1, 0, 0], &Json::Null), "{words}");
        let there = fs::read(format!("{}/stops.ttx", document.get("feed").text())).expect("an index");
        assert_eq!(there, *index, "--check writes nothing");
    }
    let folder = &folders[WRONG.len() - 1];
    let output = run(&["index", "--check", folder.path()]);
    let meaning = "the ids don't rise from entry to entry of the index";
    let line = format!("{}: refusal 44: {meaning}: {}", folder.at("stops.ttx"), WRONG[WRONG.len() - 1].2);
    assert_eq!(out(&output).lines().nth(1), Some(&line[..]));
    assert_eq!(out(&output).lines().last(), Some("`tusuchiy explain 44` says more"));
    assert_eq!((status(&output), out(&output).lines().count()), (2, 6));
    // One that is there is replaced, whatever it is.
    assert_said(folder, &["--quiet"], 0, "written\n");
    assert_said(folder, &["--check", "--quiet"], 0, "accepted\n");
}

/// An index of a file with an id twice is never accepted, whatever its order.
#[test]
fn no_index_of_a_repeated_id() {
    let folder = indexed("index-repeated");
    folder.put("routes.txt", b"route_id,route_type\nA,3\n\"A\",3\n");
    for entries in [b"\x01\x00\x02\x00", b"\x02\x00\x01\x00"] {
        folder.put("routes.ttx", &[b"TTX\x01\x00\x02\x02\x00", &entries[..]].concat());
        let output = run(&["index", "--check", folder.path()]);
        let words = "route_id \"A\" on line 3: the id stands twice in the file, which therefore has no index";
        let other = words.replace("line 3", "line 2");
        assert!(out(&output).contains(words) || out(&output).contains(&other), "{}", out(&output));
        assert_eq!(status(&output), 2);
    }
}

/// An index that isn't there isn't accepted.
#[test]
fn a_missing_index() {
    let folder = Folder::new("index-missing");
    let output = run(&["index", "--check", folder.path()]);
    let meaning = "the index isn't there, or isn't an index";
    let lines: String =
        INDEXES.iter().map(|name| format!("FEED/{name}: refusal 40: {meaning}: there is no such file\n")).collect();
    let wanted = format!("refused\n{lines}`tusuchiy explain 40` says more\n").replace("FEED", folder.path());
    assert_eq!((status(&output), out(&output), said(&output)), (2, &wanted[..], ""));
    assert_eq!(beside(&folder), [""; 0]);
    let document = document(&["--check", folder.path()]);
    let about = document.get("indexes").list()[3].get("refusal").get("about");
    assert_eq!(about, &json::read(r#"{"clause": "missing", "length": 0, "found": ""}"#));
}

#[test]
fn the_document() {
    let folder = indexed("index-json");
    folder.put("trips.ttx", b"TTX");
    let output = run(&["index", "--check", "--json", folder.path()]);
    assert_eq!((status(&output), said(&output), out(&output).lines().count()), (2, "", 1));
    let document = json::read(out(&output));
    assert_eq!(document.names(), ["version", "verdict", "indexes", "feed", "folder", "output"]);
    assert_eq!((document.get("version").number(), document.get("verdict").text()), (1, "refused"));
    assert_eq!((document.get("feed").text(), document.get("folder")), (folder.path(), &Json::Null));
    assert_eq!(document.get("output"), &Json::Null);
    let wanted = r#"{"file": 3, "name": "calendar.txt", "index": "calendar.ttx", "verdict": "accepted", "version": 1,
                     "records": 2, "length": 12, "refusal": null}"#;
    assert_eq!(document.get("indexes").list()[2], json::read(wanted));
    let last = &document.get("indexes").list()[3];
    assert_eq!(last.names(), ["file", "name", "index", "verdict", "version", "records", "length", "refusal"]);
    assert_eq!(["version", "records", "length"].map(|name| last.get(name)), [&Json::Null; 3]);
    let members =
        ["file", "name", "line", "column", "column_name", "number", "meaning", "text", "cut", "words", "about"];
    assert_eq!(last.get("refusal").names(), members);
    assert_eq!(json::read(out(&run(&["index", "--json", folder.path()]))).get("verdict").text(), "written");
}

/// One verdict a line in the order given, the worst status, and what can't be read is no reason to stop.
#[test]
fn many_feeds() {
    let [good, bad, worse] = ["index-good", "index-bad", "index-worse"].map(indexed);
    bad.put("routes.ttx", STOPS);
    worse.put("stops.ttx", b"TTX");
    worse.put("trips.txt", b"trip_id\n");
    let wanted = format!(
        "{}: accepted\n{}: refused: routes.ttx: refusal 42: its file number is 1, wanted 2; its count is 5, wanted 1; its \
         length is 18, wanted 10\n{}: refused: stops.ttx: refusal 40: its length is 3, wanted at least 8 (and 1 more)\n",
        good.path(),
        bad.path(),
        worse.path()
    );
    let nowhere = good.at("nowhere");
    let feeds = [good.path(), bad.path(), worse.path()];
    for options in [&[][..], &["--quiet"], &["--jobs", "1"]] {
        let output = run(&[&["index", "--check"], options, &feeds].concat());
        assert_eq!((status(&output), out(&output), said(&output)), (2, &wanted[..], ""), "{options:?}");
        let output = run(&[&["index", "--check"], options, &[&nowhere], &feeds].concat());
        assert_eq!((status(&output), out(&output)), (3, &wanted[..]), "{options:?}");
        assert_eq!(said(&output).matches("nowhere: No such file").count(), 1);
    }
    let output = run(&[&["index", "--check", "--json"], &feeds[..]].concat());
    let documents: Vec<Json> = out(&output).lines().map(json::read).collect();
    let told: Vec<&str> = documents.iter().map(|document| document.get("verdict").text()).collect();
    assert_eq!(told, ["accepted", "refused", "refused"]);
    let output = run(&["index", good.path(), worse.path()]);
    let wanted = format!(
        "{}: written\n{}: refused: trips.txt:1: refusal 9: the header lacks route_id, service_id\n",
        good.path(),
        worse.path()
    );
    assert_eq!((status(&output), out(&output)), (2, &wanted[..]));
}

/// The same feed many times at once: each file is whole at the end, and nothing else is left.
#[test]
fn writers_at_the_same_time() {
    let folder = Folder::new("index-together");
    let feeds = [folder.path(); 24];
    let output = run(&[&["index", "--jobs", "8", "--quiet"][..], &feeds].concat());
    assert_eq!((status(&output), said(&output)), (0, ""));
    assert_eq!(INDEXES.map(|name| bytes(&folder, name).expect("an index")), [STOPS, ROUTES, CALENDAR, TRIPS]);
    assert_eq!(beside(&folder), ["calendar.ttx", "routes.ttx", "stops.ttx", "trips.ttx"]);
}

/// There is no place beside the files in a zip file: one is to be named, or the indexes are members.
#[test]
fn indexes_of_a_zip_file() {
    let folder = Folder::empty("index-zip");
    let zip = folder.at("feed.zip");
    let mut members = feed("gtfs/", &example_files("feed"));
    folder.put("feed.zip", &write(&members));
    assert_cannot(&["index", &zip], &["feed.zip: unpack it, or name a folder with --output"]);
    let output = run(&["index", &zip, "--output", folder.path()]);
    assert_eq!((status(&output), said(&output)), (0, ""));
    let wanted = format!("written\nin the folder gtfs/ of the zip file\n{}: written (", folder.at("stops.ttx"));
    assert!(out(&output).starts_with(&wanted), "{}", out(&output));
    assert_eq!(INDEXES.map(|name| bytes(&folder, name).expect("an index")), [STOPS, ROUTES, CALENDAR, TRIPS]);
    let told = document(&["--check", &zip, "-o", folder.path()]);
    assert_eq!(["verdict", "folder", "output"].map(|name| told.get(name).text()), ["accepted", "gtfs/", folder.path()]);
    // In the zip file there are none yet, and those in another folder of it aren't its own.
    assert_eq!(verdicts(&document(&["--check", &zip])), ["refused"; 4]);
    for (prefix, verdict) in [("", "refused"), ("gtfs/", "accepted")] {
        let indexes = INDEXES.iter().zip([STOPS, ROUTES, CALENDAR, TRIPS]);
        members.extend(indexes.map(|(name, bytes)| member(&format!("{prefix}{name}"), bytes)));
        folder.put("feed.zip", &write(&members));
        assert_eq!(verdicts(&document(&["--check", &zip])), [verdict; 4], "{prefix}");
    }
    members.last_mut().expect("a member").wrong = 1;
    folder.put("feed.zip", &write(&members));
    // Whichever member is damaged, the zip file is.
    assert_cannot(&["index", "--check", &zip], &["feed.zip: gtfs/trips.ttx: it is damaged"]);
    assert_cannot(&["check", &zip], &["feed.zip: gtfs/trips.ttx: it is damaged"]);
}

/// A link in the place of an index is replaced, and what it names stays; judged it is only with --follow-links.
#[test]
fn links_are_replaced_and_not_followed() {
    let folder = indexed("index-links");
    let other = Folder::empty("index-other");
    other.put("target", STOPS);
    folder.take("stops.ttx");
    symlink(other.at("target"), folder.at("stops.ttx")).expect("a link");
    assert_cannot(
        &["index", "--check", folder.path()],
        &["stops.ttx: it is a symbolic link, which only --follow-links"],
    );
    assert_said(&folder, &["--check", "--quiet", "--follow-links"], 0, "accepted\n");
    other.put("target", b"precious");
    assert_said(&folder, &["--quiet"], 0, "written\n");
    assert_eq!(bytes(&other, "target").as_deref(), Some(&b"precious"[..]));
    assert!(fs::symlink_metadata(folder.at("stops.ttx")).expect("an index").is_file());
    assert_eq!(bytes(&folder, "stops.ttx").as_deref(), Some(STOPS));
    // A link to nowhere isn't a missing index.
    folder.take("trips.ttx");
    symlink("nowhere", folder.at("trips.ttx")).expect("a link");
    assert_cannot(&["index", "--check", folder.path()], &["trips.ttx: it is a symbolic link"]);
    assert_said(&folder, &["--quiet", "-L"], 0, "written\n");
    assert!(fs::symlink_metadata(folder.at("trips.ttx")).expect("an index").is_file());
    // The feed itself is the user's own word.
    symlink(&folder.0, other.at("feed")).expect("a link");
    assert_eq!(status(&run(&["index", "--check", &other.at("feed")])), 0);
    // A file of the feed isn't followed either.
    folder.take("routes.txt");
    symlink("stops.txt", folder.at("routes.txt")).expect("a link");
    assert_cannot(&["index", folder.path()], &["routes.txt: it is a symbolic link"]);
}

/// What can't be read or written is status 3; the other indexes are written, and nothing is left beside them.
#[test]
fn an_index_that_cannot_be_written() {
    let folder = Folder::new("index-cannot");
    for name in ["stops.ttx", "trips.ttx"] {
        fs::create_dir(folder.at(name)).expect("a folder");
    }
    let messages = ["stops.ttx: Is a directory", "trips.ttx: Is a directory"].map(|message| format!("/{message}"));
    for words in [&[][..], &["--json"], &["--quiet"]] {
        assert_cannot(
            &[&["index"], words, &[folder.path()]].concat(),
            &messages.each_ref().map(|message| &message[..]),
        );
        assert_eq!(beside(&folder), ["calendar.ttx", "routes.ttx", "stops.ttx", "trips.ttx"]);
        assert_eq!(bytes(&folder, "calendar.ttx").as_deref(), Some(CALENDAR));
        folder.take("calendar.ttx");
    }
    let unread = ["stops.ttx: it isn't a regular file", "trips.ttx: it isn't a regular file"];
    assert_cannot(&["index", "--check", folder.path()], &unread);
    let outputs = [
        (folder.at("nowhere"), "nowhere as --output: No such file"),
        (folder.at("stops.txt"), "stops.txt as --output: it isn't a folder"),
        (String::new(), " as --output: No such file"),
    ];
    for (output, message) in outputs {
        assert_cannot(&["index", &example("feed"), "-o", &output], &[message]);
        assert_cannot(&["index", "--check", &example("feed"), "-o", &output], &[message]);
    }
    assert_cannot(&["index", &folder.at("stops.txt")], &["neither a folder nor a zip file"]);
}

/// The command without root's right to read and write everything.
fn without_rights() -> Command {
    let without = ["setpriv", "--bounding-set=-dac_override,-dac_read_search"].map(str::to_string);
    let words = without.into_iter().chain(program()).collect::<Vec<_>>();
    let mut command = Command::new(&words[0]);
    command.args(&words[1..]).stdin(Stdio::null());
    command
}

/// A folder that can't be written keeps its indexes; they can be judged there, and written elsewhere.
#[test]
fn a_folder_without_permission() {
    let (folder, other) = (indexed("index-permission"), Folder::empty("index-elsewhere"));
    folder.put("stops.ttx", b"old");
    fs::set_permissions(&folder.0, fs::Permissions::from_mode(0o555)).expect("permissions");
    let may_write = fs::write(folder.at("probe"), b"").is_ok();
    let command = || if may_write { without_rights() } else { command() };
    let _ = fs::remove_file(folder.at("probe"));
    let output = command().args(["index", folder.path()]).output().expect("the command runs");
    assert_eq!((status(&output), out(&output)), (3, ""), "{}", said(&output));
    for (line, name) in said(&output).lines().zip(INDEXES) {
        assert!(line.contains(&format!("can't write {}: Permission denied", folder.at(name))), "{line}");
    }
    assert_eq!(said(&output).lines().count(), 4);
    assert_eq!(bytes(&folder, "stops.ttx").as_deref(), Some(&b"old"[..]));
    assert_eq!(beside(&folder).len(), 4);
    let output = command().args(["index", "-o", other.path(), folder.path()]).output().expect("the command runs");
    assert_eq!((status(&output), said(&output)), (0, ""));
    let output = command().args(["index", "--check", "-o", other.path(), folder.path()]).output().expect("it runs");
    assert_eq!(status(&output), 0, "{}", out(&output));
    // An index that can't be read isn't a missing one.
    fs::set_permissions(other.at("stops.ttx"), fs::Permissions::from_mode(0o000)).expect("permissions");
    let output = command().args(["index", "--check", "-o", other.path(), folder.path()]).output().expect("it runs");
    assert_eq!((status(&output), out(&output)), (3, ""));
    assert!(said(&output).contains("stops.ttx: Permission denied"), "{}", said(&output));
    fs::set_permissions(&folder.0, fs::Permissions::from_mode(0o755)).expect("permissions");
}

/// So many routes, their ids falling.
fn with_routes(folder: &Folder, count: usize) {
    let lines: String = (0..count).rev().map(|number| format!("{number:07},3\n")).collect();
    folder.put("routes.txt", format!("route_id,route_type\n{lines}").as_bytes());
}

/// A disk that is full half way leaves the index that was there, and nothing beside it. What stands for the disk is a
/// limit on the length of files, which the index alone exceeds.
#[test]
fn a_full_disk() {
    let folder = indexed("index-full");
    with_routes(&folder, 5_000);
    let output = command_after("ulimit -f 8").args(["index", folder.path()]).output().expect("the command runs");
    let wanted = format!("tusuchiy: can't write {}: File too large (os error 27)\n", folder.at("routes.ttx"));
    assert_eq!((status(&output), out(&output), said(&output)), (3, "", &wanted[..]));
    assert_eq!(bytes(&folder, "routes.ttx").as_deref(), Some(ROUTES));
    assert_eq!(beside(&folder).len(), 4);
    assert_said(&folder, &["--quiet"], 0, "written\n");
    assert_said(&folder, &["--quiet", "--check"], 0, "accepted\n");
}

/// Fails unless an index of so many routes, whose ids fall, is written and accepted, and said to be so.
fn assert_falling(folder: &Folder, records: usize, said: &str, head: &[u8], width: usize) {
    with_routes(folder, records);
    let output = run(&["index", folder.path()]);
    assert!(out(&output).contains(&format!("/routes.ttx: written ({said})\n")), "{}", out(&output));
    let index = bytes(folder, "routes.ttx").expect("an index");
    assert_eq!(index[..head.len()], *head);
    let entries = index[head.len()..].chunks(width);
    let number = |bytes: &[u8]| bytes.iter().rev().fold(0, |number, &byte| number << 8 | usize::from(byte));
    assert!(entries.map(number).eq((1..=records).rev()), "{records} records");
    let output = run(&["index", "--check", folder.path()]);
    assert!(out(&output).contains(&format!("/routes.ttx: accepted ({said})\n")), "{}", out(&output));
}

/// On both sides of 65,535 records, where the second version begins, and as many as rule 2 allows.
#[test]
fn the_most_records() {
    let folder = Folder::new("index-most");
    let most = MOST_OF_VERSION_1;
    assert_falling(&folder, most, "records 65535, bytes 131078", b"TTX\x01\x00\x02\xFF\xFF", 2);
    let first = bytes(&folder, "routes.ttx").expect("an index");
    let second = b"TTX\x02\x00\x02\x00\x00\x01\x00";
    assert_falling(&folder, most + 1, "version 2, records 65536, bytes 262154", second, 4);
    let told = document(&["--check", folder.path()]);
    let index = &told.get("indexes").list()[1];
    assert_eq!(["version", "records", "length"].map(|name| index.get(name).number()), [2, 65_536, 262_154]);
    // The index of one record less, in the version that has no room for the count.
    folder.put("routes.ttx", &first);
    let words = "its version is 1, wanted 2 (above 65535 records); its count is 65535, wanted 65536; its length is 131078, wanted 262154";
    let output = run(&["index", "--check", folder.path()]);
    assert!(
        out(&output).contains(&format!(": refusal 42: the index has a wrong file number, count or length: {words}\n"))
    );
    let full = b"TTX\x02\x00\x02\xFF\xFF\x0F\x00";
    assert_falling(&folder, MOST_LINES - 1, "version 2, records 1048575, bytes 4194310", full, 4);
    with_routes(&folder, MOST_LINES);
    let output = run(&["index", folder.path()]);
    assert!(out(&output).contains("/routes.txt: refusal 2: "), "{}", out(&output));
    assert_eq!(bytes(&folder, "routes.ttx").expect("an index")[..10], *full, "a refusal changes nothing");
}

/// An index of 65,536 records with something wrong in its wide numbers: the words have them whole.
#[test]
fn wide_numbers_are_told_whole() {
    let folder = Folder::new("index-wide");
    with_routes(&folder, MOST_OF_VERSION_1 + 1);
    assert_said(&folder, &["--quiet"], 0, "written\n");
    let good = bytes(&folder, "routes.ttx").expect("an index");
    let cases: [(usize, &[u8], &str); 4] = [
        (3, &[9, 0], "its version is 9, wanted 2\n"),
        (6, &[255; 4], "its count is 4294967295, wanted 65536\n"),
        (10, &[0, 0, 1, 128], "entry 1 is record 2147549184, wanted 1 to 65536\n"),
        (
            10,
            &[255, 255, 0, 0, 0, 0, 1, 0],
            "entry 1 is record 65535, route_id \"0000001\" on line 65536; entry 2 is record 65536, route_id \"0000000\" on \
             line 65537: the second id comes before the first\n",
        ),
    ];
    for (place, changed, words) in cases {
        let mut index = good.clone();
        index[place..place + changed.len()].copy_from_slice(changed);
        folder.put("routes.ttx", &index);
        let output = run(&["index", "--check", folder.path()]);
        assert!(out(&output).contains(&format!(": {words}")), "{words}: {}", out(&output));
        assert_eq!(status(&output), 2);
    }
}

/// An index of any length is read as far as one may be long.
#[test]
fn an_index_that_is_too_long() {
    let folder = Folder::new("index-long");
    with_routes(&folder, 1);
    let hole = |begins: &[u8], length: usize| {
        folder.put("routes.ttx", begins);
        let file = fs::OpenOptions::new().write(true).open(folder.at("routes.ttx")).expect("a file");
        file.set_len(length as u64).expect("a file of holes");
        out(&run(&["index", "--check", folder.path()])).to_string()
    };
    assert!(hole(b"", 2 << 30).contains("/routes.ttx: refusal 40: "));
    let begins = b"TTX\x01\x00\x02\x01\x00\x01\x00";
    let told = hole(begins, MOST_INDEX_BYTES + 9);
    assert!(told.contains(&format!(": its length is more than {MOST_INDEX_BYTES}, wanted 10\n")), "{told}");
    let told = hole(begins, MOST_INDEX_BYTES);
    assert!(told.contains(&format!(": its length is {MOST_INDEX_BYTES}, wanted 10\n")), "{told}");
    assert!(hole(begins, 1_000_010).contains(": its length is 1000010, wanted 10\n"));
}

/// Ids of 64 bytes that differ in the last one, ids that begin another, quotes and bytes above 127: by their bytes.
#[test]
fn ids_are_ordered_by_their_bytes() {
    let folder = Folder::new("index-ids");
    let long = |last: char| format!("{}{last}", "x".repeat(63));
    let ids = [&long('b')[..], &long('a'), "AB", "\"A\"", "a", "é", "z", "\"A,\"\"B\"", "\u{1b}[2J", "B"];
    let lines: String = ids.iter().map(|id| format!("{id},3\n")).collect();
    folder.put("routes.txt", format!("route_id,route_type\n{lines}").as_bytes());
    assert_said(&folder, &["--quiet"], 0, "written\n");
    let index = bytes(&folder, "routes.ttx").expect("an index");
    // ESC, A, A,"B, AB, B, a, x..a, x..b, z, é.
    let wanted = [9, 4, 8, 3, 10, 5, 2, 1, 7, 6];
    assert!(index[8..].chunks(2).map(|pair| pair[0]).eq(wanted), "{index:?}");
    // The first two the other way round: nothing of an id gets through to a terminal.
    let mut turned = index.clone();
    (turned[8], turned[10]) = (4, 9);
    folder.put("routes.ttx", &turned);
    let output = run(&["index", "--check", folder.path()]);
    let words =
        "entry 1 is record 4, route_id \"A\" on line 5; entry 2 is record 9, route_id \"\\x1B[2J\" on line 10: ";
    assert!(out(&output).contains(words), "{}", out(&output));
    let output = run(&["index", "--check", "--json", folder.path()]);
    assert!(output.stdout.iter().all(|&byte| byte == b'\n' || (b' '..=b'~').contains(&byte)));
    assert!(out(&output).contains("\"values\": [\"A\", \"\\u001b[2J\"]"), "{}", out(&output));
}

/// The path of a feed is safe to print, and so is that of an index that can't be written.
#[test]
fn odd_paths() {
    let folder = Folder::empty("index-odd");
    folder.put_feed("a\nb", &example_files("feed"));
    let output = run(&["index", &folder.at("a\nb")]);
    assert!(out(&output).contains("/a\\x0Ab/stops.ttx: written"), "{}", out(&output));
    fs::remove_file(folder.at("a\nb/stops.ttx")).expect("an index");
    fs::create_dir(folder.at("a\nb/stops.ttx")).expect("a folder");
    assert_cannot(&["index", &folder.at("a\nb")], &["/a\\x0Ab/stops.ttx: Is a directory"]);
    // From the folder that one stands in, and to it.
    folder.put_feed("feed", &example_files("feed"));
    for words in [&["index", "feed", "-o", "."][..], &["index", "--check", "feed", "-o", "."]] {
        let output = command().args(words).current_dir(&folder.0).output().expect("the command runs");
        assert_eq!((status(&output), said(&output)), (0, ""), "{words:?}");
    }
    let output = command().args(["index", "."]).current_dir(folder.at("feed")).output().expect("the command runs");
    assert!(out(&output).contains("\n./stops.ttx: written (records 5, bytes 18)\n"), "{}", out(&output));
}

#[test]
fn colours_and_lost_output() {
    let folder = Folder::new("index-colours");
    let output = run(&["index", "--color", "always", folder.path()]);
    let wanted = format!("\u{1b}[1;32mwritten\u{1b}[0m\n\u{1b}[35m{}\u{1b}[0m: written (", folder.at("stops.ttx"));
    assert!(out(&output).starts_with(&wanted), "{}", out(&output));
    folder.take("stops.ttx");
    let output = run(&["index", "--check", "--color=always", folder.path()]);
    assert!(out(&output).starts_with("\u{1b}[1;31mrefused\u{1b}[0m\n"), "{}", out(&output));
    let full = fs::OpenOptions::new().write(true).open("/dev/full").expect("Linux has it");
    let output = command().args(["index", folder.path()]).stdout(full).output().expect("the command runs");
    assert_eq!(status(&output), 3);
    assert_eq!(said(&output), "tusuchiy: can't write to standard output: No space left on device (os error 28)\n");
}

/// The README's session: its lines are run, and what they print is what stands below them.
#[test]
fn the_readmes_session_is_true() {
    let folder = Folder::empty("index-readme");
    let page = include_str!("../../../README.md");
    let session = page.split_once("    $ cp -r examples/feed feed\n").expect("a session").1;
    let lines: Vec<&str> = session.lines().map_while(|line| line.strip_prefix("    ")).collect();
    let (typed, shown): (Vec<&str>, Vec<&str>) = lines.iter().partition(|line| line.starts_with("$ "));
    let typed: String = typed.iter().map(|line| format!("{}\n", &line[2..])).collect();
    let script = typed.replace("./tusuchiy", &program().join(" "));
    let copy = format!("cp -r '{}' feed\n", example("feed"));
    let mut bash = Command::new("bash");
    let output = bash.args(["-c", &format!("{copy}{script}")]).current_dir(&folder.0).output().expect("bash");
    assert_eq!((out(&output), said(&output)), (&format!("{}\n", shown.join("\n"))[..], ""), "{script}");
    assert_eq!((status(&output), script.lines().count()), (2, 3));
}
