//! Every fault of a refused feed in one run of the command: text, JSON and report name the same ones, and what is mended is good.

mod common;

use cases::limits::{MOST_BYTES, MOST_LINES};
use common::json::Json;
use common::{document, example, example_files, json, out, run, said, status, Folder, NAMES};
use std::collections::BTreeMap;
use std::time::Instant;

/// A fault: file, line, number, column.
type Fault = [i64; 4];

/// The faults of `examples/faults`, by hand; the verdict names 4 of trips.txt.
const FAULTS: [Fault; 7] =
    [[1, 3, 10, 0], [1, 4, 12, 2], [2, 1, 9, 0], [3, 3, 13, 10], [4, 0, 4, 0], [5, 3, 13, 3], [6, 2, 13, 3]];

/// The four numbers of a place.
fn fault(place: &Json) -> Fault {
    ["file", "line", "number", "column"].map(|name| place.get(name).number())
}

/// The faults that a document has.
fn faults(report: &Json) -> Vec<Fault> {
    report.get("faults").list().iter().map(fault).collect()
}

/// What the command prints about a refused feed.
fn text(words: &[&str]) -> String {
    let output = run(&[&["check"], words].concat());
    assert_eq!((status(&output), said(&output)), (2, ""), "{words:?}");
    out(&output).to_string()
}

/// The faults that a text has below its headings: `FEED/stops.txt:4:2: words` under `refusal 12: meaning (1)`.
fn faults_in_text(text: &str, feed: &str) -> Vec<Fault> {
    let (mut number, mut faults) = (0, Vec::new());
    for line in text.lines().skip_while(|line| !line.starts_with("faults: ")) {
        if let Some(heading) = line.strip_prefix("refusal ") {
            number = heading.split(':').next().and_then(|word| word.parse().ok()).expect("a number");
        } else if let Some(rest) = line.strip_prefix(&format!("{feed}/")) {
            let place = rest.split(": ").next().expect("a place");
            let mut parts = place.split(':');
            let name = parts.next().expect("a name");
            let file = NAMES.iter().position(|known| *known == name).expect("a file") as i64 + 1;
            let mut next = || parts.next().map_or(0, |part| part.parse().expect("a number"));
            faults.push([file, next(), number, next()]);
        }
    }
    faults.sort_unstable();
    faults
}

/// The faults that a report's script reads, the words of each, and the column as it is told.
fn faults_in_page(page: &str) -> (Vec<[i64; 3]>, Vec<(String, String)>) {
    let between =
        |id: &str| page.split(&format!("id=\"{id}\">")).nth(1).and_then(|rest| rest.split("</script>").next());
    let index = json::read(between("index").expect("an index"));
    let numbers: Vec<i64> = index.list().iter().map(Json::number).collect();
    let blocks = (0..).map_while(|number| between(&format!("block-{number}")).map(json::read));
    let column = |row: &Json| row.list().get(3).map_or(String::new(), |column| column.text().to_string());
    let row = |row: &Json| (row.list()[0].text().to_string(), column(row));
    let rows = blocks.flat_map(|block| block.list().iter().map(row).collect::<Vec<_>>()).collect();
    (numbers.chunks(4).map(|four| [four[0], four[1], four[2]]).collect(), rows)
}

/// Fails unless text, document and report of a feed name the same faults in the same words; gives them.
fn agreed(feed: &str) -> Vec<Fault> {
    agreed_in_text(feed).0
}

/// The same, with all of the text.
fn agreed_in_text(feed: &str) -> (Vec<Fault>, String) {
    let report = document(&[feed]);
    let told = faults(&report);
    assert_eq!(report.get("faults_total").number(), told.len() as i64);
    assert!(told.windows(2).all(|pair| pair[0] < pair[1]), "{told:?}");
    let first = fault(report.get("refusal"));
    assert!(told.contains(&first), "{first:?} is not in {told:?}");
    let shown = text(&["--all", feed]);
    if told.len() > 1 {
        assert_eq!(faults_in_text(&shown, feed), told, "{shown}");
        assert!(shown.contains(&format!("\nfaults: {}, this one among them\n", told.len())), "{shown}");
    }
    let page = run(&["report", feed]);
    assert_eq!(status(&page), 2);
    let (places, rows) = faults_in_page(out(&page));
    assert_eq!(places, told.iter().map(|fault| [fault[0], fault[1], fault[2]]).collect::<Vec<_>>());
    for (place, (words, column)) in report.get("faults").list().iter().zip(&rows) {
        assert_eq!(place.get("words").text(), words);
        assert!(shown.contains(&format!(": {words}\n")), "{words} is not in\n{shown}");
        let name = || format!("column {} ({})", place.get("column").number(), place.get("column_name").text());
        assert_eq!(*column, if place.get("column").number() == 0 { String::new() } else { name() });
    }
    (told, shown)
}

/// One run names the faults of all six files.
#[test]
fn a_feed_with_faults_in_every_file_is_told_whole() {
    let feed = example("faults");
    assert_eq!(agreed(&feed), FAULTS);
    let shown = text(&[&feed]);
    assert_eq!(faults_in_text(&shown, &feed), FAULTS);
    let refused =
        format!("refused\n{feed}/trips.txt: refusal 4: the file is empty, or its last line has no line ending");
    assert!(shown.starts_with(&refused), "{shown}");
    let advice = "
mend all of these, then check again for findings
a line is named once, for the first thing that is wrong with it: look at all of it
routes.txt: the header is refused, so the values below it weren't judged and may bring more faults once it is mended
`tusuchiy explain 4` says more
";
    assert!(shown.ends_with(advice), "{shown}");
    assert_eq!(out(&run(&["check", "--quiet", &feed])), "refused\n");
    let several = run(&["check", &feed, &example("feed")]);
    let line = format!("{feed}: refused: trips.txt: refusal 4: the last line has no line ending (and 6 more)\n");
    assert_eq!((status(&several), out(&several)), (2, &format!("{line}{}: accepted\n", example("feed"))[..]));
}

/// The place, the words and the line of each fault, and carets where it has a column.
#[test]
fn faults_are_shown_with_their_lines() {
    let feed = example("faults");
    let shown = text(&[&feed]).replace(&feed, "FEED");
    let wanted = "
refusal 12: a value that is needed is empty (1)
FEED/stops.txt:4:2: stop_name is empty
    HILL,,52.5120,13.3899
         ^

refusal 13: a value doesn't have the form that its column asks for (3)
FEED/calendar.txt:3:10: end_date is \"20240230\", wanted: a day that exists, in eight digits as 20240229
    HOLIDAYS,0,0,0,0,0,1,1,20240101,20240230
                                    ^^^^^^^^
";
    assert!(shown.contains(wanted), "{shown}");
}

/// Puts another text in the place of a line; a last line gets its ending.
fn mended(file: &[u8], line: i64, by: &str) -> Vec<u8> {
    let text = std::str::from_utf8(file).expect("UTF-8");
    let lines = text.lines().enumerate().map(|(place, old)| if place as i64 + 1 == line { by } else { old });
    lines.map(|line| format!("{line}\n")).collect::<String>().into_bytes()
}

/// What stands in the place of each faulty line of `examples/faults`; line 0: the last line gets its ending.
const GOOD: [([i64; 2], &str); 8] = [
    ([1, 3], "PARK,Park Gate,52.5198,13.3880"),
    ([1, 4], "HILL,Hill Road,52.5120,13.3899"),
    ([2, 1], "route_id,route_short_name,route_type"),
    ([2, 3], "B8,8,3"),
    ([3, 3], "HOLIDAYS,0,0,0,0,0,1,1,20240101,20240229"),
    ([4, 0], ""),
    ([5, 3], "B7-1,8:10:00,8:10:00,PARK,2"),
    ([6, 2], "HOLIDAYS,20241225,1"),
];

/// Fails unless the command lists these faults round by round, where what it lists is mended and nothing else, and then accepts.
fn mended_in(name: &str, mut files: [Vec<u8>; 6], rounds: &[&[Fault]]) {
    let good: BTreeMap<[i64; 2], &str> = GOOD.into();
    let folder = Folder::empty(name);
    for (round, wanted) in rounds.iter().enumerate() {
        let told = agreed(&folder.put_feed("feed", &files));
        assert_eq!(told, *wanted, "round {}", round + 1);
        for [file, line, ..] in told {
            let bytes = &mut files[file as usize - 1];
            *bytes = mended(bytes, line, good[&[file, line]]);
        }
    }
    let output = run(&["check", &folder.put_feed("feed", &files)]);
    assert!(out(&output).starts_with("accepted\n"), "{}", out(&output));
}

/// Faults in every file, and no header among them: one run names all, and mending just these makes the feed good.
#[test]
fn what_is_listed_is_mended_and_the_feed_is_good() {
    let mut files = example_files("faults");
    files[1] = mended(&files[1], 1, "route_id,route_short_name,route_type");
    let mut faults = FAULTS;
    faults[2] = [2, 3, 13, 3];
    mended_in("mended", files, &[&faults]);
}

/// The line that a refused header hid comes once the header is mended, as announced.
#[test]
fn what_a_header_hid_comes_in_a_second_round() {
    mended_in("hidden", example_files("faults"), &[&FAULTS, &[[2, 3, 13, 3]]]);
}

/// The accepted example with these bytes in some files.
fn with(changed: &[(&str, &[u8])]) -> Folder {
    let folder = Folder::new("faults");
    changed.iter().for_each(|(name, bytes)| folder.put(name, bytes));
    folder
}

const ROUTES: &str = "route_id,route_short_name,route_type\n";

/// One fault is shown once, and said to be the only one.
#[test]
fn one_fault_is_shown_once() {
    let whole = with(&[("routes.txt", b"")]);
    assert_eq!(agreed(whole.path()), [[2, 0, 4, 0]]);
    let path = whole.at("routes.txt");
    let refusal = "refusal 4: the file is empty, or its last line has no line ending: the file is empty";
    let wanted = format!(
        "refused\n{path}: {refusal}\nnothing else is refused: mend this, then check again for findings\n\
         `tusuchiy explain 4` says more\n"
    );
    assert_eq!(text(&[whole.path()]), wanted);
    let line = with(&[("routes.txt", format!("{ROUTES}B7,7,bus\n").as_bytes())]);
    assert_eq!(agreed(line.path()), [[2, 2, 13, 3]]);
    let shown = text(&[line.path()]);
    assert_eq!(shown.matches("bus").count(), 2, "once in words, once in the line:\n{shown}");
    let advice = "nothing else is refused: mend the whole of this line, then check again for findings";
    assert_eq!(shown.lines().nth(4), Some(advice), "{shown}");
    let header = with(&[("routes.txt", b"route_id\nB7\n")]);
    assert_eq!(agreed(header.path()), [[2, 1, 9, 0]]);
    let hidden = "routes.txt: the header is refused, so the values below it weren't judged and may bring more faults once it is mended";
    assert!(text(&[header.path()]).contains(hidden));
    let alone = with(&[("routes.txt", b"route_id\n")]);
    assert!(!text(&[alone.path()]).contains("weren't judged"), "nothing stands below this header");
}

/// Under a refused header a line is refused for what needs no header alone; with it mended, for its values too.
#[test]
fn values_under_a_refused_header_are_not_judged() {
    let lines = "B7,7,bus\nB\t8,8,3\nB9,9\nB10,\"10,3\nB11,,,,,,,,,,,,,,,,,,,,,,,,,,,,,,,,,3\n";
    let bytes = |header: &str| [header.as_bytes(), lines.as_bytes(), b"B12,\xE9,3\n"].concat();
    let under_bad = with(&[("routes.txt", &bytes("route_id,type\n"))]);
    let without_header = [[2, 3, 5, 0], [2, 5, 6, 0], [2, 6, 7, 0], [2, 7, 14, 0]];
    assert_eq!(agreed(under_bad.path()), [&[[2, 1, 9, 0]], &without_header[..]].concat());
    let under_good = with(&[("routes.txt", &bytes(ROUTES))]);
    let with_header = [[2, 2, 13, 3], [2, 3, 5, 0], [2, 4, 10, 0], [2, 5, 6, 0], [2, 6, 7, 0], [2, 7, 14, 0]];
    assert_eq!(agreed(under_good.path()), with_header);
}

/// A file that is too long or has too many lines is one fault, and the others are told all the same.
#[test]
fn a_file_that_is_too_long_hides_its_lines() {
    let long = format!("{ROUTES}B7,7,bus\n{}\n", "x".repeat(MOST_BYTES));
    let many = format!("{ROUTES}{}", "B7,7,bus\n".repeat(MOST_LINES));
    let sentence =
        "routes.txt: the file is too long, so its lines weren't judged and may bring more faults once it is shorter";
    for (bytes, number) in [(long.as_bytes(), 1), (&long.as_bytes()[..long.len() - 1], 1), (many.as_bytes(), 2)] {
        let folder = with(&[("routes.txt", bytes), ("trips.txt", b"")]);
        let (told, shown) = agreed_in_text(folder.path());
        assert_eq!(told, [[2, 0, number, 0], [4, 0, 4, 0]]);
        assert!(shown.contains(sentence), "{shown}");
    }
    // One byte too long: here the end was seen.
    let folder = with(&[("routes.txt", &long.as_bytes()[..MOST_BYTES + 1])]);
    assert_eq!(agreed(folder.path()), [[2, 0, 1, 0], [2, 0, 4, 0]]);
}

/// Bytes behind the last LF are a line, a CR at their end is stray, and its text is shown.
#[test]
fn the_line_without_an_ending() {
    for (end, number, column) in [("B8,8,bus", 13, 3), ("B8,8,3\r", 5, 0), ("B8", 10, 0)] {
        let folder = with(&[("routes.txt", format!("{ROUTES}B7,7,3\n{end}").as_bytes())]);
        assert_eq!(agreed(folder.path()), [[2, 0, 4, 0], [2, 3, number, column]], "{end}");
        let report = document(&[folder.path()]);
        assert_eq!(report.get("faults").list()[1].get("text").text(), end);
    }
    let header = with(&[("routes.txt", b"\xEF\xBB\xBFroute_id,route_id,route_type")]);
    assert_eq!(agreed(header.path()), [[2, 0, 4, 0], [2, 1, 8, 2]]);
    let mark = with(&[("routes.txt", b"\xEF\xBB\xBF")]);
    assert_eq!(agreed(mark.path()), [[2, 0, 4, 0]]);
}

/// Each file that is missing stands by itself; of the services it is said that one file is enough.
#[test]
fn missing_files_stand_by_themselves() {
    let folder = Folder::empty("missing");
    folder.put("routes.txt", format!("{ROUTES}B7,7,bus\n").as_bytes());
    assert_eq!(agreed(folder.path()), [[1, 0, 4, 0], [2, 2, 13, 3], [3, 0, 4, 0], [4, 0, 4, 0], [5, 0, 4, 0]]);
    let report = document(&[folder.path()]);
    let words: Vec<&str> = report.get("faults").list().iter().map(|place| place.get("words").text()).collect();
    let services = "the file is missing; the feed has neither calendar.txt nor calendar_dates.txt: supply one of them";
    assert_eq!([words[0], words[2], words[3]], ["the file is missing", services, "the file is missing"]);
    let lacks = "the feed lacks stops.txt, trips.txt, stop_times.txt; the feed has neither";
    assert!(report.get("refusal").get("words").text().contains(lacks));
}

/// Pages go by the place of the last fault, as those of findings do, and join to the whole list.
#[test]
fn pages_of_faults() {
    let feed = example("faults");
    for room in [1, 2, 3, 6, 7, 8] {
        let (mut joined, mut after) = (Vec::new(), "0,0,0".to_string());
        loop {
            let report = document(&["--after", &after, "--room", &room.to_string(), &feed]);
            assert_eq!(report.get("faults_total").number(), 7);
            assert_eq!(report.get("page").get("room").number(), room as i64);
            let told = faults(&report);
            assert!(told.len() <= room);
            let Some([file, line, number, _]) = told.last() else { break };
            after = format!("{file},{line},{number}");
            joined.extend(told);
        }
        assert_eq!(joined, FAULTS, "room {room}");
    }
    assert_eq!(faults(&document(&["--after", "3,3,2147483647", &feed])), FAULTS[4..]);
    assert!(faults(&document(&["--room", "0", &feed])).is_empty());
    let shown = text(&["--after", "2,1,9", "--room", "1", &feed]).replace(&feed, "FEED");
    let page = "
\nFEED/calendar.txt:3:10: refusal 13: end_date is \"20240230\", wanted: a day that exists, in eight digits as 20240229
    HOLIDAYS,0,0,0,0,0,1,1,20240101,20240230
                                    ^^^^^^^^
page after 2,1,9: 1 of 7 faults
";
    assert!(shown.starts_with("refused\nFEED/trips.txt: refusal 4: ") && shown.ends_with(page), "{shown}");
}

/// A feed that can be read has no faults.
#[test]
fn no_faults_where_nothing_is_refused() {
    for name in ["feed", "findings", "by-date"] {
        let report = document(&[&example(name)]);
        assert_eq!((report.get("faults_total").number(), faults(&report)), (0, Vec::new()), "{name}");
        assert_eq!(report.get("refusal"), &Json::Null);
    }
}

/// Five of each number are shown unless all are asked for; the document has them all.
#[test]
fn a_long_list_is_short_unless_all_is_asked_for() {
    let routes = format!("{ROUTES}{}{}", "B7,7,bus\n".repeat(12), "B7,,\n".repeat(6));
    let folder = with(&[("routes.txt", routes.as_bytes())]);
    let shown = text(&[folder.path()]);
    let count =
        |number: &str| shown.lines().filter(|line| line.contains("routes.txt:") && line.contains(number)).count();
    assert_eq!((count("route_type is \"bus\""), count("route_type is empty")), (6, 5), "the first is shown twice");
    assert!(shown.contains("\nand 7 more, which --all shows\n") && shown.contains("\nand 1 more, which --all shows\n"));
    assert!(!text(&["--all", folder.path()]).contains("--all shows"));
    assert_eq!(agreed(folder.path()).len(), 18);
}

/// Many faulty lines in three files: seconds, also where the header or the file is long and is asked for
/// with each line, and where each line is Windows-1252.
#[test]
fn lists_as_long_as_they_can_be_are_quick() {
    let note = "n".repeat(8_000_000);
    let long_header = format!("route_id,route_short_name,route_type,{note}\n{}", "B7,7,bus,\n".repeat(65_535));
    let mut caf = b"trip_id,route_id,service_id,note\n".to_vec();
    (0..65_535).for_each(|_| caf.extend(b"T,B7,W,caf\xE9\n"));
    // Why each name may not be empty is told by the type, which stands right of a long name of quotation marks.
    let marks = "\"\"".repeat(2_000_000);
    let header = format!("\"{marks}\",stop_id,stop_name,stop_lat,stop_lon,location_type\n");
    let stops = header + &",A,,1,2,x\n".repeat(65_535);
    let folder = with(&[("stops.txt", stops.as_bytes()), ("routes.txt", long_header.as_bytes()), ("trips.txt", &caf)]);
    let quick = |words: &[&str]| {
        let began = Instant::now();
        let output = run(&[words, &[folder.path()]].concat());
        assert_eq!(status(&output), 2, "{words:?}: {}", said(&output));
        let seconds = began.elapsed().as_secs();
        assert!(seconds < 120, "{words:?}: {seconds} s");
        out(&output).to_string()
    };
    assert!(quick(&["check"]).lines().count() < 60);
    assert!(quick(&["check", "--all"]).lines().count() > 6 * 65_535);
    let report = json::read(&quick(&["check", "--json"]));
    assert_eq!(report.get("faults_total").number(), 3 * 65_535);
    assert_eq!(report.get("faults").list().len(), 3 * 65_535);
    quick(&["report", "-o", &folder.at("report.html")]);
}

/// As many faulty lines as a file may have, in each file: the first ones are shown, the last are on a page, and all are counted.
#[test]
fn as_many_faults_as_there_can_be() {
    let file = "x\n".repeat(MOST_LINES - 1) + "\t\n\t";
    let folder = with(&NAMES.map(|name| (name, file.as_bytes())));
    // Of each file 4, 9 of the header, under which values aren't judged, and the tabs on its last two lines.
    let shown = text(&[folder.path()]);
    assert!(shown.contains("\nfaults: 24, this one among them\n"), "{shown}");
    let file = "\t\n".repeat(MOST_LINES) + "\t";
    let folder = with(&NAMES.map(|name| (name, file.as_bytes())));
    let most = 6 * (MOST_LINES + 2);
    let shown = text(&[folder.path()]);
    assert!(shown.contains(&format!("\nfaults: {most}, this one among them\n")), "{shown}");
    assert!(shown.contains(&format!("\nand {} more, which --all shows\n", most - 6 - 5)), "{shown}");
    let last = MOST_LINES as i64 + 1;
    let report = document(&["--after", &format!("6,{},5", last - 2), folder.path()]);
    assert_eq!(
        (report.get("faults_total").number(), faults(&report)),
        (most as i64, vec![[6, last - 1, 5, 0], [6, last, 5, 0]])
    );
}
