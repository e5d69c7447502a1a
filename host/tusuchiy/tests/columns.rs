//! The column of a refusal, as each form of output has it: in the place, by carets under the line, in JSON and in the report.

mod common;

use cases::limits::{MOST_BYTES, MOST_LINES};
use common::json::Json;
use common::{document, json, out, run, said, status, Folder};

const STOPS: &str = "stop_id,note,stop_name,stop_lat,stop_lon\n";

/// The accepted example with these bytes in stops.txt.
fn with_stops(bytes: impl AsRef<[u8]>) -> Folder {
    let folder = Folder::new("column");
    folder.put("stops.txt", bytes.as_ref());
    folder
}

/// What a refusal of stops.txt prints: the place behind the file's name, then the line and what is under it.
fn printed(bytes: impl AsRef<[u8]>) -> (String, Vec<String>) {
    let folder = with_stops(bytes);
    let output = run(&["check", folder.path()]);
    assert_eq!((status(&output), said(&output)), (2, ""));
    let mut lines = out(&output).lines().skip(1).map(str::to_string);
    let first = lines.next().expect("a place");
    let place = first.strip_prefix(&folder.at("stops.txt")).and_then(|rest| rest.split(": ").next());
    let shown: Vec<String> = lines.take_while(|line| line.starts_with("    ")).collect();
    (place.expect("the file").to_string(), shown)
}

/// Fails unless a line of stops.txt is refused at this place, and shown so.
fn assert_printed(line: &str, place: &str, shown: &[&str]) {
    let (told, have) = printed(format!("{STOPS}{line}\n"));
    assert_eq!((&told[..], have), (place, shown.iter().map(|line| line.to_string()).collect()), "{line}");
}

/// Carets stand under the field as it is shown; places and lines by hand.
#[test]
fn carets_stand_under_the_field() {
    assert_printed("A,,Alder,1.5,x2", ":2:5", &["    A,,Alder,1.5,x2", "                 ^^"]);
    // An empty value, in quotes too, and the first of two.
    assert_printed("A,,,1.5,2", ":2:3", &["    A,,,1.5,2", "       ^"]);
    assert_printed("A,,\"\",1.5,", ":2:3", &["    A,,\"\",1.5,", "       ^^"]);
    // A comma in quotes before the field, and one in it.
    assert_printed("A,\"x, y\",B,?,2", ":2:4", &["    A,\"x, y\",B,?,2", "               ^"]);
    assert_printed("A,,B,\"1,5\",2", ":2:4", &["    A,,B,\"1,5\",2", "         ^^^^^"]);
    // Wide characters, an emoji, a mark on a letter.
    assert_printed("A,東京,🚏 e\u{301},x,2", ":2:4", &["    A,東京,🚏 e\u{301},x,2", "                ^"]);
    // What is escaped, before the field and in it.
    assert_printed(
        "A,\u{1b}[1m\u{202e},B,1\u{7f},2",
        ":2:4",
        &["    A,\\x1B[1m\\u{202E},B,1\\x7F,2", "                        ^^^^^"],
    );
    // A line that some terminals show in another order.
    assert_printed("A,,שלום,x,2", ":2:4", &["    A,,שלום,x,2"]);
    let id = "i".repeat(65);
    assert_printed(&format!("{id},,B,1,2"), ":2:1", &[&format!("    {id},,B,1,2"), &format!("    {}", "^".repeat(65))]);
}

/// However long the line, the field is seen, and carets are under it.
#[test]
fn a_field_far_behind() {
    let note = "n".repeat(1000);
    let shown = format!("    ... {},Alder,1.5,x", "n".repeat(55));
    let carets = format!("    {}^", " ".repeat(4 + 55 + 11));
    assert_printed(&format!("A,{note},Alder,1.5,x"), ":2:5", &[&shown, &carets]);
    let report = document(&[with_stops(format!("{STOPS}A,{note},Alder,1.5,x\n")).path()]);
    let refusal = report.get("refusal");
    assert_eq!((refusal.get("cut"), refusal.get("text").text().len()), (&Json::Bool(true), 400));
    // A syllable in three parts is shown whole or not at all: a vowel without its consonant would take room of its own.
    let syllable = "\u{1112}\u{1161}\u{11ab}";
    let shown = format!("    ... {},Alder,1.5,x", syllable.repeat(27));
    let carets = format!("    {}^", " ".repeat(4 + 2 * 27 + 11));
    assert_printed(&format!("A,{},Alder,1.5,x", syllable.repeat(400)), ":2:5", &[&shown, &carets]);
}

/// The header of refusal 8: of all second standings the one furthest left, behind the mark of UTF-8 and before CR too.
#[test]
fn a_name_that_stands_twice() {
    let header = "stop_id,stop_name,stop_name,stop_lat,stop_lon,stop_id";
    let shown = [format!("    {header}"), format!("{}^^^^^^^^^", " ".repeat(4 + 18))];
    for bytes in [format!("{header}\n"), format!("\u{feff}{header}\r\n")] {
        assert_eq!(printed(bytes), (":1:3".to_string(), shown.to_vec()));
    }
    assert_eq!(printed("note,note,stop_id,\"stop_id\",stop_name,stop_lat,stop_lon\n").0, ":1:4");
}

/// A refusal of a whole line or file has no column: none in its place, no carets, 0 and null in the document.
#[test]
fn refusals_without_a_column() {
    let cases: [(i64, Vec<u8>); 9] = [
        (1, vec![b'x'; MOST_BYTES + 1]),
        (2, vec![b'\n'; MOST_LINES + 1]),
        (4, b"x".to_vec()),
        (5, b"a\tb\n".to_vec()),
        (6, b"a\"b\n".to_vec()),
        (7, [&[b','; 32][..], b"\n"].concat()),
        (9, b"stop_id\n".to_vec()),
        (10, [STOPS.as_bytes(), b"A\n"].concat()),
        (14, [STOPS.as_bytes(), b"A,,\xFE,1,2\n"].concat()),
    ];
    for (number, bytes) in cases {
        let report = document(&[with_stops(&bytes).path()]);
        let refusal = report.get("refusal");
        assert_eq!(refusal.get("number").number(), number);
        assert_eq!((refusal.get("column").number(), refusal.get("column_name")), (0, &Json::Null), "{number}");
        let (place, shown) = printed(&bytes);
        let line = refusal.get("line").number();
        assert_eq!(place, if line == 0 { String::new() } else { format!(":{line}") });
        assert_eq!(shown.len(), usize::from(line > 0), "{number}: {shown:?}");
    }
}

/// The document has the column and its name in the header, and `about` says the same.
#[test]
fn columns_in_the_document() {
    let long = "i".repeat(65);
    let cases = [
        ("stop_id,a,stop_id,a\n".to_string(), 8, 3, "stop_id"),
        (format!("{STOPS}A,,B,1,2\n{long},,B,1,2\n"), 11, 1, "stop_id"),
        (format!("{STOPS}A,,,1,2\n"), 12, 3, "stop_name"),
        (format!("note,\"stop_lon\",{}A,A,A,A,A,1\n", STOPS.replace(",stop_lon", "")), 13, 2, "stop_lon"),
    ];
    for (stops, number, column, name) in cases {
        let report = document(&[with_stops(stops).path()]);
        let refusal = report.get("refusal");
        assert_eq!(["number", "column"].map(|member| refusal.get(member).number()), [number, column]);
        assert_eq!(refusal.get("column_name").text(), name);
        let about = refusal.get("about");
        assert_eq!((about.get("column").text(), about.get("field").number()), (name, column));
    }
}

/// What is between these in a page, read as JSON.
fn between(page: &str, from: &str, to: &str) -> Json {
    json::read(page.split(from).nth(1).and_then(|rest| rest.split(to).next()).expect("a part of the page"))
}

/// The report says number and name of the column, and marks the field, for readers without a script too.
#[test]
fn the_report_marks_the_field() {
    let note = "n".repeat(1000);
    for (stops, place, marked) in [
        (format!("{STOPS}A,,Alder,<b>,2\n"), "stops.txt, line 2, column 4 (stop_lat)", "<mark>&lt;b&gt;</mark>,2"),
        (format!("{STOPS}A,,,1,2\n"), "stops.txt, line 2, column 3 (stop_name)", "<mark class=\"empty\"></mark>,1,2"),
        (format!("{STOPS}A,{note},B,1,x\n"), "stops.txt, line 2, column 5 (stop_lon)", "nnn,B,1,<mark>x</mark>"),
        (
            "stop_id,a,\"stop_id\"\n".to_string(),
            "stops.txt, line 1, column 3 (stop_id)",
            "a,<mark>&quot;stop_id&quot;</mark>",
        ),
    ] {
        let output = run(&["report", with_stops(stops).path()]);
        assert_eq!(status(&output), 2);
        let plain = out(&output).split("<noscript>").nth(1).and_then(|rest| rest.split("</noscript>").next());
        let plain = plain.expect("a part for readers without a script");
        assert!(plain.contains(&format!("<li><b>{place}</b>, refusal ")), "{plain}");
        assert!(plain.contains(&format!("{marked}</bdi></code></li>")), "{plain}");
        let (_, column) = place.rsplit_once(", ").expect("a column");
        let rows = between(out(&output), "id=\"block-0\">", "</script>");
        assert_eq!(rows.list()[0].list()[3].text(), column);
        let pieces = rows.list()[0].list()[1].list()[0].list()[2].list();
        let marks: Vec<&Json> = pieces.iter().filter(|piece| matches!(piece, Json::List(_))).collect();
        let [mark] = marks[..] else { panic!("{marks:?}") };
        assert_eq!(mark.list()[1].text(), column.split(" (").next().expect("a number"));
    }
}
