//! What isn't UTF-8, from the file to what people see: text, JSON, the report; and well-formed text of every kind is read.

mod common;

use common::{document, example, json, out, run, said, status, Folder};

const HEADER: &str = "route_id,route_short_name,route_type,note\n";

/// The accepted example with these lines in routes.txt.
fn with_routes(name: &str, lines: &[u8]) -> Folder {
    let folder = Folder::new(name);
    folder.put("routes.txt", &[HEADER.as_bytes(), lines].concat());
    folder
}

/// A file in Latin-1: the same byte in text, in a list of feeds, in the document and in the report.
#[test]
fn a_latin_1_file() {
    let folder = with_routes("latin-1", b"B7,Caf\xE9,3,\n");
    let words = "byte 7 of the line, E9, begins no UTF-8 character; in Windows-1252 it is \"é\"";
    let output = run(&["check", folder.path()]);
    let wanted = format!(
        "refused\n{}:2: refusal 14: the line isn't well-formed UTF-8: {words}\n    B7,Caf\\xE9,3,\n\
         nothing else is refused: mend the whole of this line, then check again for findings\n\
         `tusuchiy explain 14` says more\n",
        folder.at("routes.txt")
    );
    assert_eq!((status(&output), out(&output), said(&output)), (2, &wanted[..], ""));

    let output = run(&["check", &example("feed"), folder.path()]);
    let line = format!("{}: refused: routes.txt:2: refusal 14: {words}", folder.path());
    assert_eq!((status(&output), out(&output).lines().last()), (2, Some(&line[..])));

    let output = run(&["check", "--json", folder.path()]);
    assert!(out(&output).contains("\"text\": \"B7,Caf\\ufffd,3,\""), "{}", out(&output));
    let report = json::read(out(&output));
    let refusal = report.get("refusal");
    assert_eq!(["number", "file", "line"].map(|name| refusal.get(name).number()), [14, 2, 2]);
    assert_eq!(refusal.get("about").names(), ["found", "byte", "guess"]);
    assert_eq!(refusal.get("about").get("byte").number(), 7);
    assert_eq!(["found", "guess"].map(|name| refusal.get("about").get(name).text()), ["E9", "windows-1252"]);

    let output = run(&["report", folder.path()]);
    let marked = "[2, 2, [\"B7,Caf\", [\"\\\\xE9\", \"byte 7\"], \",3,\"]]";
    assert_eq!(status(&output), 2);
    assert!(out(&output).contains(marked), "{}", out(&output));
}

/// Where the byte stands doesn't matter: a column that is read or not, quotes, the end of a line, the header.
#[test]
fn every_byte_of_a_line_counts() {
    let refused = |folder: &Folder| {
        let report = document(&[folder.path()]);
        let refusal = report.get("refusal");
        let byte = refusal.get("about").get("byte").number();
        (["number", "file", "line"].map(|name| refusal.get(name).number()), byte)
    };
    let cases: [(&[u8], i64, i64); 7] = [
        (b"B7,\xE9,3,\n", 2, 4),
        (b"B7,x,3,\xE9\n", 2, 8),
        (b"B7,x,3,\"\xE9\"\n", 2, 9),
        (b"B7,x,3,Caf\xC3\n", 2, 11),
        (b"B7,x,3,Caf\xC3\r\n", 2, 11),
        (b"B7,x,3,\nB8,\xC3\xA9,3,\xE2\x82\nB9\n", 3, 9),
        (b"\xE9\n", 2, 1),
    ];
    for (lines, line, byte) in cases {
        assert_eq!(refused(&with_routes("bytes", lines)), ([14, 2, line], byte), "{lines:02X?}");
    }
    let folder = Folder::new("header-bytes");
    for mark in [&b""[..], b"\xEF\xBB\xBF"] {
        folder.put("stops.txt", &[mark, b"stop_id,caf\xE9\nA,1\n"].concat());
        assert_eq!(refused(&folder), ([14, 1, 1], 12));
    }
}

/// Its turn: after 5 and before 6 and all others of its line, behind earlier lines and files.
#[test]
fn which_refusal_speaks() {
    let number = |folder: &Folder| {
        let report = document(&[folder.path()]);
        ["number", "file", "line"].map(|name| report.get("refusal").get(name).number())
    };
    let fields = [&b"B7,\xE9"[..], &[b','; 33], b"\n"].concat();
    let id = [&[b'i'; 65][..], b",\xE9,3,\n"].concat();
    let cases: [(&[u8], [i64; 3]); 9] = [
        (b"B7,\xE9\t,3,\n", [5, 2, 2]),
        (b"B7,\xE9,3,a\rb\n", [5, 2, 2]),
        (b"B7,a\"b,3,\xE9\n", [14, 2, 2]),
        (b"B7,\"a,3,\xE9\n", [14, 2, 2]),
        (&fields, [14, 2, 2]),
        (b"B7,\xE9\n", [14, 2, 2]),
        (&id, [14, 2, 2]),
        (b"B7,\xE9,,\n", [14, 2, 2]),
        (b"B7,x,99,\nB8,\xE9,3,\n", [13, 2, 2]),
    ];
    for (lines, wanted) in cases {
        assert_eq!(number(&with_routes("turns", lines)), wanted, "{lines:02X?}");
    }
    let folder = with_routes("turns-of-files", b"B7,\xE9,3,\n");
    folder.put("stops.txt", b"stop_id,stop_name,stop_lat\n");
    assert_eq!(number(&folder), [9, 1, 1], "an earlier file");
    folder.put("stops.txt", b"stop_id,\xE9,stop_id\n");
    assert_eq!(number(&folder), [14, 1, 1], "before 8 and 9");
    folder.put("trips.txt", b"");
    assert_eq!(number(&folder), [4, 4, 0], "a whole file");
}

/// The first and the last character of each row of the Unicode standard's table 3-7, and U+FEFF, which is a mark at the start only.
#[test]
fn well_formed_text_is_read() {
    let edges =
        "\u{80}\u{7FF}\u{800}\u{FFF}\u{1000}\u{CFFF}\u{D000}\u{D7FF}\u{E000}\u{FFFF}\u{10000}\u{3FFFF}\u{40000}\
                 \u{FFFFF}\u{100000}\u{10FFFF}\u{FEFF}";
    let folder = with_routes("edges", format!("B7,{edges},3,\"{edges}\"\n").as_bytes());
    assert_eq!(out(&run(&["check", "--quiet", folder.path()])), "accepted\n");
}

/// Ids of several bytes a character are told as they are written.
#[test]
fn names_of_several_bytes() {
    let id = "Köln-東京-😀";
    let folder = with_routes("several-bytes", format!("B7,x,3,\n{id},x,3,\n\"{id}\",x,3,é\n").as_bytes());
    let output = run(&["check", folder.path()]);
    let place =
        format!("{}:4: route_id \"{id}\" stands on line 3 already\n    \"{id}\",x,3,é\n", folder.at("routes.txt"));
    assert_eq!(status(&output), 1);
    assert!(out(&output).contains(&place), "{}", out(&output));
    let report = document(&[folder.path()]);
    let found = &report.get("findings").list()[0];
    assert_eq!(found.get("about").get("value").text(), id);
    assert_eq!(found.get("text").text(), format!("\"{id}\",x,3,é"));
    let page = run(&["report", folder.path()]);
    let marked = json::read(
        out(&page).split("id=\"block-0\">").nth(1).and_then(|rest| rest.split("</script>").next()).expect("findings"),
    );
    assert_eq!(marked.list()[0].list()[1].list()[0].list()[2].list()[0].list()[0].text(), format!("\"{id}\""));
}
