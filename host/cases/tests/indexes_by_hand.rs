//! E4 and E9: the model against answers and bytes written by hand from document 02 and readings A59 to A64, A84 and A85.

use cases::limits::{MOST_BYTES, MOST_LINES};
use model::index::{check, write, Answer};

const STOPS: &str = "stop_id,stop_name,stop_lat,stop_lon";
const ROUTES: &str = "route_type,route_id";
const CALENDAR: &str = "service_id,monday,tuesday,wednesday,thursday,friday,saturday,sunday,start_date,end_date";
const TRIPS: &str = "route_id,service_id,trip_id";

/// Number, file, line, column and length.
type Numbers = [usize; 5];

fn numbers(answer: Answer) -> Numbers {
    [answer.number, answer.file, answer.line, answer.column, answer.length]
}

/// routes.txt with these ids as raw fields.
fn routes(ids: &[&str]) -> Vec<u8> {
    let lines: String = ids.iter().map(|id| format!("3,{id}\n")).collect();
    format!("{ROUTES}\n{lines}").into_bytes()
}

/// The index of routes.txt that lists these records, each below 256.
fn listing(records: &[u8]) -> Vec<u8> {
    let entries: Vec<u8> = records.iter().flat_map(|&record| [record, 0]).collect();
    [&b"TTX\x01\0\x02"[..], &[records.len() as u8, 0], &entries].concat()
}

/// Fails unless the index of a file is these bytes: the writer writes them and no more, and the reader accepts them.
#[track_caller]
fn index(number: i32, file: &[u8], wanted: &[u8]) {
    for more in [0, 1, 5] {
        let mut buffer = vec![0xEE; wanted.len() + more];
        assert_eq!(numbers(write(number, file, &mut buffer)), [0, 0, 0, 0, wanted.len()]);
        assert!(buffer == [wanted, &vec![0xEE; more]].concat(), "{}", buffer[..buffer.len().min(99)].escape_ascii());
    }
    assert_eq!(numbers(check(number, file, wanted)), [0, 0, 0, 0, wanted.len()]);
}

/// Fails unless the writer is refused so with a buffer of each of these lengths, and leaves it.
#[track_caller]
fn not_written(number: i32, file: &[u8], lengths: &[usize], wanted: Numbers) {
    for &length in lengths {
        let mut buffer = vec![0xEE; length];
        assert_eq!(numbers(write(number, file, &mut buffer)), wanted, "{length} bytes");
        assert!(buffer == vec![0xEE; length], "{length} bytes");
    }
}

/// Fails unless reader and writer refuse a file so, whatever is lent.
#[track_caller]
fn refused(number: i32, file: &[u8], wanted: Numbers) {
    not_written(number, file, &[0, 7, 8, 1000], wanted);
    for index in [&b""[..], b"TTX\x01\0\x01\0\0", b"TTX\x02\0\x02\x01\0\x01\0", b"TTX\x01\0\x02\x01\0\x01\0"] {
        assert_eq!(numbers(check(number, file, index)), wanted);
    }
}

/// Fails unless the reader refuses this index of two routes, B and A, with this number.
#[track_caller]
fn judged(index: &[u8], wanted: usize) {
    assert_eq!(numbers(check(2, &routes(&["B", "A"]), index)), [wanted, 0, 0, 0, 0], "{}", index.escape_ascii());
}

/// The bytes: mark, version, file number, count, records.
#[test]
fn each_file() {
    let stops = format!("{STOPS}\nB,Birch,1,2\nA,Alder,1,2\n");
    index(1, stops.as_bytes(), b"TTX\x01\0\x01\x02\0\x02\0\x01\0");
    index(2, &routes(&["R2", "R10", "R1"]), b"TTX\x01\0\x02\x03\0\x03\0\x02\0\x01\0");
    let calendar = format!("{CALENDAR}\nW,1,1,1,1,1,0,0,20240101,20241231\n");
    index(3, calendar.as_bytes(), b"TTX\x01\0\x03\x01\0\x01\0");
    // By trip_id, not by the columns before it.
    let trips = format!("{TRIPS}\nR,W,b\nS,W,B\nQ,X,a\n");
    index(4, trips.as_bytes(), b"TTX\x01\0\x04\x03\0\x02\0\x03\0\x01\0");
}

/// A64: no records are 8 bytes.
#[test]
fn no_records() {
    for (number, header) in (1..).zip([STOPS, ROUTES, CALENDAR, TRIPS]) {
        let file = format!("{header}\n");
        index(number, file.as_bytes(), &[b'T', b'T', b'X', 1, 0, number as u8, 0, 0]);
        not_written(number, file.as_bytes(), &[0, 1, 7], [46, 0, 0, 0, 0]);
    }
}

/// Ids rise as byte strings, a proper prefix first; bytes are unsigned and case counts.
#[test]
fn the_order_of_ids() {
    let ordered = |ids: &[&str], records: &[u8]| index(2, &routes(ids), &listing(records));
    ordered(&["AB", "A", "ABC", "AA"], &[2, 4, 1, 3]);
    ordered(&["9", "10", "09", "1"], &[3, 4, 2, 1]);
    ordered(&["a", "B", "A", "b"], &[3, 2, 1, 4]);
    ordered(&["A", " A", "A ", "A!"], &[2, 1, 3, 4]);
    ordered(&["A\0B", "A\0", "A", "A\0A"], &[3, 2, 4, 1]);
    // C3 A9, 7A, 7F, C2 80, E9 A7 85, F0 9F 9A 8F.
    ordered(&["é", "z", "\u{7f}", "\u{80}", "駅", "🚏"], &[2, 3, 4, 1, 5, 6]);
    // F0 90 80 80 and EF BF BF, though UTF-16 has it the other way round.
    ordered(&["\u{10000}", "\u{ffff}"], &[2, 1]);
    let x = |count: usize, end: &str| "x".repeat(count) + end;
    ordered(&[&x(63, "b"), &x(63, "a"), &x(63, ""), &x(62, "é")], &[3, 2, 1, 4]);
}

/// A62: by value, so that quotes don't count, and a doubled mark is one.
#[test]
fn the_order_of_values() {
    let ordered = |ids: &[&str], records: &[u8]| index(2, &routes(ids), &listing(records));
    ordered(&["\"B\"", "A", "\"C\"", "AB"], &[2, 4, 1, 3]);
    // B, A, `A,` and `A"`: a mark is 22, a comma 2C.
    ordered(&["\"B\"", "A", "\"A,\"", "\"A\"\"\""], &[2, 4, 3, 1]);
    // `"A`, `!`, `#` and `A`.
    ordered(&["\"\"\"A\"", "!", "#", "A"], &[2, 1, 3, 4]);
    // `"`, `""` and `"A`.
    ordered(&["\"\"\"A\"", "\"\"\"\"\"\"", "\"\"\"\""], &[3, 2, 1]);
}

/// A leading mark, CR LF, many columns, ids in the last one.
#[test]
fn files_in_any_layout() {
    index(2, "\u{feff}route_type,route_id\r\n3,B\r\n3,A\r\n".as_bytes(), &listing(&[2, 1]));
    let notes = "note,".repeat(30);
    let file = format!("{notes}\"route_type\",\"route_id\"\n{0}3,\"B\"\n{0}3,A\n", "x,".repeat(30));
    index(2, file.as_bytes(), &listing(&[2, 1]));
    // An unread column called otherwise doesn't order.
    index(2, b"stop_id,route_id,route_type\nA,B,3\nB,A,3\n", &listing(&[2, 1]));
}

/// Low byte first: 258 routes whose ids fall, so that the last record comes first.
#[test]
fn more_records_than_a_byte_counts() {
    let ids: Vec<String> = (0..258).map(|place| (400 - place).to_string()).collect();
    let file = routes(&ids.iter().map(String::as_str).collect::<Vec<_>>());
    let mut buffer = vec![0xEE; 525];
    assert_eq!(numbers(write(2, &file, &mut buffer)), [0, 0, 0, 0, 524]);
    // Count 258, records 258, 257, 256, 255.
    assert_eq!(buffer[..16], *b"TTX\x01\0\x02\x02\x01\x02\x01\x01\x01\0\x01\xFF\0");
    assert_eq!(buffer[520..], [2, 0, 1, 0, 0xEE]);
    assert_eq!(numbers(check(2, &file, &buffer[..524])), [0, 0, 0, 0, 524]);
    not_written(2, &file, &[0, 8, 266, 523], [46, 0, 0, 0, 0]);
}

/// A60: 42 at once, whatever the file and what is lent.
#[test]
fn no_such_file() {
    for number in [0, 5, 6, 7, -1, -4, 257, 65_537, i32::MIN, i32::MAX] {
        for file in [&b""[..], b"\t", &routes(&["A"]), &routes(&["A", "A"]), b"trip_id\n"] {
            refused(number, file, [42, 0, 0, 0, 0]);
        }
        refused(number, &vec![b'\n'; MOST_LINES + 1], [42, 0, 0, 0, 0]);
    }
}

/// A61: rules 1, 2 and 4, before all that is about the index; an empty calendar.txt is refused too.
#[test]
fn whole_files() {
    for (number, file) in (1..=4).zip(1..) {
        refused(number, b"", [4, file, 0, 0, 0]);
        refused(number, b"\xEF\xBB\xBF", [4, file, 0, 0, 0]);
        refused(number, b"\t", [4, file, 0, 0, 0]);
        refused(number, &vec![b'\n'; MOST_LINES + 1], [2, file, 0, 0, 0]);
        refused(number, &[vec![b'\n'; MOST_LINES + 1], b"x".to_vec()].concat(), [2, file, 0, 0, 0]);
        // So many lines are allowed, but the first has no name.
        refused(number, &vec![b'\n'; MOST_LINES], [9, file, 1, 0, 0]);
    }
    refused(2, &routes(&["A"])[..23], [4, 2, 0, 0, 0]);
    let long = vec![b'\n'; MOST_BYTES + 1];
    assert_eq!(numbers(check(1, &long, b"")), [1, 1, 0, 0, 0]);
    assert_eq!(numbers(check(1, &long[1..], b"")), [2, 1, 0, 0, 0]);
}

/// The lines' own rules, with their columns, each before 40 to 46.
#[test]
fn lines() {
    let line = |line: &str, number, column| refused(2, &routes(&["B", line]), [number, 2, 3, column, 0]);
    let header = |header: &str, number, column| {
        refused(2, format!("{header}\n3,B\n\t\n").as_bytes(), [number, 2, 1, column, 0]);
    };
    line("A\t", 5, 0);
    line("A\"", 6, 0);
    line(&",".repeat(40), 7, 0);
    line("A,A", 10, 0);
    line(&"x".repeat(65), 11, 2);
    line("", 12, 2);
    line("\"\"", 12, 2);
    refused(2, &[&routes(&["B"])[..], b"3,\xFF\n"].concat(), [14, 2, 3, 0, 0]);
    refused(2, &[&routes(&["B"])[..], b"x,A\n"].concat(), [13, 2, 3, 1, 0]);
    header("route_id,route_type,route_id", 8, 3);
    header("route_id", 9, 0);
    header("route_id,\t", 5, 0);
    // The first line that breaks a rule speaks, and on it 14 before 6.
    refused(2, &[&routes(&["", "A\t"])[..], b"\"\xFF\n"].concat(), [12, 2, 2, 2, 0]);
    refused(2, &[&routes(&["B"])[..], b"\"\xFF\n"].concat(), [14, 2, 3, 0, 0]);
    // Another file's columns.
    refused(1, &routes(&["B"]), [9, 1, 1, 0, 0]);
}

/// E10: nodes and boarding areas stand in an index, with name and place or without; one coordinate alone is their file's refusal.
#[test]
fn nodes_and_boarding_areas() {
    let stops = |lines: &str| format!("{STOPS},location_type\n{lines}").into_bytes();
    index(1, &stops("N,,,,3\nB,,1,2,4\nA,Alder,1,2,\n"), b"TTX\x01\0\x01\x03\0\x03\0\x02\0\x01\0");
    refused(1, &stops("N,,,,3\nB,,1,,4\n"), [12, 1, 3, 4, 0]);
    refused(1, &stops("N,,,,3\nB,,,,2\n"), [12, 1, 3, 2, 0]);
    refused(1, &stops("N,,,,3\nB,,,,5\n"), [12, 1, 3, 2, 0]);
    refused(1, &stops("N,,,,3\nB,b,1,2,5\n"), [13, 1, 3, 5, 0]);
}

/// Binding rules aren't tested: a parent that stands nowhere, both names empty, an end before its start.
#[test]
fn no_binding_rules() {
    let stops = format!("{STOPS},parent_station\nA,Alder,1,2,nowhere\n");
    index(1, stops.as_bytes(), b"TTX\x01\0\x01\x01\0\x01\0");
    index(2, b"route_id,route_type,route_short_name\nR,3,\n", b"TTX\x01\0\x02\x01\0\x01\0");
    let calendar = format!("{CALENDAR}\nW,1,1,1,1,1,0,0,20241231,20240101\n");
    index(3, calendar.as_bytes(), b"TTX\x01\0\x03\x01\0\x01\0");
}

/// 40 to 44, each alone, over routes B and A; the right index lists 2 and 1.
#[test]
fn each_refusal_of_the_reader() {
    index(2, &routes(&["B", "A"]), b"TTX\x01\0\x02\x02\0\x02\0\x01\0");
    for short in [&b""[..], b"T", b"TTX", b"TTX\x01\0\x02\x02"] {
        judged(short, 40);
    }
    for mark in [b"TTY", b"ttx", b"XTT", b"\0TX"] {
        judged(&[mark, &b"\x01\0\x02\x02\0\x02\0\x01\0"[..]].concat(), 40);
    }
    for version in [[0, 0], [3, 0], [0, 1], [1, 1], [2, 1], [0, 2], [255, 255]] {
        judged(&[b"TTX", &version[..], b"\x02\x02\0\x02\0\x01\0"].concat(), 41);
    }
    for (file, count) in [(1, [2, 0]), (0, [2, 0]), (b'2', [2, 0]), (2, [1, 0]), (2, [3, 0]), (2, [0, 2]), (2, [2, 1])]
    {
        judged(&[b"TTX\x01\0", &[file][..], &count, b"\x02\0\x01\0"].concat(), 42);
    }
    for entries in [&b""[..], b"\x02\0", b"\x02\0\x01", b"\x02\0\x01\0\0", b"\x02\0\x01\0\x01\0"] {
        judged(&[b"TTX\x01\0\x02\x02\0", entries].concat(), 42);
    }
    // As if there were one record or three, each listed.
    judged(&listing(&[2]), 42);
    judged(&listing(&[2, 1, 1]), 42);
    judged(&listing(&[]), 42);
    for entries in [b"\x02\0\0\0", b"\x02\0\x03\0", b"\0\0\x01\0", b"\x02\0\0\x01", b"\x02\0\x01\x01", b"\0\x02\0\x01"]
    {
        judged(&[b"TTX\x01\0\x02\x02\0", &entries[..]].concat(), 43);
    }
    for records in [[1, 2], [2, 2], [1, 1]] {
        judged(&listing(&records), 44);
    }
}

/// Of several the lowest number speaks.
#[test]
fn the_lowest_number() {
    // The mark, the version, the file number and the entries are wrong; then one after the other is right.
    judged(b"TTx\x03\0\x03\x02\0\0\0\x01\0", 40);
    judged(b"TTX\x03\0\x03\x02\0\0\0\x01\0", 41);
    judged(b"TTX\x01\0\x03\x02\0\0\0\x01\0", 42);
    judged(b"TTX\x01\0\x02\x02\0\0\0\x01\0", 43);
    // Too short for a version of its own, and with the wrong one.
    judged(b"TTX\x03\0\x02\x02", 40);
    judged(b"TTX\x03\0\x02\x02\0", 41);
    judged(b"TTX\x01\0\x02\x02\0", 42);
    judged(b"TTX\x01\0\x03\x02\0\x01\0\x02\0", 42);
    judged(b"TTX\x01\0\x02\x02\0\x01\0\x02\0\0\0", 42);
}

/// A63: 43 over all entries speaks before 44 over any pair.
#[test]
fn records_before_pairs() {
    let file = routes(&["B", "A", "C"]);
    let judged = |records: &[u8]| numbers(check(2, &file, &listing(records)));
    for records in [[1, 2, 0], [1, 2, 4], [0, 1, 2], [2, 2, 0], [3, 1, 4], [4, 3, 2]] {
        assert_eq!(judged(&records), [43, 0, 0, 0, 0], "{records:?}");
    }
    for records in [[1, 2, 3], [2, 3, 1], [2, 2, 3], [2, 1, 1], [3, 1, 2]] {
        assert_eq!(judged(&records), [44, 0, 0, 0, 0], "{records:?}");
    }
    assert_eq!(judged(&[2, 1, 3]), [0, 0, 0, 0, 14]);
}

/// Of all lists of three records one is accepted: every record once, in rising order.
#[test]
fn one_index_is_accepted() {
    let file = routes(&["B", "A", "C"]);
    let lists = (0..125).map(|list| [list / 25, list / 5 % 5, list % 5]);
    let accepted: Vec<[u8; 3]> = lists.filter(|list| check(2, &file, &listing(list)).number == 0).collect();
    assert_eq!(accepted, [[2, 1, 3]]);
}

/// A63: with a repeated id no index is accepted; the writer says 45, whatever the buffer.
#[test]
fn a_repeated_id() {
    for ids in [["A", "B", "\"A\""], ["\"A\"", "A", "B"], ["\"a\"\"\"", "\"a\"\"\"", "A"]] {
        let file = routes(&ids);
        not_written(2, &file, &[0, 7, 8, 13, 14, 100], [45, 0, 0, 0, 0]);
        for records in [[1, 2, 3], [1, 3, 2], [2, 1, 3], [2, 3, 1], [3, 1, 2], [3, 2, 1], [1, 1, 2]] {
            assert_eq!(numbers(check(2, &file, &listing(&records))), [44, 0, 0, 0, 0], "{ids:?} {records:?}");
        }
        assert_eq!(numbers(check(2, &file, &listing(&[1, 2]))), [42, 0, 0, 0, 0]);
        assert_eq!(numbers(check(2, &file, &listing(&[1, 2, 4]))), [43, 0, 0, 0, 0]);
    }
    // These differ: by case, by a blank, by what follows.
    index(2, &routes(&["a", "A", "A ", "AA"]), &listing(&[2, 3, 4, 1]));
}

/// 46 below 8 plus twice the count.
#[test]
fn a_buffer_too_short() {
    not_written(2, &routes(&["B", "A"]), &[0, 1, 4, 7, 8, 9, 10, 11], [46, 0, 0, 0, 0]);
}

/// A85: beside 65,535 records or fewer version 2 is 42, right in all else or cut to any length from 8 bytes on; no records too.
#[test]
fn version_2_beside_few_records() {
    let right = b"TTX\x02\0\x02\x02\0\0\0\x02\0\0\0\x01\0\0\0";
    for length in 0..=right.len() {
        judged(&right[..length], if length < 8 { 40 } else { 42 });
    }
    // Laid out as version 1, with the records of version 1, and the other way round.
    judged(b"TTX\x02\0\x02\x02\0\x02\0\x01\0", 42);
    judged(b"TTX\x02\0\x02\x02\0\0\0\x02\0\x01\0", 42);
    judged(b"TTX\x01\0\x02\x02\0\0\0\x02\0\0\0\x01\0\0\0", 42);
    // With records that aren't there, in no order, and with a count that only version 2 can have.
    judged(b"TTX\x02\0\x02\x02\0\0\0\0\0\0\0\x03\0\0\0", 42);
    judged(b"TTX\x02\0\x02\x02\0\0\0\x01\0\0\0\x02\0\0\0", 42);
    judged(b"TTX\x02\0\x02\x02\0\x01\0\x02\0\0\0\x01\0\0\0", 42);
    assert_eq!(numbers(check(2, &routes(&[]), b"TTX\x02\0\x02\0\0\0\0")), [42, 0, 0, 0, 0]);
}

/// routes.txt with so many ids that fall.
fn falling(count: usize) -> Vec<u8> {
    let ids: Vec<String> = (0..count).map(|place| (3_000_000 - place).to_string()).collect();
    routes(&ids.iter().map(String::as_str).collect::<Vec<_>>())
}

/// The index that lists so many records from the last to the first, behind these bytes, in so many bytes each.
fn backward(head: &[u8], count: u32, width: usize) -> Vec<u8> {
    let entries = (1..=count).rev().flat_map(|record| record.to_le_bytes()[..width].to_vec());
    head.iter().copied().chain(entries).collect()
}

/// A85: 65,535 records have version 1 and nothing else.
#[test]
fn as_many_records_as_version_1_counts() {
    let file = falling(65_535);
    let right = backward(b"TTX\x01\0\x02\xFF\xFF", 65_535, 2);
    assert_eq!(right.len(), 131_078);
    index(2, &file, &right);
    not_written(2, &file, &[131_077], [46, 0, 0, 0, 0]);
    let wide = backward(b"TTX\x02\0\x02\xFF\xFF\0\0", 65_535, 4);
    assert_eq!(numbers(check(2, &file, &wide)), [42, 0, 0, 0, 0]);
}

/// A84 and A85: 65,536 records have version 2 and nothing else; 46 follows its length.
#[test]
fn more_records_than_version_1_counts() {
    let file = falling(65_536);
    let right = backward(b"TTX\x02\0\x02\0\0\x01\0", 65_536, 4);
    assert_eq!(right[..18], *b"TTX\x02\0\x02\0\0\x01\0\0\0\x01\0\xFF\xFF\0\0");
    assert_eq!(right.len(), 262_154);
    index(2, &file, &right);
    not_written(2, &file, &[131_080, 262_153], [46, 0, 0, 0, 0]);
    // Wrong in its mark, version, file and count; then a record that is right in its low half only, or isn't there, or stands twice.
    let head: [(usize, &[u8], usize); 10] = [
        (2, b"Y", 40),
        (3, &[0], 41),
        (3, &[3], 41),
        (4, &[1], 41),
        (3, &[1], 42),
        (5, &[1], 42),
        (6, &[1], 42),
        (8, &[0], 42),
        (8, &[2], 42),
        (9, &[1], 42),
    ];
    let records: [(usize, &[u8], usize); 4] =
        [(12, &[0], 43), (16, &[1], 43), (17, &[128], 43), (10, &[0xFF, 0xFF, 0], 44)];
    for (place, bytes, wanted) in head.into_iter().chain(records) {
        let mut index = right.clone();
        index[place..place + bytes.len()].copy_from_slice(bytes);
        assert_eq!(numbers(check(2, &file, &index)), [wanted, 0, 0, 0, 0], "{bytes:?} at {place}");
    }
}

/// Version 2 of another length, and version 1 beside so many: with the count's low half, and with as many as it counts.
#[test]
fn other_lengths_beside_many_records() {
    let file = falling(65_536);
    let right = backward(b"TTX\x02\0\x02\0\0\x01\0", 65_536, 4);
    for length in [8, 9, 10, 14, 262_150, 262_153] {
        assert_eq!(numbers(check(2, &file, &right[..length])), [42, 0, 0, 0, 0], "{length} bytes");
    }
    for (head, count) in [(b"TTX\x01\0\x02\0\0", 65_536), (b"TTX\x01\0\x02\xFF\xFF", 65_535)] {
        assert_eq!(numbers(check(2, &file, &backward(head, count, 2))), [42, 0, 0, 0, 0]);
    }
}

/// Rules 1 and 2 at their limits, and a line or a byte over them.
#[test]
fn as_large_a_file_as_there_may_be() {
    let mut file = falling(MOST_LINES - 1);
    let right = backward(b"TTX\x02\0\x02\xFF\xFF\x0F\0", 1_048_575, 4);
    let mut buffer = vec![0xEE; right.len()];
    assert_eq!(numbers(write(2, &file, &mut buffer)), [0, 0, 0, 0, 4_194_310]);
    assert!(buffer == right);
    assert_eq!(numbers(check(2, &file, &right)), [0, 0, 0, 0, 4_194_310]);
    file.extend(b"3,0\n");
    refused(2, &file, [2, 2, 0, 0, 0]);
    let mut file = b"route_id,route_type,note\nR,3,".to_vec();
    file.resize(MOST_BYTES - 1, b'x');
    file.push(b'\n');
    assert_eq!(numbers(check(2, &file, b"TTX\x01\0\x02\x01\0\x01\0")), [0, 0, 0, 0, 10]);
    file.insert(0, b'x');
    refused(2, &file, [1, 2, 0, 0, 0]);
}
