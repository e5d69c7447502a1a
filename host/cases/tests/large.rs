//! The benchmark's feeds are readable, of the size asked for, and what they are said to be.

use cases::large::families::{Family, Kind, FAMILIES};
use cases::large::tables;
use model::columns::WIDTHS;
use model::fields::line_ends;
use model::{Answer, Files, Profile, FILES};
use std::collections::BTreeSet;

/// How many findings each feed of 64 lines has, counted by hand.
fn findings(name: &str) -> usize {
    let (lines, trips) = (63, 6);
    match name {
        // The trip of each line (21), and each trip that no line has (30).
        "nowhere" | "one-nowhere" => lines + trips,
        // The trip of each line (21) and its stop, a station (23), and each trip (30).
        "all-at-once" => lines * 3,
        // The stop of each line (21), and each trip for its route and service (21) and its one line (30).
        "unresolved" => lines * 3,
        // All lines but the first of five files (20).
        "equal-ids" => (lines - 1) * 5,
        // Each trip for its one line (30).
        "own-trip" => lines,
        // Each trip but the first, without a line (30).
        "day-trips" => lines - 1,
        // The lines past the first 32 (20).
        "dates-twice" | "dates-tangle" | "day-twice" | "day-tangle" => 31,
        // All lines but the first (28).
        "one-sequence" => lines - 1,
        _ => 0,
    }
}

#[test]
fn small_ones_find_what_was_meant() {
    for family in &FAMILIES {
        let files = (family.feed)(64);
        assert_eq!(files.iter().map(|file| line_ends(file)).max(), Some(64), "{}", family.name);
        let answer = model::check(&files, &mut tables(&files, 0), &mut [], [0, 0, 0], Profile::Plain);
        let total = match answer {
            Answer::Accepted => 0,
            Answer::Findings { total, .. } => total,
            Answer::Refused { .. } => panic!("{}: {answer:?}", family.name),
        };
        assert_eq!(total, findings(family.name), "{}", family.name);
        assert!(family.kind != Kind::Plain || answer == Answer::Accepted, "{}", family.name);
    }
}

/// Has this file of the family the lines that the plain feed has there, in another order?
fn reordered(family: &Family, file: usize) -> bool {
    let sorted = |files: &Files| {
        let mut lines: Vec<Vec<u8>> = files[file - 1].split(|&byte| byte == b'\n').map(<[u8]>::to_vec).collect();
        lines.sort();
        lines
    };
    let plain = (FAMILIES[0].feed)(64);
    let files = (family.feed)(64);
    plain[file - 1] != files[file - 1] && sorted(&plain) == sorted(&files)
}

#[test]
fn some_are_the_plain_feed_in_another_order() {
    for family in &FAMILIES {
        let wanted = ["interleaved", "by-stop", "backward", "shuffled"].contains(&family.name);
        assert_eq!(reordered(family, 5), wanted, "{}", family.name);
    }
}

/// The files of a feed of 64 lines, and the tables that the model fills, in numbers by record.
fn filled(name: &str) -> (Files, [Vec<Vec<i32>>; FILES]) {
    let family = FAMILIES.iter().find(|family| family.name == name).expect("a family of this name");
    let files = (family.feed)(64);
    let mut filled = tables(&files, -1);
    model::check(&files, &mut filled, &mut [], [0, 0, 0], Profile::Plain);
    let records = |file: usize| filled[file].chunks(WIDTHS[file]).skip(1).map(<[i32]>::to_vec).collect();
    (files, std::array::from_fn(records))
}

#[test]
fn ids_are_as_long_as_said() {
    let (files, tables) = filled("prefix");
    for file in 0..4 {
        let ids = tables[file].iter().map(|record| &files[file][record[0] as usize..record[1] as usize]);
        assert!(ids.into_iter().all(|id| id.len() == 52 && id[..48] == [b'0'; 48]), "file {}", file + 1);
    }
    let [_, _, _, trips, calls, _] = filled("long-ids").1;
    assert!(trips.iter().all(|trip| trip[1] - trip[0] == 64));
    assert!(calls[..62].chunks(2).all(|pair| pair[0][0] == pair[1][0]), "two lines a trip");
}

#[test]
fn characters_are_as_wide_as_said() {
    let widths =
        |text: &[u8]| std::str::from_utf8(text).expect("UTF-8").chars().map(char::len_utf8).collect::<Vec<_>>();
    let (files, tables) = filled("three-bytes");
    for file in 0..4 {
        let ids = tables[file].iter().map(|record| &files[file][record[0] as usize..record[1] as usize]);
        assert!(ids.into_iter().all(|id| widths(id) == [3; 17]), "file {}", file + 1);
    }
    let (files, tables) = filled("mixed-bytes");
    assert_eq!(tables, filled("plain").1);
    let notes =
        files[4].split(|&byte| byte == b'\n').skip(1).filter_map(|line| line.rsplit(|&byte| byte == b',').next());
    let notes: Vec<Vec<usize>> = notes.filter(|note| !note.is_empty()).map(widths).collect();
    assert_eq!(notes, vec![[1, 2, 3, 4].repeat(9); 63]);
}

#[test]
fn references_go_where_they_should() {
    let [stops, ..] = filled("last-parent").1;
    assert!(stops[..62].iter().all(|stop| stop[5] == 63) && stops[62][5] == 0);
    assert!(filled("all-at-once").1[4].iter().all(|call| call[..2] == [0, 63]));
    assert!(filled("nowhere").1[4].iter().all(|call| call[0] == 0 && call[1] > 0));
    let [_, _, _, trips, calls, _] = filled("unresolved").1;
    assert!(trips.iter().all(|trip| trip[2..4] == [0, 0] && trip[7] == 0));
    assert!(calls.iter().zip(1..).all(|(call, record)| call[..2] == [record, 0]));
}

#[test]
fn lines_stand_in_the_order_said() {
    let calls = |name: &str| filled(name).1[4].clone();
    let trips = |name: &str| calls(name).into_iter().map(|call| call[0]).collect::<Vec<_>>();
    assert!(trips("plain").windows(2).all(|pair| pair[0] <= pair[1]));
    let sequences = |name: &str| calls(name).into_iter().map(|call| call[2]).collect::<Vec<_>>();
    let backward = |name: &str| calls(name).into_iter().rev().collect::<Vec<_>>();
    assert_eq!(backward("backward"), calls("plain"));
    assert!(calls("by-stop").windows(2).all(|pair| pair[0][1] <= pair[1][1]), "the stops rise");
    assert!(sequences("by-stop")[..20].windows(2).any(|pair| pair[0] > pair[1]), "the sequences don't");
    assert_eq!(trips("interleaved")[..8], [1, 2, 3, 4, 5, 6, 1, 2]);
    for one in ["one-trip", "one-backward", "one-shuffled", "one-sequence"] {
        assert_eq!(trips(one), [1; 63], "{one}");
    }
    assert_eq!(trips("one-nowhere"), [0; 63]);
    assert_eq!(backward("one-backward"), calls("one-trip"));
    assert!(sequences("one-shuffled").windows(2).any(|pair| pair[0] > pair[1]));
    assert!(sequences("one-nowhere").windows(2).all(|pair| pair[0] == pair[1] + 1));
    assert_eq!(sequences("one-sequence"), [1; 63]);
    assert_eq!(trips("own-trip"), (1..64).collect::<Vec<_>>());
    assert!(trips("two-lines")[..62].chunks(2).zip(1..).all(|(pair, trip)| pair == [trip, trip]));
    assert_eq!(trips("few-ids").iter().max(), Some(&4));
    assert_eq!(calls("quoted"), calls("plain"));
    assert!(filled("quoted").0[..5].iter().all(|file| file.starts_with(b"\"") && file.ends_with(b"\"\n")));
}

/// The services of calendar_dates, by the texts of their ids, and the dates.
fn dated(name: &str) -> (Vec<Vec<u8>>, Vec<i32>) {
    let (files, tables) = filled(name);
    let id = |record: &Vec<i32>| files[5][record[0] as usize..record[1] as usize].to_vec();
    (tables[5].iter().map(id).collect(), tables[5].iter().map(|record| record[2]).collect())
}

/// How many of them there are, each once.
fn different<T: Ord>(list: Vec<T>) -> usize {
    list.into_iter().collect::<BTreeSet<T>>().len()
}

#[test]
fn services_have_the_dates_said() {
    for (name, services, dates) in [
        ("dates-only", 1, 63),
        ("dates-rise", 1, 63),
        ("dates-mixed", 1, 63),
        ("dates-twice", 1, 32),
        ("dates-tangle", 1, 32),
        ("day-rise", 63, 1),
        ("day-mixed", 63, 1),
        ("day-twice", 32, 1),
        ("day-tangle", 32, 1),
        ("day-prefix", 63, 1),
        ("day-trips", 63, 1),
    ] {
        let lines = dated(name);
        assert_eq!(lines.0.len(), 63, "{name}");
        assert_eq!((different(lines.0), different(lines.1)), (services, dates), "{name}");
    }
    assert!(dated("dates-rise").1.windows(2).all(|pair| pair[0] < pair[1]));
    assert!(dated("dates-mixed").1.windows(2).any(|pair| pair[0] > pair[1]));
    assert_eq!(dated("dates-twice").1[32..], dated("dates-twice").1[..31]);
    assert!(dated("dates-tangle").1[32..] != dated("dates-tangle").1[..31]);
    assert_eq!(dated("day-twice").0[32..], dated("day-twice").0[..31]);
    assert!(dated("day-tangle").0[32..] != dated("day-tangle").0[..31]);
    assert!(dated("day-mixed").0 != dated("day-rise").0);
    assert!(dated("day-prefix").0.iter().all(|id| id.len() == 64 && id[..60] == [b'0'; 60]));
    assert!(filled("dates-only").0[2].is_empty());
    let [_, _, _, trips, _, _] = filled("day-trips").1;
    assert!(trips[1..].iter().all(|trip| trip[3] == 0 && trip[7] > 0));
}
