//! The generator reaches everything that it is meant to reach.

use cases::characters::ILL_FORMED;
use cases::generate::{case, kind, Kind};
use cases::index::{self, Asked};
use cases::{by_model, Case};
use model::characters::first_character;
use model::columns::COLUMNS;
use model::fields::{fields, lines};
use model::reading::read;
use model::{Answer, Profile, FILES};
use std::collections::{BTreeMap, BTreeSet};

const SEEDS: u64 = 6000;

/// File and rule of all findings of a case, whatever its list and start.
fn rules(case: &Case) -> Vec<(i32, i32)> {
    let mut whole = Case { list: vec![0; 30_000], start: [0, 0, 0], ..case.clone() };
    match model::check(&case.files, &mut whole.tables, &mut whole.list, whole.start, whole.profile) {
        Answer::Findings { written, .. } => {
            whole.list[..written * 3].chunks(3).map(|found| (found[0], found[2])).collect()
        }
        _ => Vec::new(),
    }
}

#[test]
fn every_answer_and_rule_is_reached() {
    let mut refusals = BTreeMap::new();
    let mut findings = BTreeMap::new();
    let mut accepted = 0;
    for seed in 0..SEEDS {
        let case = case(seed);
        match by_model(&case).answer {
            Answer::Accepted => accepted += 1,
            Answer::Findings { .. } => {
                rules(&case).into_iter().for_each(|rule| *findings.entry(rule).or_insert(0) += 1)
            }
            Answer::Refused { number, file, .. } => *refusals.entry((file, number)).or_insert(0) += 1,
        }
    }
    println!("accepted {accepted}, refusals {refusals:?}, findings {findings:?}");
    assert!(accepted > 0);
    let numbers: BTreeSet<usize> = refusals.keys().map(|&(_, number)| number).collect();
    assert_eq!(numbers, (1..=14).collect());
    assert!((3..=14).all(|number| refusals.contains_key(&(6, number))), "file 6 breaks every rule but 1 and 2");
    let ill_formed: Vec<usize> = (1..=FILES).map(|file| refusals[&(file, 14)]).collect();
    assert!(ill_formed.iter().all(|&seeds| seeds >= 40), "rule 14 in every file: {ill_formed:?}");
    let stands: [(i32, &[i32]); 6] = [
        (1, &[20, 21, 22]),
        (2, &[20, 25]),
        (3, &[20, 24]),
        (4, &[20, 21, 30, 31]),
        (5, &[21, 23, 26, 27, 28, 29, 60, 61, 62]),
        (6, &[20]),
    ];
    let wanted: Vec<(i32, i32)> =
        stands.iter().flat_map(|(file, rules)| rules.iter().map(|rule| (*file, *rule))).collect();
    assert_eq!(findings.keys().copied().collect::<Vec<_>>(), wanted);
}

/// Files 3 and 6 not supplied, without lines and with some beside each other; services in one, in both, in none.
#[test]
fn every_way_to_give_services_is_reached() {
    let mut states = BTreeSet::new();
    let mut services = BTreeSet::new();
    let mut both_empty = 0;
    for case in (0..SEEDS).map(case) {
        let Ok(feed) = read(&case.files, case.tables.each_ref().map(Vec::len)) else {
            both_empty += usize::from(case.files[2].is_empty() && case.files[5].is_empty());
            continue;
        };
        states.insert([2, 5].map(|file: usize| (feed[file].supplied, feed[file].rows().count().min(1))));
        for trip in feed[3].rows() {
            let stands = |file: usize| feed[file].rows().any(|row| row.value("service_id") == trip.value("service_id"));
            services.insert([2, 5].map(stands));
        }
    }
    assert!(both_empty > 0);
    assert_eq!(states.len(), 8, "{states:?}");
    assert_eq!(services.len(), 4, "{services:?}");
}

/// Every type of stop beside a parent of every type, none and one that stands nowhere; nodes and areas with and without name and place; and
/// stops of every type refused, and of some that aren't of their form, for one empty value or several.
#[test]
fn every_way_to_be_a_stop_is_reached() {
    let mut parents = BTreeSet::new();
    let mut lacking = BTreeSet::new();
    let mut refused = BTreeSet::new();
    for case in (0..SEEDS).map(case) {
        if let Err(Answer::Refused { number: 12, file: 1, line, .. }) = read(&case.files, [usize::MAX; FILES]) {
            refused.insert(empty_values(&case.files[0], line));
        }
        let Ok(feed) = read(&case.files, [usize::MAX; FILES]) else { continue };
        for stop in feed[0].rows() {
            let (kind, id) = (stop.number("location_type"), stop.value("parent_station"));
            let parent =
                feed[0].rows().find(|other| other.value("stop_id") == id).map(|other| other.number("location_type"));
            parents.insert((kind, id.is_empty(), parent.filter(|_| !id.is_empty())));
            lacking.insert((kind, ["stop_name", "stop_lat"].map(|name| stop.value(name).is_empty())));
        }
    }
    assert_eq!(parents.len(), 5 * (5 + 2), "{parents:?}");
    assert_eq!(lacking.len(), 3 + 2 * 4, "{lacking:?}");
    let kinds: BTreeSet<&[u8]> = refused.iter().map(|(kind, _)| &kind[..]).collect();
    assert!(["", "0", "1", "2", "3", "4", "5", "03"].iter().all(|kind| kinds.contains(kind.as_bytes())), "{refused:?}");
    let ways: BTreeSet<&Vec<&str>> = refused.iter().map(|(_, empty)| empty).filter(|empty| !empty.is_empty()).collect();
    assert_eq!(ways.len(), 7, "each of three, each two and all: {ways:?}");
}

/// The type of a line of stops.txt as it stands, and which of its name and its coordinates are empty.
fn empty_values(file: &[u8], line: usize) -> (Vec<u8>, Vec<&'static str>) {
    let rows: Vec<_> = [0, line - 1].map(|place| fields(lines(file)[place]).expect("a line that is cut")).to_vec();
    let under =
        |name: &str| rows[0].iter().position(|field| field.value == name.as_bytes()).map(|at| &rows[1][at].value);
    let named = [("stop_name", "name"), ("stop_lat", "latitude"), ("stop_lon", "longitude")];
    let empty = named.into_iter().filter(|(column, _)| under(column).is_some_and(Vec::is_empty));
    (under("location_type").cloned().unwrap_or_default(), empty.map(|(_, name)| name).collect())
}

/// A feed with the profile for boards and without it: every two answers that there can be, each profile about half of the time.
#[test]
fn every_pair_of_answers_is_reached() {
    let mut reached = BTreeMap::new();
    let mut asked = 0;
    for case in (0..SEEDS).map(case) {
        asked += u64::from(case.profile == Profile::Boards);
        let answers =
            [Profile::Plain, Profile::Boards].map(|profile| by_model(&Case { profile, ..case.clone() }).answer);
        let kinds = answers.map(|answer| match answer {
            Answer::Accepted => "accepted",
            Answer::Findings { .. } => "findings",
            Answer::Refused { .. } => "refused",
        });
        let more =
            matches!(answers, [Answer::Findings { total: few, .. }, Answer::Findings { total, .. }] if few < total);
        *reached.entry((case.profile == Profile::Boards, kinds, more)).or_insert(0) += 1;
    }
    assert!((SEEDS * 2 / 5..SEEDS * 3 / 5).contains(&asked), "{asked}");
    let pairs = [
        (["accepted", "accepted"], false),
        (["accepted", "findings"], false),
        (["findings", "findings"], false),
        (["findings", "findings"], true),
        (["refused", "refused"], false),
    ];
    let wanted = [false, true].into_iter().flat_map(|asked| pairs.map(|(kinds, more)| (asked, kinds, more)));
    assert!(reached.keys().copied().eq(wanted) && reached.values().all(|&seeds| seeds >= 40), "{reached:?}");
}

/// Lines for boards: each time missing, early, a second before two days, just then and later beside each of the other; every pickup beside every
/// drop-off; and starting places at the profile's rules with more behind them.
#[test]
fn every_line_for_boards_is_reached() {
    let mut times = BTreeSet::new();
    let mut choices = BTreeSet::new();
    let mut starts = BTreeSet::new();
    for case in (0..SEEDS).map(case).filter(|case| case.profile == Profile::Boards) {
        if let (Answer::Findings { written: 1.., .. }, [5, _, rule @ 60..=62]) = (by_model(&case).answer, case.start) {
            starts.insert(rule);
        }
        let Ok(feed) = read(&case.files, case.tables.each_ref().map(Vec::len)) else { continue };
        for call in feed[4].rows() {
            let time =
                |name: &str| [-1, 0, 172_799, 172_800, 172_801].into_iter().rfind(|&from| from <= call.number(name));
            times.insert([time("arrival_time"), time("departure_time")]);
            choices.insert(["pickup_type", "drop_off_type"].map(|name| call.number(name)));
        }
    }
    assert_eq!(choices.len(), 4 * 4, "{choices:?}");
    assert_eq!(starts.len(), 3, "{starts:?}");
    let [none, early, last, two_days, late] = [-1, 0, 172_799, 172_800, 172_801].map(Some);
    let wanted = [none, early, late].into_iter().flat_map(|one| [[one, none], [one, early], [one, late]]);
    assert!(
        wanted
            .chain([[last, early], [early, last], [two_days, early], [early, two_days]])
            .all(|pair| times.contains(&pair)),
        "{times:?}"
    );
}

/// The lengths of the well-formed characters that a text begins with, and what follows them.
fn characters(text: &[u8]) -> (BTreeSet<usize>, &[u8]) {
    let mut lengths = BTreeSet::new();
    let mut rest = text;
    while let Some(length) = (!rest.is_empty()).then(|| first_character(rest)).flatten() {
        lengths.insert(length);
        rest = &rest[length..];
    }
    (lengths, rest)
}

/// Each way to be ill-formed, and headers as well as lines below.
#[test]
fn every_ill_formed_sequence_is_reached() {
    let mut reached = BTreeMap::new();
    let mut headers = BTreeSet::new();
    for case in (0..SEEDS).filter(|&seed| kind(seed) == Kind::Refused(14)).map(case) {
        let Answer::Refused { number: 14, file, line, .. } = by_model(&case).answer else { continue };
        let (_, rest) = characters(lines(&case.files[file - 1])[line - 1].text);
        ILL_FORMED.iter().filter(|ill| rest.starts_with(ill)).for_each(|ill| *reached.entry(*ill).or_insert(0) += 1);
        headers.insert(line == 1);
    }
    assert!(reached.len() == ILL_FORMED.len() && reached.values().all(|&seeds| seeds >= 5), "{reached:02X?}");
    assert_eq!(headers.len(), 2);
}

/// Feeds that are read have characters of every length in headers, under columns of ids, of names, and under unread ones.
#[test]
fn characters_of_every_length_are_read() {
    let mut reached = BTreeSet::new();
    for case in (0..SEEDS / 10).map(case) {
        if read(&case.files, case.tables.each_ref().map(Vec::len)).is_err() {
            continue;
        }
        for (file, columns) in case.files.iter().zip(COLUMNS) {
            let mut rows = lines(file).into_iter().map(|line| fields(line).expect("a line that is read"));
            let header = rows.next().unwrap_or_default();
            reached.extend(header.iter().flat_map(|name| characters(&name.value).0).map(|length| ("header", length)));
            for (field, name) in rows.flat_map(|row| row.into_iter().zip(&header).collect::<Vec<_>>()) {
                let under = match columns.iter().find(|column| column.name.as_bytes() == name.value) {
                    Some(column) if column.is_id() => "id",
                    Some(_) => "other",
                    None => "unread",
                };
                reached.extend(characters(&field.value).0.into_iter().map(|length| (under, length)));
            }
        }
    }
    assert_eq!(reached.len(), 4 * 4, "{reached:?}");
}

#[test]
fn a_clean_feed_is_accepted_unless_its_tables_are_short() {
    for seed in (0..SEEDS).filter(|&seed| kind(seed) == Kind::Clean) {
        let case = Case { profile: Profile::Plain, ..case(seed) };
        let answer = by_model(&case).answer;
        let short = matches!(answer, Answer::Refused { number: 3, .. });
        assert!(answer == Answer::Accepted || short, "{}: {answer:?}", case.name);
    }
}

#[test]
fn a_faulty_feed_is_read_unless_its_tables_are_short() {
    for seed in (0..SEEDS).filter(|&seed| kind(seed) == Kind::Faulty) {
        let case = case(seed);
        let answer = by_model(&case).answer;
        assert!(!matches!(answer, Answer::Refused { number: 4.., .. }), "{}: {answer:?}", case.name);
    }
}

#[test]
fn a_seed_gives_the_same_case_for_ever() {
    for seed in [0, 5, 8, 11, 15] {
        assert_eq!(case(seed), case(seed));
    }
}

/// Calls about indexes get every answer, of either function.
#[test]
fn every_answer_about_an_index_is_reached() {
    let mut reached = BTreeMap::new();
    for case in (0..1500).map(index::generate::case) {
        *reached.entry((case.asked == Asked::Write, index::by_model(&case).answer.number)).or_insert(0) += 1;
    }
    println!("{reached:?}");
    let of_file = [4, 5, 6, 7, 8, 9, 10, 11, 12, 13, 14];
    let written = [&[0], &of_file[..], &[42, 45, 46]].concat().into_iter().map(|number| (true, number));
    let judged = [&[0], &of_file[..], &[40, 41, 42, 43, 44]].concat().into_iter().map(|number| (false, number));
    assert!(reached.keys().copied().eq(judged.chain(written)), "{:?}", reached.keys());
}

/// The feeds that the limits are tried with.
#[test]
fn large_feeds_are_accepted() {
    for calls in [2, 21, 41, 1000] {
        let files = cases::large::feed(calls);
        let mut tables = cases::large::tables(&files, 9);
        assert_eq!(model::check(&files, &mut tables, &mut [0; 30], [0, 0, 0], Profile::Plain), Answer::Accepted);
    }
}
