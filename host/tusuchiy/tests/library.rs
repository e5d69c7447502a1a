//! The library as another program uses it: verdicts, findings page by page, tables.

mod common;

use cases::limits::{MOST_BYTES, MOST_LINES, MOST_OF_VERSION_1};
use common::example_files;
use std::num::NonZeroU32;
use tusuchiy::index::{self, Refused};
use tusuchiy::{faults, table_sizes, Check, Fault, FaultsAnswer, File, Finding};
use tusuchiy::{IndexAnswer, IndexRefusal, Place, Profile, Refusal, Rule, Verdict};

fn slices(files: &[Vec<u8>; 6]) -> [&[u8]; 6] {
    files.each_ref().map(|file| &file[..])
}

/// What the model finds, with the profile for boards or without it.
fn wanted(files: &[Vec<u8>; 6], profile: model::Profile) -> Vec<Finding> {
    let mut tables = table_sizes(slices(files)).map(|size| vec![0; size]);
    let mut list = vec![0; 300];
    let answer = model::check(files, &mut tables, &mut list, [0, 0, 0], profile);
    let model::Answer::Findings { written, total } = answer else { panic!("no findings") };
    assert_eq!(written, total);
    let finding = |numbers: &[i32]| {
        let [file, rule] = [0, 2].map(|place| numbers[place] as usize);
        let line = numbers[1] as u32;
        Finding { file: File::new(file).expect("a file"), line, rule: Rule::new(rule).expect("a rule") }
    };
    list[..written * 3].chunks(3).map(finding).collect()
}

#[test]
fn pages_of_any_room_join() {
    let files = example_files("findings");
    let profiles = [(model::Profile::Plain, Profile::Plain), (model::Profile::Boards, Profile::Boards)];
    let totals = profiles.map(|(by_model, profile)| {
        let wanted = wanted(&files, by_model);
        pages_join(Check::new(slices(&files)).expect("memory").with_profile(profile), &wanted);
        wanted.len()
    });
    // Document 01's five, and the line without times.
    assert_eq!(totals, [5, 6]);
}

/// Fails where pages of a feed don't join to these findings, more than three, by any of its calls.
fn pages_join(mut check: Check, wanted: &[Finding]) {
    let total = wanted.len();
    assert_eq!(check.verdict().expect("an answer"), Verdict::Findings { written: 0, total });
    // No more is lent than the feed can use, however much room is asked for.
    for room in [0, 1, 2, 3, total - 1, total, total + 1, 1000, usize::MAX] {
        let told: Result<Vec<Finding>, _> = check.findings_by(room).collect();
        assert_eq!(told.expect("findings"), wanted, "room {room}");
    }
    let told: Result<Vec<Finding>, _> = check.findings().collect();
    assert_eq!(told.expect("findings"), wanted);
    let page = check.page(Place::from(wanted[0]), 2).expect("a page");
    assert_eq!(page.findings, wanted[1..3]);
    assert_eq!(page.verdict, Verdict::Findings { written: 2, total });
}

/// A caller's thread may be small: the call has a stack of its own.
#[test]
fn from_a_thread_with_a_small_stack() {
    let small = std::thread::Builder::new().stack_size(256 << 10);
    let call = || {
        let files = cases::large::feed(20);
        let mut tables = cases::large::tables(&files, 5);
        let lent = tables.each_mut().map(|table| &mut table[..]);
        tusuchiy::check(slices(&files), lent, &mut [3; 10], [0, 0, 0], Profile::Plain)
    };
    let answer = small.spawn(call).expect("a thread").join().expect("an answer");
    assert_eq!(answer.verdict(), Some(Verdict::Accepted));
}

#[test]
fn a_feed_that_is_refused_has_a_fault_and_no_findings() {
    let files = example_files("refused");
    let mut check = Check::new(slices(&files)).expect("memory");
    let refusal = Refusal::new(13).expect("a refusal");
    let fault = Fault { file: File::StopTimes, line: 4, column: NonZeroU32::new(3), refusal };
    assert_eq!(check.verdict().expect("an answer"), Verdict::Refused(fault));
    assert_eq!(fault.to_string(), format!("stop_times.txt:4:3: refusal 13: {}", refusal.meaning()));
    assert!(check.findings().next().is_none());
    assert!(check.tables().iter().flatten().all(|&number| number == 0), "a refusal writes nothing");
}

/// The feed for boards, by hand: accepted without the profile, four findings with it, the same tables; a check that is asked says what it asks for.
#[test]
fn the_profile_is_part_of_the_call() {
    let files = example_files("boards");
    let mut plain = Check::new(slices(&files)).expect("memory");
    assert_eq!((plain.profile(), plain.verdict().expect("an answer")), (Profile::Plain, Verdict::Accepted));
    let mut boards = Check::new(slices(&files)).expect("memory").with_profile(Profile::Boards);
    assert_eq!(boards.profile(), Profile::Boards);
    let told: Vec<String> = boards.findings_by(1).map(|finding| finding.expect("a finding").to_string()).collect();
    let wanted = [
        "stop_times.txt:3: rule 60: the line isn't timed",
        "stop_times.txt:4: rule 61: pickup or drop-off has to be arranged",
        "stop_times.txt:8: rule 62: a time is 48:00:00 or later",
        "stop_times.txt:9: rule 62: a time is 48:00:00 or later",
    ];
    assert_eq!(told, wanted);
    assert_eq!(plain.tables(), boards.tables());
    assert_eq!(boards.with_profile(Profile::Plain).verdict().expect("an answer"), Verdict::Accepted);
}

/// Refusals, and what they leave alone, don't depend on the profile.
#[test]
fn a_refusal_is_the_same_with_the_profile() {
    for name in ["refused", "faults"] {
        let files = example_files(name);
        let told = Profile::ALL.map(|profile| {
            let (mut tables, mut list) = (File::ALL.map(|file| vec![77; file.width() * 10]), [77; 30]);
            let lent = tables.each_mut().map(|table| &mut table[..]);
            let answer = tusuchiy::try_check(slices(&files), lent, &mut list, [0, 0, 0], profile).expect("a thread");
            assert!(matches!(answer.verdict(), Some(Verdict::Refused(_))), "{name}");
            assert!(tables.iter().flatten().chain(&list).all(|&number| number == 77), "{name}");
            answer
        });
        assert_eq!(told[0], told[1], "{name}");
    }
}

/// The faults of `examples/faults`, by hand: file, line, number, column.
const FAULTS: [[i32; 4]; 7] =
    [[1, 3, 10, 0], [1, 4, 12, 2], [2, 1, 9, 0], [3, 3, 13, 10], [4, 0, 4, 0], [5, 3, 13, 3], [6, 2, 13, 3]];

/// The numbers of a fault.
fn numbers(fault: &Fault) -> [i32; 4] {
    let column = fault.column.map_or(0, |column| column.get() as i32);
    [fault.file.number() as i32, fault.line as i32, fault.refusal.number() as i32, column]
}

#[test]
fn pages_of_faults_join() {
    let files = example_files("faults");
    let check = Check::new(slices(&files)).expect("memory");
    for room in [0, 1, 2, 3, 6, 7, 8, usize::MAX] {
        let told: Result<Vec<Fault>, _> = check.faults_by(room).collect();
        assert_eq!(told.expect("faults").iter().map(numbers).collect::<Vec<_>>(), FAULTS, "room {room}");
    }
    let told: Vec<Fault> = check.faults().map(|fault| fault.expect("a fault")).collect();
    assert_eq!(told.iter().map(numbers).collect::<Vec<_>>(), FAULTS);
    let page = check.faults_page(Place::from(told[1]), 2).expect("a page");
    assert_eq!((page.total, &page.faults[..]), (7, &told[2..4]));
    assert_eq!(check.faults_page(Place::START, 0).expect("a page").faults, []);
    let mut check = check;
    let Verdict::Refused(first) = check.verdict().expect("an answer") else { panic!("not refused") };
    assert_eq!(first, told[4]);
}

/// The function as the archive has it: any starting place, room of length / 4, and the rest of the list stays.
#[test]
fn faults_in_a_lent_list() {
    let files = example_files("faults");
    let starts = [[0, 0, 0], [1, 4, 12], [2, 1, 8], [4, 0, 3], [6, 2, 12], [6, 2, 13], [i32::MIN; 3], [i32::MAX; 3]];
    for (start, length) in starts.iter().flat_map(|start| (0..32).map(move |length| (*start, length))) {
        let mut list = vec![77; length];
        let answer = faults::faults(slices(&files), &mut list, start);
        let after = FAULTS.iter().filter(|fault| fault[..3] > start[..]).take(length / 4);
        let mut wanted: Vec<i32> = after.flatten().copied().collect();
        assert_eq!(answer, FaultsAnswer { written: wanted.len() as i32 / 4, total: 7 }, "{start:?}, {length}");
        wanted.resize(length, 77);
        assert_eq!(list, wanted, "{start:?}, {length}");
    }
}

/// A feed that can be read has no faults, and the list stays as it was.
#[test]
fn a_feed_that_can_be_read_has_no_faults() {
    for name in ["feed", "findings", "by-date"] {
        let (files, mut list) = (example_files(name), [77; 8]);
        let answer = faults::try_faults(slices(&files), &mut list, [0, 0, 0]).expect("a thread");
        assert_eq!((answer, list), (FaultsAnswer { written: 0, total: 0 }, [77; 8]), "{name}");
        assert!(Check::new(slices(&files)).expect("memory").faults().next().is_none());
    }
}

#[test]
fn tables_are_long_enough_and_filled() {
    let files = example_files("feed");
    assert_eq!(table_sizes(slices(&files)), [6 * 7, 2 * 3, 3 * 5, 3 * 8, 7 * 8, 0]);
    let mut check = Check::new(slices(&files)).expect("memory");
    assert_eq!(check.verdict().expect("an answer"), Verdict::Accepted);
    // A station without a parent, and with a place.
    assert_eq!(check.tables()[0][File::Stops.width() + 2..][..5], [525_251_000, 133_694_000, 1, 0, 1]);
    assert_eq!(check.into_tables().map(|table| table.len()), table_sizes(slices(&files)));
    let long = vec![b'\n'; MOST_LINES + 9];
    assert_eq!(table_sizes([&long, b"", b"x", b"\n", b"", b"\n\n"]), [7 * MOST_LINES, 0, 0, 8, 0, 8]);
}

/// The feed by date: what its trips and its dates have in their tables, by hand.
#[test]
fn services_by_date_are_in_the_tables() {
    let files = example_files("by-date");
    let mut check = Check::new(slices(&files)).expect("memory");
    assert_eq!(check.verdict().expect("an answer"), Verdict::Accepted);
    let tables = check.into_tables();
    assert_eq!(tables[2], [], "calendar.txt isn't supplied");
    let of = |file: File, record: usize| &tables[file.number() - 1][file.width() * record..][..file.width()];
    // `service_id,date,exception_type` and its LF are 31 bytes, `HOLIDAYS,20241225,1` and its LF are 20.
    assert_eq!(of(File::CalendarDates, 0), [0, 0, 0, 0]);
    assert_eq!(of(File::CalendarDates, 1), [31, 39, 20_241_225, 1]);
    assert_eq!(of(File::CalendarDates, 3), [71, 75, 20_241_226, 1]);
    // `route_id,service_id,trip_id` and its LF are 28 bytes, `F1,HOLIDAYS,F1-10` and its LF are 18.
    assert_eq!(of(File::Trips, 1), [40, 45, 1, 0, -1, 0, 0, 1]);
    assert_eq!(of(File::Trips, 2), [54, 59, 1, 0, -1, 0, 0, 3]);
}

/// A file that isn't supplied leaves its table as lent, record 0 too.
#[test]
fn a_file_that_is_not_supplied_leaves_its_table() {
    for (name, file) in [("feed", File::CalendarDates), ("by-date", File::Calendar)] {
        let files = example_files(name);
        let mut tables = File::ALL.map(|file| vec![77; file.width() * 10]);
        let lent = tables.each_mut().map(|table| &mut table[..]);
        let answer = tusuchiy::check(slices(&files), lent, &mut [], [0, 0, 0], Profile::Plain);
        assert_eq!(answer.verdict(), Some(Verdict::Accepted), "{name}");
        for other in File::ALL {
            let table = &tables[other.number() - 1];
            assert_eq!(table.iter().all(|&number| number == 77), other == file, "{name}: {other}");
        }
    }
}

/// Without calendar.txt and calendar_dates.txt the first of them is refused.
#[test]
fn one_file_of_services_is_needed() {
    assert!(File::ALL.into_iter().filter(|file| file.may_be_missing()).eq([File::Calendar, File::CalendarDates]));
    let mut files = example_files("feed");
    files[2].clear();
    let refusal = Refusal::new(4).expect("a refusal");
    let fault = Fault { file: File::Calendar, line: 0, column: None, refusal };
    let mut check = Check::new(slices(&files)).expect("memory");
    assert_eq!(check.verdict().expect("an answer"), Verdict::Refused(fault));
}

const STOPS: &[u8] = b"stop_id,stop_name,stop_lat,stop_lon\nB,Beech,1.5,2\nA,Alder,1.5,2\n\"AB\",Ash,1.5,2\n";

/// The index of the stops above, by hand: A, AB, B.
const INDEX: &[u8] = b"TTX\x01\x00\x01\x03\x00\x02\x00\x03\x00\x01\x00";

const GOOD: IndexAnswer = IndexAnswer { number: 0, file: 0, line: 0, column: 0, length: INDEX.len() as i32 };

/// The functions as the archive has them: the buffer behind the index stays, and so does all of it on a refusal.
#[test]
fn an_index_in_a_lent_buffer() {
    for more in [0, 1, 5] {
        let mut buffer = vec![77; INDEX.len() + more];
        assert_eq!(index::write(1, STOPS, &mut buffer), GOOD);
        assert_eq!(buffer, [INDEX, &vec![77; more]].concat());
    }
    assert_eq!(index::check(1, STOPS, INDEX), GOOD);
    let refused = |number| IndexAnswer { number, length: 0, ..GOOD };
    let twice = [STOPS, b"B,Birch,1.5,2\n"].concat();
    let own = IndexAnswer { number: 12, file: 1, line: 5, column: 2, length: 0 };
    let cases = [
        (0, STOPS, refused(42)),
        (5, STOPS, refused(42)),
        (6, b"", refused(42)),
        (-1, STOPS, refused(42)),
        (1, b"", IndexAnswer { file: 1, ..refused(4) }),
        (3, b"", IndexAnswer { file: 3, ..refused(4) }),
        (1, &[STOPS, b"C,,1.5,2\n"].concat(), own),
        (1, &twice, refused(45)),
    ];
    for (file_number, file, wanted) in cases {
        let mut buffer = [77; 20];
        assert_eq!(index::write(file_number, file, &mut buffer), wanted);
        assert_eq!(buffer, [77; 20], "a refusal writes nothing");
    }
    for short in [0, 8, INDEX.len() - 1] {
        let mut buffer = vec![77; short];
        assert_eq!(index::write(1, STOPS, &mut buffer), refused(46));
        assert_eq!(buffer, vec![77; short]);
    }
    for (place, number) in [(0, 40), (3, 41), (5, 42), (6, 42), (8, 43), (12, 44)] {
        let mut other = INDEX.to_vec();
        other[place] = if place == 12 { 2 } else { other[place] ^ 0x80 };
        assert_eq!(index::check(1, STOPS, &other), refused(number), "byte {place}");
    }
    assert_eq!(index::check(0, STOPS, INDEX), refused(42));
    assert_eq!(index::check(1, b"", INDEX), IndexAnswer { file: 1, ..refused(4) });
}

/// An index of its own length, and refusals in words.
#[test]
fn an_index_of_a_file() {
    let made = index::of(File::Stops, STOPS).expect("an answer");
    assert_eq!(made.as_deref(), Ok(INDEX));
    assert_eq!(index::judge(File::Stops, STOPS, INDEX).expect("an answer"), Ok(()));
    let refusal = |number| Refused::Index(IndexRefusal::new(number).expect("a refusal"));
    assert_eq!(index::judge(File::Stops, STOPS, b"TTX").expect("an answer"), Err(refusal(40)));
    assert_eq!(index::judge(File::Routes, b"route_id,route_type\n", INDEX).expect("an answer"), Err(refusal(42)));
    for file in [File::StopTimes, File::CalendarDates] {
        assert_eq!(index::of(file, STOPS).expect("an answer"), Err(refusal(42)), "{file} has no index");
        assert_eq!(file.index_name(), None);
    }
    let fault = Fault { file: File::Calendar, line: 0, column: None, refusal: Refusal::new(4).expect("a refusal") };
    let refused = index::of(File::Calendar, b"").expect("an answer").expect_err("a refusal");
    assert_eq!(refused, Refused::File(fault));
    assert_eq!(refused.to_string(), fault.to_string());
    let words = "refusal 40: the index isn't there, or isn't an index";
    assert_eq!(refusal(40).to_string(), words);
    assert_eq!(
        index::FILES.map(|file| file.index_name().expect("a name")),
        ["stops", "routes", "calendar", "trips"].map(|name| format!("{name}.ttx"))
    );
}

/// The accepted example with another routes.txt: what the check says, how many faults there are and which is the first, and what the index says.
fn with_routes(routes: &[u8]) -> (Option<Verdict>, i32, [i32; 4], [IndexAnswer; 2]) {
    let example = example_files("feed");
    let mut files = slices(&example);
    files[1] = routes;
    let mut tables = table_sizes(files).map(|size| vec![0; size]);
    let lent = tables.each_mut().map(|table| &mut table[..]);
    let verdict = tusuchiy::check(files, lent, &mut [0; 30], [0, 0, 0], Profile::Plain).verdict();
    let mut list = [0; 4];
    let faults = faults::faults(files, &mut list, [0, 0, 0]);
    let mut index = vec![77; index::length(routes)];
    let written = index::write(2, routes, &mut index);
    (verdict, faults.total, list, [written, index::check(2, routes, &index)])
}

/// Fails unless every call reads a routes.txt whose index has this length.
fn every_call_reads(routes: &[u8], length: i32) {
    assert_eq!(with_routes(routes), (Some(Verdict::Accepted), 0, [0; 4], [IndexAnswer { length, ..GOOD }; 2]));
}

/// Fails unless every call refuses a routes.txt as a whole with this number, and nothing else is wrong with it.
fn every_call_refuses(routes: &[u8], number: i32) {
    let refusal = Refusal::new(number as usize).expect("a refusal");
    let fault = Fault { file: File::Routes, line: 0, column: None, refusal };
    let refused = IndexAnswer { number, file: 2, length: 0, ..GOOD };
    assert_eq!(with_routes(routes), (Some(Verdict::Refused(fault)), 1, [2, 0, number, 0], [refused; 2]));
}

const ROUTES: &str = "route_id,route_short_name,route_type\n";

/// routes.txt with so many records and ids that rise, B7 the last.
fn rising(records: usize) -> Vec<u8> {
    let lines: String = (1..records).map(|number| format!("{number:07},7,3\n")).collect();
    format!("{ROUTES}{lines}B7,7,3\n").into_bytes()
}

/// Rules 1 and 2 at their limits and one past them.
#[test]
fn the_limits_by_every_call() {
    let mut long = format!("note,{ROUTES}").into_bytes();
    long.resize(MOST_BYTES - 8, b'x');
    long.extend(b",B7,7,3\n");
    every_call_reads(&long, 10);
    long.insert(long.len() - 8, b'x');
    every_call_refuses(&long, 1);
    every_call_reads(&rising(MOST_LINES - 1), 4_194_310);
    every_call_refuses(&rising(MOST_LINES), 2);
}

/// An index of routes.txt in a version whose numbers have so many bytes.
fn listing(version: u8, width: usize, count: usize, records: impl IntoIterator<Item = usize>) -> Vec<u8> {
    let number = |number: usize| number.to_le_bytes().into_iter().take(width);
    let head = [b'T', b'T', b'X', version, 0, 2].into_iter().chain(number(count));
    head.chain(records.into_iter().flat_map(number)).collect()
}

/// On both sides of 65,535 records: which version is written, in how many bytes, and that the reader takes no other.
#[test]
fn both_versions_of_the_index() {
    let refused = |number| IndexAnswer { number, length: 0, ..GOOD };
    let most = MOST_OF_VERSION_1;
    for (records, version, width, length) in [(most, 1, 2, 131_078), (most + 1, 2, 4, 262_154)] {
        let file = rising(records);
        let wanted = listing(version, width, records, 1..=records);
        assert_eq!((wanted.len(), index::length(&file)), (length, length));
        let mut buffer = vec![77; length + 3];
        assert_eq!(index::write(2, &file, &mut buffer[..length - 1]), refused(46));
        assert!(buffer.iter().all(|&byte| byte == 77), "a refusal writes nothing");
        let good = IndexAnswer { length: length as i32, ..GOOD };
        assert_eq!(index::write(2, &file, &mut buffer), good);
        assert!(buffer[..length] == wanted && buffer[length..] == [77; 3], "{records} records");
        assert_eq!(index::check(2, &file, &wanted), good);
        // The other version, with all else right, or with what its count can hold.
        let (other, others) = if version == 1 { (2, 4) } else { (1, 2) };
        for count in [records, records - 1, 0] {
            for listed in [records, records - 1, 0] {
                let wrong = listing(other, others, count, 1..=listed);
                assert_eq!(index::check(2, &file, &wrong), refused(42), "{count}, {listed}");
            }
        }
    }
}

/// The version 2 index of 65,536 records with something wrong: the lowest number speaks.
#[test]
fn a_version_2_index_that_is_wrong() {
    let last = MOST_OF_VERSION_1 + 1;
    let (file, good) = (rising(last), listing(2, 4, last, 1..=last));
    let refused = |index: &[u8]| index::check(2, &file, index).number;
    let with = |place: usize, bytes: &[u8]| {
        let mut index = good.clone();
        index[place..place + bytes.len()].copy_from_slice(bytes);
        refused(&index)
    };
    assert_eq!([7, 8, 9, 10, good.len() - 1].map(|length| refused(&good[..length])), [40, 42, 42, 42, 42]);
    assert_eq!(refused(&[&good[..], &[0]].concat()), 42);
    let versions = [[0, 0], [1, 0], [3, 0], [2, 1], [0, 2], [255, 255]];
    assert_eq!(versions.map(|version| with(3, &version)), [41, 42, 41, 41, 41, 41]);
    assert_eq!([with(2, b"Y"), with(5, &[1]), with(5, &[0])], [40, 42, 42]);
    // Counts that are right in their low half or their high half alone.
    let counts = [[0, 0, 0, 0], [255, 255, 0, 0], [1, 0, 1, 0], [0, 0, 2, 0], [0, 0, 1, 128], [255; 4]];
    assert_eq!(counts.map(|count| with(6, &count)), [42; 6]);
    // The first entry, which is record 1, then another record: none, past the last by one or in the highest bit, or one that comes later too.
    let entries = [[0; 4], [1, 0, 1, 0], [1, 0, 0, 128], [255; 4], [2, 0, 0, 0], [0, 0, 1, 0]];
    assert_eq!(entries.map(|entry| with(10, &entry)), [43, 43, 43, 43, 44, 44]);
    // The last two the other way round: 65,535 and 65,536 differ in all of their low bytes.
    assert_eq!(with(good.len() - 8, &[0, 0, 1, 0, 255, 255, 0, 0]), 44);
}
