//! What the command reads and what it doesn't: missing files, links, devices, large files, zip files.

mod common;

use cases::limits::{MOST_BYTES, MOST_LINES};
use common::json::Json;
use common::memory::{allowed, own, starts, within, BESIDE};
use common::zip::{feed, member, write, Member};
use common::{
    assert_cannot, command_after, document, example_files, json, out, program, run, said, status, Folder, NAMES, RUNNER,
};
use std::fs::{self, File};
use std::os::unix::fs::symlink;
use std::process::{Command, Output, Stdio};
use std::sync::atomic::{AtomicBool, Ordering};
use std::thread;

/// A file that isn't there is the check's own refusal, and all that are missing are named.
#[test]
fn missing_files_are_refused() {
    let folder = Folder::new("missing");
    folder.take("trips.txt");
    folder.take("stop_times.txt");
    let output = run(&["check", folder.path()]);
    assert_eq!((status(&output), said(&output)), (2, ""));
    let words = "the file is missing; the feed lacks trips.txt, stop_times.txt";
    assert!(out(&output).contains(&format!("{}: refusal 4: ", folder.at("trips.txt"))), "{}", out(&output));
    assert!(out(&output).contains(words), "{}", out(&output));
    let report = document(&[folder.path()]);
    let refusal = report.get("refusal");
    assert_eq!(["number", "file", "line"].map(|name| refusal.get(name).number()), [4, 4, 0]);
    assert_eq!(refusal.get("about").get("clause").text(), "missing");
    let missing: Vec<&str> = refusal.get("about").get("missing").list().iter().map(|name| name.text()).collect();
    assert_eq!(missing, ["trips.txt", "stop_times.txt"]);
    assert_eq!(out(&run(&["check", "--quiet", folder.path()])), "refused\n");
}

/// Files of services: not there, empty, a header, a header without its ending, a header and the services of the trips.
const CALENDARS: [Option<&str>; 5] = [
    None,
    Some(""),
    Some("service_id,monday,tuesday,wednesday,thursday,friday,saturday,sunday,start_date,end_date\n"),
    Some("service_id,monday,tuesday,wednesday,thursday,friday,saturday,sunday,start_date,end_date"),
    Some(
        "service_id,monday,tuesday,wednesday,thursday,friday,saturday,sunday,start_date,end_date\n\
         WEEKDAYS,1,1,1,1,1,0,0,20240101,20241231\nSUNDAYS,0,0,0,0,0,0,1,20240101,20241231\n",
    ),
];
const DATES: [Option<&str>; 5] = [
    None,
    Some(""),
    Some("service_id,date,exception_type\n"),
    Some("service_id,date,exception_type"),
    Some("service_id,date,exception_type\nWEEKDAYS,20241224,1\nSUNDAYS,20241225,2\n"),
];

/// The verdict for each of the first with each of the second, by hand: accepted, the refused file, or the two trips without a service.
const VERDICTS: [[&str; 5]; 5] = [
    ["calendar.txt", "calendar.txt", "findings", "calendar_dates.txt", "accepted"],
    ["calendar.txt", "calendar.txt", "findings", "calendar_dates.txt", "accepted"],
    ["findings", "findings", "findings", "calendar_dates.txt", "accepted"],
    ["calendar.txt"; 5],
    ["accepted", "accepted", "accepted", "calendar_dates.txt", "accepted"],
];

/// What a document says, as the table above has it; a refusal is number 4 on the whole file.
fn verdict_on_services(report: &Json) -> String {
    let (refusal, verdict) = (report.get("refusal"), report.get("verdict").text());
    if verdict == "refused" {
        assert_eq!(["number", "line"].map(|name| refusal.get(name).number()), [4, 0]);
        return refusal.get("name").text().to_string();
    }
    let place = |found: &Json| ["file", "line", "rule"].map(|name| found.get(name).number());
    let places: Vec<[i64; 3]> = report.get("findings").list().iter().map(place).collect();
    assert_eq!(places, if verdict == "findings" { &[[4, 2, 21], [4, 3, 21]][..] } else { &[] });
    verdict.to_string()
}

/// Each shape of calendar.txt with each of calendar_dates.txt, in a folder and in a zip file.
#[test]
fn services_by_week_and_by_date() {
    let folder = Folder::empty("services");
    let (mut feeds, mut wanted) = (Vec::new(), Vec::new());
    for (row, calendar) in CALENDARS.iter().enumerate() {
        for (column, dates) in DATES.iter().enumerate() {
            let name = format!("{row}{column}");
            let mut members = feed("", &example_files("feed"));
            members.retain(|member| !member.name.starts_with(b"calendar"));
            let services = [("calendar.txt", calendar), ("calendar_dates.txt", dates)];
            members.extend(services.iter().filter_map(|(name, text)| Some(member(name, text.as_ref()?.as_bytes()))));
            fs::create_dir(folder.at(&name)).expect("a folder");
            members.iter().for_each(|member| {
                folder.put(&format!("{name}/{}", String::from_utf8_lossy(&member.name)), &member.bytes)
            });
            folder.put(&format!("{name}.zip"), &write(&members));
            feeds.extend([folder.at(&name), folder.at(&format!("{name}.zip"))]);
            wanted.extend([VERDICTS[row][column]; 2]);
        }
    }
    let words: Vec<&str> = ["check", "--json"].into_iter().chain(feeds.iter().map(|feed| &feed[..])).collect();
    let output = run(&words);
    assert_eq!((status(&output), said(&output)), (2, ""));
    let told: Vec<String> = out(&output).lines().map(|line| verdict_on_services(&json::read(line))).collect();
    assert_eq!(told, wanted, "{feeds:?}");
}

/// With no services at all the words name the cure, and the document what isn't there.
#[test]
fn a_feed_without_services() {
    let folder = Folder::new("no-services");
    let neither = "the feed has neither calendar.txt nor calendar_dates.txt: supply one of them";
    let check = |clause: &str, missing: &[&str], words: &str| {
        let report = document(&[folder.path()]);
        let refusal = report.get("refusal");
        assert_eq!(["number", "file", "line"].map(|name| refusal.get(name).number()), [4, 3, 0]);
        assert_eq!(refusal.get("about").get("clause").text(), clause);
        let named: Vec<&str> = refusal.get("about").get("missing").list().iter().map(|name| name.text()).collect();
        assert_eq!(named, missing);
        assert_eq!(refusal.get("words").text(), words);
    };
    folder.take("calendar.txt");
    check("missing", &["calendar.txt", "calendar_dates.txt"], &format!("the file is missing; {neither}"));
    folder.put("calendar_dates.txt", b"");
    check("missing", &["calendar.txt"], &format!("the file is missing; {neither}"));
    folder.put("calendar.txt", b"");
    check("empty", &[], &format!("the file is empty; {neither}"));
    folder.take("calendar_dates.txt");
    check("empty", &["calendar_dates.txt"], &format!("the file is empty; {neither}"));
    folder.take("trips.txt");
    let lacks = format!("the file is empty; the feed lacks trips.txt; {neither}");
    check("empty", &["trips.txt", "calendar_dates.txt"], &lacks);
    assert!(out(&run(&["check", folder.path()])).contains(&lacks));
}

/// Another refusal that speaks first isn't hidden by a file that is missing.
#[test]
fn rules_1_to_3_speak_before_a_missing_file() {
    let folder = Folder::new("missing-large");
    folder.take("stops.txt");
    folder.put("routes.txt", &vec![b'\n'; MOST_LINES + 1]);
    let report = document(&[folder.path()]);
    assert_eq!(["number", "file"].map(|name| report.get("refusal").get(name).number()), [2, 2]);
}

/// What can't be read is status 3, and all of it is named.
#[test]
fn files_that_cannot_be_read() {
    let folder = Folder::new("unread");
    assert_cannot(&["check", &folder.at("nowhere")], &["nowhere: "]);
    assert_cannot(&["check", &folder.at("stops.txt")], &["neither a folder nor a zip file"]);
    assert_cannot(&["check", "/dev/null"], &["a feed is a folder or a zip file"]);
    assert_cannot(&["check", "no\nfolder"], &["no\\x0Afolder"]);
    for file in ["stops.txt", "trips.txt"] {
        folder.take(file);
        fs::create_dir(folder.0.join(file)).expect("a folder");
    }
    let pipe = Command::new("mkfifo").arg(folder.at("pipe")).status().expect("mkfifo, which Debian always has");
    assert!(pipe.success());
    folder.take("routes.txt");
    fs::rename(folder.at("pipe"), folder.at("routes.txt")).expect("a pipe");
    let messages = ["stops.txt: it isn't a regular file", "routes.txt: it isn't", "trips.txt: it isn't"];
    for words in [&["check"][..], &["check", "--json"], &["check", "--quiet"], &["check", "--follow-links"]] {
        assert_cannot(&[words, &[folder.path()]].concat(), &messages);
    }
}

/// Root may read everything: where the test is root, the command runs without that right.
#[test]
fn files_without_permission() {
    use std::os::unix::fs::PermissionsExt;
    let folder = Folder::new("permission");
    for file in ["stops.txt", "trips.txt"] {
        fs::set_permissions(folder.0.join(file), fs::Permissions::from_mode(0o000)).expect("permissions");
    }
    let mut words = program();
    if File::open(folder.0.join("stops.txt")).is_ok() {
        let without = ["setpriv", "--bounding-set=-dac_override,-dac_read_search"];
        words.splice(0..0, without.map(str::to_string));
    }
    let mut command = Command::new(&words[0]);
    let output =
        command.args(&words[1..]).args(["check", folder.path()]).stdin(Stdio::null()).output().expect("it runs");
    assert_eq!((status(&output), out(&output)), (3, ""), "{}", said(&output));
    for file in ["stops.txt", "trips.txt"] {
        assert!(said(&output).contains(&format!("{file}: Permission denied")), "{}", said(&output));
    }
}

/// A link could name any file that the tool may read, and the report would quote it.
#[test]
fn links_in_a_feed_are_not_followed() {
    let folder = Folder::new("links");
    let secret = Folder::empty("secret");
    secret.put("secret", b"top secret\nstop\n");
    folder.take("stops.txt");
    symlink(secret.at("secret"), folder.at("stops.txt")).expect("a link");
    let output = run(&["check", folder.path()]);
    assert_eq!((status(&output), out(&output)), (3, ""));
    assert!(said(&output).contains("stops.txt: it is a symbolic link, which only --follow-links reads"));
    assert!(!said(&output).contains("secret"), "{}", said(&output));
    let output = run(&["check", "--follow-links", folder.path()]);
    assert_eq!(status(&output), 2);
    assert!(out(&output).contains("top secret"));
    for target in ["/dev/zero", "/proc/self/mem", &folder.at("nowhere")] {
        folder.take("stops.txt");
        symlink(target, folder.at("stops.txt")).expect("a link");
        assert_cannot(&["check", folder.path()], &["it is a symbolic link"]);
    }
    folder.take("stops.txt");
    symlink("/dev/zero", folder.at("stops.txt")).expect("a link");
    assert_cannot(&["check", "-L", folder.path()], &["it isn't a regular file"]);
    // The feed itself is the user's own word.
    let whole = Folder::empty("link-to-feed");
    symlink(common::example("feed"), whole.at("feed")).expect("a link");
    assert_eq!(status(&run(&["check", &whole.at("feed")])), 0);
}

/// A link that moves from one feed to another while it is read: each run has the one or the other, or says that it changed, and none a mixture,
/// in which no reference would lead anywhere.
#[test]
fn a_link_that_moves() {
    let folder = Folder::empty("moves");
    let [one, other] = ["one", "other"].map(|name| {
        let ids = |bytes: &Vec<u8>| {
            String::from_utf8_lossy(bytes)
                .replace("B7", name)
                .replace("HILL", name)
                .replace("WEEKDAYS", name)
                .into_bytes()
        };
        folder.put_feed(name, &example_files("feed").each_ref().map(ids));
        name
    });
    let link = |to: &str| {
        symlink(to, folder.at("new")).expect("a link");
        fs::rename(folder.at("new"), folder.at("feed")).expect("another name");
    };
    link(one);
    let over = AtomicBool::new(false);
    let outputs: Vec<Output> = thread::scope(|scope| {
        scope.spawn(|| {
            while !over.load(Ordering::Relaxed) {
                [other, one].iter().for_each(|name| link(name));
            }
        });
        let outputs = (0..60).map(|_| run(&["check", &folder.at("feed")])).collect();
        over.store(true, Ordering::Relaxed);
        outputs
    });
    for output in &outputs {
        match status(output) {
            0 => assert!(out(output).starts_with("accepted\n")),
            code => {
                assert_eq!((code, out(output)), (3, ""));
                assert!(said(output).contains("feed: it changed while it was read; try again\n"), "{}", said(output));
            }
        }
    }
    assert!(outputs.iter().any(|output| status(output) == 0), "never still");
}

/// Six files of 2 GiB, which are holes.
fn huge(name: &str) -> Folder {
    let folder = Folder::empty(name);
    for name in NAMES {
        let file = File::create(folder.0.join(name)).expect("a file");
        file.set_len(2 << 30).expect("a file of holes");
    }
    folder
}

/// The number of the refusal that the document of a feed names, which was made within this memory.
fn refused_within(most: usize, feed: &str) -> i64 {
    let output = within(most, &["check", "--json", feed]);
    assert_eq!(status(&output), 2, "{}", said(&output));
    json::read(out(&output)).get("refusal").get("number").number()
}

/// A small feed takes little of the memory that the limits allow, and the README has the figure for others.
#[test]
fn a_small_feed_takes_little() {
    assert!(include_str!("../../../README.md").contains(&format!("twice its bytes and {BESIDE} MiB")));
    assert!(own() <= allowed(0) - BESIDE + 32, "{} MiB", own());
}

/// Files as long as rule 1 allows and much longer, of nothing or of line ends, take as much memory as what is read of them, and those of as
/// many line ends as rule 2 allows what is lent for their lines.
#[test]
fn memory_has_a_bound() {
    let folder = huge("huge");
    assert_eq!(refused_within(allowed(6 * MOST_BYTES / 2), folder.path()), 1);
    NAMES.iter().for_each(|name| folder.put(name, b""));
    for (number, length) in [(1, MOST_BYTES + 9), (2, MOST_BYTES)] {
        folder.put("stop_times.txt", &vec![b'\n'; length]);
        assert_eq!(refused_within(allowed(MOST_BYTES / 2), folder.path()), number);
    }
    NAMES.iter().for_each(|name| folder.put(name, &vec![b'\n'; MOST_LINES]));
    assert_eq!(refused_within(allowed(6 * MOST_LINES), folder.path()), 9);
}

/// From the least with which the program starts up to more than enough: the verdict, or status 3 and why, never an abort.
/// An emulator may itself have too little; of an abort of the program it says so.
#[test]
fn want_of_memory_is_no_abort() {
    let folder = huge("want");
    let least = (1..256).map(|step| step * 8).find(|most| starts(*most)).expect("memory");
    let emulated = std::env::var_os(RUNNER).is_some();
    let mut told = 0;
    for most in (least..least + 192).step_by(16) {
        let output = within(most, &["check", folder.path()]);
        let words = String::from_utf8_lossy(&output.stderr);
        let by_signal =
            if emulated { words.contains("uncaught target signal") } else { output.status.code().is_none() };
        assert!(!by_signal, "{most} MiB: {words}");
        told +=
            usize::from(output.status.code() == Some(3) && words.starts_with("tusuchiy: ") && out(&output).is_empty());
    }
    assert!(told > 0, "no run had too little");
}

/// A feed that breaks as many rules as there can be on every line, by lines as short as that takes.
fn all_findings(name: &str) -> (Folder, usize) {
    let lines = [
        ("stop_id,stop_name,stop_lat,stop_lon,location_type,parent_station", "A,n,1,2,1,X"),
        ("route_id,route_type", "R,3"),
        (
            "service_id,monday,tuesday,wednesday,thursday,friday,saturday,sunday,start_date,end_date",
            "W,1,1,1,1,1,1,1,20240102,20240101",
        ),
        ("route_id,service_id,trip_id", "X,Y,T"),
        (
            "trip_id,arrival_time,departure_time,stop_id,stop_sequence,pickup_type,drop_off_type",
            "X,61:00:00,60:00:00,A,1,2,3",
        ),
        ("service_id,date,exception_type", "W,20240101,1"),
    ];
    let folder = Folder::empty(name);
    let mut bytes = 0;
    for (name, (header, line)) in NAMES.iter().zip(lines) {
        let mut file = format!("{header}\n{}", format!("{line}\n").repeat(MOST_LINES - 1));
        if *name == "stop_times.txt" {
            // The first line departs after all others arrive, with a smaller sequence.
            file = file.replacen("X,61:00:00,60:00:00,A,1", "X,62:00:00,62:00:00,A,0", 1);
        }
        folder.put(name, file.as_bytes());
        bytes += file.len();
    }
    (folder, bytes)
}

/// As many findings as there can be: of rules 20, 21 and 22 on each stop, 20 and 25 on each route, 20 and 24 on each service, 20 and 21 on
/// each trip, 21, 23, 27, 28, 29, 61 and 62 on each line of stop_times.txt, 20 on each date. First lines repeat nothing, and the first of stop_times.txt
/// has neither 27, 28 nor 29, nor the second 28; the first trip has 30.
#[test]
fn memory_has_a_bound_with_many_findings() {
    let (folder, bytes) = all_findings("all-findings");
    let total = 17 * (MOST_LINES - 1) - 5 - 4 + 1;
    let output = within(allowed(bytes), &["check", "--profile", "boards", folder.path()]);
    assert_eq!(status(&output), 1, "{}", said(&output));
    assert!(out(&output).starts_with(&format!("findings: {total} (profile boards)\n")), "{}", out(&output));
    let page = folder.at("report.html");
    let output = within(allowed(bytes), &["report", "--profile", "boards", "-o", &page, folder.path()]);
    assert_eq!(status(&output), 1, "{}", said(&output));
    // A page that a browser opens, and what it leaves out is said.
    assert!(fs::metadata(&page).expect("a page").len() < 100_000_000);
    let text = fs::read_to_string(&page).expect("a page");
    // Twelve rules share 100,000, and one of them is broken once.
    assert!(text.contains(">Listed here are 91,664 of 17,825,767 findings, the first 8,333 of each rule."), "{total}");
}

/// As many faults as there can be: one on each line, on one more without an ending, and that it has none.
#[test]
fn memory_has_a_bound_with_many_faults() {
    let folder = Folder::empty("many-faults");
    let file = format!("{}\t", "\t\n".repeat(MOST_LINES));
    NAMES.iter().for_each(|name| folder.put(name, file.as_bytes()));
    let total = 6 * (MOST_LINES + 2);
    let most = allowed(6 * file.len());
    let output = within(most, &["check", folder.path()]);
    assert_eq!(status(&output), 2, "{}", said(&output));
    assert!(out(&output).contains(&format!("\nfaults: {total}, this one among them\n")), "{}", out(&output));
    let output = within(most, &["report", "-o", &folder.at("report.html"), folder.path()]);
    assert_eq!(status(&output), 2, "{}", said(&output));
}

/// A zip file in a folder of its own.
fn zipped(name: &str, members: &[Member]) -> (Folder, String) {
    let folder = Folder::empty(name);
    folder.put("feed.zip", &write(members));
    let path = folder.at("feed.zip");
    (folder, path)
}

/// What the documents of the two feeds say, but for where they are.
fn assert_same(zip: &str, folder: &str) {
    let [of_zip, of_folder] = [zip, folder].map(|feed| document(&[feed]));
    for member in ["verdict", "refusal", "faults_total", "faults", "total", "findings", "totals", "records"] {
        assert_eq!(of_zip.get(member), of_folder.get(member), "{member}");
    }
}

#[test]
fn a_zip_file_is_checked_like_its_folder() {
    for name in ["feed", "findings", "refused", "by-date"] {
        for packed in [true, false] {
            let mut members = feed("", &example_files(name));
            members.iter_mut().for_each(|member| member.packed = packed);
            members.insert(2, member("agency.txt", b"x"));
            let (_folder, zip) = zipped("zip", &members);
            assert_same(&zip, &common::example(name));
            let report = document(&[&zip]);
            assert_eq!(report.get("unread").get("count").number(), 1);
        }
    }
    let (_folder, zip) = zipped("zip-text", &feed("", &example_files("findings")));
    let output = run(&["check", &zip]);
    assert!(out(&output).contains(&format!("\n{zip}/trips.txt:3: service_id \"X\"")), "{}", out(&output));
}

#[test]
fn a_feed_in_one_sub_folder_is_found() {
    let mut members = feed("gtfs/2024/", &example_files("findings"));
    members.push(member("README", b""));
    members.push(member("gtfs/2024/agency.txt", b""));
    members.push(member("gtfs/2024/", b""));
    let (_folder, zip) = zipped("sub", &members);
    assert_same(&zip, &common::example("findings"));
    let report = document(&[&zip]);
    assert_eq!(report.get("folder").text(), "gtfs/2024/");
    assert_eq!(report.get("unread").get("count").number(), 1);
    let output = run(&["check", &zip]);
    assert!(out(&output).contains("in the folder gtfs/2024/ of the zip file\n"), "{}", out(&output));
    assert!(out(&output).contains(&format!("{zip}/gtfs/2024/trips.txt:3: ")), "{}", out(&output));
    members.extend(feed("other/", &example_files("feed")));
    let (_folder, zip) = zipped("subs", &members);
    assert_cannot(&["check", &zip], &["it has feeds in several folders (gtfs/2024/, other/)"]);
    members.extend(feed("", &example_files("feed")));
    let (_folder, zip) = zipped("top", &members);
    assert_eq!(status(&run(&["check", &zip])), 0, "what stands at the top goes first");
}

#[test]
fn missing_members_are_refused() {
    let members = &feed("", &example_files("feed"))[..3];
    let (_folder, zip) = zipped("members", members);
    let report = document(&[&zip]);
    assert_eq!(["number", "file"].map(|name| report.get("refusal").get(name).number()), [4, 4]);
    let (_folder, zip) = zipped("no-members", &[]);
    assert_eq!(document(&[&zip]).get("refusal").get("about").get("missing").list().len(), 6);
}

/// A megabyte that unpacks to a thousand: refusal 1, with the memory of a file that is as long as one may be, and nothing on disk.
#[test]
fn a_bomb_is_refusal_1() {
    let mut members = feed("", &example_files("feed"));
    (members[4].bytes, members[4].times) = (vec![0; 1 << 20], 1000);
    let (_folder, zip) = zipped("bomb", &members);
    assert!(fs::metadata(&zip).expect("a file").len() < 2 << 20);
    let temporary = Folder::empty("bomb-temporary");
    // An emulator has files of its own.
    let no_files = if std::env::var_os(RUNNER).is_some() { "" } else { "-f 0" };
    let mut command = command_after(&format!("ulimit -v {} {no_files}", allowed(MOST_BYTES / 2) << 10));
    let output = command.env("TMPDIR", &temporary.0).current_dir(&temporary.0).args(["check", "--json", &zip]).output();
    let output = output.expect("the command runs");
    assert_eq!(status(&output), 2, "{}", said(&output));
    assert!(out(&output).contains("\"number\": 1, "), "{}", out(&output));
    assert_eq!(fs::read_dir(&temporary.0).expect("a folder").count(), 0);
}

/// Members that claim as much as a file may have and hold a few bytes, or claim a few and hold as much: the zip file is damaged, and memory is
/// asked for neither.
#[test]
fn claims_get_no_memory() {
    let few = |member: &mut Member| (member.bytes, member.claimed) = (vec![0; 100], Some(MOST_BYTES));
    let many = |member: &mut Member| {
        (member.bytes, member.times, member.claimed) = (vec![0; 1 << 20], MOST_BYTES >> 20, Some(100));
    };
    for change in [&few as &dyn Fn(&mut Member), &many] {
        let mut members = feed("", &example_files("feed"));
        members.iter_mut().for_each(change);
        let (_folder, zip) = zipped("claims", &members);
        let output = within(allowed(0) - BESIDE + 48, &["check", &zip]);
        assert_eq!((status(&output), out(&output)), (3, ""));
        assert_eq!(
            said(&output).matches(".txt: it is damaged: size or checksum is wrong\n").count(),
            6,
            "{}",
            said(&output)
        );
    }
}

/// Files at the limits, one byte and one line past them, are judged as in a folder.
#[test]
fn zip_files_at_the_limits() {
    let header = b"trip_id,arrival_time,departure_time,stop_id,stop_sequence,note\n";
    let calls = |lines: usize| [&header[..], &b"B7-out-1,,,HILL,1,x\n".repeat(lines - 1)].concat();
    let long = |length: usize| {
        let mut file = [&header[..], b"B7-out-1,,,HILL,1,"].concat();
        file.resize(length - 1, b'x');
        file.push(b'\n');
        file
    };
    let cases = [
        (calls(MOST_LINES), "findings", None),
        (calls(MOST_LINES + 1), "refused", Some(2)),
        (long(MOST_BYTES), "findings", None),
        (long(MOST_BYTES + 1), "refused", Some(1)),
    ];
    for (calls, verdict, number) in cases {
        let mut members = feed("", &example_files("feed"));
        members[4].bytes = calls;
        let (_folder, zip) = zipped("limits", &members);
        let output = run(&["check", "--json", "--room", "0", &zip]);
        let report = json::read(out(&output));
        let told = Some(report.get("refusal")).filter(|refusal| **refusal != Json::Null);
        let told = told.map(|refusal| refusal.get("number").number());
        assert_eq!((report.get("verdict").text(), told), (verdict, number));
    }
}

/// Zip files that say two things at once, or can't be read: status 3, and why.
#[test]
fn zip_files_that_cannot_be_read() {
    let good = || feed("", &example_files("feed"));
    let wrong = |change: &dyn Fn(&mut Vec<Member>), message: &str| {
        let mut members = good();
        change(&mut members);
        let (_folder, zip) = zipped("wrong", &members);
        assert_cannot(&["check", &zip], &[message]);
    };
    wrong(&|members| members.push(member("stops.txt", b"x")), "stops.txt stands in it twice");
    wrong(&|members| members[0].flags = 1, "stops.txt: it is encrypted");
    wrong(&|members| members[1].wrong = 1, "routes.txt: it is damaged");
    wrong(&|members| members[1].mode = 0o120_777, "routes.txt: it is a symbolic link");
    wrong(&|members| members[0].local_name = b"slops.txt".to_vec(), "don't go together");
    let folder = Folder::empty("cut");
    let whole = write(&good());
    for end in [0, 1, 21, 22, 100, whole.len() / 2, whole.len() - 1] {
        folder.put("cut.zip", &whole[..end]);
        let has_sign = whole[..end].windows(4).any(|bytes| bytes == b"PK\x05\x06");
        let words = if has_sign { "bytes are missing at its end" } else { "neither a folder nor a zip file" };
        assert_cannot(&["check", &folder.at("cut.zip")], &[words]);
    }
    let mut moved = whole.clone();
    let end = moved.len() - 29;
    moved[end + 16..end + 20].copy_from_slice(&[0xFF, 0xFF, 0xFF, 0x7F]);
    folder.put("moved.zip", &moved);
    assert_cannot(&["check", &folder.at("moved.zip")], &["its directory doesn't end where"]);
}
