//! The report as the command writes it: its statuses, its file, and that a feed's bytes stay text. .ci/report opens it in a browser.

mod common;

use common::zip::{feed, write};
use common::{assert_cannot, command_after, example, example_files, out, run, said, status, Folder};
use std::fs;
use std::os::unix::fs::symlink;
use std::process::Command;

#[test]
fn the_status_is_the_verdict_and_the_page_is_the_file() {
    let folder = Folder::empty("report");
    let path = folder.at("report.html");
    let examples = [
        ("feed", 0, "accepted"),
        ("findings", 1, "findings: 5"),
        ("refused", 2, "refused"),
        ("faults", 2, "refused"),
        ("by-date", 0, "accepted"),
        ("boards", 0, "accepted"),
    ];
    let with_boards = [
        ("boards", 1, "findings: 4 (profile boards)"),
        ("refused", 2, "refused (profile boards)"),
        ("by-date", 0, "accepted (profile boards)"),
    ];
    let all = examples.map(|case| (case, "plain")).into_iter().chain(with_boards.map(|case| (case, "boards")));
    for ((name, wanted, verdict), profile) in all {
        let words = ["report", "--profile", profile, &example(name)];
        let output = run(&[&words[..], &["-o", &path]].concat());
        assert_eq!((status(&output), out(&output), said(&output)), (wanted, &format!("{verdict}\n")[..], ""));
        let page = fs::read_to_string(&path).expect("a page");
        let output = run(&words);
        assert_eq!((status(&output), out(&output)), (wanted, &page[..]));
        assert!(page.starts_with("<!DOCTYPE html>") && page.ends_with("</html>\n"), "{name}");
        assert!(!page.contains("{{"), "{name}");
    }
}

/// Whoever gets a page forwarded sees by which rules it was made: its title and its head name the profile, and without one say nothing of it.
#[test]
fn the_profile_stands_in_the_head() {
    let page = |profile: &[&str], name: &str| out(&run(&[&["report", &example(name)], profile].concat())).to_string();
    let head = |page: &str| page.split("</header>").next().expect("a head").to_string();
    for (name, verdict) in [("boards", "4 findings"), ("by-date", "accepted"), ("refused", "refused, 1 fault")] {
        let plain = page(&[], name);
        assert_eq!(plain, page(&["--profile", "plain"], name));
        assert!(!head(&plain).contains("rofile"), "{name}");
        let boards = head(&page(&["--profile", "boards"], name));
        assert!(boards.contains(&format!("{}: {verdict} (profile boards)</title>", example(name))), "{name}: {boards}");
        let when = if name == "refused" { "once the files can be read, rules 60 to 62" } else { "were tested beside" };
        let (said, _) =
            boards.split_once("id=\"profile\">").expect("the profile").1.split_once("</p>").expect("its end");
        assert!(
            said.starts_with("Profile boards: ") && said.contains("rules 60 to 62") && said.contains(when),
            "{said}"
        );
    }
    // A feed that is accepted without the profile is told from one that isn't.
    for (name, said) in [("boards", "read and fit together, but a departure board"), ("findings", "something in them")]
    {
        let boards = head(&page(&["--profile", "boards"], name));
        assert!(boards.contains(said), "{name}: {boards}");
    }
}

/// What breaks rules 60 to 62 is marked, and nothing else of the line; the trips of 60 and 62 are drawn.
#[test]
fn fields_of_the_profile_are_marked() {
    let page = run(&["report", "--profile", "boards", &example("boards")]);
    let rows = [
        "[[5, 3, [\"42-late,\", [\"\", \"arrival_time\"], \",\", [\"\", \"departure_time\"], \",MILL,2,,\"]]], 0]",
        "[[5, 4, [\"42-late,21:44:00,21:44:00,FARM,3,\", [\"2\", \"pickup_type\"], \",\", [\"3\", \"drop_off_type\"]]]], -1]",
        "[[5, 8, [\"COAST-1,47:40:00,\", [\"48:10:00\", \"departure_time\"], \",CAPE,3,,\"]]], 1]",
        "[[5, 9, [\"COAST-1,\", [\"58:30:00\", \"arrival_time\"], \",\", [\"58:30:00\", \"departure_time\"], \",NORTH,4,1,\"]]], 1]",
    ];
    for row in rows {
        assert!(out(&page).contains(row), "{row}\n{}", out(&page));
    }
    for rule in 60..=62 {
        assert!(out(&page).contains(&format!("<article id=\"rule-{rule}\">")), "{rule}");
    }
}

/// A file that is left out is said to be, and isn't called missing; where one of two is needed, both are.
#[test]
fn files_that_are_left_out() {
    let row = |name: &str, class: &str, words: &str| {
        format!("<tr><th scope=\"row\">{name}</th><td colspan=\"3\" class=\"{class}\">{words}</td></tr>\n")
    };
    let page = |feed: &str| out(&run(&["report", feed])).to_string();
    let by_date = page(&example("by-date"));
    assert!(by_date.contains(&row("calendar.txt", "left-out", "not supplied")), "{by_date}");
    let records =
        "stops.txt 2, routes.txt 1, calendar.txt not supplied, trips.txt 2, stop_times.txt 4, calendar_dates.txt 3";
    assert!(by_date.contains(&format!("Records read: {records}.")), "{by_date}");
    assert_eq!(by_date.matches("class=\"missing\"").count(), 0);
    let folder = Folder::of("by-date", "report-left-out");
    folder.take("calendar_dates.txt");
    let neither = page(folder.path());
    for name in ["calendar.txt", "calendar_dates.txt"] {
        assert!(neither.contains(&row(name, "missing", "missing")), "{neither}");
    }
    folder.put("calendar.txt", b"x\n");
    folder.take("trips.txt");
    let trips = page(folder.path());
    assert!(trips.contains(&row("trips.txt", "missing", "missing")), "{trips}");
    assert!(trips.contains(&row("calendar_dates.txt", "left-out", "not supplied")), "{trips}");
}

/// Of a service and date that stand twice both are marked, and the earlier line is shown.
#[test]
fn a_repeated_date_is_marked() {
    let folder = Folder::new("report-date");
    folder.put("calendar_dates.txt", b"date,service_id,exception_type\n20241225,W,1\n20241226,W,1\n20241225,W,2\n");
    let output = run(&["report", folder.path()]);
    assert_eq!(status(&output), 1);
    let marked = "[6, 4, [[\"20241225\", \"date\"], \",\", [\"W\", \"service_id\"], \",2\"]]";
    let earlier = "[6, 2, [\"20241225,W,1\"]]";
    assert!(out(&output).contains(&format!("[{marked}, {earlier}]")), "{}", out(&output));
}

#[test]
fn what_cannot_be_read_or_written() {
    let folder = Folder::empty("report-nowhere");
    let page = folder.at("report.html");
    assert_cannot(&["report", &folder.at("nowhere"), "-o", &page], &["No such file"]);
    assert!(!std::path::Path::new(&page).exists());
    assert_cannot(&["report", &example("feed"), "-o", &folder.at("no/where.html")], &["can't write"]);
    assert_cannot(&["report", &example("feed"), "-o", "/dev/full"], &["can't write /dev/full"]);
    assert_cannot(&["report", &example("feed"), &example("feed")], &["report takes one feed"]);
    for output in ["", ".", "..", "/", &folder.at("new.html/"), folder.path()] {
        assert_cannot(&["report", &example("feed"), "-o", output], &[&format!("can't write {output}: ")]);
    }
    assert_eq!(fs::read_dir(&folder.0).expect("a folder").count(), 0);
    // Nobody reads a pipe, and nothing waits for one.
    assert!(Command::new("mkfifo").arg(folder.at("pipe")).status().expect("mkfifo").success());
    let mut bounded = command_after("exec timeout 20 \"$0\" \"$@\"");
    let output =
        bounded.args(["report", &example("feed"), "-o", &folder.at("pipe")]).output().expect("the command runs");
    assert_eq!((status(&output), out(&output)), (3, ""));
    assert!(said(&output).contains("pipe: it isn't a regular file"), "{}", said(&output));
}

/// What is written to standard output doesn't go there twice.
#[test]
fn standard_output_is_no_file_of_its_own() {
    let folder = Folder::empty("report-stdout");
    let page = folder.at("page.html");
    for name in [&page[..], "/dev/stdout", "/dev/fd/1"] {
        let into = format!("exec > '{page}'");
        let output = command_after(&into).args(["report", &example("feed"), "-o", name]).output().expect("bash");
        assert_eq!(status(&output), 3, "{name}");
        assert!(said(&output).contains("standard output goes there"), "{}", said(&output));
        assert_eq!(fs::read(&page).expect("a file"), b"", "{name}");
    }
}

/// A link in the page's place is replaced, and what it names stays; a page takes the place of an older one, and nothing is left beside it.
#[test]
fn a_page_is_put_in_its_place_whole() {
    let folder = Folder::empty("report-whole");
    let [page, precious] = ["report.html", "precious"].map(|name| folder.at(name));
    folder.put("precious", b"precious");
    let whole = out(&run(&["report", &example("feed")])).to_string();
    for target in ["precious", "nowhere"] {
        symlink(target, &page).expect("a link");
        assert_eq!(status(&run(&["report", &example("feed"), "-o", &page])), 0);
        assert!(fs::symlink_metadata(&page).expect("a page").is_file());
        assert_eq!(fs::read(&precious).expect("a file"), b"precious");
        assert!(fs::read_to_string(&page).expect("a page") == whole);
        // In place of the older one.
        assert_eq!(status(&run(&["report", &example("findings"), "-o", &page])), 1);
        assert!(fs::read_to_string(&page).expect("a page").contains("5 findings"));
        assert_eq!(fs::read_dir(&folder.0).expect("a folder").count(), 2);
        folder.take("report.html");
    }
    let long = folder.at(&"x".repeat(255));
    assert_eq!(status(&run(&["report", &example("feed"), "-o", &long])), 0);
}

/// A page never takes the place of what was checked, by whatever name, nor of a file that the feed may yet have.
#[test]
fn a_page_never_goes_over_the_feed() {
    let folder = Folder::empty("report-over");
    let files = example_files("feed");
    let path = folder.put_feed("feed", &files);
    fs::remove_file(folder.0.join("feed/calendar_dates.txt")).expect("a file taken away");
    let zip = write(&feed("", &files));
    folder.put("feed.zip", &zip);
    fs::hard_link(folder.0.join("feed/stops.txt"), folder.0.join("hard")).expect("a link");
    symlink("feed", folder.at("by-link")).expect("a link");
    symlink("feed/trips.txt", folder.at("soft")).expect("a link");
    let of_folder =
        ["feed/stops.txt", "feed/calendar_dates.txt", "feed/../feed/trips.txt", "by-link/routes.txt", "hard", "soft"];
    for name in of_folder {
        for feed in [&path, &folder.at("by-link")] {
            assert_cannot(&["report", feed, "-o", &folder.at(name)], &[&format!("{name}: it is of the feed")]);
        }
    }
    assert_cannot(&["report", &folder.at("feed.zip"), "-o", &folder.at("feed.zip")], &["feed.zip: it is of the feed"]);
    assert_eq!(fs::read(folder.at("feed.zip")).expect("a file"), zip);
    for (name, bytes) in common::NAMES.iter().zip(&files).take(5) {
        assert_eq!(fs::read(format!("{path}/{name}")).expect("a file"), *bytes);
    }
    assert!(!folder.0.join("feed/calendar_dates.txt").exists());
    // Where a link of the feed leads is the feed's too.
    folder.put("elsewhere", &files[0]);
    fs::remove_file(folder.0.join("feed/stops.txt")).expect("a file taken away");
    symlink("../elsewhere", folder.at("feed/stops.txt")).expect("a link");
    assert_cannot(&["report", "-L", &path, "-o", &folder.at("elsewhere")], &["elsewhere: it is of the feed"]);
    // Beside the files a page may stand.
    assert_eq!(status(&run(&["report", "-L", &path, "-o", &folder.at("feed/report.html")])), 0);
}

/// Elements of the page are the frame's: however hostile a feed, their number is that of a tame feed with as many lines.
#[test]
fn a_feed_adds_no_markup() {
    let folder = Folder::empty("report-markup");
    let page = |name: &str, id: &str| {
        let stops = format!("stop_id,stop_name,stop_lat,stop_lon\n\"{id}\",\"{id}\",1,2\n\"{id}\",\"{id}\",1,2\n");
        let mut files = common::example_files("feed");
        files[0] = stops.into_bytes();
        let output = run(&["report", &folder.put_feed(name, &files)]);
        assert_eq!(status(&output), 1, "{}", said(&output));
        out(&output).to_string()
    };
    let [tame, hostile] = [page("tame", "x"), page("hostile", "</script><b>'&\u{2028}")];
    for sign in ["<", ">", "<script", "</script", "<!--"] {
        assert_eq!(hostile.matches(sign).count(), tame.matches(sign).count(), "{sign}");
    }
}

/// A line of 10 MB that 5,000 findings name is looked through once: 50 GB would take this test's time many times over.
#[test]
fn a_long_line_that_many_findings_name() {
    let folder = Folder::empty("report-long");
    let note = "x".repeat(10_000_000);
    let late = format!("T,9:00:00,9:00:00,A,1,{note}\n");
    let lines: String = (2..5002).map(|sequence| format!("T,8:00:00,8:00:00,A,{sequence},\n")).collect();
    let header = "trip_id,arrival_time,departure_time,stop_id,stop_sequence,note\n";
    let mut files = common::example_files("feed");
    files[0] = b"stop_id,stop_name,stop_lat,stop_lon\nA,Alder,1,2\n".to_vec();
    files[3] = b"route_id,service_id,trip_id\nB7,WEEKDAYS,T\n".to_vec();
    files[4] = format!("{header}{late}{lines}").into_bytes();
    let feed = folder.put_feed("feed", &files);
    let began = std::time::Instant::now();
    let output = run(&["report", &feed, "-o", &folder.at("report.html")]);
    assert_eq!((status(&output), out(&output)), (1, "findings: 5000\n"));
    assert!(began.elapsed().as_secs() < 120, "{:?}", began.elapsed());
    assert!(fs::metadata(folder.at("report.html")).expect("a page").len() < 10_000_000);
}
