//! Many feeds at once: one verdict a line in the order given, the worst status, and the same by GNU parallel.

mod common;

use common::json::Json;
use common::zip::{feed, write};
use common::{command, example, example_files, json, out, program, run, said, status, Folder};
use std::fs;
use std::process::{Command, Stdio};

/// The words of the three examples and of a feed that can't be read.
fn four() -> [String; 4] {
    ["findings", "nowhere", "refused", "feed"].map(example)
}

const REFUSED: &str = "refused: stop_times.txt:4:3: refusal 13: departure_time is \"8:5:00\", \
                       wanted: a time as 8:05:00 or 08:05:00, hours 0 to 99, minutes and seconds 00 to 59";

#[test]
fn one_verdict_a_line_and_the_worst_status() {
    let [findings, nowhere, refused, accepted] = four();
    let line = |feed: &str, verdict: &str| format!("{feed}: {verdict}\n");
    let [of_findings, of_accepted] = [line(&findings, "findings: 5"), line(&accepted, "accepted")];
    let of_refused = line(&refused, REFUSED);
    let cases: [(&[&str], i32, String); 4] = [
        (&[&accepted, &accepted], 0, of_accepted.repeat(2)),
        (&[&accepted, &findings, &accepted], 1, format!("{of_accepted}{of_findings}{of_accepted}")),
        (&[&refused, &findings, &accepted], 2, format!("{of_refused}{of_findings}{of_accepted}")),
        (&[&findings, &nowhere, &refused, &accepted], 3, format!("{of_findings}{of_refused}{of_accepted}")),
    ];
    for (feeds, worst, wanted) in cases {
        for options in [&[][..], &["--jobs", "1"], &["--jobs=7"], &["--quiet"]] {
            let output = run(&[&["check"], options, feeds].concat());
            assert_eq!((status(&output), out(&output)), (worst, &wanted[..]), "{options:?} {feeds:?}");
            let complaints = usize::from(worst == 3);
            assert_eq!(said(&output).lines().count(), complaints, "{}", said(&output));
            assert_eq!(said(&output).matches("nowhere: No such file").count(), complaints);
        }
    }
}

/// With the profile for boards each line says so, and so does each document; a feed is judged as if it were alone.
#[test]
fn the_profile_of_many_feeds() {
    let feeds = ["boards", "by-date", "findings", "refused"].map(example);
    let feeds: Vec<&str> = feeds.iter().map(String::as_str).collect();
    let refused = REFUSED.replacen("refused", "refused (profile boards)", 1);
    let verdicts =
        ["findings: 4 (profile boards)", "accepted (profile boards)", "findings: 6 (profile boards)", &refused];
    let wanted: String = feeds.iter().zip(verdicts).map(|(feed, verdict)| format!("{feed}: {verdict}\n")).collect();
    for options in [&[][..], &["--jobs", "1"], &["--quiet"]] {
        let output = run(&[&["check", "--profile=boards"], options, &feeds].concat());
        assert_eq!((status(&output), out(&output), said(&output)), (2, &wanted[..], ""), "{options:?}");
    }
    let output = run(&[&["check", "--profile=boards", "--json"], &feeds[..]].concat());
    for (line, feed) in out(&output).lines().zip(&feeds) {
        let document = json::read(line);
        assert_eq!(document.get("profile").text(), "boards");
        assert_eq!(document, json::read(out(&run(&["check", "--json", "--profile", "boards", feed]))), "{feed}");
    }
    assert_eq!(out(&output).lines().count(), 4);
}

/// One file of services is enough, and without any the line says what to supply.
#[test]
fn services_in_a_line() {
    let folder = Folder::of("by-date", "services-in-a-line");
    folder.take("calendar_dates.txt");
    let output = run(&["check", &example("by-date"), folder.path(), &example("feed")]);
    let neither = "the feed has neither calendar.txt nor calendar_dates.txt: supply one of them";
    let refused = format!("{}: refused: calendar.txt: refusal 4: the file is missing; {neither}\n", folder.path());
    let wanted = format!("{}: accepted\n{refused}{}: accepted\n", example("by-date"), example("feed"));
    assert_eq!((status(&output), out(&output), said(&output)), (2, &wanted[..], ""));
}

#[test]
fn json_is_one_document_a_line() {
    let [findings, nowhere, refused, accepted] = four();
    let feeds = [&findings[..], &nowhere, &refused, &accepted];
    let output = run(&[&["check", "--json"], &feeds[..]].concat());
    assert_eq!(status(&output), 3);
    let documents: Vec<Json> = out(&output).lines().map(json::read).collect();
    let told: Vec<[&str; 2]> =
        documents.iter().map(|report| ["feed", "verdict"].map(|name| report.get(name).text())).collect();
    assert_eq!(told, [[&findings[..], "findings"], [&refused, "refused"], [&accepted, "accepted"]]);
    for (document, feed) in documents.iter().zip([&findings, &refused, &accepted]) {
        assert_eq!(*document, json::read(out(&run(&["check", "--json", feed]))), "as if it were alone");
    }
}

/// Forty feeds, folders and zip files, in their order whatever the number of threads.
#[test]
fn the_order_is_the_one_given() {
    let folder = Folder::empty("order");
    let names = ["findings", "feed", "refused"];
    let feeds: Vec<String> = (0..40)
        .map(|place| {
            let files = example_files(names[place % 3]);
            if place % 2 == 0 {
                return folder.put_feed(&place.to_string(), &files);
            }
            folder.put(&format!("{place}.zip"), &write(&feed("", &files)));
            folder.at(&format!("{place}.zip"))
        })
        .collect();
    let verdicts = ["findings: 5", "accepted", REFUSED];
    let wanted: String =
        feeds.iter().enumerate().map(|(place, feed)| format!("{feed}: {}\n", verdicts[place % 3])).collect();
    for jobs in ["1", "4", "40", "256"] {
        let output = command().args(["check", "--jobs", jobs]).args(&feeds).output().expect("the command runs");
        assert_eq!((status(&output), out(&output)), (2, &wanted[..]), "{jobs}");
    }
}

#[test]
fn a_closed_pipe_hides_no_status() {
    let feeds: Vec<String> = std::iter::repeat(example("findings")).take(60).chain([example("refused")]).collect();
    let mut child = command();
    let child = child.args(["check", "--json"]).args(&feeds).stdout(Stdio::piped()).stderr(Stdio::piped());
    let mut child = child.spawn().expect("the command runs");
    drop(child.stdout.take());
    let output = child.wait_with_output().expect("the command ends");
    assert_eq!((status(&output), said(&output)), (2, ""));
}

/// The README's words for many machines, with `:`, this machine, as the only one.
#[test]
fn gnu_parallel_does_the_same() {
    let folder = Folder::empty("parallel");
    let readme = include_str!("../../../README.md");
    let recipe = readme.lines().find(|line| line.contains("parallel --sshlogin")).expect("the recipe").trim();
    let worst = readme.lines().find(|line| line.contains("awk ")).expect("the status of all").trim();
    let script = format!("{recipe}\n{worst}")
        .replace("server1,server2,:", "2/:")
        .replace("tusuchiy check", &format!("{} check", program().join(" ")))
        .replace("feeds/*.zip", "*.zip");
    for (name, status_wanted) in [("feed", 0), ("findings", 1), ("refused", 2)] {
        folder.put(&format!("{name}.zip"), &write(&feed("", &example_files(name))));
        let mut bash = Command::new("bash");
        let output =
            bash.args(["-c", &script]).current_dir(&folder.0).env("HOME", &folder.0).stdin(Stdio::null()).output();
        let output = output.expect("bash");
        assert_eq!(status(&output), status_wanted, "GNU parallel, which .ci/host installs: {}", said(&output));
    }
    let reports = fs::read_to_string(folder.0.join("reports")).expect("the reports");
    let mut verdicts: Vec<String> =
        reports.lines().map(|line| json::read(line).get("verdict").text().to_string()).collect();
    verdicts.sort();
    assert_eq!(verdicts, ["accepted", "findings", "refused"]);
}
