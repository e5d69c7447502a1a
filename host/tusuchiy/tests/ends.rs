//! Whatever happens, the command ends with a status of its own, and leaves nothing behind: too little memory or stack, files that may not grow, signals.

mod common;

use common::memory::{own, within};
use common::zip::{feed, write};
use common::{command, command_after, example, example_files, out, program, run, said, status, Folder, FAULT, RUNNER};
use std::fs;
use std::io::Read;
use std::os::fd::OwnedFd;
use std::os::unix::net::UnixStream;
use std::os::unix::process::ExitStatusExt;
use std::process::{Child, Command, Output, Stdio};
use std::thread::sleep;
use std::time::{Duration, Instant};

/// An emulator has memory, a stack and signals of its own.
fn emulated() -> bool {
    std::env::var_os(RUNNER).is_some()
}

/// A run with so many KiB of address space.
fn with_kib(most: usize, words: &[&str]) -> Output {
    command_after(&format!("ulimit -v {most}")).args(words).output().expect("bash")
}

/// The statuses that a run may have, each with what is said: a verdict and nothing, or 3 and why. The loader's 127 comes before the command.
fn assert_told(output: &Output, verdict: i32, where_: &str) -> bool {
    let (code, said) = (output.status.code(), String::from_utf8_lossy(&output.stderr));
    if code == Some(127) && !said.starts_with("tusuchiy: can't") {
        return false;
    }
    assert!(!said.contains(FAULT) && !said.contains("memory allocation of"), "{where_}: {said}");
    assert!(
        code == Some(verdict) && said.is_empty() || code == Some(3) && !said.is_empty(),
        "{where_}: {code:?} {said}"
    );
    code == Some(3)
}

/// The least KiB with which the words give a verdict, found by halves up to so many.
fn least(words: &[&str], verdict: i32, up_to: usize) -> usize {
    let (mut less, mut enough) = (0, 1 << 20);
    while enough - less > up_to {
        let middle = (less + enough) / 2;
        if with_kib(middle, words).status.code() == Some(verdict) {
            enough = middle;
        } else {
            less = middle;
        }
    }
    enough
}

/// Just below what is enough each piece is missing in turn: of the heap, of a thread's stack, of what Rust maps beside it.
#[test]
fn a_small_feed_in_narrow_windows() {
    if emulated() {
        return;
    }
    let words = ["check", "--quiet", &example("feed")];
    let least = least(&words, 0, 4);
    let windows = (least - 120..least + 8).step_by(4).chain((3_000..least).step_by(211));
    let told = windows.filter(|most| assert_told(&with_kib(*most, &words), 0, &format!("{most} KiB"))).count();
    assert!(told > 20, "{told} runs had too little");
}

/// Many threads, each of which may be the one that finds nothing left.
#[test]
fn many_threads_with_little_memory() {
    if emulated() {
        return;
    }
    let findings = example("findings");
    let words = [&["check", "--jobs", "16"][..], &[&findings[..]; 32]].concat();
    let told = |most: &usize| {
        let output = with_kib(*most, &words);
        // Feeds that were checked before have their lines.
        assert!(!String::from_utf8_lossy(&output.stderr).contains(FAULT), "{most} KiB: {}", said(&output));
        let code = output.status.code().unwrap_or_else(|| panic!("{most} KiB: {}", said(&output)));
        assert!([1, 3, 127].contains(&code), "{most} KiB: {code} {}", said(&output));
        code == 3
    };
    let least = least(&words, 1, 100);
    let windows = (5_000..least + 20_000).step_by(least / 60).chain((least - 200..least).step_by(8));
    assert!(windows.filter(told).count() > 20);
}

/// With so many KiB less than enough, step by step, the words end in status 3, and each says why.
fn assert_windows(words: &[&str], verdict: i32, below: usize, step: usize) {
    let least = least(words, verdict, step / 2);
    let windows = (least - below..least + step).step_by(step);
    assert!(windows.filter(|most| assert_told(&with_kib(*most, words), verdict, &format!("{most} KiB"))).count() > 2);
}

/// A header of a name of 16 MB with marks in it: what is said of it takes no memory but that of the feed, and with less there is status 3.
#[test]
fn long_names_take_no_memory() {
    let folder = Folder::new("ends-name");
    let name = [&b"\"\"\""[..], &b"x".repeat(16_777_211), b"\"\n"].concat();
    ["stops.txt", "trips.txt"].iter().for_each(|file| folder.put(file, &name));
    let own = own();
    for words in [["check", "--json"], ["report", "--profile=boards"]] {
        let output = within(own + 40, &[&words[..], &[folder.path()]].concat());
        assert_eq!(status(&output), 2, "{words:?}: {}", said(&output));
    }
    if !emulated() {
        assert_windows(&["report", folder.path()], 2, 30 << 10, 5 << 10);
    }
}

/// So many faults that a list of their numbers is a large piece.
#[test]
fn many_faults_with_little_memory() {
    if emulated() {
        return;
    }
    let folder = Folder::new("ends-faults");
    ["stops.txt", "trips.txt", "routes.txt"].iter().for_each(|name| folder.put(name, &b"\t\n".repeat(50_000)));
    assert_windows(&["report", folder.path()], 2, 2_000, 250);
}

/// One trip of many lines, each before the one before it: its picture takes little, and a report no more than a check.
#[test]
fn a_report_takes_no_more_than_a_check() {
    if emulated() {
        return;
    }
    let folder = Folder::new("ends-trip");
    let time = |second: usize| format!("{:02}:{:02}:{:02}", second / 3600, second / 60 % 60, second % 60);
    let call = |line: usize| format!("B7-out-1,{0},{0},HILL,{line},{1}\n", time(200_000 - line), "x".repeat(200));
    let calls: String = (1..65_536).map(call).collect();
    let header = "trip_id,arrival_time,departure_time,stop_id,stop_sequence,note\n";
    folder.put("stop_times.txt", format!("{header}{calls}").as_bytes());
    let limit = (1..96).map(|step| own() + 2 * step).find(|most| {
        let output = within(*most, &["check", "--json", folder.path()]);
        output.status.code() == Some(1)
    });
    let limit = limit.expect("enough for a check");
    let output = within(limit + 2, &["report", "-o", &folder.at("report.html"), folder.path()]);
    assert_eq!(status(&output), 1, "{limit} MiB: {}", said(&output));
}

/// A limit on the length of files is an error like a full disk, of standard output too.
#[test]
fn files_that_may_not_grow() {
    let folder = Folder::empty("ends-grow");
    let page = folder.at("report.html");
    let short = |words: &[&str], to: &str| {
        let limit = format!("ulimit -f 8 && exec > '{to}'");
        command_after(&limit).args(words).output().expect("bash")
    };
    for before in [None, Some(&b"before"[..])] {
        before.inspect(|bytes| folder.put("report.html", bytes));
        let output = short(&["report", &example("findings"), "-o", &page], "/dev/null");
        let wanted = format!("tusuchiy: can't write {page}: File too large (os error 27)\n");
        assert_eq!((status(&output), said(&output)), (3, &wanted[..]));
        assert_eq!(fs::read(&page).ok().as_deref(), before);
        assert_eq!(fs::read_dir(&folder.0).expect("a folder").count(), usize::from(before.is_some()));
    }
    let output = short(&["report", &example("findings")], &folder.at("stdout"));
    let wanted = "tusuchiy: can't write to standard output: File too large (os error 27)\n";
    assert_eq!((status(&output), said(&output)), (3, wanted));
}

/// From the least stack with which the system starts a program, on a zip file too; threads don't go by the environment.
#[test]
fn small_stacks() {
    if emulated() {
        return;
    }
    let folder = Folder::empty("ends-stack");
    folder.put("feed.zip", &write(&feed("", &example_files("findings"))));
    let zip = folder.at("feed.zip");
    let mut checked = 0;
    for most in (16..200).step_by(8) {
        let words = ["check", "--quiet", "--jobs", "2", &zip, &example("feed")];
        let output = command_after(&format!("ulimit -s {most}")).env_clear().args(words).output().expect("bash");
        let starts = command_after(&format!("ulimit -s {most}")).env_clear().arg("--version").output().expect("bash");
        if status(&starts) == 0 {
            assert_eq!((status(&output), out(&output).lines().count()), (1, 2), "{most} KiB: {}", said(&output));
            checked += 1;
        }
    }
    assert!(checked > 15, "{checked} runs");
    for size in ["0", "1", "20000"] {
        let output =
            command().env("RUST_MIN_STACK", size).args(["check", "--jobs", "4", &zip, &zip, &zip, &zip]).output();
        assert_eq!(status(&output.expect("the command runs")), 1, "{size}");
    }
}

/// Where the whole system is the program with its libraries, a standard descriptor that is closed is nobody's file.
#[test]
fn closed_descriptors_without_dev() {
    let may = Command::new("chroot").args(["/", "true"]).status().is_ok_and(|done| done.success());
    if emulated() || !may {
        return;
    }
    let root = Folder::new("ends-root");
    let libraries = Command::new("ldd").arg(&program()[0]).output().expect("ldd");
    let libraries = out(&libraries).split_whitespace().filter(|word| word.starts_with('/')).map(str::to_string);
    for file in libraries.chain(program()) {
        let to = root.0.join(file.trim_start_matches('/'));
        fs::create_dir_all(to.parent().expect("a folder")).expect("folders");
        fs::copy(&file, to).expect("a copy");
    }
    for (closed, told) in
        [("", "accepted\n"), ("0<&-", "accepted\n"), ("0<&- 2>&-", "accepted\n"), ("0<&- 1>&- 2>&-", "")]
    {
        let script = format!("exec chroot {} \"$0\" \"$@\" {closed}", root.path());
        let mut bash = Command::new("bash");
        let output = bash.args(["-c", &script]).args(program()).args(["check", "--quiet", "/"]).output().expect("bash");
        assert_eq!((status(&output), out(&output)), (0, told), "{closed}: {}", said(&output));
    }
    // What is opened has none of their numbers, so no word gets into a file.
    let script = "exec \"$0\" \"$@\" 0<&- 1>&- 2>&-";
    let mut bash = Command::new("bash");
    let folder = Folder::empty("ends-closed");
    let page = folder.at("report.html");
    let output = bash.args(["-c", script]).args(program()).args(["report", &example("findings"), "-o", &page]).output();
    assert_eq!(status(&output.expect("bash")), 1);
    assert!(fs::read(&page).expect("a page") == run(&["report", &example("findings")]).stdout);
}

/// A feed with so many findings of rule 20 that what is said of them fills every pipe.
fn many_findings(name: &str) -> Folder {
    let folder = Folder::new(name);
    folder.put("routes.txt", format!("route_id,route_short_name,route_type\n{}", "B7,7,3\n".repeat(30_000)).as_bytes());
    folder
}

/// A write that would wait waits, whoever said of the pipe that it shouldn't.
#[test]
fn standard_output_that_does_not_wait() {
    let folder = many_findings("ends-pipe");
    let whole = run(&["check", "--json", folder.path()]);
    assert!(out(&whole).len() > 1 << 20);
    let (mut ours, theirs) = UnixStream::pair().expect("a pair");
    theirs.set_nonblocking(true).expect("a flag");
    let child = {
        let mut child = command();
        let child = child.args(["check", "--json", folder.path()]).stdout(Stdio::from(OwnedFd::from(theirs)));
        child.stderr(Stdio::piped()).spawn().expect("the command runs")
    };
    // The command holds the only other end from here on.
    let mut read = Vec::new();
    sleep(Duration::from_millis(200));
    ours.read_to_end(&mut read).expect("all of it");
    let output = child.wait_with_output().expect("an end");
    assert_eq!((status(&output), said(&output)), (1, ""));
    assert!(read == whole.stdout, "{} of {} bytes", read.len(), whole.stdout.len());
}

/// Sends a signal by its name.
fn kill(child: &Child, signal: &str) {
    let sent = Command::new("bash").args(["-c", &format!("kill -{signal} {}", child.id())]).status();
    assert!(sent.expect("bash").success());
}

/// A fault is status 3 with words of its own, so that nobody takes it for a verdict or for a fault of the feed. These come from outside: of the
/// command's own none is known.
#[test]
fn a_fault_is_no_verdict_and_has_its_words() {
    if emulated() {
        return;
    }
    let folder = many_findings("ends-fault");
    for signal in ["ABRT", "BUS", "FPE", "ILL", "SEGV", "XCPU"] {
        let mut child = command();
        // Nobody reads, so that it waits in the middle of its document.
        let child =
            child.args(["check", "--json", folder.path()]).stdout(Stdio::piped()).stderr(Stdio::piped()).spawn();
        let child = child.expect("the command runs");
        sleep(Duration::from_millis(150));
        kill(&child, signal);
        let output = child.wait_with_output().expect("an end");
        assert_eq!(output.status.code(), Some(3), "{signal}");
        let fault = format!("tusuchiy: {FAULT}, not of the feed: SIG{signal}\n");
        let wanted = if signal == "XCPU" { "tusuchiy: the time that the system allows is used up\n" } else { &fault };
        assert_eq!(said(&output), wanted);
    }
}

/// Whoever ends a command while it writes a page finds no half of it. The signal is the command's end, unless it is one that makes a status.
#[test]
fn nothing_is_left_by_a_command_that_is_ended() {
    if emulated() {
        return;
    }
    let feed = many_findings("ends-feed");
    for (signal, number) in [("TERM", 15), ("INT", 2), ("HUP", 1), ("SEGV", 0)] {
        let folder = Folder::empty("ends-left");
        let mut child = command();
        let child = child.args(["report", feed.path(), "-o", &folder.at("report.html")]).stderr(Stdio::null()).spawn();
        let mut child = child.expect("the command runs");
        let names = || fs::read_dir(&folder.0).expect("a folder").map(|name| name.expect("a name").file_name());
        let since = Instant::now();
        while names().next().is_none() {
            assert!(since.elapsed() < Duration::from_secs(60), "no page");
        }
        kill(&child, signal);
        let ended = child.wait().expect("an end");
        assert_eq!((ended.signal().unwrap_or(0), ended.code().unwrap_or(3)), (number, 3), "{signal}");
        assert_eq!(names().count(), 0, "{signal}");
    }
}
