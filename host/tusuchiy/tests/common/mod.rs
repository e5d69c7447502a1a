//! What the tests of the command share: how it is run, feeds in folders of their own, zip files, a JSON reader.
#![allow(dead_code)]

pub mod json;
pub mod memory;
pub mod zip;

use json::Json;
use std::fs;
use std::path::{Path, PathBuf};
use std::process::{Command, Output, Stdio};
use std::sync::atomic::{AtomicUsize, Ordering};

/// On Arm the command is an x86-64 program and runs under the same runner as this test.
pub const RUNNER: &str = "CARGO_TARGET_X86_64_UNKNOWN_LINUX_GNU_RUNNER";

/// The six files, in the order of their numbers.
pub const NAMES: [&str; 6] =
    ["stops.txt", "routes.txt", "calendar.txt", "trips.txt", "stop_times.txt", "calendar_dates.txt"];

/// The program, with its runner before it where there is one.
pub fn program() -> Vec<String> {
    let runner = std::env::var(RUNNER).unwrap_or_default();
    let words = runner.split_ascii_whitespace().chain([env!("CARGO_BIN_EXE_tusuchiy")]);
    words.map(str::to_string).collect()
}

pub fn command() -> Command {
    let words = program();
    let mut command = Command::new(&words[0]);
    command.args(&words[1..]).stdin(Stdio::null());
    command
}

/// The command after a bash command such as `ulimit -s 512`.
pub fn command_after(words: &str) -> Command {
    let mut command = Command::new("bash");
    command.args(["-c", &format!("{words} && exec \"$0\" \"$@\"")]).args(program()).stdin(Stdio::null());
    command
}

/// Runs the command with these words, and nothing on its standard input.
pub fn run(words: &[&str]) -> Output {
    command().args(words).output().expect("the command runs")
}

pub fn out(output: &Output) -> &str {
    std::str::from_utf8(&output.stdout).expect("UTF-8 on standard output")
}

pub fn said(output: &Output) -> &str {
    std::str::from_utf8(&output.stderr).expect("UTF-8 on standard error")
}

/// The exit status. A fault that the last resort made a status of is one all the same.
pub fn status(output: &Output) -> i32 {
    let said = String::from_utf8_lossy(&output.stderr);
    assert!(!said.contains(FAULT), "{said}");
    output.status.code().expect("an exit status")
}

/// What the last resort says of an abort and the like.
pub const FAULT: &str = "a fault of the command itself";

pub fn example(name: &str) -> String {
    format!("{}/../../examples/{name}", env!("CARGO_MANIFEST_DIR"))
}

/// The JSON document of a feed that was checked.
pub fn document(words: &[&str]) -> Json {
    let output = run(&[&["check", "--json"], words].concat());
    assert!(status(&output) < 3, "{}", said(&output));
    json::read(out(&output))
}

/// Could not run: status 3, nothing on standard output, one line on standard error for each message, with its words.
pub fn assert_cannot(words: &[&str], messages: &[&str]) {
    let output = run(words);
    let said = said(&output);
    assert_eq!(status(&output), 3, "{words:?}: {said}");
    assert_eq!(out(&output), "", "{words:?}");
    assert!(said.ends_with('\n'), "{words:?}: {said}");
    let lines: Vec<&str> = said.lines().collect();
    assert_eq!(lines.len(), messages.len(), "{words:?}: {said}");
    for (line, message) in lines.iter().zip(messages) {
        assert!(line.starts_with("tusuchiy: ") && line.contains(message), "{words:?}: {line}");
        assert!(!line.chars().any(char::is_control), "{words:?}: {line:?}");
    }
}

/// A folder of its own, gone when the test is over.
pub struct Folder(pub PathBuf);

impl Folder {
    /// An empty one. Tests run at the same time, and a name may be used again.
    pub fn empty(name: &str) -> Self {
        static NEXT: AtomicUsize = AtomicUsize::new(0);
        let number = NEXT.fetch_add(1, Ordering::Relaxed);
        let folder = std::env::temp_dir().join(format!("tusuchiy-{}-{number}-{name}", std::process::id()));
        let _ = fs::remove_dir_all(&folder);
        fs::create_dir_all(&folder).expect("a folder");
        Folder(folder)
    }

    /// A copy of the accepted example.
    pub fn new(name: &str) -> Self {
        Folder::of("feed", name)
    }

    /// A copy of an example.
    pub fn of(of: &str, name: &str) -> Self {
        let folder = Folder::empty(name);
        for file in fs::read_dir(example(of)).expect("a folder").map(|file| file.expect("a file")) {
            fs::copy(file.path(), folder.0.join(file.file_name())).expect("a copy");
        }
        folder
    }

    pub fn path(&self) -> &str {
        self.0.to_str().expect("a path of plain letters")
    }

    /// The path of something in it.
    pub fn at(&self, name: &str) -> String {
        format!("{}/{name}", self.path())
    }

    pub fn put(&self, file: &str, bytes: &[u8]) {
        fs::write(self.0.join(file), bytes).expect("a file");
    }

    /// A folder in it with these six files.
    pub fn put_feed(&self, name: &str, files: &[Vec<u8>; 6]) -> String {
        fs::create_dir_all(self.0.join(name)).expect("a folder");
        NAMES.iter().zip(files).for_each(|(file, bytes)| self.put(&format!("{name}/{file}"), bytes));
        self.at(name)
    }

    pub fn take(&self, file: &str) {
        fs::remove_file(self.0.join(file)).expect("a file taken away");
    }
}

impl Drop for Folder {
    fn drop(&mut self) {
        let _ = fs::remove_dir_all(&self.0);
    }
}

/// The files of an example; one that it lacks is empty.
pub fn example_files(name: &str) -> [Vec<u8>; 6] {
    NAMES.map(|file| fs::read(Path::new(&example(name)).join(file)).unwrap_or_default())
}
