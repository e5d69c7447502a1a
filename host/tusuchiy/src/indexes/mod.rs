//! The indexes of a feed: written beside its files, each whole or not at all, or those that stand there judged.

mod about;
mod json;
mod text;

use crate::arguments::Form;
use crate::facts::About;
use crate::feed::{Feed, MOST_LINES};
use crate::folder::{Files, Folder};
use crate::memory;
use crate::paging::Refusal;
use crate::refusals::Reasons;
use crate::style::{self, Style, When};
use crate::{many, progress, safe, source, whole, zip, REFUSED};
use std::ffi::OsStr;
use std::io::Write;
use std::os::unix::ffi::OsStrExt;
use std::path::{Path, PathBuf};
use tusuchiy::index::{self, Refused, Version, FILES};
use tusuchiy::{Error, File};

/// The most bytes that an index may have: one of as many records as rule 2 allows.
const MOST_BYTES: usize = Version::of(MOST_LINES - 1).length(MOST_LINES - 1);

/// What `index` is asked for.
#[derive(Debug, Default, PartialEq, Eq)]
pub struct Asked {
    pub feeds: Vec<PathBuf>,
    /// To judge what is there, and to write nothing.
    pub check: bool,
    pub form: Form,
    /// The folder of the indexes; none is that of the feed.
    pub output: Option<PathBuf>,
    pub follow_links: bool,
    pub jobs: Option<usize>,
    pub color: When,
}

/// What became of the index of a file.
enum Outcome {
    /// Written or accepted, in so many bytes.
    Good(usize),
    /// The feed lacks the file, as it may, and has no index of it.
    NotSupplied,
    Refused(Refusal, About),
}

/// What was done for a feed: an outcome for each file that has an index.
struct Done<'a> {
    asked: &'a Asked,
    feed: Feed,
    outcomes: [Outcome; FILES.len()],
}

/// Writes or judges the indexes of all feeds and gives the exit status, the worst of theirs.
pub fn run(asked: &Asked) -> u8 {
    let style = style::of_output(asked.color, asked.form == Form::Quiet);
    many::each(&asked.feeds, asked.jobs, |path| done(asked, path), |done| print(&done, style))
}

fn done<'a>(asked: &'a Asked, path: &Path) -> Result<Done<'a>, String> {
    let output = asked.output.as_ref().map(|folder| must_be_folder(folder)).transpose()?;
    let feed = source::read(path, asked.follow_links)?;
    let folder = output.as_ref().or(feed.opened.as_ref());
    let all = || if asked.check { judge_all(asked, &feed, folder) } else { write_all(&feed, folder) };
    let outcomes = tusuchiy::in_one_thread(all).map_err(|error| Error::Thread(error).to_string())??;
    Ok(Done { asked, feed, outcomes })
}

/// A folder that isn't there is a slip of the user's, and not one without indexes.
fn must_be_folder(path: &Path) -> Result<Folder, String> {
    Folder::open(path).map_err(|error| {
        let is_other = error.raw_os_error() == Some(libc::ENOTDIR);
        let why = if is_other { "it isn't a folder".to_string() } else { error.to_string() };
        format!("can't use {} as --output: {why}", safe::name(path.as_os_str().as_bytes()))
    })
}

/// Prints what was done for a feed, and gives its exit status.
fn print(done: &Done, style: Style) -> Result<u8, String> {
    many::write(|out| match done.asked.form {
        Form::Json => json::write(out, done),
        _ if done.asked.feeds.len() > 1 => writeln!(out, "{}", text::verdict_line(done, style)),
        Form::Quiet => writeln!(out, "{}", text::verdict(done, style)),
        Form::Text => text::write(out, done, style),
    })?;
    Ok(if done.refused().next().is_some() { REFUSED } else { 0 })
}

/// The name of the index of a file that has one.
fn name(file: File) -> &'static str {
    file.index_name().unwrap_or_default()
}

/// Judges all indexes. One that isn't there has no bytes, unless its file isn't supplied either.
fn judge_all(asked: &Asked, feed: &Feed, folder: Option<&Folder>) -> Result<[Outcome; FILES.len()], String> {
    let indexes = read(asked, feed, folder)?;
    let mut places = indexes.iter();
    all(FILES.map(|file| judge(feed, file, places.next().and_then(Option::as_deref))))
}

/// Reads the indexes from where they stand.
fn read(asked: &Asked, feed: &Feed, folder: Option<&Folder>) -> Result<Files<{ FILES.len() }>, String> {
    let names = FILES.map(name);
    match folder {
        None => zip::read_beside(&feed.place, names, MOST_BYTES),
        Some(folder) => folder.read_files(names, MOST_BYTES, asked.follow_links),
    }
}

fn judge(feed: &Feed, file: File, index: Option<&[u8]>) -> Result<Outcome, String> {
    if feed.left_out(file) && index.is_none() {
        return Ok(Outcome::NotSupplied);
    }
    progress::step(|| format!("judging {}", name(file)));
    let judged = memory::told(|| index::judge(file, feed.bytes(file), index.unwrap_or(&[])));
    Ok(match judged.map_err(|error| error.to_string())? {
        Ok(()) => Outcome::Good(index.map_or(0, <[u8]>::len)),
        Err(refused) => refusal(feed, file, index, refused),
    })
}

/// Writes all indexes that there are; one that can't be written is no reason to leave out the others.
fn write_all(feed: &Feed, folder: Option<&Folder>) -> Result<[Outcome; FILES.len()], String> {
    let Some(folder) = folder else {
        let path = safe::name(feed.place.path.as_os_str().as_bytes());
        return Err(format!("can't write beside the files in {path}: unpack it, or name a folder with --output"));
    };
    all(FILES.map(|file| write(feed, file, folder)))
}

fn write(feed: &Feed, file: File, folder: &Folder) -> Result<Outcome, String> {
    let name = OsStr::new(name(file));
    if feed.left_out(file) && matches!(folder.about(name, false), Ok(None) | Err(_)) {
        return Ok(Outcome::NotSupplied);
    }
    let cannot = |why: String| {
        let path = folder.path_of(name);
        format!("can't write {}: {why}", safe::name(path.as_os_str().as_bytes()))
    };
    progress::step(|| format!("indexing {file}"));
    match memory::told(|| index::of(file, feed.bytes(file))).map_err(|error| cannot(error.to_string()))? {
        Ok(index) => {
            let put = whole::put(folder, name, |out| out.write_all(&index));
            put.map_err(|error| cannot(error.to_string())).map(|()| Outcome::Good(index.len()))
        }
        Err(refused) => Ok(refusal(feed, file, None, refused)),
    }
}

/// All outcomes, or what was in the way of each, a line each.
fn all(outcomes: [Result<Outcome, String>; FILES.len()]) -> Result<[Outcome; FILES.len()], String> {
    let wrong: Vec<&str> = outcomes.iter().filter_map(|outcome| outcome.as_ref().err().map(String::as_str)).collect();
    if !wrong.is_empty() {
        return Err(wrong.join("\n"));
    }
    Ok(outcomes.map(|outcome| outcome.unwrap_or(Outcome::NotSupplied)))
}

/// A refusal with what it is about: the file's own, or that of its index.
fn refusal(feed: &Feed, file: File, index: Option<&[u8]>, refused: Refused) -> Outcome {
    match refused {
        Refused::File(fault) if feed.left_out(file) => Outcome::Refused(fault.into(), about::of_nothing(file)),
        Refused::File(fault) => {
            let refusal = Refusal::from(fault);
            let about = Reasons::new(feed).about(&refusal);
            Outcome::Refused(refusal, about)
        }
        Refused::Index(refusal) => {
            let number = refusal.number();
            let (line, about) = about::of(feed, file, index, number);
            Outcome::Refused(Refusal { number, file: file.number(), line, column: None }, about)
        }
    }
}

impl Done<'_> {
    /// What became of all indexes, and of one that is good.
    fn verdict(&self) -> &'static str {
        if self.refused().next().is_some() {
            "refused"
        } else {
            self.good()
        }
    }

    fn good(&self) -> &'static str {
        if self.asked.check {
            "accepted"
        } else {
            "written"
        }
    }

    /// What is refused.
    fn refused(&self) -> impl Iterator<Item = (&Refusal, &About)> {
        self.outcomes.iter().filter_map(|outcome| match outcome {
            Outcome::Refused(refusal, about) => Some((refusal, about)),
            _ => None,
        })
    }

    /// How many records the index of a file lists if it is good, and its version.
    fn records(&self, file: File) -> (usize, Version) {
        let records = about::records(&self.feed, file);
        (records, Version::of(records))
    }

    /// The path of an index, safe to print.
    fn path(&self, name: &str) -> String {
        let of_output = |folder: &PathBuf| safe::name(folder.join(name).as_os_str().as_bytes());
        self.asked.output.as_ref().map_or_else(|| self.feed.place.of(name), of_output)
    }
}

/// What is refused is the index itself, and not the file that it is of.
fn is_of_index(refusal: &Refusal) -> bool {
    (40..=44).contains(&refusal.number)
}
