//! Works on feeds, several at a time, and prints what is said of each in the order in which they were given.

use crate::arguments::{Check, Form};
use crate::feed::Feed;
use crate::paging::{self, Outcome, Report};
use crate::style::{self, Style};
use crate::text::Layout;
use crate::{json, progress, source, system, text, COULD_NOT_RUN, REFUSED};
use std::io::{self, BufWriter, ErrorKind, IsTerminal, Write};
use std::os::fd::AsRawFd;
use std::panic::{self, AssertUnwindSafe};
use std::path::{Path, PathBuf};
use std::sync::atomic::{AtomicU8, AtomicUsize, Ordering};
use std::sync::{Condvar, Mutex, MutexGuard, PoisonError};
use std::thread;
use std::time::Instant;

/// What all workers share.
struct Desk<'a> {
    feeds: &'a [PathBuf],
    next: AtomicUsize,
    worst: AtomicU8,
    /// Whose turn it is to print.
    turn: Mutex<usize>,
    moved: Condvar,
}

/// Checks all feeds and gives the exit status, the worst of theirs.
pub fn run(check: &Check) -> u8 {
    let style = style::of_output(check.color, check.form == Form::Quiet);
    let print = |(feed, report, since): (Feed, Report, Instant)| print(check, style, &feed, &report, since);
    each(&check.feeds, check.jobs, |path| checked(check, path), print)
}

/// Does the same work on each feed, prints what was done in the order of the feeds, and gives the worst exit status.
pub fn each<Done>(
    feeds: &[PathBuf],
    jobs: Option<usize>,
    work: impl Fn(&Path) -> Result<Done, String> + Sync,
    print: impl Fn(Done) -> Result<u8, String> + Sync,
) -> u8 {
    let desk =
        Desk { feeds, next: AtomicUsize::new(0), worst: AtomicU8::new(0), turn: Mutex::new(0), moved: Condvar::new() };
    if feeds.len() > 1 {
        progress::feeds(0, feeds.len());
    }
    in_threads(at_a_time(jobs, feeds.len()), || desk.work(&work, &print));
    desk.worst.into_inner()
}

/// How many feeds are worked on at a time: as many as asked for, else as there are processors, and no more than there are feeds.
fn at_a_time(asked: Option<usize>, feeds: usize) -> usize {
    let processors = thread::available_parallelism().map_or(1, usize::from);
    asked.unwrap_or(processors).min(feeds)
}

/// The same work in several threads, of which this is one.
fn in_threads(jobs: usize, work: impl Fn() + Sync) {
    thread::scope(|scope| {
        // Where there is no further thread, those that there are do the work.
        for _ in 1..jobs {
            let _ = thread::Builder::new().stack_size(system::STACK).spawn_scoped(scope, &work);
        }
        work();
    });
}

impl Desk<'_> {
    /// Takes feed after feed until none is left.
    fn work<Done>(&self, work: &impl Fn(&Path) -> Result<Done, String>, print: &impl Fn(Done) -> Result<u8, String>) {
        loop {
            let number = self.next.fetch_add(1, Ordering::Relaxed);
            let Some(path) = self.feeds.get(number) else { return };
            let done = guarded(|| work(path));
            let mut turn = self.turn(number);
            if number + 1 == self.feeds.len() {
                last_words();
            }
            let status = guarded(|| done.and_then(print));
            self.worst.fetch_max(status.unwrap_or_else(|message| crate::complain(&message)), Ordering::Relaxed);
            *turn += 1;
            if self.feeds.len() > 1 {
                progress::feeds(*turn, self.feeds.len());
            }
            self.moved.notify_all();
        }
    }

    /// Waits until it is a feed's turn to be printed, and keeps it.
    fn turn(&self, number: usize) -> MutexGuard<'_, usize> {
        let turn = self.turn.lock().unwrap_or_else(PoisonError::into_inner);
        self.moved.wait_while(turn, |turn| *turn != number).unwrap_or_else(PoisonError::into_inner)
    }
}

/// Reads and checks a feed.
fn checked(check: &Check, path: &Path) -> Result<(Feed, Report, Instant), String> {
    let since = Instant::now();
    let feed = source::read(path, check.follow_links)?;
    let verdict_only = check.form == Form::Quiet || check.feeds.len() > 1 && check.form == Form::Text;
    let page = if verdict_only { Some(paging::VERDICT_ONLY) } else { check.page };
    let report = paging::check(&feed, page, check.profile)?;
    Ok((feed, report, since))
}

/// Prints what is to be said of a feed, and gives its exit status.
fn print(check: &Check, style: Style, feed: &Feed, report: &Report, since: Instant) -> Result<u8, String> {
    write(|out| match check.form {
        Form::Json => json::write(out, feed, report),
        _ if check.feeds.len() > 1 => writeln!(out, "{}", text::verdict_line(feed, report, style)),
        Form::Quiet => writeln!(out, "{}", text::verdict(report, style)),
        Form::Text => {
            let layout = Layout { style, all: check.all, time: since.elapsed() };
            text::write(out, feed, report, &layout)
        }
    })?;
    Ok(status(report))
}

/// The exit status that a verdict has.
pub fn status(report: &Report) -> u8 {
    match report.outcome {
        Outcome::Accepted => 0,
        Outcome::Findings { .. } => 1,
        Outcome::Refused { .. } => REFUSED,
    }
}

/// Whatever happens, the other feeds go on, and the status is the command's own.
pub fn guarded<Done>(work: impl FnOnce() -> Result<Done, String>) -> Result<Done, String> {
    let fault = |_| Err("a fault of the command itself, not of the feed".to_string());
    panic::catch_unwind(AssertUnwindSafe(work)).unwrap_or_else(fault)
}

/// What is printed from now on is the last: where it goes to a terminal no line of progress comes behind it, however long it takes to give memory back.
pub fn last_words() {
    if io::stdout().is_terminal() {
        progress::over();
    }
}

/// How much is written at a time: a list may have gigabytes.
const BUFFER: usize = 1 << 16;

/// Writes to standard output, to its end. A reader who went away has read enough; any other failure is one.
pub fn write(write: impl FnOnce(&mut dyn Write) -> io::Result<()>) -> Result<(), String> {
    let _hidden = io::stdout().is_terminal().then(progress::hidden);
    let mut out = BufWriter::with_capacity(BUFFER, Patient(io::stdout().lock()));
    match write(&mut out).and_then(|()| out.flush()) {
        Err(error) if error.kind() == ErrorKind::BrokenPipe => {
            // What is left is dropped, not written once more.
            let _ = out.into_parts();
            Ok(())
        }
        done => done.map_err(|error| format!("can't write to standard output: {error}")),
    }
}

/// Waits for a reader where others wouldn't: whoever shares standard output may have set it so that a write which would wait is an error.
pub struct Patient<Out>(pub Out);

impl<Out: Write + AsRawFd> Patient<Out> {
    fn until_done<Done>(&mut self, mut write: impl FnMut(&mut Out) -> io::Result<Done>) -> io::Result<Done> {
        loop {
            match write(&mut self.0) {
                Err(error) if error.kind() == ErrorKind::WouldBlock => system::wait_to_write(self.0.as_raw_fd()),
                done => return done,
            }
        }
    }
}

impl<Out: Write + AsRawFd> Write for Patient<Out> {
    fn write(&mut self, bytes: &[u8]) -> io::Result<usize> {
        self.until_done(|out| out.write(bytes))
    }

    fn flush(&mut self) -> io::Result<()> {
        self.until_done(Write::flush)
    }
}

/// The status of what couldn't run is the worst.
const _: () = assert!(COULD_NOT_RUN > REFUSED);

#[cfg(test)]
mod tests {
    use super::*;
    use std::time::Duration;

    #[test]
    fn as_many_as_there_are_processors() {
        let processors = thread::available_parallelism().expect("a number of processors").get();
        assert_eq!([1, 1000].map(|feeds| at_a_time(None, feeds)), [1, processors.min(1000)]);
        assert_eq!([2, 1000].map(|feeds| at_a_time(Some(7), feeds)), [2, 7]);
    }

    /// Each waits until all are at work: one after the other they would wait in vain.
    #[test]
    fn all_work_at_the_same_time() {
        let jobs = at_a_time(None, 1000).max(2);
        let (there, moved) = (Mutex::new(0), Condvar::new());
        let met = AtomicUsize::new(0);
        in_threads(jobs, || {
            let mut count = there.lock().expect("a lock");
            *count += 1;
            moved.notify_all();
            let wait = moved.wait_timeout_while(count, Duration::from_secs(20), |count| *count < jobs);
            let in_vain = wait.expect("a lock").1.timed_out();
            met.fetch_add(usize::from(!in_vain), Ordering::Relaxed);
        });
        assert_eq!(met.into_inner(), jobs);
    }
}
