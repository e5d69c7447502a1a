//! Progress: one line on standard error that says where a run is, only where somebody looks at it on a terminal, and only while a run takes its time.

use crate::system;
use std::io::{self, IsTerminal, Write};
use std::mem;
use std::sync::atomic::{AtomicBool, Ordering};
use std::sync::{Condvar, Mutex, MutexGuard, PoisonError};
use std::thread::{self, JoinHandle};
use std::time::{Duration, Instant};

/// How often the line is written anew, and after how long first: most runs are over by then.
const TICK: Duration = Duration::from_millis(250);

/// What takes a line of a terminal away, and sets the cursor to its start.
pub const WIPE: &str = "\r\x1b[K";

/// What the line says: the step that runs, and since when. There is one terminal, and so one line.
struct Line {
    step: String,
    since: Instant,
    /// Steps of a single feed aren't told where there are many.
    many: bool,
    /// How many are writing to the terminal.
    hidden: usize,
}

static LINE: Mutex<Option<Line>> = Mutex::new(None);
/// A line that stands says something else, or there is none any more.
static CHANGED: Condvar = Condvar::new();

/// Does somebody look, so that steps are worth their words?
static WATCHED: AtomicBool = AtomicBool::new(false);

/// Does the line stand on the terminal? A signal may ask.
static DRAWN: AtomicBool = AtomicBool::new(false);

fn line() -> MutexGuard<'static, Option<Line>> {
    LINE.lock().unwrap_or_else(PoisonError::into_inner)
}

/// Shows the line, from time to time anew, until this is dropped.
pub struct Watch(Option<JoinHandle<()>>);

/// Begins to say where the run is, on a terminal that can take a line away again, unless few words are wanted.
pub fn watch(quiet: bool) -> Watch {
    let able = || std::env::var_os("TERM").is_some_and(|term| term != "dumb") && io::stderr().is_terminal();
    if quiet || !able() {
        return Watch(None);
    }
    *line() = Some(Line { step: "starting".to_string(), since: Instant::now(), many: false, hidden: 0 });
    // Where there is no thread for it, nothing is said.
    let thread = thread::Builder::new().stack_size(system::STACK).spawn(draw_all);
    WATCHED.store(thread.is_ok(), Ordering::Relaxed);
    Watch(thread.ok())
}

impl Drop for Watch {
    fn drop(&mut self) {
        if let Some(thread) = self.0.take() {
            WATCHED.store(false, Ordering::Relaxed);
            *line() = None;
            CHANGED.notify_all();
            let _ = thread.join();
        }
    }
}

/// Draws the line at each tick until there is none any more, and takes it away then.
fn draw_all() {
    let (mut shown, mut last) = (line(), String::new());
    while shown.is_some() {
        shown = CHANGED.wait_timeout(shown, TICK).unwrap_or_else(PoisonError::into_inner).0;
        if let Some(line) = shown.as_ref().filter(|line| line.hidden == 0) {
            let text = format!("{WIPE}tusuchiy: {}, {} s", line.step, line.since.elapsed().as_secs());
            if !is_drawn() || text != last {
                put(&text, true);
            }
            last = text;
        }
    }
    wipe();
}

fn put(text: &str, drawn: bool) {
    DRAWN.store(drawn, Ordering::Relaxed);
    // Progress that can't be shown is no reason to stop.
    let mut out = io::stderr();
    let _ = out.write_all(text.as_bytes()).and_then(|()| out.flush());
}

fn wipe() {
    if is_drawn() {
        put(WIPE, false);
    }
}

/// Does the line stand on the terminal?
pub fn is_drawn() -> bool {
    DRAWN.load(Ordering::Relaxed)
}

/// Says which step runs from now on.
pub fn step(words: impl FnOnce() -> String) {
    tell(words, false);
}

/// Says how many of many feeds are done.
pub fn feeds(done: usize, all: usize) {
    tell(|| format!("{done} of {all} feeds"), true);
}

fn tell(words: impl FnOnce() -> String, many: bool) {
    if !WATCHED.load(Ordering::Relaxed) {
        return;
    }
    if let Some(line) = line().as_mut().filter(|line| many || !line.many) {
        // The time is that of the run where a number rises, and else that of the step.
        let same = mem::replace(&mut line.many, many) && many;
        line.since = if same { line.since } else { Instant::now() };
        line.step = words();
        // A line that stands says it at once: the step may be over by the next tick.
        if is_drawn() {
            CHANGED.notify_all();
        }
    }
}

/// How far a step is, of so many, without a new time; whoever has millions says it now and then.
pub fn far(words: &str, done: usize, all: usize) {
    if WATCHED.load(Ordering::Relaxed) {
        if let Some(line) = line().as_mut().filter(|line| !line.many) {
            line.step = format!("{words}, {done} of {all}");
        }
    }
}

/// While this is there the terminal belongs to others.
pub struct Hidden;

/// Takes the line away for as long as others write to the terminal.
pub fn hidden() -> Hidden {
    hide(|count| count + 1);
    Hidden
}

impl Drop for Hidden {
    fn drop(&mut self) {
        hide(|count| count.saturating_sub(1));
    }
}

/// Takes the line away for good: the last words are said.
pub fn over() {
    mem::forget(hidden());
}

fn hide(by: impl FnOnce(usize) -> usize) {
    if let Some(line) = line().as_mut() {
        line.hidden = by(line.hidden);
        wipe();
    }
}
