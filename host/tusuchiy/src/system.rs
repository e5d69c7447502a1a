//! What is asked of the system by its own calls: how the command starts and ends, files in a folder that is open, a wait for a reader.
#![allow(unsafe_code)]

use crate::{progress, whole, COULD_NOT_RUN};
use libc::c_int;
use std::ffi::{CStr, CString, OsStr};
use std::fs::File;
use std::io;
use std::os::fd::{AsRawFd, FromRawFd, IntoRawFd, RawFd};
use std::os::unix::ffi::OsStrExt;

/// The stack of a thread that works, whatever the limits and the environment of the command say.
pub const STACK: usize = 2 << 20;

/// What the system calls first, and what Rust's own start would do, but for what can end in an abort there: it opens /dev/null for a standard
/// descriptor that is closed, and maps a stack for signals beside that of each thread.
#[cfg_attr(not(test), no_mangle)]
#[cfg_attr(test, allow(dead_code))]
extern "C" fn main() -> c_int {
    hold_standard_descriptors();
    heed_signals();
    // SAFETY: a number is set before there is a second thread. One arena: each further one takes 64 MiB of address space.
    unsafe { libc::mallopt(libc::M_ARENA_MAX, 1) };
    // What the heap has once it keeps: Rust asks the system itself for what a thread is known by, and aborts where there is none.
    drop(std::hint::black_box(Vec::<u8>::with_capacity(64 << 10)));
    c_int::from(crate::start())
}

/// A file that is opened later never gets the number of a standard descriptor. The root folder can always be opened so, and nothing is read from
/// it or written to it.
fn hold_standard_descriptors() {
    for descriptor in 0..=2 {
        // SAFETY: neither call touches memory but the path, which ends in a zero byte.
        unsafe {
            if libc::fcntl(descriptor, libc::F_GETFD) == -1 {
                libc::open(c"/".as_ptr(), libc::O_PATH);
            }
        }
    }
}

/// Faults of the command, each with what is said of it; a limit of time is none, but ends the command in the same way.
const LAST: [(c_int, &str); 6] = [
    (libc::SIGABRT, "tusuchiy: a fault of the command itself, not of the feed: SIGABRT\n"),
    (libc::SIGBUS, "tusuchiy: a fault of the command itself, not of the feed: SIGBUS\n"),
    (libc::SIGFPE, "tusuchiy: a fault of the command itself, not of the feed: SIGFPE\n"),
    (libc::SIGILL, "tusuchiy: a fault of the command itself, not of the feed: SIGILL\n"),
    (libc::SIGSEGV, "tusuchiy: a fault of the command itself, not of the feed: SIGSEGV\n"),
    (libc::SIGXCPU, "tusuchiy: the time that the system allows is used up\n"),
];

/// What a user ends a command by.
const ENDS: [c_int; 3] = [libc::SIGHUP, libc::SIGINT, libc::SIGTERM];

/// A pipe that nobody reads and a file that is too long are errors where they are written. Whatever else ends the command leaves no file behind:
/// a fault with status 3 and words of its own, an end that the user asks for by the signal that it was.
fn heed_signals() {
    for signal in [libc::SIGPIPE, libc::SIGXFSZ] {
        heed(signal, libc::SIG_IGN);
    }
    LAST.iter().for_each(|(signal, _)| heed(*signal, last_resort as *const () as usize));
    ENDS.iter().filter(|signal| !is_ignored(**signal)).for_each(|signal| heed(*signal, end as *const () as usize));
}

fn heed(signal: c_int, by: libc::sighandler_t) {
    // SAFETY: all zero is an action without flags and with an empty mask. Both functions below do only what may be done while a signal is handled.
    unsafe {
        let mut action: libc::sigaction = std::mem::zeroed();
        action.sa_sigaction = by;
        // A second time the signal does what it does by itself.
        action.sa_flags = if by == libc::SIG_IGN { 0 } else { libc::SA_RESETHAND };
        libc::sigaction(signal, &action, std::ptr::null_mut());
    }
}

/// Whoever started the command, as `nohup` does, may have it go on.
fn is_ignored(signal: c_int) -> bool {
    // SAFETY: the action is written before it is read, and stays zero where the call fails.
    unsafe {
        let mut action: libc::sigaction = std::mem::zeroed();
        libc::sigaction(signal, std::ptr::null(), &mut action);
        action.sa_sigaction == libc::SIG_IGN
    }
}

extern "C" fn last_resort(signal: c_int) {
    let said = LAST.iter().find(|(known, _)| *known == signal);
    leave(said.map_or("tusuchiy: a fault of the command itself\n", |(_, words)| words))
}

extern "C" fn end(signal: c_int) {
    whole::remove_all();
    wipe();
    // SAFETY: the signal waits until this function is over, and then does what it does by itself.
    unsafe { libc::raise(signal) };
}

/// Ends the command at once: it couldn't run, and no file that isn't whole stays. Nothing here allocates, or waits for another thread.
pub fn leave(words: &str) -> ! {
    whole::remove_all();
    wipe();
    write_words(words);
    // SAFETY: it ends the process, and nothing else.
    unsafe { libc::_exit(c_int::from(COULD_NOT_RUN)) }
}

/// Takes the line of progress away, if it is there.
fn wipe() {
    if progress::is_drawn() {
        write_words(progress::WIPE);
    }
}

/// Words on standard error, while a signal is handled too.
fn write_words(words: &str) {
    // SAFETY: the bytes are those of the text.
    unsafe { libc::write(2, words.as_ptr().cast(), words.len()) };
}

/// The name as the system takes it, if it can.
fn terminated(name: &OsStr) -> io::Result<CString> {
    CString::new(name.as_bytes()).map_err(io::Error::from)
}

fn told(answer: c_int) -> io::Result<c_int> {
    if answer == -1 {
        Err(io::Error::last_os_error())
    } else {
        Ok(answer)
    }
}

/// Opens what has this name in a folder; a file that is made is everybody's that the user's mask lets in.
pub fn open_in(folder: &File, name: &OsStr, flags: c_int) -> io::Result<File> {
    let name = terminated(name)?;
    // SAFETY: the name ends in a zero byte, and what is opened is nobody else's yet.
    unsafe {
        let opened = told(libc::openat(folder.as_raw_fd(), name.as_ptr(), flags | libc::O_CLOEXEC, 0o666))?;
        Ok(File::from_raw_fd(opened))
    }
}

/// Gives a file of a folder another name in it; what had that name is replaced.
pub fn rename_in(folder: &File, from: &CStr, to: &OsStr) -> io::Result<()> {
    let (to, folder) = (terminated(to)?, folder.as_raw_fd());
    // SAFETY: both names end in a zero byte.
    told(unsafe { libc::renameat(folder, from.as_ptr(), folder, to.as_ptr()) }).map(drop)
}

/// Takes a file out of a folder, if it is there; while a signal is handled, too.
pub fn remove_in(folder: RawFd, name: &CStr) {
    // SAFETY: the name ends in a zero byte; a number that is no folder's is an error.
    unsafe { libc::unlinkat(folder, name.as_ptr(), 0) };
}

/// Tells each name in a folder; one that can't be listed has none.
pub fn each_name(folder: &File, mut take: impl FnMut(&[u8])) {
    let Ok(own) = open_in(folder, OsStr::new("."), libc::O_RDONLY | libc::O_DIRECTORY) else { return };
    // SAFETY: the list owns the folder that was opened for it and is closed once; an entry is read before the next one is asked for.
    unsafe {
        let list = libc::fdopendir(own.as_raw_fd());
        if list.is_null() {
            return;
        }
        let _ = own.into_raw_fd();
        while let Some(entry) = libc::readdir64(list).as_ref() {
            let name = CStr::from_ptr(entry.d_name.as_ptr()).to_bytes();
            if name != b"." && name != b".." {
                take(name);
            }
        }
        libc::closedir(list);
    }
}

/// Waits until a descriptor takes bytes, or never will.
pub fn wait_to_write(descriptor: RawFd) {
    let mut asked = libc::pollfd { fd: descriptor, events: libc::POLLOUT, revents: 0 };
    // SAFETY: one such record is lent. Whatever the answer, the next write says what is the matter.
    unsafe { libc::poll(&mut asked, 1, -1) };
}
