//! The command with little address space.

use super::{command_after, example, RUNNER};
use std::process::Output;
use std::sync::OnceLock;

/// Checks with so much address space, in MiB.
pub fn within(most: usize, words: &[&str]) -> Output {
    limited(most, 900, words)
}

/// The same, for so many seconds: an emulator with too little for itself may go on for ever.
pub fn limited(most: usize, seconds: usize, words: &[&str]) -> Output {
    let limits = format!("ulimit -v {} && exec timeout {seconds} \"$0\" \"$@\"", most << 10);
    command_after(&limits).args(words).output().expect("the command runs")
}

/// Is a small feed accepted with so much?
pub fn starts(most: usize) -> bool {
    limited(most, 30, &["check", "--quiet", &example("feed")]).status.code() == Some(0)
}

/// The address space that the program itself takes, and an emulator where there is one: in MiB, to the next 16.
/// It isn't the same in every run, so this is where it is always enough, here and with more.
pub fn own() -> usize {
    static OWN: OnceLock<usize> = OnceLock::new();
    let always = |most: &usize| (0..40).all(|run| starts(*most + run % 5 * 16));
    *OWN.get_or_init(|| (1..256).map(|step| step * 16).find(always).expect("memory"))
}

/// What a feed takes at most beyond twice its bytes, the program and all, in MiB; the README has the same figure.
pub const BESIDE: usize = 256;

/// The most that a feed of so many bytes takes, in MiB: what the README says, and what an emulator takes itself.
pub fn allowed(bytes: usize) -> usize {
    let emulator = if std::env::var_os(RUNNER).is_some() { own() } else { 0 };
    emulator + BESIDE + (2 * bytes).div_ceil(1 << 20)
}
