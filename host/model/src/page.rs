//! The list: the findings or faults after a starting place, as many as fit.

/// Writes what stands strictly behind the start by its first three numbers, the earliest first, and tells how many of them.
pub fn hand_out<const NUMBERS: usize>(all: &[[i32; NUMBERS]], list: &mut [i32], start: [i32; 3]) -> usize {
    let room = list.len() / NUMBERS;
    let mut written = 0;
    for one in all.iter().filter(|one| one[..3] > start[..]).take(room) {
        list[written * NUMBERS..written * NUMBERS + NUMBERS].copy_from_slice(one);
        written += 1;
    }
    written
}
