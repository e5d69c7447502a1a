//! What the feeds that look like a plain one have in common: how many records, which names, which order of lines.

use super::draft::Draft;

/// An id from a letter for its file and a number.
pub type Naming = fn(char, usize) -> String;

pub fn short(letter: char, number: usize) -> String {
    format!("{letter}{number}")
}

/// Trip ids of 64 bytes that differ in the last ones only.
pub fn with_long_trips(letter: char, number: usize) -> String {
    match letter {
        'T' => format!("T{number:063}"),
        _ => short(letter, number),
    }
}

/// So many bytes that are the same for all, then the number in four digits or letters.
pub fn prefixed<const SAME: usize>(_: char, number: usize) -> String {
    let digit = |place: u32| (number / 36_usize.pow(place) % 36) as u32;
    let last = [3, 2, 1, 0].map(|place| char::from_digit(digit(place), 36).unwrap_or('-'));
    format!("{:0SAME$}{}", 0, last.iter().collect::<String>())
}

/// The number in 17 digits, the last one first, and for each digit a character of three bytes.
pub fn of_three_bytes(_: char, number: usize) -> String {
    let wide = |digit: u8| char::from_u32(0x4E00 + u32::from(digit)).unwrap_or('-');
    format!("{number:017}").bytes().rev().map(wide).collect()
}

/// The stop at which a trip calls at a place along it.
pub fn stop_of(trip: usize, place: usize, stops: usize) -> usize {
    (trip * 7 + place) % stops
}

/// A feed without a finding, before it is written.
pub struct Plan {
    pub trips: usize,
    pub stops: usize,
    /// The lines of stop_times: the trip, from 0 on, and the place along it.
    pub calls: Vec<(usize, usize)>,
    pub naming: Naming,
}

impl Plan {
    /// Trips one after the other, ten lines a trip or a few more, and a stop for eight trips.
    pub fn new(lines: usize, naming: Naming) -> Self {
        let calls = vec![(0, 0); lines - 1];
        Plan { trips: 0, stops: (lines / 80).max(4), calls, naming }.with_trips((lines - 1) / 10)
    }

    /// The lines shared out among so many trips, one after the other.
    pub fn with_trips(mut self, trips: usize) -> Self {
        let each = self.calls.len() / trips;
        for (number, call) in self.calls.iter_mut().enumerate() {
            let trip = (number / each).min(trips - 1);
            *call = (trip, number - trip * each);
        }
        Plan { trips, ..self }
    }

    /// The lines of stop_times the other way round.
    pub fn reversed(mut self) -> Self {
        self.calls.reverse();
        self
    }

    /// All files but the lines of stop_times.
    pub fn write_records(&self) -> Draft {
        let (routes, services) = ((self.trips / 100).max(1), 7);
        let name = |letter, number| (self.naming)(letter, number);
        let mut draft = Draft::new();
        (0..self.stops).for_each(|stop| draft.stop(&name('S', stop), 0, ""));
        (0..routes).for_each(|route| draft.route(&name('R', route)));
        (0..services).for_each(|service| draft.service(&name('W', service)));
        for trip in 0..self.trips {
            draft.trip(&name('R', trip % routes), &name('W', trip % services), &name('T', trip));
        }
        draft
    }

    /// The whole feed.
    pub fn write(&self) -> Draft {
        let mut draft = self.write_records();
        for &(trip, place) in &self.calls {
            let stop = stop_of(trip, place, self.stops);
            draft.call(&(self.naming)('T', trip), place, &(self.naming)('S', stop));
        }
        draft
    }
}
