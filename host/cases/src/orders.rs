//! The order of a trip's lines, each small one tried: all files of three or four lines made from a few lines.

/// The header of stop_times without the columns that may be absent.
const HEADER: &str = "trip_id,arrival_time,departure_time,stop_id,stop_sequence\n";

/// Times of a line: none, early, early with a late departure, late.
const NONE: &str = ",";
const EARLY: &str = "08:00:00,08:00:00";
const LONG: &str = "08:00:00,08:10:00";
const LATE: &str = "08:05:00,08:05:00";

/// One line for each trip, times and sequence of these.
fn lines(trips: &[&str], times: &[&str], sequences: &[&str]) -> Vec<String> {
    let mut lines = Vec::new();
    for trip in trips {
        for times in times {
            lines.extend(sequences.iter().map(|sequence| format!("{trip},{times},A,{sequence}\n")));
        }
    }
    lines
}

/// Every file of so many lines, each of them one of these.
fn files(lines: &[String], count: usize) -> Vec<String> {
    let mut files = vec![HEADER.to_string()];
    for _ in 0..count {
        files = files.iter().flat_map(|file| lines.iter().map(move |line| format!("{file}{line}"))).collect();
    }
    files
}

/// The files: `T` stands in trips.txt of the base feed, `X` stands nowhere.
pub fn stop_times() -> Vec<String> {
    // Equal sequences in two spellings, the largest one, and every way in which the times can fall.
    let one_trip = lines(&["T"], &[NONE, EARLY, LONG, LATE], &["1", "01", "2", "999999999"]);
    // Ties at both ends, timed and untimed, in every order.
    let ties = lines(&["T"], &[NONE, EARLY], &["1", "2"]);
    // The lines of two trips among each other.
    let two_trips = lines(&["T", "X"], &[LONG, LATE], &["1", "2"]);
    [files(&one_trip, 3), files(&ties, 4), files(&two_trips, 4)].concat()
}
