//! Services by date, each small way tried: every state of files 3 and 6 beside every other, every file 6 of few lines.

const CALENDAR: &str = "service_id,monday,tuesday,wednesday,thursday,friday,saturday,sunday,start_date,end_date\n";
const DATES: &str = "service_id,date,exception_type\n";
const WEEK: &str = ",1,1,1,1,1,0,0,20240101,20241231\n";

/// Trips of services that the other two files may have or not.
pub const TRIPS: &str = "route_id,service_id,trip_id\nR,W,T\nR,\"X\",U\nR,w,V\n";

/// A file in every state that rule 4 and its reading tell apart: supplied or not, ended or not, with lines or not.
fn states(header: &str, lines: &[String]) -> Vec<String> {
    let whole = format!("{header}{}", lines.concat());
    let unended = |file: &str| file[..file.len() - 1].to_string();
    let other = "service_id\n".to_string();
    let mark = "\u{feff}".to_string();
    let marked = format!("{mark}{whole}");
    vec![String::new(), header.to_string(), unended(header), unended(&whole), whole, marked, mark, "\n".into(), other]
}

/// Files 3 and 6, each in every state beside every state of the other.
pub fn pairs_of_states() -> Vec<[String; 2]> {
    let calendars = states(CALENDAR, &[format!("W{WEEK}"), format!("Y{WEEK}")]);
    let dates = states(DATES, &["W,20240704,2\n".into(), "X,20241224,1\n".into()]);
    calendars.iter().flat_map(|calendar| dates.iter().map(|dates| [calendar.clone(), dates.clone()])).collect()
}

/// Lines of file 6: two services, one of them in two spellings, on two dates, of both types.
fn lines() -> Vec<String> {
    let mut lines = Vec::new();
    for service in ["W", "\"W\"", "X"] {
        for date in ["20240704", "20241224"] {
            lines.extend(["1", "2"].map(|kind| format!("{service},{date},{kind}\n")));
        }
    }
    lines
}

/// Every file 6 of so many of these lines.
fn files(count: usize) -> Vec<String> {
    let mut files = vec![DATES.to_string()];
    for _ in 0..count {
        files = files.iter().flat_map(|file| lines().into_iter().map(move |line| format!("{file}{line}"))).collect();
    }
    files
}

/// Every file 6 of up to three lines, those of up to two beside several a file 3.
pub fn small_files() -> Vec<[String; 2]> {
    let calendars = ["".to_string(), CALENDAR.into(), format!("{CALENDAR}X{WEEK}"), format!("{CALENDAR}W{WEEK}")];
    let mut pairs = Vec::new();
    for dates in [files(0), files(1), files(2)].concat() {
        pairs.extend(calendars.iter().map(|calendar| [calendar.clone(), dates.clone()]));
    }
    pairs.extend(files(3).into_iter().map(|dates| [calendars[2].clone(), dates]));
    pairs
}
