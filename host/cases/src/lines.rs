//! The cases of the program crates/check_cases, and what the model makes of them in that program's words.

use model::{Answer, Files, Profile, FILES};

/// The feed without a finding whose files = stands for.
const STANDARD: [&str; FILES] = [
    "stop_id,stop_name,stop_lat,stop_lon\nA,Alder,1.5,2\nB,Birch,1.6,2\n",
    "route_id,route_short_name,route_type\nR,7,3\n",
    "service_id,monday,tuesday,wednesday,thursday,friday,saturday,sunday,start_date,end_date\n\
     W,1,1,1,1,1,0,0,20240101,20241231\n",
    "route_id,service_id,trip_id\nR,W,T\n",
    "trip_id,arrival_time,departure_time,stop_id,stop_sequence\n\
     T,08:00:00,08:00:00,A,1\nT,08:05:00,08:05:00,B,2\n",
    "service_id,date,exception_type\nW,20240704,2\nX,20241224,1\n",
];

const TABLES: [&str; FILES] = ["stops", "routes", "calendar", "trips", "stop_times", "calendar_dates"];

/// What every number of a table and of the list is as lent.
const LENT: [i32; 2] = [-777, 99];

/// What the program is to write for its input: titles as they stand, and each case's outcome.
pub fn expected(input: &str) -> String {
    let line = |line: &str| if line.starts_with('#') { format!("{line}\n") } else { outcome(line) };
    input.lines().map(line).collect()
}

/// A case is `LL FFFFF LLLLL RRRRR`, a mark, then six files, each after a bar; one that isn't there has no bytes. In place of the first blank
/// a b asks for the profile for boards.
fn outcome(case: &str) -> String {
    let (head, files) = case.split_once('|').expect("a case has files");
    let profile = match &head[2..3] {
        " " => Profile::Plain,
        "b" => Profile::Boards,
        other => panic!("no profile {other:?}"),
    };
    let start = [3, 9, 15].map(|place| start_number(&head[place..place + 5]));
    let mut given = files.split('|');
    let mut file = |standard| given.next().map_or(Vec::new(), |file| bytes(if file == "=" { standard } else { file }));
    let files: Files = STANDARD.map(&mut file);
    let mut tables = std::array::from_fn(|_| vec![LENT[0]; 256]);
    let mut list = vec![LENT[1]; head[..2].parse().expect("a case begins with the list's length")];
    let answer = model::check(&files, &mut tables, &mut list, start, profile);
    let table = head[20..].parse().map_or(String::new(), |file: usize| used(TABLES[file - 1], &tables[file - 1]));
    format!("{table}{}:{}\n", words(answer), numbers(&list))
}

/// A sign and four digits; behind < stands the least number, behind > the greatest.
fn start_number(word: &str) -> i32 {
    match word {
        "<0000" => i32::MIN,
        ">0000" => i32::MAX,
        _ => word.parse().expect("a starting place has three numbers"),
    }
}

/// The bytes that a text with escapes stands for.
fn bytes(text: &str) -> Vec<u8> {
    let mut bytes = Vec::new();
    let mut rest = text.bytes();
    while let Some(byte) = rest.next() {
        let mut next = || rest.next().expect("an escape is whole");
        bytes.push(match byte {
            b'\\' => match next() {
                b'n' => b'\n',
                b'r' => b'\r',
                b't' => b'\t',
                b'x' => hex(next()) * 16 + hex(next()),
                other => other,
            },
            _ => byte,
        });
    }
    bytes
}

fn hex(digit: u8) -> u8 {
    (digit as char).to_digit(16).expect("an escape has two digits") as u8
}

fn words(answer: Answer) -> String {
    match answer {
        Answer::Accepted => "accepted".to_string(),
        Answer::Findings { written, total } => format!("findings {written} {total}"),
        Answer::Refused { number, file, line, column } => format!("refused {number} {file} {line} {column}"),
    }
}

/// A table up to the last number that isn't as lent.
fn used(name: &str, table: &[i32]) -> String {
    let end = table.iter().rposition(|&number| number != LENT[0]).map_or(0, |last| last + 1);
    format!("{name}:{}\n", numbers(&table[..end]))
}

fn numbers(numbers: &[i32]) -> String {
    numbers.iter().map(|number| format!(" {number}")).collect()
}
