//! Reads vector files; their form is explained at the top of vectors/e9.txt.

use crate::index::{self, Asked};
use crate::{Case, Outcome};
use model::{Answer, Files, Profile, Tables};

/// The customer's vectors for document 01 with E2, E1, E6, E7, E4, E10, E13 and E9; the first line says so.
pub const E9: &str = include_str!("../vectors/e9.txt");

/// A case of a vector file with what the check must give, and the calls about indexes with what each must give.
#[derive(Debug)]
pub struct Vector {
    pub case: Case,
    pub outcome: Outcome,
    pub indexes: Vec<(index::Case, index::Outcome)>,
}

/// The customer's cases with what each must give.
pub fn customers() -> Vec<(Case, Outcome)> {
    all_of_e9().into_iter().map(|vector| (vector.case, vector.outcome)).collect()
}

/// The customer's calls about indexes with what each must give.
pub fn indexes() -> Vec<(index::Case, index::Outcome)> {
    all_of_e9().into_iter().flat_map(|vector| vector.indexes).collect()
}

fn all_of_e9() -> Vec<Vector> {
    read(E9).expect("vectors/e9.txt is well-formed")
}

/// The cases of a vector file, or what is wrong with it and where.
pub fn read(text: &str) -> Result<Vec<Vector>, String> {
    let mut cases = Vec::new();
    let mut open: Option<Vec<Vec<&str>>> = None;
    for (place, line) in text.lines().enumerate() {
        let words: Vec<&str> = line.split_ascii_whitespace().collect();
        let at = |what: String| format!("line {}: {what}", place + 1);
        match (words.first().copied().unwrap_or("#"), &mut open) {
            (word, _) if word.starts_with('#') => {}
            ("case", None) => open = Some(vec![words]),
            ("case", Some(_)) => return Err(at("a case inside a case".into())),
            (_, None) => return Err(at("a line outside any case".into())),
            ("end", Some(_)) => cases.push(case(&open.take().unwrap_or_default()).map_err(at)?),
            (_, Some(lines)) => lines.push(words),
        }
    }
    match open {
        None => Ok(cases),
        Some(_) => Err("the last case has no end".into()),
    }
}

/// One case from its lines; what is held is as lent where the file is silent.
fn case(lines: &[Vec<&str>]) -> Result<Vector, String> {
    let mut case = Case::default();
    let mut answer = None;
    let mut held: Vec<(usize, Vec<i32>)> = Vec::new();
    let mut calls: Vec<&[&str]> = Vec::new();
    for words in lines {
        match words[..] {
            ["case", name] => case.name = name.to_string(),
            ["file", file, bytes] => *file_slot(&mut case.files, number(file)?)? = hex(bytes)?,
            ["lent", table, count, base, step] => {
                let lent = lent(number(count)?, number(base)?, number(step)?)?;
                *slot(&mut case.tables, &mut case.list, number(table)?)? = lent;
            }
            ["start", file, line, rule] => case.start = [number(file)?, number(line)?, number(rule)?],
            ["profile"] => case.profile = Profile::Boards,
            ["answer", ref words @ ..] => answer = Some(read_answer(words)?),
            ["held", table, ref numbers @ ..] => held.push((number(table)?, all(numbers)?)),
            ["index_write" | "wrote" | "buffer" | "index_check" | "judged", ..] => calls.push(words),
            _ => return Err(format!("unknown words: {words:?}")),
        }
    }
    let answer = answer.ok_or("a case without an answer")?;
    let mut outcome = Outcome { answer, tables: case.tables.clone(), list: case.list.clone() };
    for (table, numbers) in held {
        *slot(&mut outcome.tables, &mut outcome.list, table)? = numbers;
    }
    let indexes = indexes_of(&case, &calls)?;
    Ok(Vector { case, outcome, indexes })
}

/// The calls about indexes, each with what it answers and leaves.
fn indexes_of(of: &Case, calls: &[&[&str]]) -> Result<Vec<(index::Case, index::Outcome)>, String> {
    let mut indexes = Vec::new();
    let mut rest = calls;
    while !rest.is_empty() {
        let (asked, file, lent, answer, after);
        (asked, file, lent, answer, after, rest) = match rest {
            [["index_write", file, length, fill], ["wrote", answer @ ..], ["buffer", after], rest @ ..] => {
                (Asked::Write, file, vec![number(fill)?; number(length)?], answer, hex(after)?, rest)
            }
            [["index_check", file, index], ["judged", answer @ ..], rest @ ..] => {
                (Asked::Check, file, hex(index)?, answer, hex(index)?, rest)
            }
            _ => return Err(format!("not the words of a call: {:?}", rest[0])),
        };
        let case = index::Case { name: of.name.clone(), asked, number: number(file)?, file: Vec::new(), lent };
        // Where the case has no such file, file 1 is lent.
        let place = usize::try_from(case.number).map_or(0, |number| number.wrapping_sub(1));
        let file = of.files.get(place).unwrap_or(&of.files[0]).clone();
        indexes.push((index::Case { file, ..case }, index::Outcome { answer: index_answer(answer)?, lent: after }));
    }
    Ok(indexes)
}

/// What a call about an index answers: five numbers.
fn index_answer(words: &[&str]) -> Result<model::index::Answer, String> {
    let [number, file, line, column, length] = words else { return Err(format!("not five numbers: {words:?}")) };
    let [number, file, line, column, length] = [number, file, line, column, length].map(|word| self::number(word));
    Ok(model::index::Answer { number: number?, file: file?, line: line?, column: column?, length: length? })
}

/// File K.
fn file_slot(files: &mut Files, file: usize) -> Result<&mut Vec<u8>, String> {
    files.get_mut(file.wrapping_sub(1)).ok_or_else(|| format!("no file {file}"))
}

/// Table K, or the list for 0.
fn slot<'a>(tables: &'a mut Tables, list: &'a mut Vec<i32>, place: usize) -> Result<&'a mut Vec<i32>, String> {
    match place {
        0 => Ok(list),
        _ => tables.get_mut(place - 1).ok_or_else(|| format!("no table {place}")),
    }
}

fn number<N: std::str::FromStr>(word: &str) -> Result<N, String> {
    word.parse().map_err(|_| format!("not a number: {word}"))
}

fn all(words: &[&str]) -> Result<Vec<i32>, String> {
    words.iter().map(|word| number(word)).collect()
}

/// Bytes from pairs of hex digits; "-" means none.
fn hex(digits: &str) -> Result<Vec<u8>, String> {
    if digits == "-" {
        return Ok(Vec::new());
    }
    if digits.len() % 2 != 0 || !digits.is_ascii() {
        return Err("hex digits must come in pairs".into());
    }
    let byte = |place| u8::from_str_radix(&digits[place..place + 2], 16);
    let bytes: Result<Vec<u8>, _> = (0..digits.len()).step_by(2).map(byte).collect();
    bytes.map_err(|_| "not hex digits".into())
}

/// COUNT numbers, the one at place i is BASE + STEP * i.
fn lent(count: usize, base: i64, step: i64) -> Result<Vec<i32>, String> {
    let at = |place| i32::try_from(base + step * place as i64);
    let numbers: Result<Vec<i32>, _> = (0..count).map(at).collect();
    numbers.map_err(|_| "a lent number past 32 bits".into())
}

fn read_answer(words: &[&str]) -> Result<Answer, String> {
    match *words {
        ["accepted"] => Ok(Answer::Accepted),
        ["findings", written, total] => Ok(Answer::Findings { written: number(written)?, total: number(total)? }),
        ["refused", rule, file, line, column] => {
            let [rule, file, line, column] = [number(rule)?, number(file)?, number(line)?, number(column)?];
            Ok(Answer::Refused { number: rule, file, line, column })
        }
        _ => Err(format!("unknown answer: {words:?}")),
    }
}
