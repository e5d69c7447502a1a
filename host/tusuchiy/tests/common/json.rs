//! A small, strict JSON reader for the tests: it panics on anything that RFC 8259 doesn't allow.

/// A JSON value; all numbers of a report are whole.
#[derive(Debug, PartialEq)]
pub enum Json {
    Null,
    Bool(bool),
    Number(i64),
    Text(String),
    List(Vec<Json>),
    Members(Vec<(String, Json)>),
}

impl Json {
    pub fn get(&self, name: &str) -> &Json {
        let Json::Members(members) = self else { panic!("no object: {self:?}") };
        let found = members.iter().find(|(have, _)| have == name);
        &found.unwrap_or_else(|| panic!("no member {name}")).1
    }

    pub fn names(&self) -> Vec<&str> {
        let Json::Members(members) = self else { panic!("no object: {self:?}") };
        members.iter().map(|(name, _)| name.as_str()).collect()
    }

    pub fn list(&self) -> &[Json] {
        let Json::List(list) = self else { panic!("no list: {self:?}") };
        list
    }

    pub fn text(&self) -> &str {
        let Json::Text(text) = self else { panic!("no text: {self:?}") };
        text
    }

    pub fn number(&self) -> i64 {
        let Json::Number(number) = self else { panic!("no number: {self:?}") };
        *number
    }
}

/// Reads one document and nothing after it.
pub fn read(text: &str) -> Json {
    let mut rest = text;
    let value = value(&mut rest);
    space(&mut rest);
    assert_eq!(rest, "", "text after the document");
    value
}

fn space(rest: &mut &str) {
    *rest = rest.trim_start_matches([' ', '\n', '\r', '\t']);
}

/// Takes a sign that may stand here, or says that it doesn't.
fn take(rest: &mut &str, sign: &str) -> bool {
    space(rest);
    let after = rest.strip_prefix(sign);
    *rest = after.unwrap_or(rest);
    after.is_some()
}

fn value(rest: &mut &str) -> Json {
    space(rest);
    match rest.chars().next().expect("a value") {
        '{' => members(rest),
        '[' => list(rest),
        '"' => Json::Text(string(rest)),
        _ if take(rest, "null") => Json::Null,
        _ if take(rest, "true") => Json::Bool(true),
        _ if take(rest, "false") => Json::Bool(false),
        _ => number(rest),
    }
}

fn number(rest: &mut &str) -> Json {
    let end = rest.find(|char: char| char != '-' && !char.is_ascii_digit()).unwrap_or(rest.len());
    let (digits, after) = rest.split_at(end);
    *rest = after;
    let number: i64 = digits.parse().unwrap_or_else(|_| panic!("no number: {digits}"));
    assert_eq!(number.to_string(), digits, "a number in an odd form");
    Json::Number(number)
}

fn list(rest: &mut &str) -> Json {
    assert!(take(rest, "["));
    let mut list = Vec::new();
    while !take(rest, "]") {
        assert!(list.is_empty() || take(rest, ","), "a comma is missing");
        list.push(value(rest));
    }
    Json::List(list)
}

fn members(rest: &mut &str) -> Json {
    assert!(take(rest, "{"));
    let mut members: Vec<(String, Json)> = Vec::new();
    while !take(rest, "}") {
        assert!(members.is_empty() || take(rest, ","), "a comma is missing");
        space(rest);
        let name = string(rest);
        assert!(members.iter().all(|(have, _)| *have != name), "{name} stands twice");
        assert!(take(rest, ":"), "a colon is missing");
        members.push((name, value(rest)));
    }
    Json::Members(members)
}

fn string(rest: &mut &str) -> String {
    assert!(rest.starts_with('"'), "no string");
    // Up to its end, where it has no escape: documents may have millions of these.
    let end = 1 + rest[1..].bytes().position(|byte| matches!(byte, b'"' | b'\\')).expect("a string's end");
    if rest.as_bytes()[end] == b'"' {
        let text = &rest[1..end];
        assert!(text.bytes().all(|byte| byte >= b' '), "a control character in a string");
        *rest = &rest[end + 1..];
        return text.to_string();
    }
    let mut units: Vec<u16> = Vec::new();
    let mut chars = rest[1..].char_indices();
    while let Some((place, char)) = chars.next() {
        match char {
            '"' => {
                *rest = &rest[1 + place + 1..];
                return String::from_utf16(&units).expect("well-formed UTF-16");
            }
            '\\' => units.push(escape(&mut chars)),
            _ => {
                assert!(char >= ' ', "a control character in a string");
                units.extend(char.encode_utf16(&mut [0; 2]).iter());
            }
        }
    }
    panic!("a string without end")
}

/// What stands after a backslash.
fn escape(chars: &mut std::str::CharIndices) -> u16 {
    let mut next = || chars.next().expect("an escape").1;
    match next() {
        'u' => {
            let digits: String = (0..4).map(|_| next()).collect();
            u16::from_str_radix(&digits, 16).expect("four hex digits")
        }
        char @ ('"' | '\\' | '/') => char as u16,
        'b' => 8,
        'f' => 12,
        'n' => 10,
        'r' => 13,
        't' => 9,
        other => panic!("an unknown escape: {other}"),
    }
}
