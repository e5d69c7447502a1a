//! From bytes to fields: the leading mark, lines and their endings, the quoting table, values.

/// A line without its ending, and where it starts, counted from the file's first byte.
#[derive(Clone, Copy, Debug)]
pub struct Line<'a> {
    pub start: usize,
    pub text: &'a [u8],
}

/// A field: where its raw bytes stand, counted from the file's first byte (the end is exclusive), and its value.
#[derive(Clone, Debug, Default, PartialEq, Eq)]
pub struct Field {
    pub start: usize,
    pub end: usize,
    pub value: Vec<u8>,
}

/// How many LF bytes a file has.
pub fn line_ends(file: &[u8]) -> usize {
    file.iter().filter(|&&byte| byte == b'\n').count()
}

/// Where line 1 starts: three bytes EF BB BF at the start of a file are dropped.
fn first_line(file: &[u8]) -> usize {
    if file.starts_with(b"\xEF\xBB\xBF") {
        3
    } else {
        0
    }
}

/// The lines of a file that have their ending. Three bytes EF BB BF at the start are dropped.
pub fn lines(file: &[u8]) -> Vec<Line<'_>> {
    let mut start = first_line(file);
    let mut lines = Vec::new();
    for (place, &byte) in file.iter().enumerate() {
        if byte == b'\n' {
            let text = &file[start..place];
            // One CR directly before the LF belongs to the ending.
            let text = text.strip_suffix(b"\r").unwrap_or(text);
            lines.push(Line { start, text });
            start = place + 1;
        }
    }
    lines
}

/// The bytes behind the last LF, if there are any, as they stand: no ending follows, so a CR among them belongs to none.
pub fn unended_line(file: &[u8]) -> Option<Line<'_>> {
    let last = file.iter().rposition(|&byte| byte == b'\n');
    let start = last.map_or(first_line(file), |place| place + 1);
    let text = &file[start..];
    (!text.is_empty()).then_some(Line { start, text })
}

#[derive(Clone, Copy, PartialEq)]
enum State {
    Start,
    Bare,
    Quoted,
    Closed,
}

/// The quoting table: the next state, or none where it says bad.
fn next(state: State, byte: u8) -> Option<State> {
    match (state, byte) {
        (State::Start, b',') => Some(State::Start),
        (State::Start, b'"') => Some(State::Quoted),
        (State::Start, _) => Some(State::Bare),
        (State::Bare, b',') => Some(State::Start),
        (State::Bare, b'"') => None,
        (State::Bare, _) => Some(State::Bare),
        (State::Quoted, b',') => Some(State::Quoted),
        (State::Quoted, b'"') => Some(State::Closed),
        (State::Quoted, _) => Some(State::Quoted),
        (State::Closed, b',') => Some(State::Start),
        (State::Closed, b'"') => Some(State::Quoted),
        (State::Closed, _) => None,
    }
}

/// The fields of a line, or none where the quoting table says bad.
pub fn fields(line: Line) -> Option<Vec<Field>> {
    let mut fields = Vec::new();
    let mut state = State::Start;
    let mut from = 0;
    for (place, &byte) in line.text.iter().enumerate() {
        // A comma outside quotes ends a field.
        if byte == b',' && state != State::Quoted {
            fields.push(field(line, from, place));
            from = place + 1;
        }
        state = next(state, byte)?;
    }
    if state == State::Quoted {
        return None;
    }
    fields.push(field(line, from, line.text.len()));
    Some(fields)
}

/// The field between two places of a line.
fn field(line: Line, from: usize, to: usize) -> Field {
    let value = value(&line.text[from..to]);
    Field { start: line.start + from, end: line.start + to, value }
}

/// The value of a raw field: outer quotes taken off, a doubled mark inside means one mark.
pub fn value(raw: &[u8]) -> Vec<u8> {
    if raw.first() != Some(&b'"') {
        return raw.to_vec();
    }
    let inside = &raw[1..raw.len() - 1];
    let mut value = Vec::new();
    let mut place = 0;
    while place < inside.len() {
        value.push(inside[place]);
        place += if inside[place] == b'"' { 2 } else { 1 };
    }
    value
}
