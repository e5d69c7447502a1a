//! The value forms: from a value to the number stored, or none where it is not of its form.

/// The value of a digit.
fn digit(byte: u8) -> Option<i32> {
    byte.is_ascii_digit().then(|| i32::from(byte - b'0'))
}

/// One to nine digits and nothing else.
fn digits(text: &[u8]) -> Option<i32> {
    if text.is_empty() || text.len() > 9 {
        return None;
    }
    text.iter().try_fold(0, |number, &byte| Some(number * 10 + digit(byte)?))
}

/// Two digits, 00 to 59.
fn sixtieth(tens: u8, ones: u8) -> Option<i32> {
    let number = digit(tens)? * 10 + digit(ones)?;
    (number < 60).then_some(number)
}

/// One or two hour digits, then `:MM:SS`; in seconds.
pub fn time(value: &[u8]) -> Option<i32> {
    let (hours, [b':', m1, m2, b':', s1, s2]) = value.split_last_chunk()? else { return None };
    let hours = match *hours {
        [ones] => digit(ones)?,
        [tens, ones] => digit(tens)? * 10 + digit(ones)?,
        _ => return None,
    };
    Some(hours * 3600 + sixtieth(*m1, *m2)? * 60 + sixtieth(*s1, *s2)?)
}

/// Eight digits, a true Gregorian date, year 0001 to 9999; as the number YYYYMMDD.
pub fn date(value: &[u8]) -> Option<i32> {
    let number = digits(value).filter(|_| value.len() == 8)?;
    let (year, month, day) = (number / 10_000, number / 100 % 100, number % 100);
    let leap = year % 4 == 0 && (year % 100 != 0 || year % 400 == 0);
    let days = match month {
        2 => 28 + i32::from(leap),
        4 | 6 | 9 | 11 => 30,
        1..=12 => 31,
        _ => 0,
    };
    (year > 0 && (1..=days).contains(&day)).then_some(number)
}

pub fn latitude(value: &[u8]) -> Option<i32> {
    coordinate(value, 90)
}

pub fn longitude(value: &[u8]) -> Option<i32> {
    coordinate(value, 180)
}

/// Optional `-`, one to three digits, optionally a point and 1 to 20 digits; in ten-millionths of a degree.
fn coordinate(value: &[u8], limit: i64) -> Option<i32> {
    let size = value.strip_prefix(b"-").unwrap_or(value);
    let point = size.iter().position(|&byte| byte == b'.');
    let (whole, more) = size.split_at(point.unwrap_or(size.len()));
    let whole = digits(whole).filter(|_| whole.len() <= 3)?;
    let (tens, rest) = if more.is_empty() { (0, false) } else { fraction(&more[1..])? };
    let stored = i64::from(whole) * 10_000_000 + tens;
    // The exact value counts: at the limit no further digit may be other than 0.
    if (stored, rest) > (limit * 10_000_000, false) {
        return None;
    }
    let stored = i32::try_from(stored).ok()?;
    Some(if size.len() < value.len() { -stored } else { stored })
}

/// The 1 to 20 digits after a point: seven of them as a number, and whether a further one isn't 0.
fn fraction(text: &[u8]) -> Option<(i64, bool)> {
    if text.is_empty() || text.len() > 20 || !text.iter().all(u8::is_ascii_digit) {
        return None;
    }
    let (kept, dropped) = text.split_at(text.len().min(7));
    let missing = (kept.len()..7).map(|_| b'0');
    let number = kept.iter().copied().chain(missing).fold(0, |number, byte| number * 10 + i64::from(byte - b'0'));
    Some((number, dropped.iter().any(|&byte| byte != b'0')))
}

/// One to nine digits.
pub fn sequence(value: &[u8]) -> Option<i32> {
    digits(value)
}

/// A choice of one digit, 0 to a highest one.
pub fn up_to<const HIGHEST: i32>(value: &[u8]) -> Option<i32> {
    match *value {
        [byte] => digit(byte).filter(|&number| number <= HIGHEST),
        _ => None,
    }
}

/// 1 or 2.
pub fn exception(value: &[u8]) -> Option<i32> {
    up_to::<2>(value).filter(|&number| number > 0)
}

/// 0 to 7, 11 or 12.
pub fn route_type(value: &[u8]) -> Option<i32> {
    match value {
        b"11" => Some(11),
        b"12" => Some(12),
        _ => up_to::<7>(value),
    }
}
