//! The value forms: from a value to the number stored, or none where it is not of its form.

/// What a column's values look like.
#[derive(Clone, Copy, Debug)]
pub enum Form {
    /// Ids, names and parent_station: any bytes.
    Text,
    Time,
    Date,
    /// A coordinate within so many degrees either way.
    Coordinate(i128),
    Sequence,
    /// One of these, written exactly; the number is what empty means.
    Choice(&'static [&'static str], i32),
}

/// The number that a value stores; texts store nothing and give 0.
pub fn number(form: Form, value: &[u8]) -> Option<i32> {
    match form {
        Form::Text => Some(0),
        Form::Time if value.is_empty() => Some(-1),
        Form::Choice(_, empty) if value.is_empty() => Some(empty),
        // Without a place, which rule 12 allows some lines.
        Form::Coordinate(_) if value.is_empty() => Some(0),
        Form::Time => time(value),
        Form::Date => date(value),
        Form::Coordinate(limit) => coordinate(value, limit),
        Form::Sequence => digits(value, 1, 9),
        Form::Choice(choices, _) => choice(value, choices),
    }
}

/// From `least` to `most` digits and nothing else, as a number; at most nine digits.
fn digits(text: &[u8], least: usize, most: usize) -> Option<i32> {
    let good = (least..=most).contains(&text.len()) && text.iter().all(u8::is_ascii_digit);
    let number = |text: &[u8]| text.iter().fold(0, |sum, digit| sum * 10 + i32::from(digit - b'0'));
    good.then(|| number(text))
}

/// One or two hour digits, then `:MM:SS`, both 00 to 59; in seconds.
pub fn time(value: &[u8]) -> Option<i32> {
    let parts: Vec<&[u8]> = value.split(|&byte| byte == b':').collect();
    if parts.len() != 3 {
        return None;
    }
    let hours = digits(parts[0], 1, 2)?;
    let minutes = digits(parts[1], 2, 2).filter(|&minutes| minutes <= 59)?;
    let seconds = digits(parts[2], 2, 2).filter(|&seconds| seconds <= 59)?;
    Some(hours * 3600 + minutes * 60 + seconds)
}

/// Eight digits, a true Gregorian date, year 0001 to 9999; as the number YYYYMMDD.
pub fn date(value: &[u8]) -> Option<i32> {
    let number = digits(value, 8, 8)?;
    let (year, month, day) = (number / 10000, number / 100 % 100, number % 100);
    let leap = year % 4 == 0 && (year % 100 != 0 || year % 400 == 0);
    let days = match month {
        1 | 3 | 5 | 7 | 8 | 10 | 12 => 31,
        4 | 6 | 9 | 11 => 30,
        2 if leap => 29,
        2 => 28,
        _ => return None,
    };
    (year >= 1 && day >= 1 && day <= days).then_some(number)
}

/// Optional `-`, one to three digits, optionally a point and 1 to 20 digits; in ten-millionths of a degree.
pub fn coordinate(value: &[u8], limit: i128) -> Option<i32> {
    let (sign, unsigned) = match value.strip_prefix(b"-") {
        Some(rest) => (-1, rest),
        None => (1, value),
    };
    let (whole, fraction) = match unsigned.iter().position(|&byte| byte == b'.') {
        Some(point) => (&unsigned[..point], Some(&unsigned[point + 1..])),
        None => (unsigned, None),
    };
    let whole = i128::from(digits(whole, 1, 3)?);
    let fraction = match fraction {
        Some(fraction) => twenty_digits(fraction)?,
        None => 0,
    };
    // The exact value in units of 10^-20 degrees: the range is tested before digits are dropped.
    let exact = whole * 10_i128.pow(20) + fraction;
    let within = exact <= limit * 10_i128.pow(20);
    within.then(|| sign * (exact / 10_i128.pow(13)) as i32)
}

/// The 1 to 20 digits after a point, in units of 10^-20.
fn twenty_digits(fraction: &[u8]) -> Option<i128> {
    if fraction.is_empty() || fraction.len() > 20 {
        return None;
    }
    let mut sum = 0;
    for place in 0..20 {
        let digit = fraction.get(place).copied().unwrap_or(b'0');
        sum = sum * 10 + i128::from(digits(&[digit], 1, 1)?);
    }
    Some(sum)
}

/// One of the choices, written exactly, as its number.
fn choice(value: &[u8], choices: &[&str]) -> Option<i32> {
    let found = choices.iter().find(|choice| choice.as_bytes() == value)?;
    found.parse().ok()
}

#[cfg(test)]
mod tests {
    use super::*;

    /// The edge values of document 01, section "Values at the edges", and those of its forms' wording.
    #[test]
    fn times_at_the_edges() {
        assert_eq!(time(b"8:10:00"), Some(29_400));
        assert_eq!(time(b"25:55:00"), Some(93_300));
        assert_eq!(time(b"99:59:59"), Some(359_999));
        assert_eq!(time(b"24:00:00"), Some(86_400));
        for bad in ["10:5:00", "9:60:00", "100:00:00", "8:00", "08:00:00:", " 8:00:00", ":00:00"] {
            assert_eq!(time(bad.as_bytes()), None, "{bad}");
        }
    }

    #[test]
    fn dates_at_the_edges() {
        assert_eq!(date(b"20240229"), Some(20_240_229));
        assert_eq!(date(b"20000229"), Some(20_000_229));
        assert_eq!(date(b"00010101"), Some(10_101));
        assert_eq!(date(b"99991231"), Some(99_991_231));
        for bad in ["20230229", "19000229", "00000101", "20240001", "20240431", "20240100", "2024010"] {
            assert_eq!(date(bad.as_bytes()), None, "{bad}");
        }
    }

    #[test]
    fn coordinates_at_the_edges() {
        assert_eq!(coordinate(b"-33.86749999", 90), Some(-338_674_999));
        assert_eq!(coordinate(b"180", 180), Some(1_800_000_000));
        assert_eq!(coordinate(b"-180.00000000000000000000", 180), Some(-1_800_000_000));
        assert_eq!(coordinate(b"-0.00000009", 90), Some(0));
        assert_eq!(coordinate(b"007", 90), Some(70_000_000));
        for bad in ["90.00000001", "-90.00000000000000000001", ".5", "5.", "+5", "0007", "-", "", "1.2.3"] {
            assert_eq!(coordinate(bad.as_bytes(), 90), None, "{bad}");
        }
        assert_eq!(coordinate(b"1.000000000000000000001", 90), None);
    }

    #[test]
    fn sequences_and_choices() {
        assert_eq!(number(Form::Sequence, b"000000000"), Some(0));
        assert_eq!(number(Form::Sequence, b"999999999"), Some(999_999_999));
        assert_eq!(number(Form::Sequence, b"1000000000"), None);
        assert_eq!(number(Form::Choice(&["0", "11"], -1), b"11"), Some(11));
        assert_eq!(number(Form::Choice(&["0", "11"], -1), b""), Some(-1));
        assert_eq!(number(Form::Choice(&["0", "1"], -1), b"01"), None);
    }
}
