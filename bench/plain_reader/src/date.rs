//! The dates of a mobile document (`tdate`; ISO/IEC 18013-5, section 7.2.1).

/// Whether a text is a date of the form `YYYY-MM-DDTHH:MM:SSZ` that is in the calendar, from 1970 on.
pub fn is_date(text: &str) -> bool {
    let form = b"0000-00-00T00:00:00Z";
    let fits = |(sign, byte): (&u8, u8)| {
        if *sign == b'0' {
            byte.is_ascii_digit()
        } else {
            byte == *sign
        }
    };
    if text.len() != form.len() || !form.iter().zip(text.bytes()).all(fits) {
        return false;
    }
    let number = |from, to| text[from..to].parse::<u32>().unwrap_or(u32::MAX);
    let (year, month, day) = (number(0, 4), number(5, 7), number(8, 10));
    let is_leap = year % 4 == 0 && (year % 100 != 0 || year % 400 == 0);
    let days = match month {
        2 => 28 + u32::from(is_leap),
        4 | 6 | 9 | 11 => 30,
        _ => 31,
    };
    year >= 1970
        && (1..=12).contains(&month)
        && (1..=days).contains(&day)
        && number(11, 13) < 24
        && number(14, 16) < 60
        && number(17, 19) < 60
}
