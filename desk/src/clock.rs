//! Times of day, in UTC.

use std::time::{SystemTime, UNIX_EPOCH};

const DAY: u64 = 86_400;

/// The seconds since 1970; 0 before.
pub fn now() -> u64 {
    SystemTime::now()
        .duration_since(UNIX_EPOCH)
        .map_or(0, |since| since.as_secs())
}

/// The time as it is printed: `2026-11-17T18:36:43Z`.
pub fn utc(seconds: u64) -> String {
    let (year, month, day) = date(seconds / DAY);
    let s = seconds % DAY;
    let (hours, minutes) = (s / 3600, s / 60 % 60);
    format!(
        "{year:04}-{month:02}-{day:02}T{hours:02}:{minutes:02}:{:02}Z",
        s % 60
    )
}

/// Year, month and day of the so many'th day after 1970-01-01.
fn date(days: u64) -> (u64, u64, u64) {
    // the day of an era of 400 years, each of which begins in March
    let z = u128::from(days) + 719_468;
    let (era, day) = ((z / 146_097) as u64, (z % 146_097) as u64);
    let year = (day - day / 1460 + day / 36_524 - day / 146_096) / 365;
    let of_year = day - (365 * year + year / 4 - year / 100);
    let month = (5 * of_year + 2) / 153;
    let day = of_year - (153 * month + 2) / 5 + 1;
    let month = if month < 10 { month + 3 } else { month - 9 };
    (era * 400 + year + u64::from(month <= 2), month, day)
}

/// The seconds of a day, `2026-11-17`, or of a time as it is printed; none of anything else, or of a day that is not.
pub fn seconds(text: &str) -> Option<u64> {
    let (day, time) = match text.split_once(['T', ' ']) {
        None => (text, "00:00:00"),
        Some((day, time)) => (day, time.strip_suffix('Z').unwrap_or(time)),
    };
    let [year, month, date] = numbers(day, '-', [4, 2, 2])?;
    let [hours, minutes, s] = numbers(time, ':', [2, 2, 2])?;
    let good = year >= 1970 && (1..=12).contains(&month) && hours < 24 && minutes < 60 && s < 60;
    let days = days(year, month, date);
    if !good || self::date(days) != (year, month, date) {
        return None;
    }
    Some(days * DAY + hours * 3600 + minutes * 60 + s)
}

/// The days from 1970-01-01 to a day of some year from 1970 on.
fn days(year: u64, month: u64, day: u64) -> u64 {
    let leap = |y: u64| y.is_multiple_of(4) && (!y.is_multiple_of(100) || y.is_multiple_of(400));
    let february = 28 + u64::from(leap(year));
    let months = [31, february, 31, 30, 31, 30, 31, 31, 30, 31, 30, 31];
    let before: u64 = (1970..year).map(|y| 365 + u64::from(leap(y))).sum();
    let of_year: u64 = months.iter().take(month.saturating_sub(1) as usize).sum();
    before + of_year + day.saturating_sub(1)
}

/// Three numbers of so many digits each.
fn numbers(text: &str, between: char, digits: [usize; 3]) -> Option<[u64; 3]> {
    let mut numbers = [0; 3];
    let mut parts = text.split(between);
    for (number, digits) in numbers.iter_mut().zip(digits) {
        let part = parts.next()?;
        if part.len() != digits || !part.bytes().all(|byte| byte.is_ascii_digit()) {
            return None;
        }
        *number = part.parse().ok()?;
    }
    parts.next().is_none().then_some(numbers)
}

#[cfg(test)]
mod tests {
    use super::{seconds, utc};

    #[test]
    fn times_are_printed_and_read_back() {
        for (s, text) in [
            (0, "1970-01-01T00:00:00Z"),
            (951_782_399, "2000-02-28T23:59:59Z"),
            (951_782_400, "2000-02-29T00:00:00Z"),
            (951_868_800, "2000-03-01T00:00:00Z"),
            (1_709_164_800, "2024-02-29T00:00:00Z"),
            (1_795_000_000, "2026-11-18T11:06:40Z"),
            (4_107_542_400, "2100-03-01T00:00:00Z"),
            (253_402_300_799, "9999-12-31T23:59:59Z"),
        ] {
            assert_eq!(utc(s), text);
            assert_eq!(seconds(text), Some(s));
        }
        assert_eq!(seconds("2000-02-29"), Some(951_782_400));
        assert_eq!(seconds("2000-02-29 00:00:01"), Some(951_782_401));
        utc(u64::MAX);
    }

    #[test]
    fn what_is_no_time_is_none() {
        for text in [
            "",
            "today",
            "2026",
            "2026-13-01",
            "2026-02-29",
            "2026-00-01",
            "2026-01-00",
            "2026-1-1",
            "2026-11-17T24:00:00Z",
            "2026-11-17T10:60:00Z",
            "2026-11-17T10:00",
            "1969-12-31",
            "2026-11-17-1",
            "+026-11-17",
            "2026-11-17T10:00:00+01:00",
        ] {
            assert_eq!(seconds(text), None, "{text}");
        }
    }
}
