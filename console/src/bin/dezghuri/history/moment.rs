//! Instants to the second, as the history writes them: 2026-11-17T21:23:02Z.

use std::fmt;
use std::time::{SystemTime, UNIX_EPOCH};

/// Seconds since the beginning of 1970, UTC.
#[derive(Clone, Copy, Debug, PartialEq, Eq)]
pub struct Moment(u64);

/// The end of the year 9999: later ones would need another digit.
const LAST: u64 = 253_402_300_799;

const SECONDS_OF_A_DAY: u64 = 86_400;

impl Moment {
    /// Now; or what SOURCE_DATE_EPOCH says, by which programs are run again with the same outcome.
    pub fn now() -> Moment {
        let said = std::env::var("SOURCE_DATE_EPOCH").ok();
        let said = said.and_then(|seconds| seconds.parse().ok());
        let since = || SystemTime::now().duration_since(UNIX_EPOCH);
        Moment::at(said.unwrap_or_else(|| since().map_or(0, |time| time.as_secs())))
    }

    fn at(seconds: u64) -> Moment {
        Moment(seconds.min(LAST))
    }

    /// The moment that is written so, in this form and no other.
    pub fn parse(word: &str) -> Option<Moment> {
        let number = |from: usize, to: usize| word.get(from..to)?.parse::<u64>().ok();
        let (year, month, day) = (number(0, 4)?, number(5, 7)?, number(8, 10)?);
        let (hour, minute, second) = (number(11, 13)?, number(14, 16)?, number(17, 19)?);
        let years: u64 = (1970..year).map(days_of_year).sum();
        let months: u64 = (1..month).map(|month| days_of_month(year, month)).sum();
        let days = years + months + day.checked_sub(1)?;
        let moment = Moment::at(((days * 24 + hour) * 60 + minute) * 60 + second);
        (moment.to_string() == word).then_some(moment)
    }

    /// The day alone.
    pub fn day(self) -> String {
        let mut days = self.0 / SECONDS_OF_A_DAY;
        let (mut year, mut month) = (1970, 1);
        while days >= days_of_year(year) {
            days -= days_of_year(year);
            year += 1;
        }
        while days >= days_of_month(year, month) {
            days -= days_of_month(year, month);
            month += 1;
        }
        format!("{year:04}-{month:02}-{:02}", days + 1)
    }

    /// The time of the day alone.
    pub fn time(self) -> String {
        let seconds = self.0 % SECONDS_OF_A_DAY;
        let (hour, minute) = (seconds / 3600, seconds / 60 % 60);
        format!("{hour:02}:{minute:02}:{:02}", seconds % 60)
    }
}

impl fmt::Display for Moment {
    fn fmt(&self, f: &mut fmt::Formatter<'_>) -> fmt::Result {
        write!(f, "{}T{}Z", self.day(), self.time())
    }
}

fn is_leap(year: u64) -> bool {
    year.is_multiple_of(4) && (!year.is_multiple_of(100) || year.is_multiple_of(400))
}

fn days_of_year(year: u64) -> u64 {
    if is_leap(year) {
        366
    } else {
        365
    }
}

/// No month has none, so that a month that there is not is refused when it is written again.
fn days_of_month(year: u64, month: u64) -> u64 {
    match month {
        2 if is_leap(year) => 29,
        2 => 28,
        4 | 6 | 9 | 11 => 30,
        _ => 31,
    }
}

#[cfg(test)]
mod tests {
    use super::*;

    /// Known instants, among them the last of a leap day and the days around the turn of a century.
    #[test]
    fn moments_are_written_and_read() {
        for (seconds, written) in [
            (0, "1970-01-01T00:00:00Z"),
            (951_782_399, "2000-02-28T23:59:59Z"),
            (951_868_799, "2000-02-29T23:59:59Z"),
            (951_868_800, "2000-03-01T00:00:00Z"),
            (1_000_000_000, "2001-09-09T01:46:40Z"),
            (1_709_210_096, "2024-02-29T12:34:56Z"),
            (1_735_689_599, "2024-12-31T23:59:59Z"),
            (4_107_542_399, "2100-02-28T23:59:59Z"),
            (4_107_542_400, "2100-03-01T00:00:00Z"),
            (LAST, "9999-12-31T23:59:59Z"),
        ] {
            assert_eq!(Moment(seconds).to_string(), written);
            assert_eq!(Moment::parse(written), Some(Moment(seconds)));
        }
        assert_eq!(Moment::at(u64::MAX), Moment(LAST));
    }

    #[test]
    fn every_day_of_some_centuries_is_the_one_after_the_day_before() {
        let mut before = Moment(0).day();
        for day in 1..150_000 {
            let now = Moment(day * SECONDS_OF_A_DAY);
            assert!(now.day() > before, "{before}");
            assert_eq!(Moment::parse(&now.to_string()), Some(now));
            before = now.day();
        }
        assert_eq!(before, "2380-09-07");
    }

    #[test]
    fn what_is_no_moment_is_refused() {
        for word in [
            "",
            "2026-11-17",
            "2026-11-17 21:23:02Z",
            "2026-11-17T21:23:02",
            "2026-11-17T21:23:02Zz",
            "2026-13-01T00:00:00Z",
            "2026-00-01T00:00:00Z",
            "2026-02-29T00:00:00Z",
            "2026-02-00T00:00:00Z",
            "2026-02-01T24:00:00Z",
            "2026-02-01T00:60:00Z",
            "2026-02-01T00:00:60Z",
            "1969-12-31T23:59:59Z",
            "+026-11-17T21:23:02Z",
            "2026-11-17T21:23:0\u{e9}",
        ] {
            assert_eq!(Moment::parse(word), None, "{word}");
        }
    }
}
