use crate::{parse_fields, raw, Error, Options, Variant};
use std::fmt;
use std::str::FromStr;
use std::time::{Duration, SystemTime};

const DAY: i64 = 86_400;

/// An instant, and the offset of the clock that showed it. Timestamps are ordered by the instant, and then by the
/// offset.
///
/// It is displayed as what that clock showed, in RFC 3339: with 0, 3, 6 or 9 decimals as it needs, or with as many as
/// the format asks for (`{:.0}`: none). `{:#}` displays it in UTC, which ends in `Z`.
#[derive(Clone, Copy, Debug, PartialEq, Eq, PartialOrd, Ord, Hash)]
#[cfg_attr(feature = "serde", derive(serde::Serialize, serde::Deserialize))]
pub struct Timestamp {
    /// Whole seconds since 1970-01-01T00:00:00Z, rounded down.
    pub seconds: i64,
    /// Nanoseconds after these seconds, from 0 to 999,999,999.
    pub nanoseconds: u32,
    /// How many seconds the clock is ahead of UTC.
    pub offset: i32,
    /// Whether the line shows the year; otherwise the options gave it.
    pub shows_year: bool,
    /// Whether the line shows the offset; otherwise the options gave it.
    pub shows_offset: bool,
}

impl Timestamp {
    pub(crate) fn of(told: &raw::Timestamp) -> Option<Timestamp> {
        (told.present == 1).then_some(Timestamp {
            seconds: told.seconds,
            nanoseconds: told.nanoseconds.unsigned_abs(),
            offset: told.offset,
            shows_year: told.shows_year == 1,
            shows_offset: told.shows_offset == 1,
        })
    }

    /// Returns the instant as chrono has it, at its offset; none if the offset is a day or more.
    #[cfg(feature = "chrono")]
    pub fn to_chrono(self) -> Option<chrono::DateTime<chrono::FixedOffset>> {
        use chrono::TimeZone;
        chrono::FixedOffset::east_opt(self.offset)?.timestamp_opt(self.seconds, self.nanoseconds).single()
    }
}

/// Converts a timestamp to its instant. No timestamp is outside of the range of `SystemTime` on Linux.
impl From<Timestamp> for SystemTime {
    fn from(at: Timestamp) -> SystemTime {
        let seconds = Duration::from_secs(at.seconds.unsigned_abs());
        let whole = if at.seconds < 0 { SystemTime::UNIX_EPOCH - seconds } else { SystemTime::UNIX_EPOCH + seconds };
        whole + Duration::from_nanos(u64::from(at.nanoseconds))
    }
}

/// Parses a whole text of RFC 3339, as in a line of RFC 5424.
impl FromStr for Timestamp {
    type Err = Error;

    fn from_str(text: &str) -> Result<Timestamp, Error> {
        if text.contains(char::is_whitespace) {
            return Err(Error::NoMessage);
        }
        let options = Options { variant: Variant::Rfc5424, ..Options::in_year(1970) };
        parse_fields(&format!("1 {text} - - - - -"), &options)?.timestamp.ok_or(Error::NoMessage)
    }
}

/// The year, the month and the day of so many days since 1970.
pub(crate) fn date(days: i64) -> (i64, i64, i64) {
    // Days since 0000-03-01, in eras of 400 years, and in years that end with February.
    let (era, day) = ((days + 719_468).div_euclid(146_097), (days + 719_468).rem_euclid(146_097));
    let year = (day - day / 1_460 + day / 36_524 - day / 146_096) / 365;
    let day = day - (365 * year + year / 4 - year / 100);
    let month = (5 * day + 2) / 153;
    let (day, month) = (day - (153 * month + 2) / 5 + 1, if month < 10 { month + 3 } else { month - 9 });
    (era * 400 + year + i64::from(month <= 2), month, day)
}

/// The fewest of 0, 3, 6 and 9 decimals that are exact.
fn needed_decimals(nanoseconds: u32) -> usize {
    match nanoseconds {
        0 => 0,
        it if it % 1_000_000 == 0 => 3,
        it if it % 1_000 == 0 => 6,
        _ => 9,
    }
}

impl fmt::Display for Timestamp {
    fn fmt(&self, f: &mut fmt::Formatter<'_>) -> fmt::Result {
        let offset = if f.alternate() { 0 } else { self.offset };
        let shown = self.seconds + i64::from(offset);
        let (days, second) = (shown.div_euclid(DAY), shown.rem_euclid(DAY));
        let (year, month, day) = date(days);
        let (hour, minute, second) = (second / 3_600, second / 60 % 60, second % 60);
        let sign = if year < 0 { "-" } else { "" };
        write!(f, "{sign}{:04}-{month:02}-{day:02}T{hour:02}:{minute:02}:{second:02}", year.abs())?;
        let count = f.precision().map_or(needed_decimals(self.nanoseconds), |count| count.min(9));
        if count > 0 {
            write!(f, ".{}", &format!("{:09}", self.nanoseconds)[..count])?;
        }
        if f.alternate() {
            return f.write_str("Z");
        }
        // (an offset with seconds is rounded, as the library prints it)
        let (sign, minutes) = (if offset < 0 { '-' } else { '+' }, (offset.unsigned_abs() + 30) / 60);
        write!(f, "{sign}{:02}:{:02}", minutes / 60, minutes % 60)
    }
}
