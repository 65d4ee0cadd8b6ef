use crate::local;
use chrono::{
    DateTime, Datelike, FixedOffset, LocalResult, NaiveDate, NaiveDateTime, NaiveTime, Offset, TimeZone, Timelike,
};
use libsyslog_loose::Timestamp;

/// The year in which the library reads dates that show none: each date that exists in some year exists in this one.
pub(crate) const LEAP_YEAR: i32 = 2000;
/// When it begins, in seconds since 1970.
const BEGIN: i64 = 946_684_800;
/// The seconds of a day.
const DAY: u32 = 86_400;

/// Month, day, hour, minute and second of a date that shows no year.
pub type IncompleteDate = (u32, u32, u32, u32, u32);

/// Returns the timestamp of what a line shows, with the year and the zone that it lacks; none if there is no such date.
pub(crate) fn dated<F, Tz>(shown: Timestamp, get_year: F, tz: Option<Tz>) -> Option<DateTime<FixedOffset>>
where
    F: FnOnce(IncompleteDate) -> i32,
    Tz: TimeZone,
{
    // (the options gave the offset of UTC where none is shown)
    let clock = if shown.shows_year {
        let at = FixedOffset::east_opt(shown.offset)?.timestamp_opt(shown.seconds, shown.nanoseconds).single()?;
        if shown.shows_offset {
            return Some(at);
        }
        at.naive_utc()
    } else {
        in_year(shown, get_year)?
    };
    match tz {
        Some(tz) => earlier(tz.from_local_datetime(&clock)),
        None => local::at(clock),
    }
}

/// What a clock that shows no year shows in the year that the closure gives. The library read it in [`LEAP_YEAR`], and
/// the seconds from its beginning on say the date: chrono's way from any instant is longer.
fn in_year<F: FnOnce(IncompleteDate) -> i32>(shown: Timestamp, get_year: F) -> Option<NaiveDateTime> {
    let seconds = u32::try_from(shown.seconds - BEGIN).ok()?;
    let date = NaiveDate::from_yo_opt(LEAP_YEAR, seconds / DAY + 1)?;
    let time = NaiveTime::from_num_seconds_from_midnight_opt(seconds % DAY, shown.nanoseconds)?;
    let (month, day) = (date.month(), date.day());
    let year = get_year((month, day, time.hour(), time.minute(), time.second()));
    Some(NaiveDate::from_ymd_opt(year, month, day)?.and_time(time))
}

/// Returns the instant at which a clock with this offset shows that: chrono's way takes longer.
pub(crate) fn at_offset(clock: NaiveDateTime, offset: FixedOffset) -> Option<DateTime<FixedOffset>> {
    let (day, seconds) = (DAY as i32, clock.time().num_seconds_from_midnight() as i32 - offset.local_minus_utc());
    let date = match seconds.div_euclid(day) {
        0 => clock.date(),
        1 => clock.date().succ_opt()?,
        _ => clock.date().pred_opt()?,
    };
    let time = NaiveTime::from_num_seconds_from_midnight_opt(seconds.rem_euclid(day) as u32, clock.nanosecond())?;
    Some(offset.from_utc_datetime(&date.and_time(time)))
}

/// Returns the one instant, or the earlier of two.
pub(crate) fn earlier<Tz: TimeZone>(found: LocalResult<DateTime<Tz>>) -> Option<DateTime<FixedOffset>> {
    match found {
        LocalResult::None => None,
        LocalResult::Single(at) => Some(fixed(at)),
        LocalResult::Ambiguous(one, other) => Some(fixed(one).min(fixed(other))),
    }
}

pub(crate) fn fixed<Tz: TimeZone>(at: DateTime<Tz>) -> DateTime<FixedOffset> {
    at.with_timezone(&at.offset().fix())
}
