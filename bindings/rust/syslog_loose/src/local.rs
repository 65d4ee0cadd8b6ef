//! The local zone. chrono walks through all changes of the zone at each call, which takes longer than to read a line.
//! It is asked once for a day, and again in the next second: it looks each second whether the zone was changed.
use crate::timestamp::{at_offset, earlier, fixed};
use chrono::{DateTime, Datelike, FixedOffset, Local, LocalResult, NaiveDate, NaiveDateTime, Offset, TimeZone};
use std::cell::RefCell;

/// What chrono has said of a day: the offset that the clock has all day long, if it has one.
#[derive(Clone, Copy)]
struct Day {
    year: i32,
    offset: Option<FixedOffset>,
}

/// What chrono has said in one second: of a day for each day of a year, by its number in the year.
struct Days {
    second: i64,
    days: [Option<Day>; 366],
}

thread_local! {
    static DAYS: RefCell<Days> = const { RefCell::new(Days { second: -1, days: [None; 366] }) };
}

impl Days {
    /// Returns the offset that the local clock has all day long, if it has one.
    fn offset(&mut self, date: NaiveDate) -> Option<FixedOffset> {
        let second = libsyslog_loose::seconds_of_uptime();
        if second != self.second {
            *self = Days { second, days: [None; 366] };
        }
        let (year, place) = (date.year(), &mut self.days[date.ordinal0() as usize]);
        match place {
            Some(day) if day.year == year => day.offset,
            _ => place.insert(Day { year, offset: offset_all_day(date) }).offset,
        }
    }
}

/// Asks chrono for the offset at the first and at the last second of a day. No zone leaves an offset and has it again
/// on the same day.
fn offset_all_day(date: NaiveDate) -> Option<FixedOffset> {
    let offset = |hour, minute, second| match Local.from_local_datetime(&date.and_hms_opt(hour, minute, second)?) {
        LocalResult::Single(at) => Some(at.offset().fix()),
        _ => None,
    };
    offset(0, 0, 0).filter(|it| offset(23, 59, 59) == Some(*it))
}

/// Returns the instant at which the local clock shows this, and the earlier one of two. A clock that the zone skips is
/// taken as that of UTC.
pub(crate) fn at(clock: NaiveDateTime) -> Option<DateTime<FixedOffset>> {
    // (chrono has no instant for some clocks of its first and its last day)
    let is_usual = (0..=9999).contains(&clock.year());
    match is_usual.then(|| DAYS.with(|days| days.borrow_mut().offset(clock.date()))).flatten() {
        Some(offset) => at_offset(clock, offset),
        None => earlier(Local.from_local_datetime(&clock)).or_else(|| Some(fixed(Local.from_utc_datetime(&clock)))),
    }
}
