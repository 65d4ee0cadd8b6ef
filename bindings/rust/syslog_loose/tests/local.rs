//! Dates in the local zone, which is that of the process: so this test has a process of its own.
use chrono::{DateTime, Datelike, Duration, FixedOffset, LocalResult, NaiveDate, NaiveDateTime, Offset, TimeZone, Utc};
use chrono_tz::Europe::Paris;
use std::{env, thread, time};
use syslog_loose::{parse_message_with_year, Variant};

fn read(clock: NaiveDateTime) -> DateTime<FixedOffset> {
    let line = clock.format("<34>%b %e %H:%M:%S h a: m").to_string();
    let read = parse_message_with_year(&line, |_| clock.year(), Variant::Either);
    read.timestamp.unwrap_or_else(|| panic!("{line}"))
}

// The instant at which Paris shows this, and the earlier one of two; that of UTC where it skips this hour.
fn paris(clock: NaiveDateTime) -> DateTime<FixedOffset> {
    match Paris.from_local_datetime(&clock) {
        LocalResult::Single(at) | LocalResult::Ambiguous(at, _) => at.with_timezone(&at.offset().fix()),
        LocalResult::None => {
            let at = Utc.from_utc_datetime(&clock).with_timezone(&Paris);
            at.with_timezone(&at.offset().fix())
        }
    }
}

#[test]
fn each_half_hour_of_two_years() {
    // (as a rule, so that no table of zones is needed)
    env::set_var("TZ", "CET-1CEST,M3.5.0,M10.5.0/3");
    let begin = NaiveDate::from_ymd_opt(2020, 1, 1).unwrap().and_hms_opt(0, 15, 7).unwrap();
    for half_hours in 0..366 * 48 {
        let clock = begin + Duration::minutes(30 * half_hours);
        for clock in [Some(clock), clock.with_year(2019)].into_iter().flatten() {
            assert_eq!((read(clock), read(clock).offset()), (paris(clock), paris(clock).offset()), "{clock}");
        }
    }
    // A zone that is changed is seen after two seconds at most.
    env::set_var("TZ", "UTC0");
    thread::sleep(time::Duration::from_millis(2_100));
    assert_eq!(read(begin), Utc.from_utc_datetime(&begin));
}
