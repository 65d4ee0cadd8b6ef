//! Lines and what the crate syslog_loose 0.23 reads in them, by the interface that it has.
use chrono::{DateTime, Datelike, FixedOffset, TimeZone, Utc};
use chrono_tz::Europe::Paris;
use std::cell::Cell;
use syslog_loose::{decompose_pri, parse_message, parse_message_with_year, parse_message_with_year_exact};
use syslog_loose::{parse_message_with_year_exact_tz, parse_message_with_year_tz};
use syslog_loose::{IncompleteDate, Message, ProcId, Protocol, StructuredElement, Variant};
use syslog_loose::{SyslogFacility::*, SyslogSeverity::*};

// Of December the year before, as in January 2020.
fn resolve_year((month, ..): IncompleteDate) -> i32 {
    if month == 12 {
        2019
    } else {
        2020
    }
}

fn utc(line: &str) -> Message<&str> {
    parse_message_with_year_tz(line, resolve_year, Some(Utc), Variant::Either)
}

fn printed(line: &str) -> String {
    utc(line).to_string()
}

fn at(text: &str) -> Option<DateTime<FixedOffset>> {
    Some(DateTime::parse_from_rfc3339(text).unwrap())
}

// Names and the message of a line of RFC 3164.
type Names<'a> = (Option<&'a str>, Option<&'a str>, Option<ProcId<&'a str>>, &'a str);

fn names(line: &str) -> Names<'_> {
    let m = utc(line);
    (m.hostname, m.appname, m.procid, m.msg)
}

fn element<'a>(id: &'a str, params: &[(&'a str, &'a str)]) -> StructuredElement<&'a str> {
    StructuredElement { id, params: params.to_vec() }
}

#[test]
fn a_line_of_rfc_5424() {
    let line = "<34>1 2003-10-11T22:14:15.003Z mymachine.example.com su - ID47 - message";
    let m = utc(line);
    assert_eq!(m.protocol, Protocol::RFC5424(1));
    assert_eq!((m.facility, m.severity, m.timestamp), (Some(LOG_AUTH), Some(SEV_CRIT), at("2003-10-11T22:14:15.003Z")));
    assert_eq!((m.hostname, m.appname, m.msgid), (Some("mymachine.example.com"), Some("su"), Some("ID47")));
    assert_eq!((&m.procid, m.msg), (&None, "message"));
    assert_eq!(m.to_string(), "<34>1 2003-10-11T22:14:15.003+00:00 mymachine.example.com su - ID47 - message");
    assert_eq!(m, parse_message(line, Variant::Either));
    assert_eq!(parse_message(line, Variant::RFC3164).msg, line);
}

#[test]
fn the_names_of_rfc_3164() {
    let (host, app, su) = (Some("mymachine"), Some("app"), "'su root' failed for lonvick on /dev/pts/8");
    let front = "<34>Oct 11 22:14:15 ";
    for (text, want) in [
        ("mymachine app[323] :", (host, app, Some(ProcId::PID(323)), "")),
        ("mymachine app :", (host, app, None, "")),
        ("mymachine :", (host, None, None, "")),
        ("app[323] :", (None, app, Some(ProcId::PID(323)), "")),
        ("mymachine su: 'su root' failed for lonvick on /dev/pts/8", (host, Some("su"), None, su)),
        (": a message", (None, None, None, "a message")),
        ("mymachine: a message", (host, None, None, "a message")),
        ("host [323]: hi", (Some("host"), Some(""), Some(ProcId::PID(323)), "hi")),
        ("host -: hi", (None, None, None, "hi")),
    ] {
        let line = format!("{front}{text}");
        assert_eq!(names(&line), want, "{line}");
        let m = utc(&line);
        assert_eq!((m.protocol, m.timestamp, m.msgid), (Protocol::RFC3164, at("2020-10-11T22:14:15Z"), None));
    }
    assert_eq!(names("<34>- zork:: hi"), (Some("zork:"), None, None, "hi"));
    assert_eq!(names("<34>- app[x:y]: hi"), (None, Some("app"), Some(ProcId::Name("x:y")), "hi"));
    let large = "<46>Jan 5 10:01:00 Übergröße außerplanmäßig größenordnungsmäßig";
    assert_eq!(names(large), (Some("Übergröße"), Some("außerplanmäßig"), None, "größenordnungsmäßig"));
}

#[test]
fn what_is_printed() {
    for (line, want) in [
        ("<54> 1970-01-01T00:01:31+00:00 host :", "<54> 1970-01-01T00:01:31+00:00 host : "),
        (
            "<34>2020-10-11T22:14:15.00Z mymachine app[323]: a message",
            "<34> 2020-10-11T22:14:15+00:00 mymachine app[323]: a message",
        ),
        ("1 - - - - - [a b=\"x]y\"][c][d e=][f", "<47>1 - - - - - [a b=\"x]y\"][c] [f"),
        ("1 - - - - - [a b=\"x]y\" ]z", "<47>1 - - - - - - y\" ]z"),
        ("<200>1 - - - - - -", "<40>1 - - - - - - "),
        ("<0007>1 - - - - - -", "<7>1 - - - - - - "),
        ("1 - h a +5 m - x", "<47>1 - h a 5 m - x"),
        ("1 - - - - - [id a=\"b\"  c=\"d\"]x", "<47>1 - - - - - [id a=\"b\"  c=\"d\"] x"),
        ("<34>1 2020-01-01t00:00:00.1234567899z h a 1 m - x", "<34>1 2020-01-01T00:00:00.123456789+00:00 h a 1 m - x"),
        ("Oct 11 22:14:15 h a: m", "<47> 2020-10-11T22:14:15+00:00 h a: m"),
    ] {
        assert_eq!(printed(line), want);
    }
}

#[test]
fn structured_data() {
    let line =
        "<46>Jan  5 15:33:03 plertrood-ThinkPad-X220 rsyslogd:  [origin software=\"rsyslogd\" x-pid=\"20506\"] start";
    let m = utc(line);
    assert_eq!(m.structured_data, [element("origin", &[("software", "rsyslogd"), ("x-pid", "20506")])]);
    assert_eq!((m.appname, m.msg), (Some("rsyslogd"), "start"));
    let front = "<13>1 2019-02-13T19:48:34+00:00 74794bfb6795 root 8449 - ";
    for (list, want) in [
        ("[incorrect x]", vec![]),
        ("[incorrect x=]", vec![]),
        ("[empty]", vec![element("empty", &[])]),
        ("[non_empty x=\"1\"][empty]", vec![element("non_empty", &[("x", "1")]), element("empty", &[])]),
    ] {
        let line = format!("{front}{list} qwerty");
        let m = utc(&line);
        assert_eq!((m.structured_data, m.msg, m.procid), (want, "qwerty", Some(ProcId::PID(8449))));
    }
    // In RFC 3164 what is no list stays in the message.
    let m = utc("<46>Jan  5 15:33:03 h rsyslogd:  [software=\"rsyslogd\"] start");
    assert_eq!((m.structured_data, m.msg), (vec![], "[software=\"rsyslogd\"] start"));
}

#[test]
fn elements_are_equal_in_any_order() {
    assert_eq!(element("x", &[("a", "1"), ("b", "2")]), element("x", &[("b", "2"), ("a", "1")]));
    assert_ne!(element("x", &[]), element("x", &[("a", "1")]));
    assert_ne!(element("x", &[("a", "1")]), element("x", &[("a", "1"), ("a", "1")]));
}

#[test]
fn values_without_escapes() {
    for (raw, want) in [
        (r#"hullo \"there\""#, r#"hullo "there""#),
        (r"let's \\\\do this\\\\", r"let's \\do this\\"),
        (r"hello [bye\]", "hello [bye]"),
        (r"hello\nbye", "hello\nbye"),
        (r"not \esc\aped", r"not \esc\aped"),
        (r"x\", "x"),
        ("", ""),
    ] {
        let it = element("id", &[("name", raw)]);
        assert_eq!(it.params().collect::<Vec<_>>(), [(&"name", want.to_string())]);
    }
}

#[test]
fn the_year_of_a_date() {
    let calls = Cell::new(0);
    let year = |date: IncompleteDate| {
        calls.set(calls.get() + 1);
        assert_eq!(date, (12, 28, 16, 49, 7));
        -5
    };
    let m = parse_message_with_year_tz("<190>Dec 28 16:49:07 h a: m", year, Some(Utc), Variant::Either);
    assert_eq!((m.timestamp.unwrap().year(), calls.get()), (-5, 1));
    let ahead = FixedOffset::east_opt(3_600).unwrap();
    for (line, want) in [
        ("<34>Dec 28 2008 16:49:07 h a: m", "2008-12-28T16:49:07+01:00"),
        ("<34>2008-12-28T16:49:07-07:00 h a: m", "2008-12-28T16:49:07-07:00"),
        ("<34>1 2008-12-28T16:49:07Z h a - - - m", "2008-12-28T16:49:07+00:00"),
    ] {
        let m = parse_message_with_year_tz(line, year, Some(ahead), Variant::Either);
        assert_eq!(m.timestamp.unwrap().to_rfc3339(), want);
    }
    assert_eq!(calls.get(), 1);
    // 29 February is in a leap year alone, and no year has a day of 30 February or a second of 60.
    let exact = |line, year: i32| parse_message_with_year_exact_tz(line, |_| year, Some(Utc), Variant::Either);
    assert_eq!(exact("Feb 29 00:00:00 h a: m", 2020).unwrap().timestamp, at("2020-02-29T00:00:00Z"));
    assert!(exact("Feb 29 00:00:00 h a: m", 2019).is_err() && exact("Feb 30 00:00:00 h a: m", 2020).is_err());
    assert!(exact("Dec 31 23:59:60 h a: m", 2020).is_err() && exact("Jan 1 00:00:00 h a: m", i32::MAX).is_err());
}

#[test]
fn the_zone_of_a_date() {
    let paris = |line| parse_message_with_year_exact_tz(line, resolve_year, Some(Paris), Variant::Either);
    let m = paris("<46>Jan  5 15:33:03 plertrood-ThinkPad-X220 rsyslogd: start").unwrap();
    assert_eq!(m.timestamp.unwrap().to_rfc3339(), "2020-01-05T15:33:03+01:00");
    let m = paris("Oct 25 02:30:00 h a: m").unwrap();
    assert_eq!(m.timestamp.unwrap().to_rfc3339(), "2020-10-25T02:30:00+02:00");
    let m = paris("Oct 25 2020 02:30:00 h a: m").unwrap();
    assert_eq!(m.timestamp, at("2020-10-25T00:30:00Z"));
    assert!(paris("Mar 29 02:30:00 h a: m").is_err());
    let local = chrono::Local.with_ymd_and_hms(2020, 8, 4, 16, 49, 7).unwrap();
    let m = parse_message_with_year("Aug 4 16:49:07 h a: m", resolve_year, Variant::RFC3164);
    assert_eq!(m.timestamp, Some(local.with_timezone(local.offset())));
}

#[test]
fn lines_that_are_no_messages() {
    for line in ["complete and utter gobbledegook", "", "  ", "<256>1 - - - - - -", "<34>2020-01-01T00:00:00Z"] {
        let m = utc(line);
        assert_eq!((m.protocol, m.facility, m.hostname, m.msg), (Protocol::RFC3164, None, None, line));
        let why = parse_message_with_year_exact(line, resolve_year, Variant::Either).unwrap_err();
        assert_eq!(why, "unable to parse input as valid syslog message");
    }
}

#[test]
fn owned_and_equal() {
    let m = utc("<34>1 2003-10-11T22:14:15.003Z h su name ID47 [a b=\"c\"] message");
    let owned: Message<String> = m.clone().into();
    assert_eq!((owned.to_string(), owned.structured_data.len()), (m.to_string(), 1));
    assert_eq!(owned.procid, Some(ProcId::Name("name".to_string())));
    assert_eq!(m, Message { protocol: Protocol::RFC3164, ..m.clone() });
    assert_eq!((ProcId::from("+5"), ProcId::from("-")), (ProcId::PID(5), ProcId::Name("-")));
}

#[test]
fn facilities_and_severities() {
    assert_eq!(decompose_pri(165), (Some(LOG_LOCAL4), Some(SEV_NOTICE)));
    assert_eq!(
        (decompose_pri(0), decompose_pri(191)),
        ((Some(LOG_KERN), Some(SEV_EMERG)), (Some(LOG_LOCAL7), Some(SEV_DEBUG)))
    );
    assert_eq!((decompose_pri(192), decompose_pri(255)), ((None, Some(SEV_EMERG)), (None, Some(SEV_DEBUG))));
    assert_eq!((LOG_CRON as i32, LOG_CLOCKD.as_str(), SEV_ERR.as_str()), (9, "clockd", "err"));
}

#[test]
fn a_closure_may_parse_another_line() {
    let other = "<34>1 2003-10-11T22:14:15.003Z mymachine su - ID47 - message";
    let year = |_| utc(other).timestamp.unwrap().year();
    let m = parse_message_with_year_tz("<34>Oct 11 22:14:15 h a: x", year, Some(Utc), Variant::Either);
    assert_eq!((m.timestamp, m.hostname), (at("2003-10-11T22:14:15Z"), Some("h")));
}
