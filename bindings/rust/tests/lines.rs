//! The crate over the library that it is linked with.
use libsyslog_loose::{
    decode, is_canonical, json, lines, normalise, parse, parse_fields, parse_into, settle, to_rfc5424, version,
};
use libsyslog_loose::{Decoding, Dialect, Error, Facility, LineError, Message, NoSuchName, Options, OwnedMessage};
use libsyslog_loose::{Param, ProcId, Protocol, Severity, Timestamp, Variant, Zone};
use std::borrow::Cow;
use std::collections::HashSet;
use std::thread;
use std::time::{Duration, SystemTime};

const IN_2026: Options = Options::in_year(2026);
const LINE: &str = r#"<165>1 2003-10-11T22:14:15.003004005-07:00 mymachine app 7 ID47 [a b="c" d="\"\]"][e] größe"#;
const DECEMBER: &str = "<34>Dec 31 23:59:59 h a: x";
const RULE: &str = "CET-1CEST,M3.5.0,M10.5.0/3";
// As docs/SENDERS.md has Cisco's form.
const SWITCH: &str = "<187>4211: core-sw1: Mar  1 18:48:50.483 CET: %LINK-3-UPDOWN: Interface changed state to down";

// A timestamp of a line that shows its year and its offset.
fn stamp(seconds: i64, nanoseconds: u32, offset: i32) -> Timestamp {
    Timestamp { seconds, nanoseconds, offset, shows_year: true, shows_offset: true }
}

#[test]
fn each_field() {
    let m = parse(LINE, &IN_2026).unwrap();
    assert_eq!(
        (m.protocol, m.facility, m.severity),
        (Protocol::Rfc5424(1), Some(Facility::Local4), Some(Severity::Notice))
    );
    let at = stamp(1_065_935_655, 3_004_005, -7 * 3_600);
    assert_eq!(m.timestamp, Some(at));
    assert_eq!(at.to_string(), "2003-10-11T22:14:15.003004005-07:00");
    assert_eq!(format!("{at:#}"), "2003-10-12T05:14:15.003004005Z");
    assert_eq!((m.hostname, m.appname, m.msgid), (Some("mymachine"), Some("app"), Some("ID47")));
    assert_eq!((m.procid, m.message), (Some(ProcId::Number(7)), "größe"));
}

#[test]
fn elements_and_parameters() {
    let m = parse(LINE, &IN_2026).unwrap();
    assert_eq!(m.elements().len(), 2);
    let ids: Vec<_> = m.elements().map(|it| (it.id, it.params().len())).collect();
    assert_eq!(ids, [("a", 2), ("e", 0)]);
    let params: Vec<_> = m.elements().flat_map(|it| it.params()).collect();
    assert_eq!(params, [Param { name: "b", raw: "c" }, Param { name: "d", raw: r#"\"\]"# }]);
    assert!(matches!(params[0].value(), Cow::Borrowed("c")));
    assert_eq!(params[1].value(), "\"]");
}

#[test]
fn an_object_of_ones_own() {
    // (the closure parses another line, and that line's closure a third, with more elements than there is room for)
    let many = format!("1 - - - - - {}", "[a b=\"c\"]".repeat(40));
    let made = parse_into(LINE, &IN_2026, |parts| {
        let inner = parse_into(DECEMBER, &IN_2026, |inner| {
            (parse(&many, &IN_2026).unwrap().elements().len(), inner.hostname())
        });
        let elements: Vec<_> = parts.elements().map(|(id, params)| (id, params.collect())).collect();
        (parts.hostname(), parts.procid(), elements, parts.message(), inner)
    });
    let params = vec![Param { name: "b", raw: "c" }, Param { name: "d", raw: r#"\"\]"# }];
    let elements = vec![("a", params), ("e", vec![])];
    let inner = Ok((40, Some("h")));
    assert_eq!(made, Ok((Some("mymachine"), Some(ProcId::Number(7)), elements, "größe", inner)));
    assert_eq!(parse_into("gobbledegook", &IN_2026, |_| ()), Err(Error::NoMessage));
}

#[test]
fn fields_without_elements() {
    let (whole, fields) = (parse(LINE, &IN_2026).unwrap(), parse_fields(LINE, &IN_2026).unwrap());
    assert_eq!((fields.hostname, fields.message, fields.timestamp), (whole.hostname, whole.message, whole.timestamp));
    assert_eq!((whole.elements().len(), fields.elements().len()), (2, 0));
    assert_eq!(parse_fields("gobbledegook", &IN_2026), Err(Error::NoMessage));
}

#[test]
fn what_is_absent() {
    let m = parse("1 - - - - - -", &IN_2026).unwrap();
    assert_eq!((m.facility, m.severity, m.timestamp, m.procid), (None, None, None, None));
    assert_eq!((m.hostname, m.appname, m.msgid, m.message), (None, None, None, ""));
    assert_eq!(m.elements().next(), None);
    let m = parse(b"<34>Mar  2 06:35:05 h a[b]: x", &IN_2026).unwrap();
    assert_eq!((m.protocol, m.procid), (Protocol::Rfc3164, Some(ProcId::Name("b"))));
}

#[test]
fn more_elements_than_are_expected() {
    for count in [7, 8, 9, 31, 32, 33, 500] {
        let list: String = (0..count).map(|i| format!(r#"[e{i} a="{i}" b="\\"]"#)).collect();
        let line = format!("1 - - - - - {list}");
        let m = parse(&line, &IN_2026).unwrap();
        assert_eq!(m.elements().len(), count);
        for (i, it) in m.elements().enumerate() {
            let params: Vec<_> = it.params().map(|it| (it.name, it.value().into_owned())).collect();
            assert_eq!((it.id, params), (&*format!("e{i}"), vec![("a", i.to_string()), ("b", "\\".to_string())]));
        }
    }
}

#[test]
fn the_texts_outlive_the_message() {
    fn host(line: &str) -> Option<&str> {
        let message: Message<'_> = parse(line, &IN_2026).ok()?;
        message.hostname
    }
    assert_eq!(host(LINE), Some("mymachine"));
}

#[test]
fn dates_without_a_year() {
    let seconds = |options: Options| parse(DECEMBER, &options).unwrap().timestamp.unwrap().seconds;
    assert_eq!(seconds(Options::in_year(2020)), 1_609_459_199);
    assert_eq!(seconds(Options { month: Some(1), ..Options::in_year(2020) }), 1_577_836_799);
    assert_eq!(seconds(Options { month: Some(12), offset: 3_600, ..Options::in_year(2020) }), 1_609_455_599);
}

#[test]
fn dates_on_a_day_and_in_a_zone() {
    let on_the_day = Options { month: Some(11), day: Some(28), ..IN_2026 };
    for (date, year) in [("Nov 29", "2026"), ("Nov 30", "2025"), ("Dec 20", "2025"), ("Feb 29", "2024")] {
        let line = format!("<34>{date} 06:35:05 h a: x");
        assert!(parse(&line, &on_the_day).unwrap().timestamp.unwrap().to_string().starts_with(year), "{line}");
    }
    let zone: Zone = RULE.parse().unwrap();
    assert_eq!((zone.as_str(), zone.to_string()), (RULE, RULE.to_string()));
    let in_the_zone = Options { zone: Some(zone), ..on_the_day };
    for (date, shown) in [("Jul  2", "2026-07-02T06:35:05+02:00"), ("Nov  2", "2026-11-02T06:35:05+01:00")] {
        let line = format!("<34>{date} 06:35:05 h a: x");
        assert_eq!(parse(&line, &in_the_zone).unwrap().timestamp.unwrap().to_string(), shown);
        assert!(json(&line, &in_the_zone, false).unwrap().contains(shown));
        assert_eq!(to_rfc5424(&line, &in_the_zone), Ok(format!("<34>1 {shown} h a - - - x")));
    }
    for wrong in ["", "EST5EDT", "Europe/Berlin", "CET-1\0", "\u{e9}ST5", &"A".repeat(96)] {
        assert_eq!(wrong.parse::<Zone>(), Err(Error::BadArgument), "{wrong:?}");
    }
}

#[test]
fn instants_before_1970_are_rounded_down() {
    let at = parse("1 1969-12-31T23:59:58.5Z - - - - -", &IN_2026).unwrap().timestamp.unwrap();
    assert_eq!((at.seconds, at.nanoseconds), (-2, 500_000_000));
    assert_eq!(at.to_string(), "1969-12-31T23:59:58.500+00:00");
    assert_eq!(
        (format!("{at:.0}"), format!("{at:#.1}")),
        ("1969-12-31T23:59:58+00:00".into(), "1969-12-31T23:59:58.5Z".into())
    );
    assert_eq!(SystemTime::from(at), SystemTime::UNIX_EPOCH - Duration::from_millis(1_500));
    let at = parse("1 0000-02-29T00:00:00Z - - - - -", &IN_2026).unwrap().timestamp.unwrap();
    assert_eq!(format!("{at:#}"), "0000-02-29T00:00:00Z");
}

#[test]
fn what_the_line_shows_of_its_date() {
    for (line, year, offset) in [
        (DECEMBER, false, false),
        ("<34>Dec 31 2019 23:59:59 h a: x", true, false),
        ("<34>2019-12-31T23:59:59Z h a: x", true, true),
        (LINE, true, true),
    ] {
        for m in [parse(line, &IN_2026).unwrap(), parse_fields(line, &IN_2026).unwrap()] {
            let at = m.timestamp.unwrap();
            assert_eq!((at.shows_year, at.shows_offset), (year, offset), "{line}");
        }
    }
}

#[test]
fn dialects() {
    let m = parse(SWITCH, &IN_2026).unwrap();
    assert_eq!(m.dialect.map(Dialect::as_str), Some("cisco-ios"));
    assert_eq!((m.hostname, m.appname, m.procid), (Some("core-sw1"), Some("%LINK-3-UPDOWN"), None));
    assert_eq!((m.message, m.elements().len()), ("Interface changed state to down", 0));
    let at = m.timestamp.unwrap();
    assert_eq!(at.to_string(), "2026-03-01T18:48:50.483+00:00");
    assert_eq!((at.shows_year, at.shows_offset), (false, false));
    assert_eq!(parse_fields(SWITCH, &IN_2026).unwrap().dialect, m.dialect);
    assert!(json(SWITCH, &IN_2026, false).unwrap().contains(r#""hostname":"core-sw1""#));
    let firewall = "<166>Mar 01 2026 18:48:50 asa1 : %ASA-6-302013: Built outbound TCP connection";
    assert_eq!(parse(firewall, &IN_2026).unwrap().dialect.map(Dialect::number), Some(25));
    for options in [Options { dialects: false, ..IN_2026 }, Options { variant: Variant::Rfc3164, ..IN_2026 }] {
        assert_eq!(parse(firewall, &options).unwrap().dialect, None);
    }
    assert_eq!(parse(LINE, &IN_2026).unwrap().dialect, None);
    for (line, year, offset) in [
        ("<166>Mar 01 2026 18:48:50 asa1 : %ASA-6-302013: Built outbound TCP connection", true, false),
        ("2026-03-02T06:33:04+0100 laptop systemd[1]: Started Session 3 of User ann.", true, true),
        ("<190>000123: .Nov 28 06:33:04.007 UTC: %SEC-6-IPACCESSLOGP: list 101 denied tcp", false, true),
    ] {
        let at = parse(line, &IN_2026).unwrap().timestamp.unwrap();
        assert_eq!((at.shows_year, at.shows_offset), (year, offset), "{line}");
    }
    let dialect: Dialect = "cisco-ios".parse().unwrap();
    assert_eq!((dialect.number(), dialect.to_string(), Some(dialect)), (23, "cisco-ios".into(), m.dialect));
    assert_eq!((Dialect::try_from(23), Dialect::try_from(0)), (Ok(dialect), Err(NoSuchName)));
    assert_eq!("cisco".parse::<Dialect>(), Err(NoSuchName));
}

#[test]
fn timestamps_are_values() {
    let (at, later) = (stamp(5, 0, 3_600), stamp(5, 1, 0));
    assert!(at < later && stamp(5, 0, 0) < at);
    assert_eq!(HashSet::from([at, later, stamp(5, 0, 3_600)]).len(), 2);
    for text in ["2003-10-11T22:14:15.003004005-07:00", "1969-12-31T23:59:58.500+00:00", "0000-02-29T00:00:00+23:59"] {
        assert_eq!(text.parse::<Timestamp>().unwrap().to_string(), text);
    }
    assert_eq!("2020-01-01T00:00:00Z".parse(), Ok(stamp(1_577_836_800, 0, 0)));
    for wrong in
        ["", "-", "2020-01-01", "2020-01-01T00:00:00Z ", "2020-01-01T00:00:00Z x", "2020-01-01T00:00:00Z - - - - - x"]
    {
        assert_eq!(wrong.parse::<Timestamp>(), Err(Error::NoMessage), "{wrong:?}");
    }
}

#[test]
fn names_and_numbers() {
    for (number, facility) in (0..).zip(Facility::ALL) {
        assert_eq!((u8::from(*facility), Facility::try_from(number)), (number, Ok(*facility)));
        assert_eq!(facility.to_string().parse(), Ok(*facility));
    }
    for (number, severity) in (0..).zip(Severity::ALL) {
        assert_eq!((u8::from(*severity), Severity::try_from(number)), (number, Ok(*severity)));
        assert_eq!(severity.to_string().parse(), Ok(*severity));
    }
    assert_eq!((Facility::ALL.len(), Severity::ALL.len()), (24, 8));
    assert_eq!((Facility::Local7.as_str(), Severity::Err.as_str()), ("local7", "err"));
    assert_eq!((Facility::try_from(24), Severity::try_from(8)), (Err(NoSuchName), Err(NoSuchName)));
    assert_eq!("AUTH".parse::<Facility>(), Err(NoSuchName));
    assert_eq!(
        ["either", "3164", "5424"].map(|it| it.parse()),
        [Ok(Variant::Either), Ok(Variant::Rfc3164), Ok(Variant::Rfc5424)]
    );
    assert_eq!(
        (ProcId::from("+5"), ProcId::from("-"), ProcId::from("7").to_string()),
        (ProcId::Number(5), ProcId::Name("-"), "7".into())
    );
}

#[test]
fn messages_print_as_the_library_prints_them() {
    let by_protocols = Options { dialects: false, ..IN_2026 };
    for line in [
        LINE,
        DECEMBER,
        "1 - - - - - -",
        "<200>1 - - - - - [id ][a b=\"x]y\"]z",
        "- h a: [a b=\"c\"] x",
        "<34>Oct 11 22:14:15 host [323]: hi",
        "<34>Oct 11 22:14:15 -: hi",
        "-",
        "<34>1 2020-01-01T00:00:00.25-00:30 h a name m - x",
    ] {
        let m = parse(line, &by_protocols).unwrap();
        let printed = normalise(line, &by_protocols).unwrap();
        assert_eq!(m.to_string(), printed);
        let owned = OwnedMessage::parse(line, &by_protocols).unwrap();
        assert_eq!((owned.to_string(), &owned), (printed.clone(), &m.into()));
    }
    assert_eq!((is_canonical(LINE, &IN_2026), is_canonical("<34>- zork:: hi", &IN_2026)), (Ok(true), Ok(false)));
    assert_eq!(is_canonical("gobbledegook", &IN_2026), Err(Error::NoMessage));
}

#[test]
fn the_lines_of_a_reader() {
    let given = b"<34>Mar  2 06:35:05 h a: x\n\xff\n<34>Mar  2 06:35:05 h b: y";
    let read: Vec<_> = lines(&given[..], &IN_2026).collect();
    assert_eq!(read[0].as_ref().unwrap().message, "x");
    assert!(matches!(&read[1], Err(LineError::Refused(line, Error::NotUtf8)) if line == b"\xff"));
    assert_eq!(read[2].as_ref().unwrap().appname.as_deref(), Some("b"));
    assert_eq!(read.len(), 3);
}

#[test]
fn bytes_that_are_not_utf8() {
    let line = b"1 - h\xe9 a - - - caf\xe9 \xe2\x82 x";
    assert_eq!(decode(line, Decoding::Replace), Ok(String::from_utf8_lossy(line)));
    assert_eq!(decode(line, Decoding::Latin1).unwrap(), line.iter().map(|it| char::from(*it)).collect::<String>());
    for decoding in [Decoding::Replace, Decoding::Latin1] {
        assert!(matches!(decode(LINE.as_bytes(), decoding), Ok(Cow::Borrowed(LINE))));
        assert_eq!(decode(b"\xff".repeat(100_000).as_slice(), decoding).unwrap().chars().count(), 100_000);
    }
    let given = [&line[..], b"\xff", b"1 - h b - - - y"].join(&b'\n');
    let read: Vec<_> = lines(&given[..], &IN_2026).decoding(Decoding::Latin1).collect();
    assert_eq!(read[0].as_ref().unwrap().hostname.as_deref(), Some("h\u{e9}"));
    assert!(matches!(&read[1], Err(LineError::Refused(line, Error::NoMessage)) if line == b"\xff"));
    assert_eq!(read[2].as_ref().unwrap().appname.as_deref(), Some("b"));
    let replaced = lines(&given[..], &IN_2026).decoding(Decoding::Replace).next();
    assert_eq!(replaced.unwrap().unwrap().message, "caf\u{fffd} \u{fffd} x");
}

#[test]
fn the_default_is_now() {
    let at = |seconds| Options::at(SystemTime::UNIX_EPOCH + Duration::from_secs(seconds));
    assert_eq!(at(1_577_836_799), Options { month: Some(12), ..Options::in_year(2019) });
    assert_eq!(at(1_577_836_800), Options { month: Some(1), ..Options::in_year(2020) });
    assert!(Options::default().year >= 2025);
}

#[cfg(feature = "serde")]
#[test]
fn by_serde() {
    for line in [LINE, DECEMBER, SWITCH, "1 - - - - - -"] {
        let m = parse(line, &IN_2026).unwrap();
        let text = serde_json::to_string(&m).unwrap();
        assert_eq!(serde_json::from_str::<OwnedMessage>(&text).unwrap(), m.to_owned());
    }
    assert_eq!(serde_json::to_string(&(Facility::Auth, ProcId::Number::<&str>(7))).unwrap(), r#"["auth",7]"#);
}

#[cfg(feature = "chrono")]
#[test]
fn by_chrono() {
    let at = parse(LINE, &IN_2026).unwrap().timestamp.unwrap();
    let shown = at.to_chrono().unwrap();
    assert_eq!((shown.timestamp(), shown.timestamp_subsec_nanos()), (at.seconds, at.nanoseconds));
    assert_eq!(shown.offset().local_minus_utc(), at.offset);
    assert_eq!(stamp(0, 0, 93_599).to_chrono(), None);
}

#[test]
fn printed_and_settled() {
    let line = "<34>Oct 11 22:14:15 mymachine app[323]: - - - a message";
    let rest = |text: &str| format!("<34> 2026-10-11T22:14:15+00:00 mymachine app[323]: {text}");
    assert_eq!(normalise(line, &IN_2026), Ok(rest("- - a message")));
    assert_eq!(settle(line, &IN_2026), Ok(rest("a message")));
    assert_eq!(normalise(LINE, &IN_2026).as_deref(), Ok(LINE));
    let long = format!("1 - - - - - - {}", "ü".repeat(100_000));
    assert_eq!(settle(&long, &IN_2026), Ok(format!("<47>{long}")));
    assert_eq!(parse(&long, &IN_2026).unwrap().message.len(), 200_000);
}

#[test]
fn converted() {
    let strict = "<13>1 2026-10-11T22:14:15+01:00 h app 323 - - größe";
    let ahead = Options { offset: 3_600, ..IN_2026 };
    assert_eq!(to_rfc5424("Oct 11 22:14:15 h app[323]: größe", &ahead).as_deref(), Ok(strict));
    assert_eq!(to_rfc5424(strict, &IN_2026).as_deref(), Ok(strict));
    let by_dialect =
        "<187>1 2026-03-01T18:48:50.483+00:00 core-sw1 %LINK-3-UPDOWN - - - Interface changed state to down";
    assert_eq!(to_rfc5424(SWITCH, &IN_2026).as_deref(), Ok(by_dialect));
    for options in [Options { dialects: false, ..IN_2026 }, Options { variant: Variant::Rfc3164, ..IN_2026 }] {
        assert_eq!(to_rfc5424(SWITCH, &options), Err(Error::NoMessage));
    }
    let line = r#"<34>1 - h a - - [e b="\]" b="2"] x"#;
    let object = concat!(
        r#"{"protocol":"RFC5424","version":1,"facility":"auth","facility_code":4,"severity":"crit","severity_code":2,"#,
        r#""hostname":"h","appname":"a","structured_data":{"e":{"b":["]","2"]}},"message":"x"}"#
    );
    assert_eq!(json(line, &IN_2026, false).as_deref(), Ok(object));
    let with_line = json(line, &IN_2026, true).unwrap();
    assert!(with_line.starts_with(object.trim_end_matches('}')) && with_line.contains(r#","raw":"<34>1"#));
    let tabs = "\t".repeat(10_000);
    assert_eq!(json(&format!("1 - - - - - - x{tabs}y"), &IN_2026, false).unwrap().matches(r"\t").count(), 10_000);
}

#[test]
fn refusals() {
    let in_2026 = |line: &[u8]| {
        let of = &IN_2026;
        let texts = [normalise(line, of), settle(line, of), to_rfc5424(line, of), json(line, of, true)];
        (parse(line, of).err(), texts.map(Result::err))
    };
    assert_eq!(in_2026(b"gobbledegook"), (Some(Error::NoMessage), [Some(Error::NoMessage); 4]));
    assert_eq!(in_2026(b""), (Some(Error::NoMessage), [Some(Error::NoMessage); 4]));
    assert_eq!(in_2026(b"1 - - - - - - gr\xfc\xdf"), (Some(Error::NotUtf8), [Some(Error::NotUtf8); 4]));
    let zone = "CET-1".parse().ok();
    for wrong in [
        Options::in_year(10_000),
        Options { month: Some(13), ..IN_2026 },
        Options { offset: 93_600, ..IN_2026 },
        Options { day: Some(1), ..IN_2026 },
        Options { month: Some(2), day: Some(29), ..IN_2026 },
        Options { offset: 3_600, zone, ..IN_2026 },
    ] {
        assert_eq!(parse(LINE, &wrong), Err(Error::BadArgument));
        assert_eq!(settle(LINE, &wrong), Err(Error::BadArgument));
        assert_eq!(to_rfc5424(LINE, &wrong), Err(Error::BadArgument));
        assert_eq!(json(LINE, &wrong, false), Err(Error::BadArgument));
    }
    assert_eq!(parse(DECEMBER, &Options { variant: Variant::Rfc5424, ..IN_2026 }), Err(Error::NoMessage));
    assert!(parse(DECEMBER, &Options { variant: Variant::Rfc3164, ..IN_2026 }).is_ok());
    assert_eq!(Error::NoMessage.to_string(), "the line is no message");
}

#[test]
fn threads() {
    let work = |number: i32| {
        for i in 0..2_000 {
            let line = format!("<34>Mar  2 06:35:05 host{number} a[{i}]: x");
            let m = parse(&line, &IN_2026).unwrap();
            assert_eq!((m.hostname, m.procid), (Some(&*format!("host{number}")), Some(ProcId::Number(i))));
        }
    };
    thread::scope(|scope| {
        for number in 0..4 {
            scope.spawn(move || work(number));
        }
    });
}

#[test]
fn the_version_is_the_crates() {
    let parts = [env!("CARGO_PKG_VERSION_MAJOR"), env!("CARGO_PKG_VERSION_MINOR"), env!("CARGO_PKG_VERSION_PATCH")];
    let number = parts.iter().fold(0, |number, it| number * 1_000 + it.parse::<u32>().unwrap());
    assert_eq!(version(), number);
}
