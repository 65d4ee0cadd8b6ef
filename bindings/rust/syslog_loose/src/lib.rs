//! The interface of the crate `syslog_loose` 0.23 over the C library `libsyslog_loose`.
//!
//! ```
//! use syslog_loose::{parse_message_with_year, ProcId, Variant};
//!
//! let line = "<34>Mar  2 06:35:05 gateway dropbear[2310]: Exit (root)";
//! let message = parse_message_with_year(line, |_| 2026, Variant::Either);
//! assert_eq!(message.procid, Some(ProcId::PID(2310)));
//! ```
#![forbid(unsafe_code)]
#![deny(missing_docs)]

mod local;
mod message;
mod pri;
mod procid;
mod structured_data;
mod timestamp;

pub use message::{Message, Protocol};
pub use pri::{decompose_pri, SyslogFacility, SyslogSeverity};
pub use procid::ProcId;
pub use structured_data::{ParamsIter, StructuredElement};
pub use timestamp::IncompleteDate;

use chrono::{Datelike, Local, TimeZone};

/// The protocols by which a line is read.
#[derive(Clone, Copy, Debug)]
pub enum Variant {
    /// RFC 5424, and RFC 3164 if the line does not parse by that.
    Either,
    /// RFC 3164 alone.
    RFC3164,
    /// RFC 5424 alone.
    RFC5424,
}

/// Returns the message of a line. A date that shows no year is of the current year, and one that shows no offset is in
/// the local zone.
///
/// For a line that does not parse it returns a message of RFC 3164 whose `msg` is the whole line.
pub fn parse_message(input: &str, variant: Variant) -> Message<&str> {
    parse_message_with_year(input, |_| Local::now().year(), variant)
}

/// Returns the message of a line, as [`parse_message`] does, with the year that the closure gives for a date that shows
/// none.
pub fn parse_message_with_year<F>(input: &str, get_year: F, variant: Variant) -> Message<&str>
where
    F: FnOnce(IncompleteDate) -> i32,
{
    parse_message_with_year_tz::<F, Local>(input, get_year, None, variant)
}

/// Returns the message of a line, as [`parse_message_with_year`] does. Dates that show no offset are in `tz`, or in the
/// local zone if that is `None`.
pub fn parse_message_with_year_tz<F, Tz>(input: &str, get_year: F, tz: Option<Tz>, variant: Variant) -> Message<&str>
where
    F: FnOnce(IncompleteDate) -> i32,
    Tz: TimeZone,
{
    parse_message_with_year_exact_tz(input, get_year, tz, variant).unwrap_or_else(|_| Message::whole(input))
}

/// Returns the message of a line, as [`parse_message_with_year`] does, and an error if the line does not parse.
pub fn parse_message_with_year_exact<F>(input: &str, get_year: F, variant: Variant) -> Result<Message<&str>, String>
where
    F: FnOnce(IncompleteDate) -> i32,
{
    parse_message_with_year_exact_tz::<F, Local>(input, get_year, None, variant)
}

/// Returns the message of a line, as [`parse_message_with_year_tz`] does, and an error if the line does not parse.
pub fn parse_message_with_year_exact_tz<F, Tz>(
    input: &str,
    get_year: F,
    tz: Option<Tz>,
    variant: Variant,
) -> Result<Message<&str>, String>
where
    F: FnOnce(IncompleteDate) -> i32,
    Tz: TimeZone,
{
    read(input, get_year, tz, variant).ok_or_else(|| "unable to parse input as valid syslog message".to_string())
}

fn read<F, Tz>(input: &str, get_year: F, tz: Option<Tz>, variant: Variant) -> Option<Message<&str>>
where
    F: FnOnce(IncompleteDate) -> i32,
    Tz: TimeZone,
{
    let variant = match variant {
        Variant::Either => libsyslog_loose::Variant::Either,
        Variant::RFC3164 => libsyslog_loose::Variant::Rfc3164,
        Variant::RFC5424 => libsyslog_loose::Variant::Rfc5424,
    };
    let in_year = libsyslog_loose::Options::in_year(timestamp::LEAP_YEAR);
    let options = libsyslog_loose::Options { variant, dialects: false, ..in_year };
    let made = libsyslog_loose::parse_into(input, &options, |parts| {
        let timestamp = match parts.timestamp() {
            Some(shown) => Some(timestamp::dated(shown, get_year, tz)?),
            None => None,
        };
        Some(Message::of(&parts, timestamp))
    });
    made.ok().flatten()
}
