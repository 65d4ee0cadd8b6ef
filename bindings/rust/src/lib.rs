//! Reads, prints and converts syslog messages of RFC 5424, of the looser RFC 3164, and of senders that follow neither,
//! over the C library `libsyslog_loose`.
//!
//! ```
//! use libsyslog_loose::{parse, Options};
//!
//! let line = "<34>Mar  2 06:35:05 gateway dropbear[2310]: Exit (root)";
//! let message = parse(line, &Options::in_year(2026))?;
//! assert_eq!(message.hostname, Some("gateway"));
//! # Ok::<(), libsyslog_loose::Error>(())
//! ```
#![deny(unsafe_op_in_unsafe_fn, missing_docs)]

mod dialect;
mod lines;
mod message;
mod names;
mod owned;
mod parts;
mod raw;
mod timestamp;
mod zone;

pub use dialect::Dialect;
pub use lines::{lines, LineError, Lines};
pub use message::{Element, Elements, Message, Param, Params, ProcId, Protocol};
pub use names::{Facility, NoSuchName, Severity};
pub use owned::{OwnedElement, OwnedMessage, OwnedParam};
pub use parts::Parts;
pub use timestamp::Timestamp;
pub use zone::Zone;

use std::borrow::Cow;
use std::cell::RefCell;
use std::fmt;
use std::str::{from_utf8, FromStr};
use std::time::SystemTime;

/// The protocols by which a line may be read.
#[derive(Clone, Copy, Debug, Default, PartialEq, Eq, Hash)]
pub enum Variant {
    /// RFC 5424, and RFC 3164 if the line does not parse by that.
    #[default]
    Either,
    /// RFC 3164 alone.
    Rfc3164,
    /// RFC 5424 alone.
    Rfc5424,
}

/// Converts `either`, `3164` or `5424` to the variant that it names.
impl FromStr for Variant {
    type Err = NoSuchName;

    fn from_str(name: &str) -> Result<Variant, NoSuchName> {
        match name {
            "either" => Ok(Variant::Either),
            "3164" => Ok(Variant::Rfc3164),
            "5424" => Ok(Variant::Rfc5424),
            _ => Err(NoSuchName),
        }
    }
}

/// How a line is read. The default is either protocol or a dialect, in UTC, with the current year and month.
#[derive(Clone, Copy, Debug, PartialEq, Eq, Hash)]
pub struct Options {
    /// The protocols by which the line is read.
    pub variant: Variant,
    /// The year of dates that show none, from -9999 to 9999.
    pub year: i32,
    /// The current month, from 1 to 12: in January a date of December that shows no year is of the year before. Without
    /// it, all such dates are of `year`.
    pub month: Option<u8>,
    /// The current day of the month, from 1 to 31, which the calendar has: a date that shows no year is of the last
    /// year that puts it no more than a day past this day. Without it, `month` counts.
    pub day: Option<u8>,
    /// How many seconds dates that show no offset are ahead of UTC, from -93599 to 93599.
    pub offset: i32,
    /// The zone of dates that show no offset, beside which `offset` is 0. Without it, `offset` counts.
    pub zone: Option<Zone>,
    /// Whether a line is read in its sender's dialect, if it is in one, by `json`, by `to_rfc5424` and by the calls that
    /// parse a line. It counts only if the variant is `Either`. `normalise`, `settle` and `is_canonical` read each line
    /// by the protocols alone.
    pub dialects: bool,
}

impl Options {
    /// Returns options for either protocol or a dialect, in this year and in UTC.
    pub const fn in_year(year: i32) -> Options {
        Options { variant: Variant::Either, year, month: None, day: None, offset: 0, zone: None, dialects: true }
    }

    /// Returns options for either protocol or a dialect, in UTC, with the year and the month at this time.
    pub fn at(now: SystemTime) -> Options {
        let seconds = match now.duration_since(SystemTime::UNIX_EPOCH) {
            Ok(after) => after.as_secs() as i64,
            Err(before) => -(before.duration().as_secs() as i64),
        };
        let (year, month, _) = timestamp::date(seconds.div_euclid(86_400));
        Options { month: Some(month as u8), ..Options::in_year(year as i32) }
    }

    fn raw(&self) -> raw::Options {
        let variant = match self.variant {
            Variant::Either => 0,
            Variant::Rfc3164 => 3164,
            Variant::Rfc5424 => 5424,
        };
        raw::Options {
            variant,
            year: self.year,
            month: self.month.map_or(0, u32::from),
            offset: self.offset,
            no_dialects: u32::from(!self.dialects),
            day: self.day.map_or(0, u32::from),
            zone: self.zone.map_or([0; raw::ZONE], |zone| zone.raw()),
        }
    }
}

impl Default for Options {
    fn default() -> Options {
        Options::at(SystemTime::now())
    }
}

/// Why a call returns nothing.
#[derive(Clone, Copy, Debug, PartialEq, Eq)]
#[non_exhaustive]
pub enum Error {
    /// The line does not parse. For `settle` it may also be a text that is printed of the line that does not.
    NoMessage,
    /// The line is not UTF-8.
    NotUtf8,
    /// An allocation failed.
    NoMemory,
    /// The options mean nothing: the year, the month or the offset is out of range, the calendar does not have the day,
    /// or there are a zone and an offset. Of [`Zone`]: the text is no rule.
    BadArgument,
    /// The library returned an outcome that this crate doesn't know.
    Unknown(u32),
}

impl Error {
    fn of(outcome: u32) -> Error {
        match outcome {
            raw::NO_READING => Error::NoMessage,
            raw::NOT_UTF8 => Error::NotUtf8,
            raw::NO_MEMORY => Error::NoMemory,
            raw::BAD_ARGUMENT => Error::BadArgument,
            other => Error::Unknown(other),
        }
    }
}

impl fmt::Display for Error {
    fn fmt(&self, f: &mut fmt::Formatter<'_>) -> fmt::Result {
        match self {
            Error::NoMessage => f.write_str("the line is no message"),
            Error::NotUtf8 => f.write_str("the line is no UTF-8"),
            Error::NoMemory => f.write_str("an allocation failed"),
            Error::BadArgument => f.write_str("there is no such year, month, day, offset or zone"),
            Error::Unknown(outcome) => write!(f, "the library returned {outcome}"),
        }
    }
}

impl std::error::Error for Error {}

// Where the library puts what it reads of a line. Few lines have more elements, so no memory is needed but for what is
// made of them. (It is set once for each thread: for each line that would take as long as to read it.)
struct Rooms {
    message: raw::Message,
    elements: [raw::Element; 8],
    params: [raw::Param; 32],
}

impl Rooms {
    const EMPTY: Rooms =
        Rooms { message: raw::Message::NONE, elements: [raw::Element::NONE; 8], params: [raw::Param::NONE; 32] };
}

thread_local! {
    static ROOMS: RefCell<Rooms> = const { RefCell::new(Rooms::EMPTY) };
}

/// Returns the message of a line, whose texts are slices of it.
pub fn parse<'a, T: AsRef<[u8]> + ?Sized>(line: &'a T, options: &Options) -> Result<Message<'a>, Error> {
    parse_text(from_utf8(line.as_ref()).map_err(|_| Error::NotUtf8)?, options)
}

/// Returns the message of a line that is a `str`, as [`parse`] does, without checking again that it is UTF-8.
pub fn parse_text<'a>(line: &'a str, options: &Options) -> Result<Message<'a>, Error> {
    parse_into(line, options, |parts| Message::of(&parts))
}

/// Returns what `make` makes of a line: an object of the caller's own, without a [`Message`] between. Only `make`
/// allocates, and this call for a line of more than 8 elements or 32 parameters.
#[inline]
pub fn parse_into<'a, R>(line: &'a str, options: &Options, make: impl FnOnce(Parts<'a, '_>) -> R) -> Result<R, Error> {
    ROOMS.with(|rooms| {
        let (mut shared, mut own) = (rooms.try_borrow_mut(), None);
        let rooms: &mut Rooms = match &mut shared {
            Ok(rooms) => rooms,
            // (`make` of another line parses this one)
            Err(_) => own.insert(Box::new(Rooms::EMPTY)).as_mut(),
        };
        parse_in(line, options, rooms, make)
    })
}

// (Only one place calls `make`, so that it is compiled into this function, and what it returns is not copied.)
#[inline]
fn parse_in<'a, R>(
    line: &'a str,
    options: &Options,
    rooms: &mut Rooms,
    make: impl FnOnce(Parts<'a, '_>) -> R,
) -> Result<R, Error> {
    let mut outcome = read(line, options, &mut rooms.message, &mut rooms.elements, &mut rooms.params);
    let (mut elements, mut params) = (&rooms.elements[..], &rooms.params[..]);
    let many;
    if outcome == raw::NO_ROOM {
        many = read_many(line, options, &mut rooms.message);
        (outcome, elements, params) = (many.0, &many.1, &many.2);
    }
    match outcome {
        // SAFETY: the library has read these of the line, and all of them fitted.
        raw::DONE => Ok(make(unsafe { Parts::of(line, &rooms.message, elements, params) })),
        outcome => Err(Error::of(outcome)),
    }
}

/// Reads a line that has more elements or parameters than `Rooms` has places for: as many as the message says.
#[cold]
fn read_many(line: &str, options: &Options, message: &mut raw::Message) -> (u32, Vec<raw::Element>, Vec<raw::Param>) {
    let (mut elements, mut params) =
        (vec![raw::Element::NONE; message.elements], vec![raw::Param::NONE; message.params]);
    (read(line, options, message, &mut elements, &mut params), elements, params)
}

/// Returns the message of a line without its structured data. Its texts are slices of the line, and nothing is
/// allocated.
pub fn parse_fields<'a, T: AsRef<[u8]> + ?Sized>(line: &'a T, options: &Options) -> Result<Message<'a>, Error> {
    let line = from_utf8(line.as_ref()).map_err(|_| Error::NotUtf8)?;
    let (options, mut message) = (options.raw(), raw::Message::NONE);
    // SAFETY: each pointer comes from a reference, as in `read`.
    match unsafe { raw::syslog_read_fields(line.as_ptr(), line.len(), &options, &mut message) } {
        raw::DONE => {
            (message.elements, message.params) = (0, 0);
            // SAFETY: the library has read these of the line.
            Ok(Message::of(&unsafe { Parts::of(line, &message, &[], &[]) }))
        }
        outcome => Err(Error::of(outcome)),
    }
}

fn read(
    line: &str,
    options: &Options,
    message: &mut raw::Message,
    elements: &mut [raw::Element],
    params: &mut [raw::Param],
) -> u32 {
    let options = options.raw();
    // SAFETY: each pointer comes from a reference, with the length of its slice, so it isn't null; what is written to
    // overlaps nothing else, and is set. The library keeps none of them. A `str` is UTF-8.
    unsafe {
        raw::syslog_read_utf8(
            line.as_ptr(),
            line.len(),
            &options,
            message,
            elements.as_mut_ptr(),
            elements.len(),
            params.as_mut_ptr(),
            params.len(),
        )
    }
}

/// How bytes that are not UTF-8 are decoded.
#[derive(Clone, Copy, Debug, PartialEq, Eq, Hash)]
pub enum Decoding {
    /// U+FFFD replaces each part that is not UTF-8: the front of a character that is cut, as far as it goes, or one
    /// byte.
    Replace,
    /// Each byte is a character of ISO 8859-1, so that nothing is lost.
    Latin1,
}

/// Returns a line as UTF-8, for the other calls: as it is if it is UTF-8, and otherwise decoded. The programs
/// `syslog_json` and `syslog_5424` decode lines so.
pub fn decode(line: &[u8], decoding: Decoding) -> Result<Cow<'_, str>, Error> {
    if let Ok(text) = from_utf8(line) {
        return Ok(Cow::Borrowed(text));
    }
    let latin1 = u32::from(decoding == Decoding::Latin1);
    // SAFETY: the pointers and lengths are those of the line and of the buffer, as in `read`.
    let text = filled(2 * line.len(), |room, needed| unsafe {
        raw::syslog_decode(line.as_ptr(), line.len(), latin1, room.as_mut_ptr(), room.len(), needed)
    });
    text.map(Cow::Owned)
}

/// Returns the line in printed form.
pub fn normalise<T: AsRef<[u8]> + ?Sized>(line: &T, options: &Options) -> Result<String, Error> {
    printed(raw::syslog_normalise, line.as_ref(), options)
}

/// Returns the stable printed form of the line: it is printed again and again until it no longer changes.
pub fn settle<T: AsRef<[u8]> + ?Sized>(line: &T, options: &Options) -> Result<String, Error> {
    printed(raw::syslog_settle, line.as_ref(), options)
}

fn printed(call: raw::Writer, line: &[u8], options: &Options) -> Result<String, Error> {
    let options = options.raw();
    // SAFETY: the pointers and lengths are those of the line and of the buffer, as in `read`.
    filled(line.len() + 64, |room, needed| unsafe {
        call(line.as_ptr(), line.len(), &options, room.as_mut_ptr(), room.len(), needed)
    })
}

/// Returns the line as strict RFC 5424, as `syslog_5424` writes it: unchanged if it is in the RFC's grammar, and
/// otherwise its message, converted.
pub fn to_rfc5424<T: AsRef<[u8]> + ?Sized>(line: &T, options: &Options) -> Result<String, Error> {
    printed(raw::syslog_to_rfc5424, line.as_ref(), options)
}

/// Returns the message of a line as the text of one JSON object, as `syslog_json` writes it. If `raw` is true, the
/// object has the line too.
pub fn json<T: AsRef<[u8]> + ?Sized>(line: &T, options: &Options, raw: bool) -> Result<String, Error> {
    let (line, options) = (line.as_ref(), options.raw());
    // SAFETY: the pointers and lengths are those of the line and of the buffer, as in `read`.
    filled(2 * line.len() + 256, |room, needed| unsafe {
        let (start, length) = (room.as_mut_ptr(), room.len());
        raw::syslog_json(line.as_ptr(), line.len(), &options, u32::from(raw), start, length, needed)
    })
}

/// Returns whether the message of a line is read back from its printed form as that very message.
pub fn is_canonical<T: AsRef<[u8]> + ?Sized>(line: &T, options: &Options) -> Result<bool, Error> {
    let (line, options, mut canonical) = (line.as_ref(), options.raw(), 0);
    // SAFETY: the pointers and lengths are those of the line and of the number, as in `read`.
    match unsafe { raw::syslog_is_canonical(line.as_ptr(), line.len(), &options, &mut canonical) } {
        raw::DONE => Ok(canonical == 1),
        outcome => Err(Error::of(outcome)),
    }
}

/// Returns the value of a parameter, as [`Param::raw`] has it, without its escapes.
pub fn unescape(value: &str) -> Cow<'_, str> {
    if !value.contains('\\') {
        return Cow::Borrowed(value);
    }
    // SAFETY: the pointers and lengths are those of the value and of the buffer, as in `read`.
    let unescaped = filled(value.len(), |room, needed| unsafe {
        raw::syslog_unescape(value.as_ptr(), value.len(), room.as_mut_ptr(), room.len(), needed)
    });
    // (the value is UTF-8, and the text is no longer: only memory can be refused)
    Cow::Owned(unescaped.expect("memory for a value without its escapes"))
}

/// Returns the text that a call writes into a buffer: of this size at first, and then of the size that it needs.
fn filled(size: usize, call: impl Fn(&mut [u8], &mut usize) -> u32) -> Result<String, Error> {
    let (mut room, mut needed) = (vec![0; size], 0);
    let mut outcome = call(&mut room, &mut needed);
    if outcome == raw::NO_ROOM {
        room.resize(needed, 0);
        outcome = call(&mut room, &mut needed);
    }
    if outcome != raw::DONE {
        return Err(Error::of(outcome));
    }
    room.truncate(needed);
    String::from_utf8(room).map_err(|_| Error::NotUtf8)
}

/// Returns the version of the library: 1,000,000 times the major version, plus 1,000 times the minor one, plus the
/// patch.
pub fn version() -> u32 {
    // SAFETY: the call takes nothing and changes nothing.
    unsafe { raw::syslog_version() }
}

/// Returns the seconds since the machine was started, as of the last tick of its clock. `Instant::now` takes longer,
/// since it reads a counter of the processor. (`syslog_loose` asks for each line, and has no unsafe code.)
#[doc(hidden)]
pub fn seconds_of_uptime() -> i64 {
    let mut now = raw::Time { seconds: 0, nanoseconds: 0 };
    // SAFETY: the pointer comes from a reference, and nothing keeps it.
    unsafe { raw::clock_gettime(raw::CLOCK_MONOTONIC_COARSE, &mut now) };
    now.seconds
}
