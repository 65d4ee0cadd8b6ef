//! What `syslog_loose.h` declares, word by word, and a clock of the system.
use std::ptr::NonNull;
use std::{slice, str};

/// How many bytes there are for the rule of a zone, with a zero byte after it.
pub const ZONE: usize = 96;

#[repr(C)]
pub struct Options {
    pub variant: u32,
    pub year: i32,
    pub month: u32,
    pub offset: i32,
    pub no_dialects: u32,
    pub day: u32,
    pub zone: [u8; ZONE],
}

/// A piece of the line, in UTF-8, or the library's id of a dialect's element.
#[repr(C)]
#[derive(Clone, Copy)]
pub struct Text {
    pub start: *const u8,
    pub length: usize,
    pub present: u32,
}

#[repr(C)]
pub struct Timestamp {
    pub seconds: i64,
    pub nanoseconds: i32,
    pub offset: i32,
    pub present: u32,
    pub shows_year: u32,
    pub shows_offset: u32,
}

#[repr(C)]
pub struct Process {
    pub name: Text,
    pub number: i32,
    pub is_number: u32,
}

#[repr(C)]
pub struct Message {
    pub protocol: u32,
    pub version: u32,
    pub facility: i32,
    pub severity: i32,
    pub timestamp: Timestamp,
    pub host: Text,
    pub app: Text,
    pub process: Process,
    pub msgid: Text,
    pub msg: Text,
    pub elements: usize,
    pub params: usize,
    pub dialect: u32,
    pub unparsed: Text,
}

#[repr(C)]
#[derive(Clone, Copy)]
pub struct Element {
    pub id: Text,
    pub params: usize,
}

#[repr(C)]
#[derive(Clone, Copy)]
pub struct Param {
    pub name: Text,
    pub value: Text,
}

impl Text {
    pub const NONE: Text = Text { start: NonNull::dangling().as_ptr(), length: 0, present: 0 };

    /// Returns the text itself.
    ///
    /// # Safety
    ///
    /// The library has set it, or it is `NONE`, and its bytes are unchanged for 'a.
    pub unsafe fn as_str<'a>(&self) -> &'a str {
        // SAFETY: the library sets no text but in UTF-8. An absent one is empty, and its start is not null.
        unsafe { str::from_utf8_unchecked(slice::from_raw_parts(self.start, self.length)) }
    }
}

impl Element {
    pub const NONE: Element = Element { id: Text::NONE, params: 0 };
}

impl Param {
    pub const NONE: Param = Param { name: Text::NONE, value: Text::NONE };
}

impl Message {
    pub const NONE: Message = Message {
        protocol: 0,
        version: 0,
        facility: 0,
        severity: 0,
        timestamp: Timestamp { seconds: 0, nanoseconds: 0, offset: 0, present: 0, shows_year: 0, shows_offset: 0 },
        host: Text::NONE,
        app: Text::NONE,
        process: Process { name: Text::NONE, number: 0, is_number: 0 },
        msgid: Text::NONE,
        msg: Text::NONE,
        elements: 0,
        params: 0,
        dialect: 0,
        unparsed: Text::NONE,
    };
}

/// A time, as `struct timespec` of Linux on x86-64.
#[repr(C)]
pub struct Time {
    pub seconds: i64,
    pub nanoseconds: i64,
}

/// Linux's clock that counts from the start of the machine, as of the last tick.
pub const CLOCK_MONOTONIC_COARSE: i32 = 6;

pub const DONE: u32 = 0;
pub const NO_READING: u32 = 1;
pub const NOT_UTF8: u32 = 2;
pub const NO_MEMORY: u32 = 3;
pub const NO_ROOM: u32 = 4;
pub const BAD_ARGUMENT: u32 = 5;

/// A call that writes a text for a line into a buffer.
pub type Writer = unsafe extern "C" fn(*const u8, usize, *const Options, *mut u8, usize, *mut usize) -> u32;

extern "C" {
    pub fn syslog_version() -> u32;
    pub fn syslog_read_utf8(
        line: *const u8,
        length: usize,
        options: *const Options,
        message: *mut Message,
        elements: *mut Element,
        element_room: usize,
        params: *mut Param,
        param_room: usize,
    ) -> u32;
    pub fn syslog_read_fields(line: *const u8, length: usize, options: *const Options, message: *mut Message) -> u32;
    pub fn syslog_is_canonical(line: *const u8, length: usize, options: *const Options, canonical: *mut u32) -> u32;
    pub fn syslog_normalise(
        line: *const u8,
        length: usize,
        options: *const Options,
        room: *mut u8,
        room_length: usize,
        needed: *mut usize,
    ) -> u32;
    pub fn syslog_settle(
        line: *const u8,
        length: usize,
        options: *const Options,
        room: *mut u8,
        room_length: usize,
        needed: *mut usize,
    ) -> u32;
    pub fn syslog_to_rfc5424(
        line: *const u8,
        length: usize,
        options: *const Options,
        room: *mut u8,
        room_length: usize,
        needed: *mut usize,
    ) -> u32;
    pub fn syslog_json(
        line: *const u8,
        length: usize,
        options: *const Options,
        raw: u32,
        room: *mut u8,
        room_length: usize,
        needed: *mut usize,
    ) -> u32;
    pub fn syslog_decode(
        bytes: *const u8,
        length: usize,
        latin1: u32,
        room: *mut u8,
        room_length: usize,
        needed: *mut usize,
    ) -> u32;
    pub fn syslog_unescape(
        value: *const u8,
        length: usize,
        room: *mut u8,
        room_length: usize,
        needed: *mut usize,
    ) -> u32;
    pub fn syslog_dialect_name(dialect: u32, name: *mut Text);

    // (of the system's library for C)
    pub fn clock_gettime(clock: i32, time: *mut Time) -> i32;
}
