use crate::{ProcId, StructuredElement, SyslogFacility, SyslogSeverity};
use chrono::{DateTime, FixedOffset};
use std::fmt;

/// The protocol by which a line was read.
#[derive(Clone, Debug, PartialEq, Eq)]
pub enum Protocol {
    /// RFC 3164.
    RFC3164,
    /// RFC 5424, with its version.
    RFC5424(u32),
}

/// A message.
#[derive(Clone, Debug)]
pub struct Message<S: AsRef<str> + Ord + PartialEq + Clone> {
    /// The protocol by which the line was read.
    pub protocol: Protocol,
    /// The facility: which part of a system the message comes from.
    pub facility: Option<SyslogFacility>,
    /// The severity: how urgent the message is.
    pub severity: Option<SyslogSeverity>,
    /// When the message was written, as the line shows it.
    pub timestamp: Option<DateTime<FixedOffset>>,
    /// The host that the message comes from.
    pub hostname: Option<S>,
    /// The program that wrote the message.
    pub appname: Option<S>,
    /// The process id of that program: a number, or any other text.
    pub procid: Option<ProcId<S>>,
    /// The message id: the sender gives the same one to messages of one kind. Only RFC 5424 has it.
    pub msgid: Option<S>,
    /// The elements of structured data, in order.
    pub structured_data: Vec<StructuredElement<S>>,
    /// The text of the message: what follows the header and the structured data.
    pub msg: S,
}

impl<'a> Message<&'a str> {
    // What was read of a line, with this timestamp. (Where it is no call, the message is made where it is used.)
    #[inline(always)]
    pub(crate) fn of(parts: &libsyslog_loose::Parts<'a, '_>, timestamp: Option<DateTime<FixedOffset>>) -> Self {
        Message {
            protocol: match parts.protocol() {
                libsyslog_loose::Protocol::Rfc3164 => Protocol::RFC3164,
                libsyslog_loose::Protocol::Rfc5424(version) => Protocol::RFC5424(version),
            },
            facility: parts.facility().map(SyslogFacility::from),
            severity: parts.severity().map(SyslogSeverity::from),
            timestamp,
            hostname: parts.hostname(),
            appname: parts.appname(),
            procid: parts.procid().map(ProcId::from),
            msgid: parts.msgid(),
            structured_data: parts.elements().map(StructuredElement::from).collect(),
            msg: parts.message(),
        }
    }

    // What stands for a line that is no message.
    pub(crate) fn whole(line: &'a str) -> Self {
        Message {
            protocol: Protocol::RFC3164,
            facility: None,
            severity: None,
            timestamp: None,
            hostname: None,
            appname: None,
            procid: None,
            msgid: None,
            structured_data: Vec::new(),
            msg: line,
        }
    }
}

impl From<Message<&str>> for Message<String> {
    fn from(it: Message<&str>) -> Self {
        let text = |it: Option<&str>| it.map(str::to_string);
        Message {
            protocol: it.protocol,
            facility: it.facility,
            severity: it.severity,
            timestamp: it.timestamp,
            hostname: text(it.hostname),
            appname: text(it.appname),
            procid: it.procid.map(ProcId::from),
            msgid: text(it.msgid),
            structured_data: it.structured_data.into_iter().map(StructuredElement::from).collect(),
            msg: it.msg.to_string(),
        }
    }
}

/// Messages are equal if all of their fields are, but for the protocol.
impl<S: AsRef<str> + Ord + PartialEq + Clone> PartialEq for Message<S> {
    fn eq(&self, other: &Self) -> bool {
        (self.facility, self.severity, self.timestamp) == (other.facility, other.severity, other.timestamp)
            && self.hostname == other.hostname
            && self.appname == other.appname
            && self.procid == other.procid
            && self.msgid == other.msgid
            && self.structured_data == other.structured_data
            && self.msg == other.msg
    }
}

// A text, or `-` where it is absent.
fn or_dash<S: AsRef<str>>(text: &Option<S>) -> &str {
    text.as_ref().map_or("-", S::as_ref)
}

impl<S: AsRef<str> + Ord + PartialEq + Clone> Message<S> {
    fn write_names(&self, f: &mut fmt::Formatter<'_>) -> fmt::Result {
        if self.protocol != Protocol::RFC3164 {
            write!(f, "{} ", or_dash(&self.appname))?;
            match &self.procid {
                Some(process) => write!(f, "{process} ")?,
                None => f.write_str("- ")?,
            }
            return write!(f, "{} ", or_dash(&self.msgid));
        }
        match (&self.appname, &self.procid) {
            (Some(app), Some(process)) => write!(f, "{}[{process}]: ", app.as_ref()),
            (Some(app), None) => write!(f, "{}: ", app.as_ref()),
            (None, _) => f.write_str(": "),
        }
    }
}

impl<S: AsRef<str> + Ord + PartialEq + Clone> fmt::Display for Message<S> {
    fn fmt(&self, f: &mut fmt::Formatter<'_>) -> fmt::Result {
        let facility = self.facility.unwrap_or(SyslogFacility::LOG_SYSLOG);
        let severity = self.severity.unwrap_or(SyslogSeverity::SEV_DEBUG);
        write!(f, "<{}>", facility as u8 * 8 + severity as u8)?;
        if let Protocol::RFC5424(version) = self.protocol {
            write!(f, "{version}")?;
        }
        match self.timestamp {
            Some(at) => write!(f, " {} ", at.to_rfc3339())?,
            None => f.write_str(" - ")?,
        }
        write!(f, "{} ", or_dash(&self.hostname))?;
        self.write_names(f)?;
        for element in &self.structured_data {
            write!(f, "{element}")?;
        }
        match (self.structured_data.is_empty(), &self.protocol) {
            (false, _) => f.write_str(" ")?,
            (true, Protocol::RFC5424(_)) => f.write_str("- ")?,
            (true, Protocol::RFC3164) => {}
        }
        f.write_str(self.msg.as_ref())
    }
}
