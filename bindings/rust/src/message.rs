use crate::{unescape, Dialect, Facility, OwnedMessage, Parts, Severity, Timestamp};
use std::borrow::Cow;
use std::{fmt, iter, slice};

/// A message, whose texts are slices of the line.
#[derive(Clone, Debug, PartialEq, Eq, Hash)]
pub struct Message<'a> {
    /// The protocol by which the line was read.
    pub protocol: Protocol,
    /// The facility: which part of a system the message comes from.
    pub facility: Option<Facility>,
    /// The severity: how urgent the message is.
    pub severity: Option<Severity>,
    /// When the message was written, as the line shows it; none if it shows no date.
    pub timestamp: Option<Timestamp>,
    /// The host that the message comes from.
    pub hostname: Option<&'a str>,
    /// The program that wrote the message.
    pub appname: Option<&'a str>,
    /// The process id of that program: a number, or any other text.
    pub procid: Option<ProcId<&'a str>>,
    /// The message id: the sender gives the same one to messages of one kind. Only RFC 5424 has it.
    pub msgid: Option<&'a str>,
    /// The text of the message: what follows the header and the structured data.
    pub message: &'a str,
    /// The structured data from the first element on that is not strict; none if each is strict.
    pub unparsed_structured_data: Option<&'a str>,
    /// The dialect that the line was read in; none if it was read by a protocol.
    pub dialect: Option<Dialect>,
    // the id of each element, and how many parameters it has
    elements: Vec<(&'a str, usize)>,
    params: Vec<Param<'a>>,
}

/// The protocol by which a line was read.
#[derive(Clone, Copy, Debug, PartialEq, Eq, Hash)]
#[cfg_attr(feature = "serde", derive(serde::Serialize, serde::Deserialize))]
pub enum Protocol {
    /// RFC 3164.
    Rfc3164,
    /// RFC 5424, with its version.
    Rfc5424(u32),
}

/// A process id: a number, or any other text.
#[derive(Clone, Copy, Debug, PartialEq, Eq, PartialOrd, Ord, Hash)]
#[cfg_attr(feature = "serde", derive(serde::Serialize, serde::Deserialize), serde(untagged))]
pub enum ProcId<S> {
    /// A number.
    Number(i32),
    /// A text that is not a number of 32 bits.
    Name(S),
}

/// Converts a text to the number that it writes, or otherwise to a name.
impl<'a> From<&'a str> for ProcId<&'a str> {
    fn from(text: &'a str) -> ProcId<&'a str> {
        text.parse().map_or(ProcId::Name(text), ProcId::Number)
    }
}

impl<S: fmt::Display> fmt::Display for ProcId<S> {
    fn fmt(&self, f: &mut fmt::Formatter<'_>) -> fmt::Result {
        match self {
            ProcId::Number(number) => number.fmt(f),
            ProcId::Name(name) => name.fmt(f),
        }
    }
}

/// An element of structured data.
#[derive(Clone, Copy, Debug, PartialEq, Eq, Hash)]
pub struct Element<'m, 'a> {
    /// The id of the element.
    pub id: &'a str,
    params: &'m [Param<'a>],
}

/// A parameter of an element.
#[derive(Clone, Copy, Debug, PartialEq, Eq, Hash)]
pub struct Param<'a> {
    /// The name of the parameter.
    pub name: &'a str,
    /// The value of the parameter as in the line, with its escapes.
    pub raw: &'a str,
}

impl<'a> Param<'a> {
    /// Returns the value of the parameter without its escapes.
    pub fn value(&self) -> Cow<'a, str> {
        unescape(self.raw)
    }
}

impl<'m, 'a> Element<'m, 'a> {
    /// Returns the parameters of the element, in order.
    pub fn params(&self) -> Params<'m, 'a> {
        self.params.iter().copied()
    }
}

/// An iterator over the parameters of an element.
pub type Params<'m, 'a> = iter::Copied<slice::Iter<'m, Param<'a>>>;

/// An iterator over the elements of a message.
#[derive(Clone, Debug)]
pub struct Elements<'m, 'a> {
    elements: slice::Iter<'m, (&'a str, usize)>,
    params: &'m [Param<'a>],
}

impl<'m, 'a> Iterator for Elements<'m, 'a> {
    type Item = Element<'m, 'a>;

    fn next(&mut self) -> Option<Self::Item> {
        let &(id, count) = self.elements.next()?;
        let (params, rest) = self.params.split_at(count);
        self.params = rest;
        Some(Element { id, params })
    }

    fn size_hint(&self) -> (usize, Option<usize>) {
        self.elements.size_hint()
    }
}

impl ExactSizeIterator for Elements<'_, '_> {}

impl<'a> Message<'a> {
    /// Returns the elements of the structured data, in order.
    pub fn elements(&self) -> Elements<'_, 'a> {
        Elements { elements: self.elements.iter(), params: &self.params }
    }

    /// Returns the message with texts of its own, so that it can outlive the line.
    pub fn to_owned(&self) -> OwnedMessage {
        OwnedMessage::from(self)
    }

    pub(crate) fn of(parts: &Parts<'a, '_>) -> Message<'a> {
        Message {
            protocol: parts.protocol(),
            facility: parts.facility(),
            severity: parts.severity(),
            timestamp: parts.timestamp(),
            hostname: parts.hostname(),
            appname: parts.appname(),
            procid: parts.procid(),
            msgid: parts.msgid(),
            message: parts.message(),
            unparsed_structured_data: parts.unparsed_structured_data(),
            dialect: parts.dialect(),
            elements: parts.elements().map(|(id, params)| (id, params.len())).collect(),
            params: parts.params().collect(),
        }
    }
}

/// Writes the message in printed form, as `normalise` writes a line that is read as this message.
impl fmt::Display for Message<'_> {
    fn fmt(&self, f: &mut fmt::Formatter<'_>) -> fmt::Result {
        write_message(
            f,
            self.protocol,
            (self.facility, self.severity, self.timestamp),
            [self.hostname, self.appname, self.msgid],
            self.procid.as_ref(),
            self.elements().map(|it| (it.id, it.params().map(|it| (it.name, it.raw)))),
            self.message,
        )
    }
}

#[cfg(feature = "serde")]
impl serde::Serialize for Message<'_> {
    fn serialize<S: serde::Serializer>(&self, to: S) -> Result<S::Ok, S::Error> {
        self.to_owned().serialize(to)
    }
}

/// Writes a message in printed form. The names are the host, the app and the message id.
pub(crate) fn write_message<'s, P: Iterator<Item = (&'s str, &'s str)>>(
    f: &mut fmt::Formatter<'_>,
    protocol: Protocol,
    (facility, severity, timestamp): (Option<Facility>, Option<Severity>, Option<Timestamp>),
    [host, app, msgid]: [Option<&str>; 3],
    process: Option<&ProcId<impl fmt::Display>>,
    elements: impl Iterator<Item = (&'s str, P)>,
    message: &str,
) -> fmt::Result {
    let (facility, severity) = (facility.unwrap_or(Facility::Syslog), severity.unwrap_or(Severity::Debug));
    write!(f, "<{}>", u8::from(facility) * 8 + u8::from(severity))?;
    if let Protocol::Rfc5424(version) = protocol {
        write!(f, "{version}")?;
    }
    match timestamp {
        Some(at) => write!(f, " {at} ")?,
        None => f.write_str(" - ")?,
    }
    f.write_str(host.unwrap_or("-"))?;
    let is_strict = protocol != Protocol::Rfc3164;
    match (is_strict, app, process) {
        (true, _, Some(process)) => write!(f, " {} {process} {} ", app.unwrap_or("-"), msgid.unwrap_or("-"))?,
        (true, _, None) => write!(f, " {} - {} ", app.unwrap_or("-"), msgid.unwrap_or("-"))?,
        (false, Some(app), Some(process)) => write!(f, " {app}[{process}]: ")?,
        (false, _, _) => write!(f, " {}: ", app.unwrap_or(""))?,
    }
    let mut count = 0;
    for (id, params) in elements {
        write!(f, "[{id}")?;
        for (name, value) in params {
            write!(f, " {name}=\"{value}\"")?;
        }
        f.write_str("]")?;
        count += 1;
    }
    match count {
        0 if is_strict => f.write_str("- ")?,
        0 => {}
        _ => f.write_str(" ")?,
    }
    f.write_str(message)
}
