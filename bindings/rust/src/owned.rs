use crate::message::write_message;
use crate::{parse, unescape, Dialect, Error, Facility, Message, Options, ProcId, Protocol, Severity, Timestamp};
use std::borrow::Cow;
use std::fmt;

/// A message that owns its texts.
#[derive(Clone, Debug, PartialEq, Eq, Hash)]
#[cfg_attr(feature = "serde", derive(serde::Serialize, serde::Deserialize))]
pub struct OwnedMessage {
    /// The protocol by which the line was read.
    pub protocol: Protocol,
    /// The facility: which part of a system the message comes from.
    pub facility: Option<Facility>,
    /// When the message was written, as the line shows it; none if it shows no date.
    pub severity: Option<Severity>,
    /// When the message was written, as the line shows it.
    pub timestamp: Option<Timestamp>,
    /// The host that the message comes from.
    pub hostname: Option<String>,
    /// The program that wrote the message.
    pub appname: Option<String>,
    /// The process id of that program: a number, or any other text.
    pub procid: Option<ProcId<String>>,
    /// The message id: the sender gives the same one to messages of one kind. Only RFC 5424 has it.
    pub msgid: Option<String>,
    /// The elements of structured data, in order.
    pub structured_data: Vec<OwnedElement>,
    /// The text of the message: what follows the header and the structured data.
    pub message: String,
    /// The structured data from the first element on that is not strict; none if each is strict.
    #[cfg_attr(feature = "serde", serde(default))]
    pub unparsed_structured_data: Option<String>,
    /// The dialect that the line was read in; none if it was read by a protocol.
    #[cfg_attr(feature = "serde", serde(default))]
    pub dialect: Option<Dialect>,
}

/// An element of structured data.
#[derive(Clone, Debug, PartialEq, Eq, Hash)]
#[cfg_attr(feature = "serde", derive(serde::Serialize, serde::Deserialize))]
pub struct OwnedElement {
    /// The id of the element.
    pub id: String,
    /// The parameters of the element, in order.
    pub params: Vec<OwnedParam>,
}

/// A parameter of an element.
#[derive(Clone, Debug, PartialEq, Eq, Hash)]
#[cfg_attr(feature = "serde", derive(serde::Serialize, serde::Deserialize))]
pub struct OwnedParam {
    /// The name of the parameter.
    pub name: String,
    /// The value of the parameter as in the line, with its escapes.
    pub raw: String,
}

impl OwnedParam {
    /// Returns the value of the parameter without its escapes.
    pub fn value(&self) -> Cow<'_, str> {
        unescape(&self.raw)
    }
}

impl OwnedMessage {
    /// Returns the message of a line, with texts of its own.
    pub fn parse<T: AsRef<[u8]> + ?Sized>(line: &T, options: &Options) -> Result<OwnedMessage, Error> {
        Ok(parse(line, options)?.to_owned())
    }
}

impl From<&Message<'_>> for OwnedMessage {
    fn from(it: &Message<'_>) -> OwnedMessage {
        let text = |it: Option<&str>| it.map(str::to_string);
        OwnedMessage {
            protocol: it.protocol,
            facility: it.facility,
            severity: it.severity,
            timestamp: it.timestamp,
            hostname: text(it.hostname),
            appname: text(it.appname),
            procid: it.procid.map(|it| match it {
                ProcId::Number(number) => ProcId::Number(number),
                ProcId::Name(name) => ProcId::Name(name.to_string()),
            }),
            msgid: text(it.msgid),
            structured_data: it.elements().map(OwnedElement::from).collect(),
            message: it.message.to_string(),
            unparsed_structured_data: text(it.unparsed_structured_data),
            dialect: it.dialect,
        }
    }
}

impl From<Message<'_>> for OwnedMessage {
    fn from(it: Message<'_>) -> OwnedMessage {
        OwnedMessage::from(&it)
    }
}

impl From<crate::Element<'_, '_>> for OwnedElement {
    fn from(it: crate::Element<'_, '_>) -> OwnedElement {
        let params = it.params().map(|it| OwnedParam { name: it.name.to_string(), raw: it.raw.to_string() });
        OwnedElement { id: it.id.to_string(), params: params.collect() }
    }
}

/// Writes the message in printed form.
impl fmt::Display for OwnedMessage {
    fn fmt(&self, f: &mut fmt::Formatter<'_>) -> fmt::Result {
        let process = self.procid.as_ref();
        let elements = self.structured_data.iter();
        write_message(
            f,
            self.protocol,
            (self.facility, self.severity, self.timestamp),
            [self.hostname.as_deref(), self.appname.as_deref(), self.msgid.as_deref()],
            process,
            elements.map(|it| (&*it.id, it.params.iter().map(|it| (&*it.name, &*it.raw)))),
            &self.message,
        )
    }
}
