use crate::{raw, Dialect, Facility, Param, ProcId, Protocol, Severity, Timestamp};
use std::marker::PhantomData;

/// What was read of a line, before it is made into an object: [`parse_into`](crate::parse_into) hands it to the closure
/// that makes one. Its texts are slices of the line.
#[derive(Clone, Copy)]
pub struct Parts<'a, 'r> {
    read: &'r raw::Message,
    elements: &'r [raw::Element],
    params: &'r [raw::Param],
    line: PhantomData<&'a str>,
}

impl<'a: 'r, 'r> Parts<'a, 'r> {
    /// The parts of a line.
    ///
    /// # Safety
    ///
    /// The library has just read these of that line, with as many elements and parameters as the message says.
    #[inline]
    pub(crate) unsafe fn of(
        _line: &'a str,
        read: &'r raw::Message,
        elements: &'r [raw::Element],
        params: &'r [raw::Param],
    ) -> Parts<'a, 'r> {
        Parts { read, elements: &elements[..read.elements], params: &params[..read.params], line: PhantomData }
    }

    /// Returns the protocol by which the line was read.
    #[inline]
    pub fn protocol(&self) -> Protocol {
        match self.read.protocol {
            5424 => Protocol::Rfc5424(self.read.version),
            _ => Protocol::Rfc3164,
        }
    }

    /// Returns the dialect that the line was read in; none if it was read by a protocol.
    #[inline]
    pub fn dialect(&self) -> Option<Dialect> {
        Dialect::of(self.read.dialect)
    }

    /// Returns the facility: which part of a system the message comes from.
    #[inline]
    pub fn facility(&self) -> Option<Facility> {
        numbered(self.read.facility)
    }

    /// Returns the severity: how urgent the message is.
    #[inline]
    pub fn severity(&self) -> Option<Severity> {
        numbered(self.read.severity)
    }

    /// Returns when the message was written, as the line shows it.
    #[inline]
    pub fn timestamp(&self) -> Option<Timestamp> {
        Timestamp::of(&self.read.timestamp)
    }

    /// Returns the host that the message comes from.
    #[inline]
    pub fn hostname(&self) -> Option<&'a str> {
        self.optional(&self.read.host)
    }

    /// Returns the program that wrote the message.
    #[inline]
    pub fn appname(&self) -> Option<&'a str> {
        self.optional(&self.read.app)
    }

    /// Returns the process id of that program: a number, or any other text.
    #[inline]
    pub fn procid(&self) -> Option<ProcId<&'a str>> {
        match &self.read.process {
            it if it.is_number == 1 => Some(ProcId::Number(it.number)),
            it => self.optional(&it.name).map(ProcId::Name),
        }
    }

    /// Returns the message id: the sender gives the same one to messages of one kind. Only RFC 5424 has it.
    #[inline]
    pub fn msgid(&self) -> Option<&'a str> {
        self.optional(&self.read.msgid)
    }

    /// Returns the text of the message: what follows the header and the structured data.
    #[inline]
    pub fn message(&self) -> &'a str {
        self.piece(&self.read.msg)
    }

    /// Returns the structured data from the first element on that is not strict; none if each is strict.
    #[inline]
    pub fn unparsed_structured_data(&self) -> Option<&'a str> {
        self.optional(&self.read.unparsed)
    }

    /// Returns the elements of the structured data, in order: the id of each, and its parameters.
    #[inline]
    pub fn elements(&self) -> impl Iterator<Item = (&'a str, impl ExactSizeIterator<Item = Param<'a>> + 'r)> + 'r {
        let parts = *self;
        self.elements.iter().scan(self.params, move |rest, element| {
            let (own, later) = rest.split_at(element.params);
            *rest = later;
            Some((parts.piece(&element.id), own.iter().map(move |it| parts.param(it))))
        })
    }

    /// Returns the parameters of all elements, in order.
    #[inline]
    pub(crate) fn params(&self) -> impl ExactSizeIterator<Item = Param<'a>> + 'r {
        let parts = *self;
        self.params.iter().map(move |it| parts.param(it))
    }

    #[inline]
    fn param(&self, it: &raw::Param) -> Param<'a> {
        Param { name: self.piece(&it.name), raw: self.piece(&it.value) }
    }

    #[inline]
    fn optional(&self, text: &raw::Text) -> Option<&'a str> {
        (text.present == 1).then(|| self.piece(text))
    }

    #[inline]
    fn piece(&self, text: &raw::Text) -> &'a str {
        // SAFETY: each text that the library reads is a piece of the line, in UTF-8 (its clause AreFields), but for the
        // id of a dialect's element, which is a text of the library, as long as the program. By `of` these are of the
        // line that is borrowed for 'a.
        unsafe { text.as_str() }
    }
}

/// Converts a number to what has it; -1 is the number of an absent one.
#[inline]
fn numbered<T: TryFrom<u8>>(number: i32) -> Option<T> {
    T::try_from(u8::try_from(number).ok()?).ok()
}
