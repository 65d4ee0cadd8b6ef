use crate::{decode, Decoding, Error, Options, OwnedMessage};
use std::io::{self, BufRead};
use std::{error, fmt};

/// An iterator over the messages of a reader's lines, in order. [`lines`] makes it.
#[derive(Debug)]
pub struct Lines<R> {
    reader: R,
    options: Options,
    decoding: Option<Decoding>,
    line: Vec<u8>,
}

/// Why there is no message for a line of a reader.
#[derive(Debug)]
pub enum LineError {
    /// The reader failed.
    Io(io::Error),
    /// The line, here without its line feed, is no message, for this reason.
    Refused(Vec<u8>, Error),
}

impl fmt::Display for LineError {
    fn fmt(&self, f: &mut fmt::Formatter<'_>) -> fmt::Result {
        match self {
            LineError::Io(fault) => fault.fmt(f),
            LineError::Refused(_, why) => why.fmt(f),
        }
    }
}

impl error::Error for LineError {
    fn source(&self) -> Option<&(dyn error::Error + 'static)> {
        match self {
            LineError::Io(fault) => Some(fault),
            LineError::Refused(_, why) => Some(why),
        }
    }
}

/// Returns the messages of a reader's lines, in order. Each line ends with a line feed or with the input.
pub fn lines<R: BufRead>(reader: R, options: &Options) -> Lines<R> {
    Lines { reader, options: *options, decoding: None, line: Vec::new() }
}

impl<R> Lines<R> {
    /// Decodes lines that are not UTF-8. Otherwise they are refused.
    pub fn decoding(self, decoding: Decoding) -> Lines<R> {
        Lines { decoding: Some(decoding), ..self }
    }

    fn parse(&self) -> Result<OwnedMessage, Error> {
        match self.decoding {
            Some(decoding) => OwnedMessage::parse(&*decode(&self.line, decoding)?, &self.options),
            None => OwnedMessage::parse(&self.line, &self.options),
        }
    }
}

impl<R: BufRead> Iterator for Lines<R> {
    type Item = Result<OwnedMessage, LineError>;

    fn next(&mut self) -> Option<Self::Item> {
        self.line.clear();
        match self.reader.read_until(b'\n', &mut self.line) {
            Ok(0) => return None,
            Ok(_) => {}
            Err(fault) => return Some(Err(LineError::Io(fault))),
        }
        if self.line.last() == Some(&b'\n') {
            self.line.pop();
        }
        Some(self.parse().map_err(|why| LineError::Refused(self.line.clone(), why)))
    }
}
