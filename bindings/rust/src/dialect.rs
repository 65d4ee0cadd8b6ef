use crate::{raw, NoSuchName};
use std::fmt;
use std::str::FromStr;

/// A dialect: a form in which some senders write that follow neither protocol, as Cisco's switches. Its number and its
/// name stay the same from one version to the next.
#[derive(Clone, Copy, Debug, PartialEq, Eq, PartialOrd, Ord, Hash)]
pub struct Dialect(u32);

impl Dialect {
    // The dialect of a message that the library has read: none where the number is 0.
    pub(crate) fn of(number: u32) -> Option<Dialect> {
        (number != 0).then_some(Dialect(number))
    }

    /// Returns the number of the dialect, from 1 on.
    pub fn number(self) -> u32 {
        self.0
    }

    /// Returns the name of the dialect, as `cisco-ios`.
    pub fn as_str(self) -> &'static str {
        name_of(self.0).unwrap_or("")
    }
}

// The name of the dialect that has this number.
fn name_of(number: u32) -> Option<&'static str> {
    let mut name = raw::Text::NONE;
    // SAFETY: the pointer comes from a reference, and the text is set.
    unsafe { raw::syslog_dialect_name(number, &mut name) };
    // SAFETY: a text that is there is one of the library's own, in UTF-8, which lasts as long as the program.
    (name.present == 1).then(|| unsafe { name.as_str() })
}

impl fmt::Display for Dialect {
    fn fmt(&self, f: &mut fmt::Formatter<'_>) -> fmt::Result {
        f.pad(self.as_str())
    }
}

/// Converts a number to the dialect that has it.
impl TryFrom<u8> for Dialect {
    type Error = NoSuchName;

    fn try_from(number: u8) -> Result<Dialect, NoSuchName> {
        name_of(number.into()).map(|_| Dialect(number.into())).ok_or(NoSuchName)
    }
}

/// Converts a name to the dialect that has it.
impl FromStr for Dialect {
    type Err = NoSuchName;

    fn from_str(name: &str) -> Result<Dialect, NoSuchName> {
        (1..=u8::MAX).filter_map(|it| Dialect::try_from(it).ok()).find(|it| it.as_str() == name).ok_or(NoSuchName)
    }
}

/// Serializes a dialect as its name.
#[cfg(feature = "serde")]
impl serde::Serialize for Dialect {
    fn serialize<S: serde::Serializer>(&self, to: S) -> Result<S::Ok, S::Error> {
        to.serialize_str(self.as_str())
    }
}

#[cfg(feature = "serde")]
impl<'de> serde::Deserialize<'de> for Dialect {
    fn deserialize<D: serde::Deserializer<'de>>(from: D) -> Result<Dialect, D::Error> {
        let name = <String as serde::Deserialize>::deserialize(from)?;
        name.parse().map_err(serde::de::Error::custom)
    }
}
