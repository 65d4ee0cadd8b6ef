use crate::{parse_fields, raw, Error, Options};
use std::fmt;
use std::str::FromStr;

/// A zone of dates that show none, by a POSIX rule such as `CET-1CEST,M3.5.0,M10.5.0/3`.
///
/// A rule with summer time has to say when that begins and ends. Names such as `Europe/Berlin` are no rules.
#[derive(Clone, Copy, PartialEq, Eq, Hash)]
pub struct Zone {
    rule: [u8; raw::ZONE],
}

impl Zone {
    /// Returns the rule.
    pub fn as_str(&self) -> &str {
        let end = self.rule.iter().position(|byte| *byte == 0).unwrap_or(raw::ZONE);
        std::str::from_utf8(&self.rule[..end]).unwrap_or_default()
    }

    // The rule with a zero byte after it.
    pub(crate) const fn raw(&self) -> [u8; raw::ZONE] {
        self.rule
    }
}

/// Converts a POSIX rule to its zone. For any other text it returns [`Error::BadArgument`].
impl FromStr for Zone {
    type Err = Error;

    fn from_str(rule: &str) -> Result<Zone, Error> {
        // (no rule is as long, and the library takes an empty one for none)
        if rule.is_empty() || rule.len() >= raw::ZONE || rule.contains('\0') {
            return Err(Error::BadArgument);
        }
        let mut zone = Zone { rule: [0; raw::ZONE] };
        zone.rule[..rule.len()].copy_from_slice(rule.as_bytes());
        // The library says whether it is a rule: this line is a message in each zone.
        let options = Options { zone: Some(zone), ..Options::in_year(2026) };
        parse_fields("1 - - - - - -", &options).map(|_| zone)
    }
}

impl fmt::Display for Zone {
    fn fmt(&self, f: &mut fmt::Formatter<'_>) -> fmt::Result {
        f.pad(self.as_str())
    }
}

impl fmt::Debug for Zone {
    fn fmt(&self, f: &mut fmt::Formatter<'_>) -> fmt::Result {
        f.debug_tuple("Zone").field(&self.as_str()).finish()
    }
}
