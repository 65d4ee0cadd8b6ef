use libsyslog_loose::{unescape, Param};
use std::{fmt, slice};

/// An element of structured data: its id, and the names of its parameters with their values as they are in the line.
#[derive(Clone, Debug)]
pub struct StructuredElement<S: AsRef<str> + Ord + PartialEq + Clone> {
    /// Its id.
    pub id: S,
    /// Its parameters, in order.
    pub params: Vec<(S, S)>,
}

impl<S: AsRef<str> + Ord + PartialEq + Clone> StructuredElement<S> {
    /// Returns the parameters, with their values without escapes.
    pub fn params(&self) -> ParamsIter<'_, S> {
        ParamsIter { params: self.params.iter() }
    }
}

/// An iterator over the parameters of an element, with their values without escapes.
pub struct ParamsIter<'a, S: AsRef<str>> {
    params: slice::Iter<'a, (S, S)>,
}

impl<'a, S: AsRef<str>> Iterator for ParamsIter<'a, S> {
    type Item = (&'a S, String);

    fn next(&mut self) -> Option<Self::Item> {
        let (name, value) = self.params.next()?;
        Some((name, unescape(value.as_ref()).into_owned()))
    }

    fn size_hint(&self) -> (usize, Option<usize>) {
        self.params.size_hint()
    }
}

/// Elements are equal if their ids are, and their parameters in any order.
impl<S: AsRef<str> + Ord + PartialEq + Clone> PartialEq for StructuredElement<S> {
    fn eq(&self, other: &Self) -> bool {
        let sorted = |it: &Self| {
            let mut params = it.params.clone();
            params.sort();
            params
        };
        self.id == other.id && (self.params == other.params || sorted(self) == sorted(other))
    }
}

impl<S: AsRef<str> + Ord + PartialEq + Clone> Eq for StructuredElement<S> {}

impl<'a, P: Iterator<Item = Param<'a>>> From<(&'a str, P)> for StructuredElement<&'a str> {
    fn from((id, params): (&'a str, P)) -> Self {
        StructuredElement { id, params: params.map(|it| (it.name, it.raw)).collect() }
    }
}

impl From<StructuredElement<&str>> for StructuredElement<String> {
    fn from(it: StructuredElement<&str>) -> Self {
        let params = it.params.iter().map(|(name, value)| (name.to_string(), value.to_string()));
        StructuredElement { id: it.id.to_string(), params: params.collect() }
    }
}

impl<S: AsRef<str> + Ord + PartialEq + Clone> fmt::Display for StructuredElement<S> {
    fn fmt(&self, f: &mut fmt::Formatter<'_>) -> fmt::Result {
        write!(f, "[{}", self.id.as_ref())?;
        for (name, value) in &self.params {
            write!(f, " {}=\"{}\"", name.as_ref(), value.as_ref())?;
        }
        f.write_str("]")
    }
}
