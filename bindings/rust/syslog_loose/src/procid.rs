use std::fmt;

/// A process id: a number, or any other text.
#[derive(Clone, Debug, PartialEq, Eq)]
pub enum ProcId<S: AsRef<str>> {
    /// A number.
    PID(i32),
    /// Any other text.
    Name(S),
}

impl<'a> From<&'a str> for ProcId<&'a str> {
    fn from(text: &'a str) -> Self {
        libsyslog_loose::ProcId::from(text).into()
    }
}

impl<'a> From<libsyslog_loose::ProcId<&'a str>> for ProcId<&'a str> {
    fn from(it: libsyslog_loose::ProcId<&'a str>) -> Self {
        match it {
            libsyslog_loose::ProcId::Number(number) => ProcId::PID(number),
            libsyslog_loose::ProcId::Name(name) => ProcId::Name(name),
        }
    }
}

impl From<ProcId<&str>> for ProcId<String> {
    fn from(it: ProcId<&str>) -> Self {
        match it {
            ProcId::PID(number) => ProcId::PID(number),
            ProcId::Name(name) => ProcId::Name(name.to_string()),
        }
    }
}

impl<S: AsRef<str>> fmt::Display for ProcId<S> {
    fn fmt(&self, f: &mut fmt::Formatter<'_>) -> fmt::Result {
        match self {
            ProcId::PID(number) => write!(f, "{number}"),
            ProcId::Name(name) => f.write_str(name.as_ref()),
        }
    }
}
