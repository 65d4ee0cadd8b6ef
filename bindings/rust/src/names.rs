use std::error;
use std::fmt;
use std::str::FromStr;

/// No facility, severity or variant has this name or number.
#[derive(Clone, Copy, Debug, PartialEq, Eq)]
pub struct NoSuchName;

impl fmt::Display for NoSuchName {
    fn fmt(&self, f: &mut fmt::Formatter<'_>) -> fmt::Result {
        f.write_str("no such name or number")
    }
}

impl error::Error for NoSuchName {}

// An enum whose values are numbered from 0 on, with the name of each.
macro_rules! named {
    ($(#[$doc:meta])* $name:ident { $($value:ident = $text:literal,)* }) => {
        $(#[$doc])*
        #[allow(missing_docs)]
        #[derive(Clone, Copy, Debug, PartialEq, Eq, PartialOrd, Ord, Hash)]
        #[cfg_attr(feature = "serde", derive(serde::Serialize, serde::Deserialize), serde(rename_all = "lowercase"))]
        #[repr(u8)]
        pub enum $name {
            $($value,)*
        }

        impl $name {
            /// All of them, each at the place of its number.
            pub const ALL: &'static [$name] = &[$($name::$value,)*];

            /// Returns the name.
            pub const fn as_str(self) -> &'static str {
                match self {
                    $($name::$value => $text,)*
                }
            }
        }

        impl fmt::Display for $name {
            fn fmt(&self, f: &mut fmt::Formatter<'_>) -> fmt::Result {
                f.pad(self.as_str())
            }
        }

        impl FromStr for $name {
            type Err = NoSuchName;

            fn from_str(name: &str) -> Result<$name, NoSuchName> {
                $name::ALL.iter().copied().find(|it| it.as_str() == name).ok_or(NoSuchName)
            }
        }

        impl TryFrom<u8> for $name {
            type Error = NoSuchName;

            fn try_from(number: u8) -> Result<$name, NoSuchName> {
                $name::ALL.get(usize::from(number)).copied().ok_or(NoSuchName)
            }
        }

        impl From<$name> for u8 {
            fn from(it: $name) -> u8 {
                it as u8
            }
        }
    };
}

named! {
    /// How severe a message is: 0 is the worst.
    Severity {
        Emerg = "emerg",
        Alert = "alert",
        Crit = "crit",
        Err = "err",
        Warning = "warning",
        Notice = "notice",
        Info = "info",
        Debug = "debug",
    }
}

named! {
    /// Which part of a system a message comes from.
    Facility {
        Kern = "kern",
        User = "user",
        Mail = "mail",
        Daemon = "daemon",
        Auth = "auth",
        Syslog = "syslog",
        Lpr = "lpr",
        News = "news",
        Uucp = "uucp",
        Cron = "cron",
        Authpriv = "authpriv",
        Ftp = "ftp",
        Ntp = "ntp",
        Audit = "audit",
        Alert = "alert",
        Clockd = "clockd",
        Local0 = "local0",
        Local1 = "local1",
        Local2 = "local2",
        Local3 = "local3",
        Local4 = "local4",
        Local5 = "local5",
        Local6 = "local6",
        Local7 = "local7",
    }
}
