use libsyslog_loose::{Facility, Severity};

// An enum of the crate, by the one of `libsyslog_loose` whose values have the same numbers.
macro_rules! mirrored {
    ($(#[$doc:meta])* $name:ident of $same:ident { $($value:ident = $other:ident,)* }) => {
        $(#[$doc])*
        #[allow(missing_docs, non_camel_case_types)]
        #[derive(Clone, Copy, Debug, PartialEq, Eq, PartialOrd, Ord)]
        pub enum $name {
            $($value,)*
        }

        impl $name {
            /// Returns the name.
            pub fn as_str(self) -> &'static str {
                match self {
                    $($name::$value => $same::$other.as_str(),)*
                }
            }
        }

        impl From<$same> for $name {
            fn from(it: $same) -> $name {
                match it {
                    $($same::$other => $name::$value,)*
                }
            }
        }
    };
}

mirrored! {
    /// How severe a message is: 0 is the worst.
    SyslogSeverity of Severity {
        SEV_EMERG = Emerg,
        SEV_ALERT = Alert,
        SEV_CRIT = Crit,
        SEV_ERR = Err,
        SEV_WARNING = Warning,
        SEV_NOTICE = Notice,
        SEV_INFO = Info,
        SEV_DEBUG = Debug,
    }
}

mirrored! {
    /// Which part of a system a message comes from.
    SyslogFacility of Facility {
        LOG_KERN = Kern,
        LOG_USER = User,
        LOG_MAIL = Mail,
        LOG_DAEMON = Daemon,
        LOG_AUTH = Auth,
        LOG_SYSLOG = Syslog,
        LOG_LPR = Lpr,
        LOG_NEWS = News,
        LOG_UUCP = Uucp,
        LOG_CRON = Cron,
        LOG_AUTHPRIV = Authpriv,
        LOG_FTP = Ftp,
        LOG_NTP = Ntp,
        LOG_AUDIT = Audit,
        LOG_ALERT = Alert,
        LOG_CLOCKD = Clockd,
        LOG_LOCAL0 = Local0,
        LOG_LOCAL1 = Local1,
        LOG_LOCAL2 = Local2,
        LOG_LOCAL3 = Local3,
        LOG_LOCAL4 = Local4,
        LOG_LOCAL5 = Local5,
        LOG_LOCAL6 = Local6,
        LOG_LOCAL7 = Local7,
    }
}

/// Returns the facility and the severity of a priority. A priority above 191 has no facility.
pub fn decompose_pri(pri: u8) -> (Option<SyslogFacility>, Option<SyslogSeverity>) {
    let (facility, severity) = (Facility::try_from(pri / 8), Severity::try_from(pri % 8));
    (facility.ok().map(SyslogFacility::from), severity.ok().map(SyslogSeverity::from))
}
