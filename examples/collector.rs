//! What collector.c does, by the crate in bindings/rust: collector YEAR MONTH <FILE
use libsyslog_loose::{parse_fields, Error, Message, Options, Severity};
use std::env;
use std::error;
use std::io::{self, BufRead, Write};

fn route(severity: Option<Severity>) -> &'static str {
    match severity {
        Some(it) if it <= Severity::Crit => "pager",
        Some(it) if it <= Severity::Warning => "warnings",
        _ => "archive",
    }
}

fn write_message(out: &mut impl Write, it: &Message<'_>) -> io::Result<()> {
    let at = it
        .timestamp
        .map_or("-".to_string(), |at| format!("{at:#.0}"));
    let (host, app) = (it.hostname.unwrap_or(""), it.appname.unwrap_or(""));
    writeln!(
        out,
        "{} {at} {host} {app}: {}",
        route(it.severity),
        it.message
    )
}

fn main() -> Result<(), Box<dyn error::Error>> {
    let words: Vec<String> = env::args().collect();
    let options = match &words[..] {
        [_, year, month] => Options {
            month: Some(month.parse()?),
            ..Options::in_year(year.parse()?)
        },
        _ => return Err("usage: collector YEAR MONTH <FILE".into()),
    };
    let (mut out, mut refused) = (io::stdout().lock(), 0);
    for line in io::stdin().lock().split(b'\n') {
        match parse_fields(&line?, &options) {
            Ok(message) => write_message(&mut out, &message)?,
            Err(Error::NoMessage | Error::NotUtf8) => refused += 1,
            Err(fault) => return Err(fault.into()),
        }
    }
    if refused > 0 {
        eprintln!("collector: {refused} lines are no messages");
    }
    Ok(())
}
