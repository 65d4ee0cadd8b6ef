//! Reads each line of standard input by the interface of the Rust crate and prints what it read, added up, as the
//! program of bench/totals/ does: a program for measurement. The argument is the year of dates that show none. With
//! `--lines-only` after it the lines are read from standard input and not parsed, to measure what that alone takes.
use chrono::Local;
use std::env;
use std::io::{self, BufRead, BufReader};
use syslog_loose::{parse_message_with_year_exact_tz, Message, ProcId, Protocol, Variant};

#[derive(Default)]
struct Totals {
    read: u64,
    bytes: usize,
    elements: usize,
    params: usize,
    numbers: u64,
}

impl Totals {
    fn add(&mut self, message: &Message<&str>) {
        let length = |it: Option<&str>| it.map_or(0, str::len);
        self.read += 1;
        self.bytes += length(message.hostname) + length(message.appname) + length(message.msgid) + message.msg.len();
        self.elements += message.structured_data.len();
        self.params += message.structured_data.iter().map(|it| it.params.len()).sum::<usize>();
        for number in [
            match message.protocol {
                Protocol::RFC5424(version) => i64::from(version),
                Protocol::RFC3164 => 0,
            },
            match message.procid {
                Some(ProcId::PID(number)) => i64::from(number),
                _ => 0,
            },
            message.timestamp.map_or(0, |it| it.timestamp()),
        ] {
            self.numbers = self.numbers.wrapping_add(number as u64);
        }
    }
}

fn main() {
    let year = env::args().nth(1).and_then(|it| it.parse().ok()).expect("a year");
    let parses = env::args().nth(2).is_none();
    let (mut totals, mut lines) = (Totals::default(), 0);
    let (mut reader, mut line) = (BufReader::with_capacity(65_536, io::stdin().lock()), String::new());
    while reader.read_line(&mut line).expect("lines in UTF-8") > 0 {
        let text = line.strip_suffix('\n').unwrap_or(&line);
        if parses {
            if let Ok(message) = parse_message_with_year_exact_tz::<_, Local>(text, |_| year, None, Variant::Either) {
                totals.add(&message);
            }
        }
        lines += 1;
        line.clear();
    }
    let Totals { read, bytes, elements, params, numbers } = totals;
    println!(
        "{lines} lines, {read} read, {bytes} bytes of texts, {elements} elements, {params} parameters, \
         numbers {numbers}"
    );
}
