//! The lines of a report of flows that end by time, and their reading: each flow once, when it has ended, and counts.
//!
//!     flowdir flows seats S items I depth D seed N idle T active T [close T] [one-way] [octets wire] [key hosts]
//!         [every P] [batch P]
//!     flow KEY N first T last T low P B O F high P B O F from low|high end REASON T [by N]
//!     count packets P calls C passed Q flows F idle I active A closed L room R back K input J
//!     input ...
//!
//! N is the number of the flow's first packet, and of the one that it ended by. Behind `low` and `high` stand packets,
//! payload bytes, octets and TCP flags of what each endpoint has sent; `from` names the sender of the first packet.
//! With `one-way` the key is source and target, and `sent P B O F` stands in place of both. With `key hosts` ports are
//! 0 and the key ends with `/ip`. The last time is that of the end. Counts stand after each so many packets, and at
//! the end.
//!
//! What is taken is only what can be put again byte for byte: numbers have no leading zeros, and times have nine digits
//! behind the point. Behind the last flow stands a line of counts, and then how the input ended.

use crate::faults::{bad, Fault};
use crate::key::{Key, Protocol};
use crate::report::Lines;
use crate::tails::{read_numbers, Input};
use crate::text::{put_number, put_words, Text};
use std::io::BufRead;

/// The head line. Times are in seconds.
pub struct TimedHead {
    pub seats: u64,
    pub items: u64,
    pub depth: u64,
    pub seed: u64,
    pub idle: u64,
    pub active: u64,
    /// The time that a closed flow of TCP is kept, if flags close.
    pub close: Option<u64>,
    /// Each direction is a flow: the lower endpoint of a key is its source.
    pub is_one_way: bool,
    /// Octets are those on the wire, in place of those of the IP packets.
    pub is_wire: bool,
    /// All flows of two hosts are one.
    pub are_hosts: bool,
    pub every: Option<u64>,
    pub batch: Option<u64>,
}

impl TimedHead {
    pub fn read(line: &[u8]) -> Option<Self> {
        let text = &mut Text::of(line);
        let mut numbers = [0; 6];
        let words = ["flowdir flows seats ", " items ", " depth ", " seed ", " idle ", " active "];
        for (number, word) in numbers.iter_mut().zip(words) {
            text.word(word)?;
            *number = text.number(u64::MAX)?;
        }
        let [seats, items, depth, seed, idle, active] = numbers;
        let close = text.optional(" close ")?;
        let is_one_way = text.word(" one-way").is_some();
        let is_wire = text.word(" octets wire").is_some();
        let are_hosts = text.word(" key hosts").is_some();
        let every = text.optional(" every ")?;
        let batch = text.optional(" batch ")?;
        text.end()?;
        let head = TimedHead {
            seats, items, depth, seed, idle, active, close, is_one_way, is_wire, are_hosts, every, batch,
        };
        (1..=8).contains(&seats).then(|| head)
    }

    pub fn put(&self, out: &mut Vec<u8>) {
        put_words(out, &[("flowdir flows seats ", self.seats), (" items ", self.items), (" depth ", self.depth)]);
        put_words(out, &[(" seed ", self.seed), (" idle ", self.idle), (" active ", self.active)]);
        put_optional(out, " close ", self.close);
        let words = [(self.is_one_way, " one-way"), (self.is_wire, " octets wire"), (self.are_hosts, " key hosts")];
        for (_, word) in words.iter().filter(|(is_told, _)| *is_told) {
            out.extend_from_slice(word.as_bytes());
        }
        put_optional(out, " every ", self.every);
        put_optional(out, " batch ", self.batch);
        out.push(b'\n');
    }
}

fn put_optional(out: &mut Vec<u8>, word: &str, number: Option<u64>) {
    if let Some(number) = number {
        put_words(out, &[(word, number)]);
    }
}

/// Why a flow ended.
pub const ENDS: [(&str, &str); 6] = [
    ("idle", "idle"),
    ("active", "active"),
    ("closed", "closed"),
    ("room", "room"),
    ("back", "back"),
    ("input", "input"),
];

/// What one end has sent.
#[derive(Clone, Copy, Default)]
pub struct Sent {
    pub packets: u64,
    pub payload: u64,
    pub octets: u64,
    pub flags: u8,
}

impl Sent {
    fn read(text: &mut Text<'_>) -> Option<Self> {
        let mut numbers = [0; 4];
        for number in &mut numbers {
            text.word(" ")?;
            *number = text.number(u64::MAX)?;
        }
        let [packets, payload, octets, flags] = numbers;
        Some(Sent { packets, payload, octets, flags: u8::try_from(flags).ok()? })
    }

    fn put(&self, out: &mut Vec<u8>) {
        put_words(out, &[(" ", self.packets), (" ", self.payload), (" ", self.octets), (" ", u64::from(self.flags))]);
    }
}

/// What the ends have sent: one alone with `one-way`, else the lower one and the higher one.
#[derive(Clone, Copy)]
pub enum Sides {
    One(Sent),
    Both { low: Sent, high: Sent, is_low_first: bool },
}

impl Sides {
    fn read(text: &mut Text<'_>, is_one_way: bool) -> Option<Self> {
        if is_one_way {
            text.word(" sent")?;
            return Sent::read(text).map(Sides::One);
        }
        text.word(" low")?;
        let low = Sent::read(text)?;
        text.word(" high")?;
        let high = Sent::read(text)?;
        text.word(" from ")?;
        Some(Sides::Both { low, high, is_low_first: text.one_of(&[("low", true), ("high", false)])? })
    }

    fn put(&self, out: &mut Vec<u8>) {
        match self {
            Sides::One(sent) => {
                out.extend_from_slice(b" sent");
                sent.put(out);
            }
            Sides::Both { low, high, is_low_first } => {
                out.extend_from_slice(b" low");
                low.put(out);
                out.extend_from_slice(b" high");
                high.put(out);
                out.extend_from_slice(if *is_low_first { b" from low" } else { b" from high" });
            }
        }
    }
}

/// A flow that has ended. Times are nanoseconds since 1970.
pub struct Record {
    pub key: Key,
    /// The number of its first packet.
    pub number: u64,
    pub first: u64,
    pub last: u64,
    pub sides: Sides,
    pub end: &'static str,
    pub ended: u64,
    /// The number of the packet that it ended by, if there is one.
    pub by: Option<u64>,
}

impl Record {
    pub fn read(line: &[u8], is_one_way: bool, are_hosts: bool) -> Option<Self> {
        let text = &mut Text::of(line);
        text.word("flow ")?;
        let key = Key::read_of(text, Protocol::of_keys(are_hosts))?;
        text.word(" ")?;
        let number = text.number(u64::MAX)?;
        text.word(" first ")?;
        let first = read_time(text)?;
        text.word(" last ")?;
        let last = read_time(text)?;
        let sides = Sides::read(text, is_one_way)?;
        text.word(" end ")?;
        let end = text.one_of(&ENDS)?;
        text.word(" ")?;
        let ended = read_time(text)?;
        let by = text.optional(" by ")?;
        text.end()?;
        Some(Record { key, number, first, last, sides, end, ended, by }).filter(Record::is_lawful)
    }

    /// A flow that ended for want of room did so by a packet, and of the others those alone that were closed may have.
    pub fn is_lawful(&self) -> bool {
        match self.end {
            "room" => self.by.is_some(),
            "closed" => true,
            _ => self.by.is_none(),
        }
    }

    pub fn put(&self, out: &mut Vec<u8>) {
        out.extend_from_slice(b"flow ");
        self.key.put(out);
        put_words(out, &[(" ", self.number), (" first ", self.first / NANO)]);
        put_parts(out, self.first);
        put_words(out, &[(" last ", self.last / NANO)]);
        put_parts(out, self.last);
        self.sides.put(out);
        out.extend_from_slice(b" end ");
        out.extend_from_slice(self.end.as_bytes());
        put_words(out, &[(" ", self.ended / NANO)]);
        put_parts(out, self.ended);
        put_optional(out, " by ", self.by);
        out.push(b'\n');
    }
}

const NANO: u64 = 1_000_000_000;

/// A time: seconds, and nine digits behind the point.
pub fn read_time(text: &mut Text<'_>) -> Option<u64> {
    let seconds = text.number(u64::MAX / NANO - 1)?;
    text.word(".")?;
    Some(seconds * NANO + text.digits(9)?)
}

/// The same text.
pub fn put_time(out: &mut Vec<u8>, time: u64) {
    put_number(out, time / NANO);
    put_parts(out, time);
}

/// The point, and the digits behind it.
fn put_parts(out: &mut Vec<u8>, time: u64) {
    let parts = (time % NANO + NANO).to_string();
    out.push(b'.');
    out.extend_from_slice(&parts.as_bytes()[1..]);
}

pub const TIMED_COUNTS: [(&str, &str); 10] = [
    ("count packets ", "packets"),
    (" calls ", "calls"),
    (" passed ", "passed"),
    (" flows ", "flows"),
    (" idle ", "idle"),
    (" active ", "active"),
    (" closed ", "closed"),
    (" room ", "room"),
    (" back ", "back"),
    (" input ", "input"),
];

/// Who is told what stands behind the head line, line by line.
pub trait TimedReader {
    fn record(&mut self, record: &Record) -> Result<(), Fault>;
    fn counts(&mut self, counts: &[u64]) -> Result<(), Fault>;
    fn input(&mut self, input: &Input) -> Result<(), Fault>;
}

/// Reads what stands behind the head line, and tells it line by line, each as soon as it is there.
pub fn read_timed(
    head: &TimedHead,
    lines: &mut Lines<impl BufRead>,
    reader: &mut impl TimedReader,
) -> Result<(), Fault> {
    let mut is_counted = false;
    lines.wanted()?;
    loop {
        if lines.begins_with(b"flow ") {
            reader.record(&lines.read(|line| Record::read(line, head.is_one_way, head.are_hosts))?)?;
            is_counted = false;
        } else if lines.begins_with(b"count ") {
            reader.counts(&lines.read(|line| read_numbers(line, &TIMED_COUNTS))?)?;
            is_counted = true;
        } else {
            break;
        }
        lines.wanted()?;
    }
    let input = lines.read(Input::read)?;
    if !is_counted {
        return Err(bad(lines.number, "no counts stand before it"));
    }
    lines.end()?;
    reader.input(&input)
}
