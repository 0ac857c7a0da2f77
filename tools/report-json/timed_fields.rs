//! What the objects and rows of flows that end by time tell, field by field.
//!
//! An object `flow` has the names that one of `flows` has, where it tells the same. `end` is the reason, `ended_ts` the
//! time of the end and `end_frame` the packet that it ended by. Times are texts of nine digits behind the point.

use crate::fields::{tell_key, tell_numbers, Fields};
use crate::flows::letters_of;
use crate::timed::{put_time, Record, Sent, Sides, TimedHead, TIMED_COUNTS};

/// The columns of the table.
pub const RECORDS: [&str; 20] = [
    "low", "low_port", "high", "high_port", "proto", "orig", "first_frame", "ts", "last_ts", "low_pkts", "high_pkts",
    "low_payload", "high_payload", "low_octets", "high_octets", "low_flags", "high_flags", "end", "ended_ts",
    "end_frame",
];

/// The names of what one end has sent: packets, payload, octets and flags.
pub type SentNames = [&'static str; 4];
pub const LOW: SentNames = ["low_pkts", "low_payload", "low_octets", "low_flags"];
pub const HIGH: SentNames = ["high_pkts", "high_payload", "high_octets", "high_flags"];

pub fn tell_timed_head(head: &TimedHead, to: &mut impl Fields) {
    to.text("type", b"head");
    to.text("mode", b"flows");
    to.number("seats", head.seats);
    to.number("items", head.items);
    to.number("depth", head.depth);
    to.number("seed", head.seed);
    to.number("idle", head.idle);
    to.number("active", head.active);
    tell_optional("close", head.close, to);
    let words: [(bool, &str, &[u8]); 3] = [
        (head.is_one_way, "ways", b"one"),
        (head.is_wire, "octets", b"wire"),
        (head.are_hosts, "key", b"hosts"),
    ];
    for (_, name, word) in words.iter().filter(|(is_told, ..)| *is_told) {
        to.text(name, word);
    }
    tell_optional("every", head.every, to);
    tell_optional("batch", head.batch, to);
}

fn tell_optional(name: &str, number: Option<u64>, to: &mut impl Fields) {
    if let Some(number) = number {
        to.number(name, number);
    }
}

/// A flow that has ended. With one way alone it is that of the lower end, and nothing is told of the higher one.
pub fn tell_record(record: &Record, to: &mut impl Fields) {
    to.text("type", b"flow");
    tell_key(&record.key, to);
    if let Sides::Both { is_low_first, .. } = record.sides {
        to.text("orig", if is_low_first { b"low" } else { b"high" });
    }
    to.number("first_frame", record.number);
    tell_moment("ts", record.first, to);
    tell_moment("last_ts", record.last, to);
    match &record.sides {
        Sides::One(sent) => tell_sent(sent, &LOW, to),
        Sides::Both { low, high, .. } => {
            tell_sent(low, &LOW, to);
            tell_sent(high, &HIGH, to);
        }
    }
    to.text("end", record.end.as_bytes());
    tell_moment("ended_ts", record.ended, to);
    tell_optional("end_frame", record.by, to);
}

fn tell_sent(sent: &Sent, names: &SentNames, to: &mut impl Fields) {
    to.number(names[0], sent.packets);
    to.number(names[1], sent.payload);
    to.number(names[2], sent.octets);
    to.text(names[3], &letters_of(sent.flags));
}

/// Seconds since 1970 with nine digits behind the point, always as a text.
fn tell_moment(name: &str, time: u64, to: &mut impl Fields) {
    let mut text = Vec::with_capacity(24);
    put_time(&mut text, time);
    to.text(name, &text);
}

pub fn tell_counts(counts: &[u64], to: &mut impl Fields) {
    to.text("type", b"count");
    tell_numbers(&TIMED_COUNTS, counts, to);
}
