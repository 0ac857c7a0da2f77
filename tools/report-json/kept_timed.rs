//! JSON lines of a report of flows that end by time, as its text.

use crate::flows::flags_of;
use crate::json::Object;
use crate::kept::{input_of, key_among, numbers_of, seats_of, NONE, OUT_OF_TURN};
use crate::key::Protocol;
use crate::tails::put_numbers;
use crate::text::Text;
use crate::timed::{read_time, Record, Sent, Sides, TimedHead, ENDS, TIMED_COUNTS};
use crate::timed_fields::{SentNames, HIGH, LOW};

/// The report of the objects so far.
pub struct KeptTimed {
    head: TimedHead,
    is_counted: bool,
    pub is_ended: bool,
}

impl KeptTimed {
    /// Takes the head, and puts its line.
    pub fn begin(object: &Object<'_>, text: &mut Vec<u8>) -> Option<Self> {
        let head = head_of(object)?;
        head.put(text);
        Some(KeptTimed { head, is_counted: false, is_ended: false })
    }

    /// Takes the next object, which is of this kind; the fault is a text.
    pub fn take(&mut self, kind: &str, object: &Object<'_>, text: &mut Vec<u8>) -> Result<(), &'static str> {
        if self.is_ended || kind == "head" || kind == "end" && !self.is_counted {
            return Err(OUT_OF_TURN);
        }
        match kind {
            "flow" => record_of(object, &self.head).ok_or(NONE)?.put(text),
            "count" => put_numbers(text, &TIMED_COUNTS, &numbers_of(object, &TIMED_COUNTS).ok_or(NONE)?),
            "end" => input_of(object).ok_or(NONE)?.put(text),
            _ => return Err(NONE),
        }
        self.is_counted = kind == "count";
        self.is_ended = kind == "end";
        Ok(())
    }
}

/// Whether that word stands at this name; `None` if there stands another one.
fn is_told(object: &Object, name: &str, word: &str) -> Option<bool> {
    if object.has(name) {
        object.one_of(name, &[(word, true)])
    } else {
        Some(false)
    }
}

fn head_of(object: &Object) -> Option<TimedHead> {
    Some(TimedHead {
        seats: seats_of(object)?,
        items: object.number("items", u64::MAX)?,
        depth: object.number("depth", u64::MAX)?,
        seed: object.number("seed", u64::MAX)?,
        idle: object.number("idle", u64::MAX)?,
        active: object.number("active", u64::MAX)?,
        close: object.optional("close")?,
        is_one_way: is_told(object, "ways", "one")?,
        is_wire: is_told(object, "octets", "wire")?,
        are_hosts: is_told(object, "key", "hosts")?,
        every: object.optional("every")?,
        batch: object.optional("batch")?,
    })
}

fn record_of(object: &Object, head: &TimedHead) -> Option<Record> {
    let record = Record {
        key: key_among(object, Protocol::of_keys(head.are_hosts))?,
        sides: sides_of(object, head.is_one_way)?,
        number: object.number("first_frame", u64::MAX)?,
        first: time_of(object, "ts")?,
        last: time_of(object, "last_ts")?,
        end: object.one_of("end", &ENDS)?,
        ended: time_of(object, "ended_ts")?,
        by: object.optional("end_frame")?,
    };
    Some(record).filter(Record::is_lawful)
}

fn sides_of(object: &Object, is_one_way: bool) -> Option<Sides> {
    let low = sent_of(object, &LOW)?;
    if is_one_way {
        return Some(Sides::One(low));
    }
    let is_low_first = object.one_of("orig", &[("low", true), ("high", false)])?;
    Some(Sides::Both { low, high: sent_of(object, &HIGH)?, is_low_first })
}

fn sent_of(object: &Object, names: &SentNames) -> Option<Sent> {
    Some(Sent {
        packets: object.number(names[0], u64::MAX)?,
        payload: object.number(names[1], u64::MAX)?,
        octets: object.number(names[2], u64::MAX)?,
        flags: flags_of(object.text(names[3])?)?,
    })
}

fn time_of(object: &Object, name: &str) -> Option<u64> {
    let text = &mut Text::of(object.text(name)?.as_bytes());
    let time = read_time(text)?;
    text.end()?;
    Some(time)
}
