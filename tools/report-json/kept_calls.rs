//! JSON lines of a report of `serve` or `play`, as its text.
//!
//! The calls of a batch may come in any order: their packets, callers and places tell how the report had them.

use crate::fields::FRAME;
use crate::json::Object;
use crate::kept::{input_of, key_of, numbers_of, seats_of, seen_of, session_of, NONE, OUT_OF_TURN};
use crate::lines::{brings_bytes, put_orders, Call, End, Head, Told};
use crate::lines::{HASHES, LACKS, MODES, MOST, REPLIES, SHARES, VERBS};
use crate::report::Entry;
use crate::tails::{Tail, COUNTS, LEAVES, STEPS};

/// What may come next: the objects of a report stand in the order of its lines.
#[derive(Clone, Copy, PartialEq, PartialOrd)]
enum Part {
    Calls,
    Sessions,
    Nothing,
}

/// The report of the objects so far.
pub struct KeptCalls {
    part: Part,
    seats: u64,
    batch: Vec<Entry>,
}

impl KeptCalls {
    /// Takes the head, and puts its line.
    pub fn begin(object: &Object<'_>, text: &mut Vec<u8>) -> Option<Self> {
        let head = head_of(object)?;
        head.put(text);
        Some(KeptCalls { part: Part::Calls, seats: head.seats, batch: Vec::new() })
    }

    pub fn is_ended(&self) -> bool {
        self.part == Part::Nothing
    }

    /// Takes the next object, which is of this kind; the fault is a text.
    pub fn take(&mut self, kind: &str, object: &Object<'_>, text: &mut Vec<u8>) -> Result<(), &'static str> {
        let its = match kind {
            "head" => return Err(OUT_OF_TURN),
            "call" | "pending" => Part::Calls,
            "session" => Part::Sessions,
            _ => Part::Nothing,
        };
        if its < self.part || self.is_ended() {
            return Err(OUT_OF_TURN);
        }
        if its == Part::Calls {
            return self.take_call(entry_of(object, kind == "pending", self.seats).ok_or(NONE)?, text);
        }
        put_batch(text, &mut self.batch);
        self.part = its;
        match kind {
            "session" => session_of(object).ok_or(NONE)?.put(text),
            "end" => tail_of(object).ok_or(NONE)?.put(text),
            _ => return Err(NONE),
        }
        Ok(())
    }

    fn take_call(&mut self, entry: Entry, text: &mut Vec<u8>) -> Result<(), &'static str> {
        match self.batch.last().map_or(entry.batch, |it| it.batch) {
            batch if batch < entry.batch => put_batch(text, &mut self.batch),
            batch if batch > entry.batch => return Err("a call of an earlier batch"),
            _ => (),
        }
        self.batch.push(entry);
        Ok(())
    }
}

/// Puts the lines of a batch, and forgets it.
fn put_batch(text: &mut Vec<u8>, entries: &mut Vec<Entry>) {
    let pending_seat = |it: &Entry| matches!(it.call.end, End::Pending { .. }).then(|| it.call.seat);
    entries.sort_by_key(|it| (pending_seat(it), it.call.packet));
    for entry in entries.iter() {
        entry.call.put(text);
    }
    let mut places: Vec<(u64, u32)> = entries.iter().filter_map(|it| Some((it.place?, it.call.packet))).collect();
    places.sort_unstable();
    let packets: Vec<u32> = places.iter().map(|(_, packet)| *packet).collect();
    put_orders(text, &packets);
    entries.clear();
}

fn head_of(object: &Object) -> Option<Head> {
    Some(Head {
        mode: object.one_of("mode", &MODES)?,
        seats: seats_of(object)?,
        items: object.number("items", u64::MAX)?,
        depth: object.number("depth", u64::MAX)?,
        start: object.number("start", u64::MAX)?,
        hash: object.one_of("hash", &HASHES)?,
        seed: object.number("seed", u64::MAX)?,
        share: object.one_of("share", &SHARES)?,
        are_flows: object.has("calls") && object.one_of("calls", &[("flows", true)])?,
        batch: object.optional("batch")?,
    })
}

fn entry_of(object: &Object, is_pending: bool, seats: u64) -> Option<Entry> {
    let packet = object.number(FRAME, MOST)? as u32;
    let seat = object.number("seat", seats - 1)?;
    let verb = object.one_of("verb", &VERBS)?;
    let key = key_of(object)?;
    let bytes = if brings_bytes(verb) { Some(object.number("by", u64::MAX)?) } else { None };
    let end = if is_pending { End::Pending { seen: seen_of(object, seats)? } } else { end_of(object, seats)? };
    let batch = object.number("batch", u64::MAX)?;
    let place = object.optional("place")?;
    Some(Entry { call: Call { packet, seat, verb, key, bytes, end }, batch, place })
}

fn end_of(object: &Object, seats: u64) -> Option<End> {
    if object.text("reply")? == "full" {
        let lacks = object.one_of("lacks", &LACKS)?;
        let (left, need) = (object.number("left", u64::MAX)?, object.number("need", u64::MAX)?);
        return Some(End::Refused { lacks, left, need });
    }
    let (reply, told) = object.one_of("reply", &REPLIES)?;
    let number = match told {
        Told::Nothing => 0,
        Told::Session => object.number("session", u64::MAX)?,
        Told::Bytes => object.number("bytes", u64::MAX)?,
    };
    let steps = object.number("steps", u64::MAX)?;
    Some(End::Answered { reply, told, number, steps, seen: seen_of(object, seats)? })
}

fn tail_of(object: &Object) -> Option<Tail> {
    let leaves = numbers_of(object, &LEAVES)?;
    let input = input_of(object)?;
    let (counts, steps) = (numbers_of(object, &COUNTS)?, numbers_of(object, &STEPS)?);
    Some(Tail { leaves, input, counts, steps })
}
