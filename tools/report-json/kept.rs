//! JSON lines that were kept, as the report that they were made of. The first object tells the report's mode.

use crate::faults::{bad, Fault};
use crate::json::Object;
use crate::kept_adds::KeptAdds;
use crate::kept_blocks::KeptBlocks;
use crate::kept_calls::KeptCalls;
use crate::kept_timed::KeptTimed;
use crate::key::{address_of, Endpoint, Key, Protocol};
use crate::lines::{Seen, Session};
use crate::tails::{Input, Numbers, FAULTS};
use std::io::BufRead;

/// Why an object is not taken.
pub const NONE: &str = "no object of a report";
pub const OUT_OF_TURN: &str = "an object out of turn";

/// The report of the objects so far, by its mode.
enum Kept {
    Nothing,
    Calls(KeptCalls),
    Blocks(KeptBlocks),
    Adds(KeptAdds),
    Timed(KeptTimed),
}

/// Reads JSON lines, and gives the report's text to `put`, piece by piece.
pub fn read_kept(
    mut input: impl BufRead,
    put: &mut dyn FnMut(&mut Vec<u8>) -> Result<(), Fault>,
) -> Result<(), Fault> {
    let (mut kept, mut text) = (Kept::Nothing, Vec::new());
    let (mut line, mut number) = (Vec::new(), 0);
    loop {
        line.clear();
        number += 1;
        if input.read_until(b'\n', &mut line).map_err(Fault::Read)? == 0 {
            break;
        }
        let object = std::str::from_utf8(&line).ok().and_then(Object::read);
        let taken = object.ok_or("no object of JSON").and_then(|it| kept.take(&it, &mut text));
        taken.map_err(|why| bad(number, why))?;
        put(&mut text)?;
    }
    if !kept.is_ended() {
        return Err(bad(number, "the report ends before its end"));
    }
    Ok(())
}

impl Kept {
    /// Takes the next object, and puts what it tells of the text; the fault is a text.
    fn take(&mut self, object: &Object<'_>, text: &mut Vec<u8>) -> Result<(), &'static str> {
        let kind = object.text("type").ok_or(NONE)?;
        match self {
            Kept::Nothing if kind != "head" => return Err(OUT_OF_TURN),
            Kept::Nothing => *self = Kept::begin(object, text).ok_or(NONE)?,
            Kept::Calls(calls) => calls.take(kind, object, text)?,
            Kept::Blocks(blocks) => blocks.take(kind, object, text)?,
            Kept::Adds(adds) => adds.take(kind, object, text)?,
            Kept::Timed(timed) => timed.take(kind, object, text)?,
        }
        Ok(())
    }

    /// Takes the head, and puts its line.
    fn begin(object: &Object<'_>, text: &mut Vec<u8>) -> Option<Self> {
        Some(match object.text("mode")? {
            "flows" if object.has("idle") => Kept::Timed(KeptTimed::begin(object, text)?),
            "flows" => Kept::Blocks(KeptBlocks::begin(object, text)?),
            "totals" => Kept::Adds(KeptAdds::begin(object, text)?),
            _ => Kept::Calls(KeptCalls::begin(object, text)?),
        })
    }

    fn is_ended(&self) -> bool {
        match self {
            Kept::Nothing => false,
            Kept::Calls(calls) => calls.is_ended(),
            Kept::Blocks(blocks) => blocks.is_ended,
            Kept::Adds(adds) => adds.is_ended,
            Kept::Timed(timed) => timed.is_ended,
        }
    }
}

pub fn seats_of(object: &Object) -> Option<u64> {
    object.number("seats", 8).filter(|seats| *seats > 0)
}

pub fn seen_of(object: &Object, seats: u64) -> Option<Seen> {
    let told = object.list("after").filter(|told| told.len() as u64 == seats)?;
    let mut seen = Seen { counts: [0; 8], seats: told.len() };
    for (count, number) in seen.counts.iter_mut().zip(told) {
        *count = u32::try_from(*number).ok()?;
    }
    Some(seen)
}

pub fn key_of(object: &Object) -> Option<Key> {
    key_among(object, Protocol::of_keys(false))
}

/// The key of an object, of one of these protocols.
pub fn key_among(object: &Object, protocols: &[(&str, Protocol)]) -> Option<Key> {
    let (low_address, is_v6) = address_of(object.text("low")?)?;
    let low = Endpoint { address: low_address, port: object.number("low_port", 65535)? as u16 };
    let (high_address, is_other_v6) = address_of(object.text("high")?)?;
    let high = Endpoint { address: high_address, port: object.number("high_port", 65535)? as u16 };
    let protocol = object.one_of("proto", protocols)?;
    (is_v6 == is_other_v6).then(|| Key { is_v6, protocol, low, high }).filter(Key::is_lawful)
}

pub fn session_of(object: &Object) -> Option<Session> {
    let key = key_of(object)?;
    Some(Session { key, session: object.number("session", u64::MAX)?, bytes: object.number("bytes", u64::MAX)? })
}

pub fn input_of(object: &Object) -> Option<Input> {
    Some(match object.text("input")? {
        "done" => Input::Done { rest: object.number("rest", u64::MAX)? },
        "read-fault" => Input::ReadFault,
        "limit" => Input::Limit { limit: object.number("limit", u64::MAX)? },
        "fault" => {
            let (fault, form) = object.one_of("fault", &FAULTS)?;
            let at = object.number("at", u64::MAX)?;
            let found = object.text("found")?;
            form.is_in(found.as_bytes())?;
            Input::Fault { fault, at, found: found.to_string() }
        }
        _ => return None,
    })
}

pub fn numbers_of(object: &Object, form: &Numbers) -> Option<Vec<u64>> {
    form.iter().map(|(_, name)| object.number(name, u64::MAX)).collect()
}
