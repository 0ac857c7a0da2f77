//! JSON lines of a report of `flows`, as its text.

use crate::blocks::{put_place, FlowsHead, BLOCK_COUNTS};
use crate::json::Object;
use crate::kept::{input_of, numbers_of, seats_of, session_of, NONE, OUT_OF_TURN};
use crate::tails::put_numbers;

/// The block whose sessions come now; its counts stand behind these.
struct Begun {
    at: u64,
    counts: Vec<u64>,
}

/// The report of the objects so far.
pub struct KeptBlocks {
    begun: Option<Begun>,
    pub is_ended: bool,
}

impl KeptBlocks {
    /// Takes the head, and puts its line.
    pub fn begin(object: &Object<'_>, text: &mut Vec<u8>) -> Option<Self> {
        head_of(object)?.put(text);
        Some(KeptBlocks { begun: None, is_ended: false })
    }

    /// Takes the next object, which is of this kind; the fault is a text.
    pub fn take(&mut self, kind: &str, object: &Object<'_>, text: &mut Vec<u8>) -> Result<(), &'static str> {
        if self.is_ended {
            return Err(OUT_OF_TURN);
        }
        match (kind, &self.begun) {
            ("block", begun) => {
                let next = begun_of(object).ok_or(NONE)?;
                if let Some(begun) = begun {
                    if next.at <= begun.at {
                        return Err("a block that is not behind the one before it");
                    }
                    begun.put_counts(text);
                }
                put_place(text, next.at);
                self.begun = Some(next);
            }
            ("session", Some(begun)) => {
                let session = session_of(object).ok_or(NONE)?;
                if object.number("at", u64::MAX).ok_or(NONE)? != begun.at {
                    return Err("a session of another block");
                }
                session.put(text);
            }
            ("end", Some(begun)) => {
                begun.put_counts(text);
                input_of(object).ok_or(NONE)?.put(text);
                self.is_ended = true;
            }
            ("head" | "session" | "end", _) => return Err(OUT_OF_TURN),
            _ => return Err(NONE),
        }
        Ok(())
    }
}

impl Begun {
    fn put_counts(&self, text: &mut Vec<u8>) {
        put_numbers(text, &BLOCK_COUNTS, &self.counts);
    }
}

fn head_of(object: &Object) -> Option<FlowsHead> {
    Some(FlowsHead {
        seats: seats_of(object)?,
        items: object.number("items", u64::MAX)?,
        depth: object.number("depth", u64::MAX)?,
        seed: object.number("seed", u64::MAX)?,
        are_sessions: object.has("calls") && object.one_of("calls", &[("sessions", true)])?,
        every: object.optional("every")?,
    })
}

fn begun_of(object: &Object) -> Option<Begun> {
    Some(Begun { at: object.number("at", u64::MAX)?, counts: numbers_of(object, &BLOCK_COUNTS)? })
}
