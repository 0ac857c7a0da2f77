//! The lines of a report of `flows`, and their reading. docs/FORMATS.md has the grammar.
//!
//! What is taken is only what can be put again byte for byte: there is a block, and each block has its place behind
//! that of the one before. `flowdir` writes no other.

use crate::faults::{bad, Fault};
use crate::lines::Session;
use crate::report::Lines;
use crate::tails::{read_numbers, Input};
use crate::text::{put_words, Text};
use std::io::BufRead;

pub struct FlowsHead {
    pub seats: u64,
    pub items: u64,
    pub depth: u64,
    pub seed: u64,
    /// The calls of sessions, in place of one call of each packet that makes one.
    pub are_sessions: bool,
    /// After how many packets there is a block again and again, if that is told.
    pub every: Option<u64>,
}

impl FlowsHead {
    pub fn read(line: &[u8]) -> Option<Self> {
        let text = &mut Text::of(line);
        text.word("flowdir flows seats ")?;
        let seats = text.number(8).filter(|seats| *seats > 0)?;
        text.word(" items ")?;
        let items = text.number(u64::MAX)?;
        text.word(" depth ")?;
        let depth = text.number(u64::MAX)?;
        text.word(" seed ")?;
        let seed = text.number(u64::MAX)?;
        let are_sessions = text.word(" calls sessions").is_some();
        let every = text.optional(" every ")?;
        text.end()?;
        Some(FlowsHead { seats, items, depth, seed, are_sessions, every })
    }

    pub fn put(&self, out: &mut Vec<u8>) {
        put_words(out, &[("flowdir flows seats ", self.seats), (" items ", self.items)]);
        put_words(out, &[(" depth ", self.depth), (" seed ", self.seed)]);
        if self.are_sessions {
            out.extend_from_slice(b" calls sessions");
        }
        if let Some(every) = self.every {
            put_words(out, &[(" every ", every)]);
        }
        out.push(b'\n');
    }
}

pub const BLOCK_COUNTS: [(&str, &str); 10] = [
    ("count packets ", "packets"),
    (" calls ", "calls"),
    (" passed ", "passed"),
    (" new ", "new"),
    (" old ", "old"),
    (" noroom ", "noroom"),
    (" gone ", "gone"),
    (" found ", "found"),
    (" absent ", "absent"),
    (" sum ", "sum"),
];

/// What there is behind so many packets.
pub struct Block {
    pub at: u64,
    pub sessions: Vec<Session>,
    pub counts: Vec<u64>,
}

pub fn put_place(out: &mut Vec<u8>, at: u64) {
    put_words(out, &[("at ", at)]);
    out.push(b'\n');
}

fn read_place(line: &[u8]) -> Option<u64> {
    let text = &mut Text::of(line);
    text.word("at ")?;
    let at = text.number(u64::MAX)?;
    text.end()?;
    Some(at)
}

/// Who is told what stands behind the head line of `flows`, part by part, in its order.
pub trait BlockReader {
    fn block(&mut self, block: Block) -> Result<(), Fault>;
    fn input(&mut self, input: &Input) -> Result<(), Fault>;
}

/// Reads what stands behind the head line, and tells it part by part.
pub fn read_blocks(lines: &mut Lines<impl BufRead>, reader: &mut impl BlockReader) -> Result<(), Fault> {
    let mut last = None;
    lines.wanted()?;
    while last.is_none() || lines.begins_with(b"at ") {
        let at = lines.read(read_place)?;
        if last.map_or(false, |last| at <= last) {
            return Err(bad(lines.number, "a block that is not behind the one before it"));
        }
        last = Some(at);
        reader.block(read_block(at, lines)?)?;
        lines.wanted()?;
    }
    let input = lines.read(Input::read)?;
    lines.end()?;
    reader.input(&input)
}

/// The rest of a block, up to its counts.
fn read_block(at: u64, lines: &mut Lines<impl BufRead>) -> Result<Block, Fault> {
    let mut sessions = Vec::new();
    lines.wanted()?;
    while lines.begins_with(b"session ") {
        sessions.push(lines.read(Session::read)?);
        lines.wanted()?;
    }
    let counts = lines.read(|line| read_numbers(line, &BLOCK_COUNTS))?;
    Ok(Block { at, sessions, counts })
}
