//! The lines of a report of `totals`, and their reading. docs/FORMATS.md has the grammar.
//!
//! What is taken is only what can be put again byte for byte: the adds of a batch ascend by packet, each stands once in
//! the batch's order, and each order line but a batch's last one is full. `flowdir` writes no other.

use crate::faults::{bad, Fault};
use crate::lines::{put_seen, read_order, read_seen, Seen, A_LINE, MOST};
use crate::report::Lines;
use crate::tails::{read_numbers, Input};
use crate::text::{put_words, Text};
use std::io::BufRead;

pub struct TotalsHead {
    pub seats: u64,
    /// How many packets a batch has, if that is told.
    pub batch: Option<u64>,
}

impl TotalsHead {
    pub fn read(line: &[u8]) -> Option<Self> {
        let text = &mut Text::of(line);
        text.word("flowdir totals seats ")?;
        let seats = text.number(8).filter(|seats| *seats > 0)?;
        let batch = text.optional(" batch ")?;
        text.end()?;
        Some(TotalsHead { seats, batch })
    }

    pub fn put(&self, out: &mut Vec<u8>) {
        put_words(out, &[("flowdir totals seats ", self.seats)]);
        if let Some(batch) = self.batch {
            put_words(out, &[(" batch ", batch)]);
        }
        out.push(b'\n');
    }
}

/// What a packet is, by its heads; the totals come in this order.
pub const CLASSES: [(&str, &str); 3] = [("tcp", "tcp"), ("udp", "udp"), ("passed", "passed")];

#[derive(Clone, Copy)]
pub struct Add {
    pub packet: u32,
    pub seat: u64,
    pub class: &'static str,
    pub length: u64,
    pub count: u64,
    pub steps: u64,
    pub seen: Seen,
}

impl Add {
    pub fn read(line: &[u8], seats: u64) -> Option<Self> {
        let text = &mut Text::of(line);
        text.word("add ")?;
        let packet = text.number(MOST)? as u32;
        text.word(" seat ")?;
        let seat = text.number(seats - 1)?;
        text.word(" ")?;
        let class = text.one_of(&CLASSES)?;
        text.word(" ")?;
        let length = text.number(u64::MAX)?;
        text.word(" count ")?;
        let count = text.number(u64::MAX)?;
        text.word(" steps ")?;
        let steps = text.number(u64::MAX)?;
        text.word(" ")?;
        let seen = read_seen(text, seats)?;
        text.end()?;
        Some(Add { packet, seat, class, length, count, steps, seen })
    }

    pub fn put(&self, out: &mut Vec<u8>) {
        put_words(out, &[("add ", u64::from(self.packet)), (" seat ", self.seat)]);
        out.push(b' ');
        out.extend_from_slice(self.class.as_bytes());
        put_words(out, &[(" ", self.length), (" count ", self.count), (" steps ", self.steps)]);
        put_seen(out, &self.seen);
        out.push(b'\n');
    }
}

/// The packets of a class, and the sum of their captured lengths.
pub struct Total {
    pub class: &'static str,
    pub count: u64,
    pub bytes: u64,
}

impl Total {
    pub fn read(line: &[u8]) -> Option<Self> {
        let text = &mut Text::of(line);
        text.word("total ")?;
        let class = text.one_of(&CLASSES)?;
        text.word(" ")?;
        let count = text.number(u64::MAX)?;
        text.word(" ")?;
        let bytes = text.number(u64::MAX)?;
        text.end()?;
        Some(Total { class, count, bytes })
    }

    pub fn put(&self, out: &mut Vec<u8>) {
        out.extend_from_slice(b"total ");
        out.extend_from_slice(self.class.as_bytes());
        put_words(out, &[(" ", self.count), (" ", self.bytes)]);
        out.push(b'\n');
    }
}

pub const ADD_STEPS: [(&str, &str); 2] = [("steps add ", "add_steps"), (" bound ", "bound")];

pub struct TotalsTail {
    /// One of each class, in the order of the classes.
    pub totals: Vec<Total>,
    pub input: Input,
    pub steps: Vec<u64>,
}

/// An add line, and where it stands in the one order.
pub struct Placed {
    pub add: Add,
    pub place: Option<u64>,
}

/// The adds of a batch by packet, and the order of their packets.
#[derive(Default)]
pub struct AddBatch {
    pub adds: Vec<Placed>,
    pub order: Vec<u32>,
    pub number: u64,
    /// How many adds have a place, over all batches.
    placed: u64,
}

impl AddBatch {
    /// Gives the packets of an order line their places; `None` if one has no add here, or has a place.
    pub fn order(&mut self, packets: &[u32]) -> Option<()> {
        let is_full = self.order.len() % A_LINE == 0;
        is_full.then(|| ())?;
        for packet in packets {
            let at = self.adds.binary_search_by_key(packet, |it| it.add.packet).ok()?;
            if self.adds[at].place.is_some() {
                return None;
            }
            self.placed += 1;
            self.adds[at].place = Some(self.placed);
        }
        self.order.extend_from_slice(packets);
        Some(())
    }

    pub fn is_begun(&self) -> bool {
        !self.adds.is_empty()
    }

    pub fn is_ordered(&self) -> bool {
        !self.order.is_empty()
    }

    /// Each add has its place.
    pub fn is_whole(&self) -> bool {
        self.order.len() == self.adds.len()
    }

    pub fn empty(&mut self) {
        self.adds.clear();
        self.order.clear();
    }
}

/// Who is told what stands behind the head line of `totals`, part by part, in its order.
pub trait AddReader {
    fn batch(&mut self, batch: &AddBatch) -> Result<(), Fault>;
    fn tail(&mut self, tail: &TotalsTail) -> Result<(), Fault>;
}

/// Reads what stands behind the head line, and tells it part by part.
pub fn read_adds(seats: u64, lines: &mut Lines<impl BufRead>, reader: &mut impl AddReader) -> Result<(), Fault> {
    let mut batch = AddBatch { number: 1, ..AddBatch::default() };
    lines.wanted()?;
    loop {
        if lines.begins_with(b"order") {
            let packets = lines.read(read_order)?;
            if batch.order(&packets).is_none() {
                return Err(bad(lines.number, "an order that is not that of the adds before it"));
            }
        } else if lines.begins_with(b"add ") {
            let add = lines.read(|line| Add::read(line, seats))?;
            if batch.is_ordered() {
                give(&mut batch, lines, reader)?;
            }
            if batch.adds.last().map_or(false, |last| last.add.packet >= add.packet) {
                return Err(bad(lines.number, "an add out of turn"));
            }
            batch.adds.push(Placed { add, place: None });
        } else {
            break;
        }
        lines.wanted()?;
    }
    give(&mut batch, lines, reader)?;
    let tail = read_tail(lines)?;
    lines.end()?;
    reader.tail(&tail)
}

fn give<R>(batch: &mut AddBatch, lines: &Lines<R>, reader: &mut impl AddReader) -> Result<(), Fault> {
    if !batch.is_whole() {
        return Err(bad(lines.number, "an add stands above that is not in the order before this line"));
    }
    if batch.is_ordered() {
        reader.batch(batch)?;
        batch.empty();
        batch.number += 1;
    }
    Ok(())
}

fn read_tail(lines: &mut Lines<impl BufRead>) -> Result<TotalsTail, Fault> {
    let mut totals = Vec::with_capacity(CLASSES.len());
    for (class, _) in CLASSES {
        totals.push(lines.read(|line| Total::read(line).filter(|it| it.class == class))?);
        lines.wanted()?;
    }
    let input = lines.read(Input::read)?;
    lines.wanted()?;
    let steps = lines.read(|line| read_numbers(line, &ADD_STEPS))?;
    Ok(TotalsTail { totals, input, steps })
}
