//! A report read from its text, line by line. The head line says of which mode it is. One of `serve` or `play` goes on
//! with the calls batch by batch with their places in the one order, the sessions, and the end.
//!
//! A batch is a run of call lines, pending lines and order lines, as a table leaves them. What is taken is only what
//! can be put again byte for byte: call lines ascend by packet, pending lines by caller, and each order line but a
//! batch's last one is full. `flowdir` writes no other.

use crate::adds::TotalsHead;
use crate::blocks::FlowsHead;
use crate::faults::{bad, Fault};
use crate::lines::{read_order, Call, End, Head, Session, A_LINE};
use crate::tails::{read_numbers, Input, Tail, COUNTS, LEAVES, STEPS};
use crate::timed::TimedHead;
use std::io::BufRead;

/// A call line, and where it stands in the one order.
pub struct Entry {
    pub call: Call,
    pub batch: u64,
    pub place: Option<u64>,
}

/// The head line of a report, by its mode.
pub enum Heading {
    Calls(Head),
    Blocks(FlowsHead),
    Adds(TotalsHead),
    Timed(TimedHead),
}

impl Heading {
    fn read(line: &[u8]) -> Option<Self> {
        let calls = Head::read(line).map(Heading::Calls);
        let blocks = || FlowsHead::read(line).map(Heading::Blocks);
        let timed = || TimedHead::read(line).map(Heading::Timed);
        calls.or_else(blocks).or_else(timed).or_else(|| TotalsHead::read(line).map(Heading::Adds))
    }

    /// The head of a report of `serve` or `play`.
    pub fn of_calls(self) -> Result<Head, Fault> {
        match self {
            Heading::Calls(head) => Ok(head),
            Heading::Blocks(_) | Heading::Adds(_) | Heading::Timed(_) => Err(another_mode()),
        }
    }
}

/// The fault of a report that has other lines than those that are asked for.
pub fn another_mode() -> Fault {
    bad(1, "the report is of another mode, and has no such lines")
}

/// Who is told what stands behind the head line of `serve` or `play`, part by part, in its order.
pub trait Reader {
    /// The calls of one batch, in the order of their lines.
    fn batch(&mut self, entries: &[Entry]) -> Result<(), Fault>;
    fn session(&mut self, session: &Session) -> Result<(), Fault>;
    fn tail(&mut self, tail: &Tail) -> Result<(), Fault>;
}

/// The lines of an input, without their line feeds.
pub struct Lines<R> {
    input: R,
    line: Vec<u8>,
    /// Which line is the present one, from 1.
    pub number: u64,
}

impl<R: BufRead> Lines<R> {
    /// Goes on to the next line; false at the end of the input.
    fn next(&mut self) -> Result<bool, Fault> {
        self.line.clear();
        self.number += 1;
        if self.input.read_until(b'\n', &mut self.line).map_err(Fault::Read)? == 0 {
            return Ok(false);
        }
        if self.line.pop() != Some(b'\n') {
            return Err(bad(self.number, "it has no line feed"));
        }
        Ok(true)
    }

    /// Goes on to the next line, which has to be there.
    pub fn wanted(&mut self) -> Result<(), Fault> {
        if self.next()? {
            return Ok(());
        }
        Err(bad(self.number, "the report ends before its end"))
    }

    /// The present line, read as one of this form.
    pub fn read<T>(&self, form: impl FnOnce(&[u8]) -> Option<T>) -> Result<T, Fault> {
        form(&self.line).ok_or_else(|| bad(self.number, "no line that a report has here"))
    }

    /// The present line has to be the last one.
    pub fn end(&mut self) -> Result<(), Fault> {
        if self.next()? {
            return Err(bad(self.number, "a line behind the report's last one"));
        }
        Ok(())
    }

    pub fn begins_with(&self, word: &[u8]) -> bool {
        self.line.starts_with(word)
    }
}

/// The batch that is read now.
#[derive(Default)]
struct Batch {
    entries: Vec<Entry>,
    /// How many of them are no pending ones. These come first, and ascend by packet.
    ended: usize,
    number: u64,
    /// How many calls have a place, over all batches.
    placed: u64,
    is_ordered: bool,
    is_order_full: bool,
}

impl Batch {
    /// Takes a call line; false if it is the first one of the next batch.
    fn take(&mut self, call: Call) -> bool {
        let is_pending = matches!(call.end, End::Pending { .. });
        let is_behind = match self.entries.last() {
            None => true,
            Some(last) if is_pending => self.ended == self.entries.len() || last.call.seat < call.seat,
            Some(last) => self.ended == self.entries.len() && last.call.packet < call.packet,
        };
        if self.is_ordered || !is_behind {
            return false;
        }
        self.ended += usize::from(!is_pending);
        let batch = self.number;
        self.entries.push(Entry { call, batch, place: None });
        true
    }

    /// Gives the packets of an order line their places; `None` if one has no call here, or has a place.
    fn order(&mut self, packets: &[u32]) -> Option<()> {
        if self.is_ordered && !self.is_order_full {
            return None;
        }
        self.is_ordered = true;
        self.is_order_full = packets.len() == A_LINE;
        for packet in packets {
            let (ended, pending) = self.entries.split_at_mut(self.ended);
            let entry = match ended.binary_search_by_key(packet, |it| it.call.packet) {
                Ok(at) => &mut ended[at],
                Err(_) => pending.iter_mut().find(|it| it.call.packet == *packet)?,
            };
            if entry.place.is_some() {
                return None;
            }
            self.placed += 1;
            entry.place = Some(self.placed);
        }
        Some(())
    }

    /// A pending packet that is that of another line of the batch could not be told from it.
    fn is_clear(&self) -> bool {
        let (ended, pending) = self.entries.split_at(self.ended);
        pending.iter().enumerate().all(|(at, it)| {
            let packet = it.call.packet;
            ended.binary_search_by_key(&packet, |it| it.call.packet).is_err()
                && pending[..at].iter().all(|it| it.call.packet != packet)
        })
    }

    fn empty(&mut self) {
        self.entries.clear();
        self.ended = 0;
        self.number += 1;
        self.is_ordered = false;
        self.is_order_full = false;
    }
}

/// Reads the head line of a report. The fault of a text that is none names the line.
pub fn open<R: BufRead>(input: R) -> Result<(Heading, Lines<R>), Fault> {
    let mut lines = Lines { input, line: Vec::new(), number: 0 };
    lines.wanted()?;
    let heading = lines.read(Heading::read)?;
    Ok((heading, lines))
}

/// Reads what stands behind the head line of `serve` or `play`, and tells it part by part.
pub fn read_calls(seats: u64, lines: &mut Lines<impl BufRead>, reader: &mut impl Reader) -> Result<(), Fault> {
    let mut batch = Batch { number: 1, ..Batch::default() };
    lines.wanted()?;
    loop {
        if lines.begins_with(b"order") {
            let packets = lines.read(read_order)?;
            if batch.order(&packets).is_none() {
                return Err(bad(lines.number, "an order that is not that of the calls before it"));
            }
        } else if lines.begins_with(b"call ") || lines.begins_with(b"pending ") {
            let call = lines.read(|line| Call::read(line, seats))?;
            if !batch.take(call) {
                let is_ordered = batch.is_ordered;
                give(&mut batch, lines, reader)?;
                if !is_ordered || !batch.take(call) {
                    return Err(bad(lines.number, "a call out of turn"));
                }
            }
        } else {
            break;
        }
        lines.wanted()?;
    }
    give(&mut batch, lines, reader)?;
    while lines.begins_with(b"session ") {
        reader.session(&lines.read(Session::read)?)?;
        lines.wanted()?;
    }
    let tail = read_tail(lines)?;
    lines.end()?;
    reader.tail(&tail)
}

fn give<R>(batch: &mut Batch, lines: &Lines<R>, reader: &mut impl Reader) -> Result<(), Fault> {
    if !batch.is_clear() {
        return Err(bad(lines.number - 1, "one packet of two calls stands above"));
    }
    if !batch.entries.is_empty() {
        reader.batch(&batch.entries)?;
        batch.empty();
    }
    Ok(())
}

fn read_tail(lines: &mut Lines<impl BufRead>) -> Result<Tail, Fault> {
    let leaves = lines.read(|line| read_numbers(line, &LEAVES))?;
    lines.wanted()?;
    let input = lines.read(Input::read)?;
    lines.wanted()?;
    let counts = lines.read(|line| read_numbers(line, &COUNTS))?;
    lines.wanted()?;
    let steps = lines.read(|line| read_numbers(line, &STEPS))?;
    Ok(Tail { leaves, input, counts, steps })
}
