//! What an object tells, field by field, and the two forms that this is written in: JSON lines and CSV.

use crate::adds::{Add, Total, TotalsHead, TotalsTail, ADD_STEPS};
use crate::blocks::{Block, FlowsHead, BLOCK_COUNTS};
use crate::key::Key;
use crate::lines::{Call, End, Head, Seen, Session, Told};
use crate::tails::{Input, Numbers, Tail, COUNTS, LEAVES, STEPS};
use crate::text::put_number;

/// The greatest number that each reader of JSON keeps (RFC 8259, section 6): 2^53 - 1.
const SAFE: u64 = (1 << 53) - 1;

/// The number of a packet in its capture, by tshark's name.
pub const FRAME: &str = "frame.number";

/// Who is told an object, field by field. No text has a character that JSON or CSV escapes.
pub trait Fields {
    fn text(&mut self, name: &str, value: &[u8]);
    fn number(&mut self, name: &str, value: u64);
    fn list(&mut self, name: &str, values: &[u32]);
    /// A number of seconds that is no whole one, by its digits.
    fn seconds(&mut self, name: &str, digits: &[u8], is_safe: bool);
}

/// An object a line (RFC 8259, RFC 7464's newline form as jq, Zeek and tshark write it).
pub struct Json<'a> {
    out: &'a mut Vec<u8>,
    next: u8,
}

impl<'a> Json<'a> {
    pub fn new(out: &'a mut Vec<u8>) -> Self {
        Json { out, next: b'{' }
    }

    pub fn end(self) {
        self.out.extend_from_slice(b"}\n");
    }

    fn name(&mut self, name: &str) {
        self.out.push(self.next);
        self.next = b',';
        self.quoted(name.as_bytes());
        self.out.push(b':');
    }

    fn quoted(&mut self, text: &[u8]) {
        self.out.push(b'"');
        self.out.extend_from_slice(text);
        self.out.push(b'"');
    }
}

impl Fields for Json<'_> {
    fn text(&mut self, name: &str, value: &[u8]) {
        self.name(name);
        self.quoted(value);
    }

    fn number(&mut self, name: &str, value: u64) {
        self.name(name);
        if value > SAFE {
            self.out.push(b'"');
            put_number(self.out, value);
            self.out.push(b'"');
        } else {
            put_number(self.out, value);
        }
    }

    fn list(&mut self, name: &str, values: &[u32]) {
        self.name(name);
        let mut next = b'[';
        for value in values {
            self.out.push(next);
            next = b',';
            put_number(self.out, u64::from(*value));
        }
        self.out.push(b']');
    }

    fn seconds(&mut self, name: &str, digits: &[u8], is_safe: bool) {
        self.name(name);
        if is_safe {
            self.out.extend_from_slice(digits);
        } else {
            self.quoted(digits);
        }
    }
}

/// A row of a table (RFC 4180, with one line feed at a line's end): the fields that have a column.
pub struct Row {
    columns: &'static [&'static str],
    cells: Vec<Vec<u8>>,
    next: usize,
}

impl Row {
    pub fn new(columns: &'static [&'static str]) -> Self {
        Row { columns, cells: vec![Vec::new(); columns.len()], next: 0 }
    }

    pub fn put_names(&self, out: &mut Vec<u8>) {
        out.extend_from_slice(self.columns.join(",").as_bytes());
        out.push(b'\n');
    }

    /// Puts the cells that were told, and forgets them.
    pub fn put(&mut self, out: &mut Vec<u8>) {
        for (at, cell) in self.cells.iter_mut().enumerate() {
            if at > 0 {
                out.push(b',');
            }
            out.append(cell);
        }
        out.push(b'\n');
        self.next = 0;
    }

    /// The cell of this name, or one that is no column's. Fields mostly come in the order of the columns.
    fn cell(&mut self, name: &str) -> Option<&mut Vec<u8>> {
        let length = self.columns.len();
        let at = (self.next..length).chain(0..self.next).find(|at| self.columns[*at] == name)?;
        self.next = (at + 1) % length;
        Some(&mut self.cells[at])
    }
}

impl Fields for Row {
    fn text(&mut self, name: &str, value: &[u8]) {
        if let Some(cell) = self.cell(name) {
            cell.extend_from_slice(value);
        }
    }

    fn number(&mut self, name: &str, value: u64) {
        if let Some(cell) = self.cell(name) {
            put_number(cell, value);
        }
    }

    fn list(&mut self, name: &str, values: &[u32]) {
        if let Some(cell) = self.cell(name) {
            for (at, value) in values.iter().enumerate() {
                if at > 0 {
                    cell.push(b' ');
                }
                put_number(cell, u64::from(*value));
            }
        }
    }

    fn seconds(&mut self, name: &str, digits: &[u8], _is_safe: bool) {
        self.text(name, digits);
    }
}

pub const CALLS: [&str; 20] = [
    "type", FRAME, "seat", "verb", "low", "low_port", "high", "high_port", "proto", "by", "reply", "session", "bytes",
    "lacks", "left", "need", "steps", "after", "batch", "place",
];
pub const SESSIONS: [&str; 7] = ["low", "low_port", "high", "high_port", "proto", "session", "bytes"];
pub const LEFT: [&str; 8] = ["at", "low", "low_port", "high", "high_port", "proto", "session", "bytes"];
pub const ADDS: [&str; 9] = [FRAME, "seat", "class", "length", "count", "steps", "after", "batch", "place"];
pub const TOTALS: [&str; 3] = ["class", "count", "bytes"];

pub fn tell_head(head: &Head, to: &mut impl Fields) {
    to.text("type", b"head");
    to.text("mode", head.mode.as_bytes());
    to.number("seats", head.seats);
    to.number("items", head.items);
    to.number("depth", head.depth);
    to.number("start", head.start);
    to.text("hash", head.hash.as_bytes());
    to.number("seed", head.seed);
    to.text("share", head.share.as_bytes());
    if head.are_flows {
        to.text("calls", b"flows");
    }
    if let Some(batch) = head.batch {
        to.number("batch", batch);
    }
}

pub fn tell_key(key: &Key, to: &mut impl Fields) {
    let mut address = Vec::with_capacity(48);
    key.put_address(&mut address, key.low);
    to.text("low", &address);
    to.number("low_port", u64::from(key.low.port));
    address.clear();
    key.put_address(&mut address, key.high);
    to.text("high", &address);
    to.number("high_port", u64::from(key.high.port));
    to.text("proto", key.protocol_word().as_bytes());
}

/// A call, in which batch it stands, and its place in the one order, from 1.
pub fn tell_call(call: &Call, batch: u64, place: Option<u64>, to: &mut impl Fields) {
    let is_pending = matches!(call.end, End::Pending { .. });
    to.text("type", if is_pending { b"pending" } else { b"call" });
    to.number(FRAME, u64::from(call.packet));
    to.number("seat", call.seat);
    to.text("verb", call.verb.as_bytes());
    tell_key(&call.key, to);
    if let Some(bytes) = call.bytes {
        to.number("by", bytes);
    }
    match &call.end {
        End::Answered { reply, told, number, steps, seen } => {
            to.text("reply", reply.as_bytes());
            match told {
                Told::Session => to.number("session", *number),
                Told::Bytes => to.number("bytes", *number),
                Told::Nothing => (),
            }
            to.number("steps", *steps);
            tell_seen(seen, to);
        }
        End::Refused { lacks, left, need } => {
            to.text("reply", b"full");
            to.text("lacks", lacks.as_bytes());
            to.number("left", *left);
            to.number("need", *need);
        }
        End::Pending { seen } => tell_seen(seen, to),
    }
    to.number("batch", batch);
    tell_place(place, to);
}

pub fn tell_place(place: Option<u64>, to: &mut impl Fields) {
    if let Some(place) = place {
        to.number("place", place);
    }
}

fn tell_seen(seen: &Seen, to: &mut impl Fields) {
    to.list("after", &seen.counts[..seen.seats]);
}

pub fn tell_session(session: &Session, to: &mut impl Fields) {
    to.text("type", b"session");
    tell_pair(session, to);
}

fn tell_pair(session: &Session, to: &mut impl Fields) {
    tell_key(&session.key, to);
    to.number("session", session.session);
    to.number("bytes", session.bytes);
}

pub fn tell_tail(tail: &Tail, to: &mut impl Fields) {
    to.text("type", b"end");
    tell_numbers(&LEAVES, &tail.leaves, to);
    tell_input(&tail.input, to);
    tell_numbers(&COUNTS, &tail.counts, to);
    tell_numbers(&STEPS, &tail.steps, to);
}

pub fn tell_input(input: &Input, to: &mut impl Fields) {
    match input {
        Input::Done { rest } => {
            to.text("input", b"done");
            to.number("rest", *rest);
        }
        Input::ReadFault => to.text("input", b"read-fault"),
        Input::Limit { limit } => {
            to.text("input", b"limit");
            to.number("limit", *limit);
        }
        Input::Fault { fault, at, found } => {
            to.text("input", b"fault");
            to.text("fault", fault.as_bytes());
            to.number("at", *at);
            to.text("found", found.as_bytes());
        }
    }
}

pub fn tell_numbers(form: &Numbers, numbers: &[u64], to: &mut impl Fields) {
    for ((_, name), number) in form.iter().zip(numbers) {
        to.number(name, *number);
    }
}

pub fn tell_flows_head(head: &FlowsHead, to: &mut impl Fields) {
    to.text("type", b"head");
    to.text("mode", b"flows");
    to.number("seats", head.seats);
    to.number("items", head.items);
    to.number("depth", head.depth);
    to.number("seed", head.seed);
    if head.are_sessions {
        to.text("calls", b"sessions");
    }
    if let Some(every) = head.every {
        to.number("every", every);
    }
}

/// A block, but for its sessions.
pub fn tell_block(block: &Block, to: &mut impl Fields) {
    to.text("type", b"block");
    to.number("at", block.at);
    tell_numbers(&BLOCK_COUNTS, &block.counts, to);
}

/// A session of the block at this place.
pub fn tell_left(at: u64, session: &Session, to: &mut impl Fields) {
    to.text("type", b"session");
    to.number("at", at);
    tell_pair(session, to);
}

pub fn tell_flows_end(input: &Input, to: &mut impl Fields) {
    to.text("type", b"end");
    tell_input(input, to);
}

pub fn tell_totals_head(head: &TotalsHead, to: &mut impl Fields) {
    to.text("type", b"head");
    to.text("mode", b"totals");
    to.number("seats", head.seats);
    if let Some(batch) = head.batch {
        to.number("batch", batch);
    }
}

/// An add, and in which batch it stands.
pub fn tell_add(add: &Add, batch: u64, to: &mut impl Fields) {
    to.text("type", b"add");
    to.number(FRAME, u64::from(add.packet));
    to.number("seat", add.seat);
    to.text("class", add.class.as_bytes());
    to.number("length", add.length);
    to.number("count", add.count);
    to.number("steps", add.steps);
    tell_seen(&add.seen, to);
    to.number("batch", batch);
}

/// An order line, and in which batch it stands.
pub fn tell_order(packets: &[u32], batch: u64, to: &mut impl Fields) {
    to.text("type", b"order");
    to.list("order", packets);
    to.number("batch", batch);
}

pub fn tell_total(total: &Total, to: &mut impl Fields) {
    to.text("type", b"total");
    to.text("class", total.class.as_bytes());
    to.number("count", total.count);
    to.number("bytes", total.bytes);
}

pub fn tell_totals_tail(tail: &TotalsTail, to: &mut impl Fields) {
    to.text("type", b"end");
    tell_input(&tail.input, to);
    tell_numbers(&ADD_STEPS, &tail.steps, to);
}
