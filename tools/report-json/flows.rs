//! The flows of a report, and what the capture's packets tell of each.
//!
//! Calls are taken along the one order, so each reply says what the flow's session came to. A flow of a key begins with
//! the key's first call; if its session was removed, the next one begins with the call that was answered `new`.

use crate::capture::Packets;
use crate::faults::Fault;
use crate::fields::{tell_key, Fields};
use crate::heads::{heads_of, LOOKED_AT};
use crate::key::Key;
use crate::lines::{Call, End, Session};
use crate::report::{Entry, Reader};
use crate::tails::Tail;
use crate::text::put_number;
use std::collections::HashMap;

pub const COLUMNS: [&str; 19] = [
    "low", "low_port", "high", "high_port", "proto", "first_frame", "last_frame", "session", "bytes", "state", "orig",
    "ts", "last_ts", "low_pkts", "high_pkts", "low_frame_len", "high_frame_len", "low_flags", "high_flags",
];

#[derive(Clone, Copy, PartialEq)]
enum State {
    /// No session was made: the capture begins behind its first packet, or behind its last one.
    Unseen,
    NoRoom,
    Refused,
    Held,
    Ended,
}

impl State {
    fn word(self) -> &'static [u8] {
        match self {
            State::Unseen => b"unseen",
            State::NoRoom => b"noroom",
            State::Refused => b"refused",
            State::Held => b"held",
            State::Ended => b"ended",
        }
    }
}

/// What one end has sent.
#[derive(Clone, Copy, Default)]
struct Sent {
    packets: u64,
    length: u64,
    flags: u8,
}

/// What the capture tells of a packet.
#[derive(Clone, Copy)]
struct Told {
    time: Option<i128>,
    length: u32,
    is_from_low: bool,
    flags: u8,
}

struct Joined {
    low: Sent,
    high: Sent,
    first: Option<i128>,
    last: Option<i128>,
    /// Which end sent the flow's first packet.
    is_low_first: bool,
    is_fine: bool,
}

pub struct Flow {
    key: Key,
    first: u32,
    last: u32,
    session: Option<u64>,
    bytes: u64,
    state: State,
    is_left: bool,
    joined: Option<Joined>,
}

pub struct Flows {
    packets: Option<Packets>,
    flows: Vec<Flow>,
    newest: HashMap<Key, usize>,
}

impl Flows {
    /// No flow yet; those to come are joined with the packets of the capture at this path, if there is one.
    pub fn new(path: Option<&str>) -> Result<Self, Fault> {
        let opened = path.map(|it| Packets::open_for(it, LOOKED_AT)).transpose();
        Ok(Flows { packets: opened.map_err(Fault::Capture)?, flows: Vec::new(), newest: HashMap::new() })
    }

    /// All flows, by their first packets.
    pub fn all(&mut self) -> impl Iterator<Item = &Flow> {
        let is_fine = self.packets.as_ref().map_or(false, |it| it.is_fine);
        self.flows.iter_mut().filter_map(|it| it.joined.as_mut()).for_each(|it| it.is_fine = is_fine);
        self.flows.sort_by_key(|it| it.first);
        self.flows.iter()
    }

    /// What the capture tells of each call's packet, in the order of the calls.
    fn tell_packets(&mut self, entries: &[Entry]) -> Result<Vec<Option<Told>>, Fault> {
        let mut told = vec![None; entries.len()];
        if let Some(packets) = &mut self.packets {
            let mut by_packet: Vec<usize> = (0..entries.len()).collect();
            by_packet.sort_by_key(|at| entries[*at].call.packet);
            for at in by_packet {
                told[at] = Some(told_of(packets, &entries[at].call)?);
            }
        }
        Ok(told)
    }

    fn take(&mut self, call: &Call, told: Option<Told>) {
        let reply = match &call.end {
            End::Answered { reply, .. } => reply,
            End::Refused { .. } => "full",
            End::Pending { .. } => "",
        };
        let newest = self.newest.get(&call.key).copied();
        let at = match newest {
            Some(at) if self.flows[at].state != State::Ended || reply != "new" => at,
            _ => {
                let (key, first, state) = (call.key, call.packet, State::Unseen);
                let flow = Flow { key, first, last: 0, session: None, bytes: 0, state, is_left: false, joined: None };
                self.flows.push(flow);
                self.newest.insert(key, self.flows.len() - 1);
                self.flows.len() - 1
            }
        };
        self.flows[at].take(call, reply, told);
    }
}

/// Goes on to the packet of a call; a fault if the capture has none there, or one of another flow.
fn told_of(packets: &mut Packets, call: &Call) -> Result<Told, Fault> {
    let number = u64::from(call.packet);
    while packets.count < number {
        if !packets.next().map_err(|why| Fault::Capture(why.to_string()))? {
            let why = format!("it has {} packets, and the report tells of packet {number}", packets.count);
            return Err(Fault::Capture(why));
        }
    }
    let heads = heads_of(&packets.packet.bytes).filter(|it| it.key == call.key && packets.count == number);
    let heads = heads.ok_or_else(|| {
        Fault::Capture(format!("packet {number} is not of the flow that the report tells: it is another capture's"))
    })?;
    let packet = &packets.packet;
    Ok(Told { time: packet.time, length: packet.length, is_from_low: heads.is_from_low, flags: heads.flags })
}

impl Reader for Flows {
    fn batch(&mut self, entries: &[Entry]) -> Result<(), Fault> {
        let told = self.tell_packets(entries)?;
        let mut in_order: Vec<usize> = (0..entries.len()).collect();
        in_order.sort_by_key(|at| (entries[*at].place.is_none(), entries[*at].place));
        for at in in_order {
            self.take(&entries[at].call, told[at]);
        }
        Ok(())
    }

    fn session(&mut self, session: &Session) -> Result<(), Fault> {
        if let Some(at) = self.newest.get(&session.key) {
            let flow = &mut self.flows[*at];
            flow.is_left = true;
            flow.state = State::Held;
            flow.session = Some(session.session);
            flow.bytes = session.bytes;
        }
        Ok(())
    }

    /// What no session line tells is held no more: a call under way has ended it.
    fn tail(&mut self, _: &Tail) -> Result<(), Fault> {
        for flow in self.flows.iter_mut().filter(|it| it.state == State::Held && !it.is_left) {
            flow.state = State::Ended;
        }
        Ok(())
    }
}

impl Flow {
    fn take(&mut self, call: &Call, reply: &str, told: Option<Told>) {
        let is_first = self.last == 0 || call.packet < self.first;
        self.first = self.first.min(call.packet);
        self.last = self.last.max(call.packet);
        let number = match &call.end {
            End::Answered { number, .. } => *number,
            _ => 0,
        };
        match reply {
            "new" => {
                self.session = Some(number);
                self.state = State::Held;
                self.bytes = call.bytes.unwrap_or(0);
            }
            "sum" => self.bytes = number,
            "gone" => self.state = State::Ended,
            "noroom" if self.state == State::Unseen => self.state = State::NoRoom,
            "full" if self.state == State::Unseen => self.state = State::Refused,
            _ => (),
        }
        if let Some(told) = told {
            self.join(told, is_first);
        }
    }

    fn join(&mut self, told: Told, is_first: bool) {
        let nothing = || Joined {
            low: Sent::default(),
            high: Sent::default(),
            first: None,
            last: None,
            is_low_first: true,
            is_fine: false,
        };
        let joined = self.joined.get_or_insert_with(nothing);
        let sent = if told.is_from_low { &mut joined.low } else { &mut joined.high };
        sent.packets += 1;
        sent.length += u64::from(told.length);
        sent.flags |= told.flags;
        if is_first {
            joined.is_low_first = told.is_from_low;
        }
        if let Some(time) = told.time {
            joined.first = Some(joined.first.map_or(time, |it| it.min(time)));
            joined.last = Some(joined.last.map_or(time, |it| it.max(time)));
        }
    }

    pub fn tell(&self, to: &mut impl Fields) {
        tell_key(&self.key, to);
        to.number("first_frame", u64::from(self.first));
        to.number("last_frame", u64::from(self.last));
        if let Some(session) = self.session {
            to.number("session", session);
        }
        to.number("bytes", self.bytes);
        to.text("state", self.state.word());
        if let Some(joined) = &self.joined {
            joined.tell(to);
        }
    }
}

impl Joined {
    fn tell(&self, to: &mut impl Fields) {
        to.text("orig", if self.is_low_first { b"low" } else { b"high" });
        for (name, time) in [("ts", self.first), ("last_ts", self.last)] {
            if let Some(time) = time {
                tell_time(name, time, self.is_fine, to);
            }
        }
        to.number("low_pkts", self.low.packets);
        to.number("high_pkts", self.high.packets);
        to.number("low_frame_len", self.low.length);
        to.number("high_frame_len", self.high.length);
        to.text("low_flags", &letters_of(self.low.flags));
        to.text("high_flags", &letters_of(self.high.flags));
    }
}

/// Seconds since 1970, with six digits behind the point, or nine if the capture has parts of a microsecond. As a number
/// if each reader of JSON keeps its digits: at most 2^53 - 1 microseconds, and no parts of one.
fn tell_time(name: &str, time: i128, is_fine: bool, to: &mut impl Fields) {
    let (unit, digits) = if is_fine { (1_000_000_000, 9) } else { (1_000_000, 6) };
    let time = if is_fine { time } else { time / 1000 };
    let mut text = Vec::with_capacity(24);
    if time < 0 {
        text.push(b'-');
    }
    let size = time.unsigned_abs();
    put_number(&mut text, (size / unit) as u64);
    text.push(b'.');
    let parts = (size % unit).to_string();
    text.extend(std::iter::repeat(b'0').take(digits - parts.len()));
    text.extend_from_slice(parts.as_bytes());
    to.seconds(name, &text, !is_fine && size < 1 << 53);
}

/// The letters of TCP's flags, in the order of RFC 9293.
pub fn letters_of(flags: u8) -> Vec<u8> {
    (0..8).filter(|at| flags & (0x80 >> at) != 0).map(|at| LETTERS[at]).collect()
}

/// The flags that these letters are.
pub fn flags_of(letters: &str) -> Option<u8> {
    letters.bytes().try_fold(0, |flags, letter| Some(flags | 0x80 >> LETTERS.iter().position(|it| *it == letter)?))
}

const LETTERS: &[u8; 8] = b"CEUAPRSF";
