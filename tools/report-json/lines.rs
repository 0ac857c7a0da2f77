//! The lines of a report of `serve` or `play`, each read from its text and put as the same text. docs/FORMATS.md has
//! the grammar.
//!
//! What is read is put again byte for byte: numbers have no leading zeros, and each space and word is asked for.

use crate::key::Key;
use crate::text::{put_number, put_words, Text};

/// The greatest number of a packet, and a count of calls.
pub const MOST: u64 = u32::MAX as u64;

#[derive(Clone)]
pub struct Head {
    pub mode: &'static str,
    pub seats: u64,
    pub items: u64,
    pub depth: u64,
    pub start: u64,
    pub hash: &'static str,
    pub seed: u64,
    pub share: &'static str,
    /// One call of each packet that makes one, in place of the calls of sessions.
    pub are_flows: bool,
    /// How many packets a batch has, if that is told.
    pub batch: Option<u64>,
}

pub const MODES: [(&str, &str); 2] = [("serve", "serve"), ("play", "play")];
pub const HASHES: [(&str, &str); 2] = [("mix", "mix"), ("ports", "ports")];
pub const SHARES: [(&str, &str); 3] = [("round", "round"), ("block", "block"), ("flow", "flow")];

impl Head {
    pub fn read(line: &[u8]) -> Option<Self> {
        let text = &mut Text::of(line);
        text.word("flowdir ")?;
        let mode = text.one_of(&MODES)?;
        text.word(" seats ")?;
        let seats = text.number(8).filter(|seats| *seats > 0)?;
        text.word(" items ")?;
        let items = text.number(u64::MAX)?;
        text.word(" depth ")?;
        let depth = text.number(u64::MAX)?;
        text.word(" start ")?;
        let start = text.number(u64::MAX)?;
        text.word(" hash ")?;
        let hash = text.one_of(&HASHES)?;
        text.word(" seed ")?;
        let seed = text.number(u64::MAX)?;
        text.word(" share ")?;
        let share = text.one_of(&SHARES)?;
        let are_flows = text.word(" calls flows").is_some();
        let batch = text.optional(" batch ")?;
        text.end()?;
        Some(Head { mode, seats, items, depth, start, hash, seed, share, are_flows, batch })
    }

    pub fn put(&self, out: &mut Vec<u8>) {
        out.extend_from_slice(b"flowdir ");
        out.extend_from_slice(self.mode.as_bytes());
        put_words(out, &[(" seats ", self.seats), (" items ", self.items), (" depth ", self.depth)]);
        put_words(out, &[(" start ", self.start)]);
        out.extend_from_slice(b" hash ");
        out.extend_from_slice(self.hash.as_bytes());
        put_words(out, &[(" seed ", self.seed)]);
        out.extend_from_slice(b" share ");
        out.extend_from_slice(self.share.as_bytes());
        if self.are_flows {
            out.extend_from_slice(b" calls flows");
        }
        if let Some(batch) = self.batch {
            put_words(out, &[(" batch ", batch)]);
        }
        out.push(b'\n');
    }
}

/// What a call asks for; a tally and a count bring bytes.
pub const VERBS: [(&str, &str); 5] =
    [("insert", "insert"), ("remove", "remove"), ("lookup", "lookup"), ("tally", "tally"), ("count", "count")];

pub fn brings_bytes(verb: &str) -> bool {
    verb == "tally" || verb == "count"
}

/// The word of a reply, and what its number is.
pub const REPLIES: [(&str, (&str, Told)); 7] = [
    ("new", ("new", Told::Session)),
    ("old", ("old", Told::Session)),
    ("noroom", ("noroom", Told::Nothing)),
    ("gone", ("gone", Told::Session)),
    ("found", ("found", Told::Session)),
    ("absent", ("absent", Told::Nothing)),
    ("sum", ("sum", Told::Bytes)),
];

#[derive(Clone, Copy, PartialEq)]
pub enum Told {
    Nothing,
    Session,
    Bytes,
}

/// What an update lacks.
pub const LACKS: [(&str, &str); 4] =
    [("oprows", "oprows"), ("bucketrows", "bucketrows"), ("bucketwords", "bucketwords"), ("dirrows", "dirrows")];

/// For each seat how many of its calls were seen finished.
#[derive(Clone, Copy)]
pub struct Seen {
    pub counts: [u32; 8],
    pub seats: usize,
}

#[derive(Clone, Copy)]
pub enum End {
    /// The reply's word, what its number is, the number, the steps.
    Answered { reply: &'static str, told: Told, number: u64, steps: u64, seen: Seen },
    Refused { lacks: &'static str, left: u64, need: u64 },
    Pending { seen: Seen },
}

#[derive(Clone, Copy)]
pub struct Call {
    pub packet: u32,
    pub seat: u64,
    pub verb: &'static str,
    pub key: Key,
    pub bytes: Option<u64>,
    pub end: End,
}

impl Call {
    pub fn read(line: &[u8], seats: u64) -> Option<Self> {
        let text = &mut Text::of(line);
        let is_pending = text.one_of(&[("call ", false), ("pending ", true)])?;
        let packet = text.number(MOST)? as u32;
        text.word(" seat ")?;
        let seat = text.number(seats - 1)?;
        text.word(" ")?;
        let verb = text.one_of(&VERBS)?;
        text.word(" ")?;
        let key = Key::read(text)?;
        let mut bytes = None;
        if brings_bytes(verb) {
            text.word(" by ")?;
            bytes = Some(text.number(u64::MAX)?);
        }
        text.word(" ")?;
        let end = if is_pending { End::Pending { seen: read_seen(text, seats)? } } else { read_end(text, seats)? };
        text.end()?;
        Some(Call { packet, seat, verb, key, bytes, end })
    }

    pub fn put(&self, out: &mut Vec<u8>) {
        out.extend_from_slice(if matches!(self.end, End::Pending { .. }) { b"pending " } else { b"call " });
        put_number(out, u64::from(self.packet));
        put_words(out, &[(" seat ", self.seat)]);
        out.push(b' ');
        out.extend_from_slice(self.verb.as_bytes());
        out.push(b' ');
        self.key.put(out);
        if let Some(bytes) = self.bytes {
            put_words(out, &[(" by ", bytes)]);
        }
        match &self.end {
            End::Answered { reply, told, number, steps, seen } => {
                out.push(b' ');
                out.extend_from_slice(reply.as_bytes());
                if *told != Told::Nothing {
                    put_words(out, &[(" ", *number)]);
                }
                put_words(out, &[(" steps ", *steps)]);
                put_seen(out, seen);
            }
            End::Refused { lacks, left, need } => {
                out.extend_from_slice(b" full ");
                out.extend_from_slice(lacks.as_bytes());
                put_words(out, &[(" ", *left), (" ", *need)]);
            }
            End::Pending { seen } => put_seen(out, seen),
        }
        out.push(b'\n');
    }
}

fn read_end(text: &mut Text<'_>, seats: u64) -> Option<End> {
    if text.word("full ").is_some() {
        let lacks = text.one_of(&LACKS)?;
        text.word(" ")?;
        let left = text.number(u64::MAX)?;
        text.word(" ")?;
        return Some(End::Refused { lacks, left, need: text.number(u64::MAX)? });
    }
    let (reply, told) = text.one_of(&REPLIES)?;
    let mut number = 0;
    if told != Told::Nothing {
        text.word(" ")?;
        number = text.number(u64::MAX)?;
    }
    text.word(" steps ")?;
    let steps = text.number(u64::MAX)?;
    text.word(" ")?;
    Some(End::Answered { reply, told, number, steps, seen: read_seen(text, seats)? })
}

pub fn read_seen(text: &mut Text<'_>, seats: u64) -> Option<Seen> {
    let mut seen = Seen { counts: [0; 8], seats: seats as usize };
    text.word("after ")?;
    for at in 0..seen.seats {
        if at > 0 {
            text.word(",")?;
        }
        seen.counts[at] = text.number(MOST)? as u32;
    }
    Some(seen)
}

pub fn put_seen(out: &mut Vec<u8>, seen: &Seen) {
    for (at, count) in seen.counts[..seen.seats].iter().enumerate() {
        put_words(out, &[(if at == 0 { " after " } else { "," }, u64::from(*count))]);
    }
}

/// How many packets an order line has; the last one of a batch may have fewer.
pub const A_LINE: usize = 16;

/// The packets of an order line.
pub fn read_order(line: &[u8]) -> Option<Vec<u32>> {
    let text = &mut Text::of(line);
    text.word("order")?;
    let mut packets = Vec::with_capacity(A_LINE);
    while text.end().is_none() {
        text.word(" ")?;
        packets.push(text.number(MOST)? as u32);
    }
    (1..=A_LINE).contains(&packets.len()).then(|| packets)
}

/// The order lines of a batch.
pub fn put_orders(out: &mut Vec<u8>, packets: &[u32]) {
    for line in packets.chunks(A_LINE) {
        out.extend_from_slice(b"order");
        for packet in line {
            put_words(out, &[(" ", u64::from(*packet))]);
        }
        out.push(b'\n');
    }
}

pub struct Session {
    pub key: Key,
    pub session: u64,
    pub bytes: u64,
}

impl Session {
    pub fn read(line: &[u8]) -> Option<Self> {
        let text = &mut Text::of(line);
        text.word("session ")?;
        let key = Key::read(text)?;
        text.word(" ")?;
        let session = text.number(u64::MAX)?;
        text.word(" bytes ")?;
        let bytes = text.number(u64::MAX)?;
        text.end()?;
        Some(Session { key, session, bytes })
    }

    pub fn put(&self, out: &mut Vec<u8>) {
        out.extend_from_slice(b"session ");
        self.key.put(out);
        put_words(out, &[(" ", self.session), (" bytes ", self.bytes)]);
        out.push(b'\n');
    }
}
