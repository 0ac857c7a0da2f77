//! The heads of a packet that made a call: its key, which end sent it, and its TCP flags.
//!
//! Sources: IEEE 802.1Q, RFC 791, RFC 8200, RFC 9293, RFC 768; which packets make a call, docs/FORMATS.md says.

use crate::key::{Endpoint, Key, Protocol};

pub struct Heads {
    pub key: Key,
    /// The lower endpoint sent it.
    pub is_from_low: bool,
    pub flags: u8,
}

/// How many bytes of a packet are looked at: Ethernet with a tag, the longest head of IPv4, and TCP's up to its flags.
pub const LOOKED_AT: usize = 18 + 60 + 14;

fn number(bytes: &[u8], at: usize, size: usize) -> Option<u128> {
    Some(bytes.get(at..at + size)?.iter().fold(0, |number, byte| number << 8 | u128::from(*byte)))
}

/// The heads of an Ethernet frame, if they are those of a call.
pub fn heads_of(frame: &[u8]) -> Option<Heads> {
    let (mut kind, mut network) = (number(frame, 12, 2)?, 14);
    if kind == 0x8100 {
        kind = number(frame, 16, 2)?;
        network = 18;
    }
    let is_v6 = kind == 0x86dd;
    let at = |place: usize| network + place;
    let version = frame.get(network)? >> 4;
    let (head, protocol, size, first) = match (kind, version) {
        (0x0800, 4) => (4 * usize::from(frame[network] & 15), *frame.get(at(9))?, 4, at(12)),
        (0x86dd, 6) => (40, *frame.get(at(6))?, 16, at(8)),
        _ => return None,
    };
    let transport = at(head);
    let port = |place: usize| number(frame, transport + place, 2).map(|it| it as u16);
    let source = Endpoint { address: number(frame, first, size)?, port: port(0)? };
    let target = Endpoint { address: number(frame, first + size, size)?, port: port(2)? };
    let (protocol, flags) = match protocol {
        6 => (Protocol::Tcp, *frame.get(transport + 13)?),
        17 => (Protocol::Udp, 0),
        _ => return None,
    };
    let is_from_low = (source.address, source.port) <= (target.address, target.port);
    let (low, high) = if is_from_low { (source, target) } else { (target, source) };
    Some(Heads { key: Key { is_v6, protocol, low, high }, is_from_low, flags })
}
