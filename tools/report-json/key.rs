//! The key of a flow: two endpoints, the lower one first, and the protocol.
//!
//! A report has all groups of an IPv6 address; elsewhere addresses are as RFC 5952 has them.

use crate::text::{put_number, Text};
use std::net::{Ipv4Addr, Ipv6Addr};

#[derive(Clone, Copy, Eq, Hash, PartialEq)]
pub struct Endpoint {
    pub address: u128,
    pub port: u16,
}

#[derive(Clone, Copy, Eq, Hash, PartialEq)]
pub enum Protocol {
    Tcp,
    Udp,
    /// All of two hosts, whose ports are 0.
    Ip,
}

impl Protocol {
    /// The protocols that keys have: those of flows, or the one of hosts.
    pub fn of_keys(are_hosts: bool) -> &'static [(&'static str, Protocol)] {
        if are_hosts {
            &[("ip", Protocol::Ip)]
        } else {
            &[("tcp", Protocol::Tcp), ("udp", Protocol::Udp)]
        }
    }
}

#[derive(Clone, Copy, Eq, Hash, PartialEq)]
pub struct Key {
    pub is_v6: bool,
    pub protocol: Protocol,
    pub low: Endpoint,
    pub high: Endpoint,
}

impl Key {
    /// `ADDRESS:PORT-ADDRESS:PORT/PROTOCOL`, as a report has it.
    pub fn read(text: &mut Text<'_>) -> Option<Self> {
        Key::read_of(text, Protocol::of_keys(false))
    }

    /// The same of one of these protocols.
    pub fn read_of(text: &mut Text<'_>, protocols: &[(&str, Protocol)]) -> Option<Self> {
        let is_v6 = text.begins_with("[");
        let low = read_endpoint(text, is_v6)?;
        text.word("-")?;
        let high = read_endpoint(text, is_v6)?;
        text.word("/")?;
        let protocol = text.one_of(protocols)?;
        Some(Key { is_v6, protocol, low, high }).filter(Key::is_lawful)
    }

    /// The same text.
    pub fn put(&self, out: &mut Vec<u8>) {
        self.put_endpoint(out, self.low);
        out.push(b'-');
        self.put_endpoint(out, self.high);
        out.push(b'/');
        out.extend_from_slice(self.protocol_word().as_bytes());
    }

    /// Hosts have no ports.
    pub fn is_lawful(&self) -> bool {
        self.protocol != Protocol::Ip || self.low.port == 0 && self.high.port == 0
    }

    fn put_endpoint(&self, out: &mut Vec<u8>, endpoint: Endpoint) {
        if self.is_v6 {
            out.push(b'[');
            for at in 0..8 {
                if at > 0 {
                    out.push(b':');
                }
                put_group(out, group_of(endpoint.address, at));
            }
            out.push(b']');
        } else {
            put_v4(out, endpoint.address as u32);
        }
        out.push(b':');
        put_number(out, u64::from(endpoint.port));
    }

    pub fn protocol_word(&self) -> &'static str {
        match self.protocol {
            Protocol::Tcp => "tcp",
            Protocol::Udp => "udp",
            Protocol::Ip => "ip",
        }
    }

    /// The address of one of its endpoints, as RFC 5952 has it.
    pub fn put_address(&self, out: &mut Vec<u8>, endpoint: Endpoint) {
        if self.is_v6 {
            put_v6(out, endpoint.address);
        } else {
            put_v4(out, endpoint.address as u32);
        }
    }
}

/// An address in any of its forms, and whether it is one of IPv6.
pub fn address_of(text: &str) -> Option<(u128, bool)> {
    if text.contains(':') {
        return text.parse::<Ipv6Addr>().ok().map(|it| (u128::from(it), true));
    }
    text.parse::<Ipv4Addr>().ok().map(|it| (u128::from(u32::from(it)), false))
}

fn read_endpoint(text: &mut Text<'_>, is_v6: bool) -> Option<Endpoint> {
    let mut address = 0;
    if is_v6 {
        text.word("[")?;
        for at in 0..8 {
            if at > 0 {
                text.word(":")?;
            }
            address = address << 16 | u128::from(text.group()?);
        }
        text.word("]")?;
    } else {
        for at in 0..4 {
            if at > 0 {
                text.word(".")?;
            }
            address = address << 8 | u128::from(text.number(255)?);
        }
    }
    text.word(":")?;
    Some(Endpoint { address, port: text.number(65535)? as u16 })
}

fn group_of(address: u128, at: usize) -> u16 {
    (address >> (112 - 16 * at)) as u16
}

fn put_group(out: &mut Vec<u8>, group: u16) {
    let digits = (1..4).filter(|digits| group >> (4 * digits) != 0).count() + 1;
    for at in (0..digits).rev() {
        out.push(b"0123456789abcdef"[usize::from(group >> (4 * at) & 15)]);
    }
}

fn put_v4(out: &mut Vec<u8>, address: u32) {
    for (at, byte) in address.to_be_bytes().iter().enumerate() {
        if at > 0 {
            out.push(b'.');
        }
        put_number(out, u64::from(*byte));
    }
}

/// RFC 5952, section 4: no leading zeros, and `::` for the longest run of two zero groups or more, the first of the
/// longest; section 5: the last 32 bits of an IPv4-mapped address with points.
fn put_v6(out: &mut Vec<u8>, address: u128) {
    let is_mapped = address >> 32 == 0xffff;
    let groups = if is_mapped { 6 } else { 8 };
    let run_at = |at: usize| (at..groups).take_while(|it| group_of(address, *it) == 0).count();
    let (mut from, mut run) = (groups, 1);
    for at in 0..groups {
        if run_at(at) > run {
            run = run_at(at);
            from = at;
        }
    }
    let mut at = 0;
    while at < groups {
        if at == from {
            out.extend_from_slice(b"::");
            at += run;
            continue;
        }
        if at > 0 && at != from + run {
            out.push(b':');
        }
        put_group(out, group_of(address, at));
        at += 1;
    }
    if is_mapped {
        out.push(b':');
        put_v4(out, address as u32);
    }
}
