//! The packets of a capture, a savefile (pcap-savefile(5)) or pcapng (draft-ietf-opsawg-pcapng), one after the other:
//! number, time, length on the wire, and the first captured bytes.
//!
//! Packets are counted as `flowdir` counts them: each one, of whatever link type, up to the first fault.

use std::fs::File;
use std::io::{self, BufReader, Read};

/// The most bytes that a packet has.
const MOST_CAPTURED: u32 = 262_144;
const SECTION: [u8; 4] = [0x0a, 0x0d, 0x0d, 0x0a];
const ETHERNET: u16 = 1;
const NANOSECONDS: u128 = 1_000_000_000;

struct Interface {
    link: u16,
    snapshot: u32,
    /// Units a second: a power of ten, or of two.
    exponent: u8,
    is_binary: bool,
    /// Seconds that each time of the interface is later.
    later: i64,
}

enum Form {
    Savefile { link: u16, is_nano: bool },
    Blocks { interfaces: Vec<Interface> },
}

#[derive(Default)]
pub struct Packet {
    /// Nanoseconds since 1970, if the capture tells them.
    pub time: Option<i128>,
    /// How long it was on the wire.
    pub length: u32,
    /// Its first captured bytes, of an Ethernet frame; else none.
    pub bytes: Vec<u8>,
}

pub struct Packets {
    file: BufReader<File>,
    form: Form,
    is_big: bool,
    looked_at: usize,
    /// How many packets were read, and where the last one ends in the file.
    pub count: u64,
    pub place: u64,
    /// A time may have parts of a microsecond.
    pub is_fine: bool,
    pub packet: Packet,
}

/// Reads as many bytes as there are, up to the room.
fn fill(file: &mut impl Read, room: &mut [u8]) -> io::Result<usize> {
    let mut have = 0;
    while have < room.len() {
        match file.read(&mut room[have..])? {
            0 => break,
            more => have += more,
        }
    }
    Ok(have)
}

impl Packets {
    /// Opens a capture of which so many bytes of each packet are wanted; the fault is a text.
    pub fn open_for(path: &str, looked_at: usize) -> Result<Self, String> {
        let told = |why: io::Error| format!("{path}: {why}");
        let mut file = BufReader::with_capacity(1 << 18, File::open(path).map_err(told)?);
        let mut head = [0; 24];
        if fill(&mut file, &mut head[..4]).map_err(told)? < 4 {
            return Err(format!("{path} has fewer than 24 bytes"));
        }
        let mut packets = Packets {
            file,
            form: Form::Blocks { interfaces: Vec::new() },
            is_big: head[0] == 0xa1,
            looked_at,
            count: 0,
            place: 0,
            is_fine: false,
            packet: Packet::default(),
        };
        if head[..4] == SECTION {
            // (the section is read again as the first block)
            packets.file.seek_relative(-4).map_err(told)?;
            return Ok(packets);
        }
        if fill(&mut packets.file, &mut head[4..]).map_err(told)? < 20 {
            return Err(format!("{path} has fewer than 24 bytes"));
        }
        let is_nano = match head[..4] {
            [0xd4, 0xc3, 0xb2, 0xa1] | [0xa1, 0xb2, 0xc3, 0xd4] => false,
            [0x4d, 0x3c, 0xb2, 0xa1] | [0xa1, 0xb2, 0x3c, 0x4d] => true,
            _ => return Err(format!("{path} is neither a savefile nor pcapng")),
        };
        let link = packets.number(&head, 20) as u16;
        packets.form = Form::Savefile { link, is_nano };
        packets.is_fine = is_nano;
        packets.place = 24;
        Ok(packets)
    }

    fn number(&self, bytes: &[u8], at: usize) -> u32 {
        let four = [bytes[at], bytes[at + 1], bytes[at + 2], bytes[at + 3]];
        if self.is_big {
            u32::from_be_bytes(four)
        } else {
            u32::from_le_bytes(four)
        }
    }

    fn short(&self, bytes: &[u8], at: usize) -> u16 {
        let two = [bytes[at], bytes[at + 1]];
        if self.is_big {
            u16::from_be_bytes(two)
        } else {
            u16::from_le_bytes(two)
        }
    }

    /// Goes on to the next packet; false where the capture ends, or has a fault.
    pub fn next(&mut self) -> io::Result<bool> {
        match self.form {
            Form::Savefile { link, is_nano } => self.next_record(link, is_nano),
            Form::Blocks { .. } => self.next_block(),
        }
    }

    fn next_record(&mut self, link: u16, is_nano: bool) -> io::Result<bool> {
        let mut head = [0; 16];
        if fill(&mut self.file, &mut head)? < head.len() {
            return Ok(false);
        }
        let captured = self.number(&head, 8);
        if captured > MOST_CAPTURED {
            return Ok(false);
        }
        let parts = i128::from(self.number(&head, 4)) * if is_nano { 1 } else { 1000 };
        self.packet.time = Some(i128::from(self.number(&head, 0)) * NANOSECONDS as i128 + parts);
        self.packet.length = self.number(&head, 12);
        if !self.take_bytes(captured, captured, link)? {
            return Ok(false);
        }
        self.place += 16 + u64::from(captured);
        self.count += 1;
        Ok(true)
    }

    /// Takes the packet's bytes, and passes what stands behind them up to this length; false if the file ends before.
    fn take_bytes(&mut self, captured: u32, all: u32, link: u16) -> io::Result<bool> {
        let wanted = if link == ETHERNET { self.looked_at.min(captured as usize) } else { 0 };
        self.packet.bytes.resize(wanted, 0);
        if fill(&mut self.file, &mut self.packet.bytes)? < wanted {
            return Ok(false);
        }
        self.pass(u64::from(all) - wanted as u64)
    }

    /// Passes so many bytes; false if the file ends before.
    fn pass(&mut self, many: u64) -> io::Result<bool> {
        if many == 0 {
            return Ok(true);
        }
        // (one byte is read, since a file can be sought past its end)
        self.file.seek_relative(many as i64 - 1)?;
        Ok(fill(&mut self.file, &mut [0])? == 1)
    }

    fn next_block(&mut self) -> io::Result<bool> {
        loop {
            let mut head = [0; 12];
            if fill(&mut self.file, &mut head)? < head.len() {
                return Ok(false);
            }
            let is_section = head[..4] == SECTION;
            if is_section {
                self.is_big = match head[8..] {
                    [0x1a, 0x2b, 0x3c, 0x4d] => true,
                    [0x4d, 0x3c, 0x2b, 0x1a] => false,
                    _ => return Ok(false),
                };
            }
            let (kind, size) = (self.number(&head, 0), self.number(&head, 4));
            if size % 4 != 0 || !(12..=16_777_216).contains(&size) || is_section && size < 28 {
                return Ok(false);
            }
            let is_packet = match (is_section, kind, &mut self.form) {
                (true, _, Form::Blocks { interfaces }) => {
                    interfaces.clear();
                    self.pass(u64::from(size) - 12)?.then(|| false)
                }
                (false, 1, _) if size >= 20 => self.take_interface(&head, size)?.then(|| false),
                (false, 6, _) if size >= 32 => self.take_enhanced(&head, size)?.then(|| true),
                (false, 3, _) if size >= 16 => self.take_simple(&head, size)?.then(|| true),
                (false, 1 | 3 | 6, _) => None,
                // (a block without a body ends with its second length, which the head has taken)
                _ => self.pass(u64::from(size) - 12)?.then(|| false),
            };
            let is_packet = match is_packet {
                Some(is_packet) => is_packet,
                None => return Ok(false),
            };
            self.place += u64::from(size);
            if is_packet {
                self.count += 1;
                return Ok(true);
            }
        }
    }

    /// The rest of an interface block: link type, snapshot length, and of its options the times' unit and offset.
    fn take_interface(&mut self, head: &[u8; 12], size: u32) -> io::Result<bool> {
        let mut body = vec![0; size as usize - 12];
        if fill(&mut self.file, &mut body)? < body.len() {
            return Ok(false);
        }
        let mut interface = Interface {
            link: self.short(head, 8),
            snapshot: self.number(&body, 0),
            exponent: 6,
            is_binary: false,
            later: 0,
        };
        let mut at = 4;
        while at + 4 <= body.len() - 4 {
            let (code, length) = (self.short(&body, at), usize::from(self.short(&body, at + 2)));
            let value = body.get(at + 4..at + 4 + length).unwrap_or(&[]);
            match (code, value) {
                (0, _) => break,
                (9, [unit, ..]) => {
                    interface.exponent = unit & 0x7f;
                    interface.is_binary = unit & 0x80 != 0;
                }
                (14, [a, b, c, d, e, f, g, h]) => {
                    let bytes = [*a, *b, *c, *d, *e, *f, *g, *h];
                    interface.later = if self.is_big { i64::from_be_bytes(bytes) } else { i64::from_le_bytes(bytes) };
                }
                _ => (),
            }
            at += 4 + (length + 3) / 4 * 4;
        }
        self.is_fine |= interface.is_binary || interface.exponent > 6;
        if let Form::Blocks { interfaces } = &mut self.form {
            interfaces.push(interface);
        }
        Ok(true)
    }

    /// The rest of an enhanced packet; false if it has a fault.
    fn take_enhanced(&mut self, head: &[u8; 12], size: u32) -> io::Result<bool> {
        let mut rest = [0; 16];
        if fill(&mut self.file, &mut rest)? < rest.len() {
            return Ok(false);
        }
        let ticks = u64::from(self.number(&rest, 0)) << 32 | u64::from(self.number(&rest, 4));
        let captured = self.number(&rest, 8);
        let link = match &self.form {
            Form::Blocks { interfaces } => match interfaces.get(self.number(head, 8) as usize) {
                Some(it) => {
                    self.packet.time = Some(time_of(ticks, it));
                    it.link
                }
                None => return Ok(false),
            },
            Form::Savefile { .. } => return Ok(false),
        };
        if captured > MOST_CAPTURED || captured > size - 32 {
            return Ok(false);
        }
        self.packet.length = self.number(&rest, 12);
        self.take_bytes(captured, size - 28, link)
    }

    /// The rest of a simple packet, which is one of interface 0 and has no time; false if it has a fault.
    fn take_simple(&mut self, head: &[u8; 12], size: u32) -> io::Result<bool> {
        let length = self.number(head, 8);
        let (link, snapshot) = match &self.form {
            Form::Blocks { interfaces } if !interfaces.is_empty() => (interfaces[0].link, interfaces[0].snapshot),
            _ => return Ok(false),
        };
        let captured = if snapshot == 0 { length } else { length.min(snapshot) };
        if captured > MOST_CAPTURED || captured > size - 16 {
            return Ok(false);
        }
        self.packet.time = None;
        self.packet.length = length;
        self.take_bytes(captured, size - 12, link)
    }
}

/// Nanoseconds since 1970; parts of one are left out.
fn time_of(ticks: u64, interface: &Interface) -> i128 {
    let ticks = u128::from(ticks);
    let exponent = u32::from(interface.exponent);
    let since = if interface.is_binary {
        (ticks * NANOSECONDS).checked_shr(exponent).unwrap_or(0)
    } else if exponent <= 9 {
        ticks * 10_u128.pow(9 - exponent)
    } else {
        10_u128.checked_pow(exponent - 9).map_or(0, |unit| ticks / unit)
    };
    since as i128 + i128::from(interface.later) * NANOSECONDS as i128
}
