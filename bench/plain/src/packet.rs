//! Packets as bytes (RFC 4340, section 5), and their checksum (section 9).

use crate::numbers::extended;

pub const MOST_FRAME: usize = 2_044;
pub const MOST_DATA: usize = 1_024;

/// A packet's type, by its code.
#[derive(Clone, Copy, Debug, PartialEq, Eq)]
pub enum Kind {
    Request,
    Response,
    Data,
    Ack,
    DataAck,
    CloseReq,
    Close,
    Reset,
    Sync,
    SyncAck,
}

pub const KINDS: [(Kind, &str); 10] = [
    (Kind::Request, "Request"),
    (Kind::Response, "Response"),
    (Kind::Data, "Data"),
    (Kind::Ack, "Ack"),
    (Kind::DataAck, "DataAck"),
    (Kind::CloseReq, "CloseReq"),
    (Kind::Close, "Close"),
    (Kind::Reset, "Reset"),
    (Kind::Sync, "Sync"),
    (Kind::SyncAck, "SyncAck"),
];

impl Kind {
    pub fn has_acknowledgement(self) -> bool {
        !matches!(self, Kind::Request | Kind::Data)
    }

    fn has_short_form(self) -> bool {
        matches!(self, Kind::Data | Kind::Ack | Kind::DataAck)
    }

    /// How many bytes are before the options.
    fn fixed(self, is_long: bool) -> usize {
        match (self, is_long) {
            (Kind::Data, false) => 12,
            (Kind::Ack | Kind::DataAck, false) => 16,
            (Kind::Data, true) => 16,
            (Kind::Request, _) => 20,
            (Kind::Response | Kind::Reset, _) => 28,
            _ => 24,
        }
    }
}

/// Why bytes are no packet, or not for this end.
#[derive(Clone, Copy, Debug, PartialEq, Eq)]
pub enum Cause {
    Short,
    ReservedType,
    OffsetSmall,
    OffsetLarge,
    ShortNumbers,
    CoverageTooLarge,
    Wrong,
    OtherFlow,
    ShortOff,
    StrayReset,
    BadSync,
}

/// A packet that was read; its parts are borrowed from its bytes.
#[derive(Clone, Copy, Debug)]
pub struct Packet<'a> {
    pub kind: Kind,
    pub is_long: bool,
    pub number: u64,
    /// 0 where it has none.
    pub acknowledged: u64,
    pub service: u32,
    pub code: u8,
    pub details: [u8; 3],
    pub options: &'a [u8],
    pub data: &'a [u8],
}

fn number(bytes: &[u8]) -> u64 {
    bytes
        .iter()
        .fold(0, |all, byte| all << 8 | u64::from(*byte))
}

impl<'a> Packet<'a> {
    /// Reads a packet, however much of its data is there; `length` is how long it is.
    pub fn read(bytes: &'a [u8], length: usize) -> Result<Packet<'a>, Cause> {
        if bytes.len() < 12 {
            return Err(Cause::Short);
        }
        let code = usize::from(bytes[8] >> 1 & 15);
        let (kind, _) = *KINDS.get(code).ok_or(Cause::ReservedType)?;
        let is_long = bytes[8] & 1 == 1;
        let fixed = kind.fixed(is_long);
        let offset = 4 * usize::from(bytes[4]);
        if offset < fixed {
            return Err(Cause::OffsetSmall);
        }
        if offset > length {
            return Err(Cause::OffsetLarge);
        }
        if !is_long && !kind.has_short_form() {
            return Err(Cause::ShortNumbers);
        }
        if bytes.len() < offset {
            return Err(Cause::Short);
        }
        let mut packet = Packet {
            kind,
            is_long,
            number: if is_long {
                number(&bytes[10..16])
            } else {
                number(&bytes[9..12])
            },
            acknowledged: 0,
            service: 0,
            code: 0,
            details: [0; 3],
            options: &bytes[fixed..offset],
            data: &bytes[offset..],
        };
        if kind.has_acknowledgement() {
            packet.acknowledged = if is_long {
                number(&bytes[18..24])
            } else {
                number(&bytes[13..16])
            };
        }
        match kind {
            Kind::Request => packet.service = number(&bytes[16..20]) as u32,
            Kind::Response => packet.service = number(&bytes[24..28]) as u32,
            Kind::Reset => {
                packet.code = bytes[24];
                packet.details.copy_from_slice(&bytes[25..28]);
            }
            _ => {}
        }
        Ok(packet)
    }

    /// The numbers in full, near those of an end.
    pub fn extend(&mut self, received: u64, sent: u64) {
        self.number = extended(self.number, received);
        self.acknowledged = extended(self.acknowledged, sent);
    }
}

/// The sum of 16-bit words, not yet folded (RFC 1071).
fn sum(bytes: &[u8]) -> u64 {
    let mut words = bytes.chunks_exact(4);
    let mut sum: u64 = 0;
    for word in &mut words {
        sum += u64::from(u32::from_be_bytes([word[0], word[1], word[2], word[3]]));
    }
    let rest = words.remainder();
    let mut last = [0; 4];
    last[..rest.len()].copy_from_slice(rest);
    sum + u64::from(u32::from_be_bytes(last))
}

fn folded(mut sum: u64) -> u16 {
    while sum >> 16 != 0 {
        sum = (sum >> 16) + (sum & 0xffff);
    }
    sum as u16
}

/// What the pseudo-header of an IP version adds: the sum of both addresses.
#[derive(Clone, Copy, Debug)]
pub struct Addresses(u64);

impl Addresses {
    pub fn new(from: &[u8], to: &[u8]) -> Addresses {
        Addresses(sum(from) + sum(to))
    }
}

/// How many bytes the checksum covers; None if that passes the packet's end.
fn covered(bytes: &[u8]) -> Option<usize> {
    let coverage = usize::from(bytes[5] & 15);
    let length = match coverage {
        0 => bytes.len(),
        _ => 4 * usize::from(bytes[4]) + 4 * (coverage - 1),
    };
    (length <= bytes.len()).then_some(length)
}

/// Whether the checksum of a whole packet fits.
pub fn check(addresses: Addresses, bytes: &[u8]) -> Result<(), Cause> {
    let length = covered(bytes).ok_or(Cause::CoverageTooLarge)?;
    let all = addresses.0 + 33 + bytes.len() as u64 + sum(&bytes[..length]);
    match folded(all) {
        0xffff => Ok(()),
        _ => Err(Cause::Wrong),
    }
}

/// Sets the checksum; it stays where the coverage passes the packet's end.
pub fn seal(addresses: Addresses, bytes: &mut [u8]) {
    let Some(length) = covered(bytes) else {
        return;
    };
    bytes[6..8].fill(0);
    let all = addresses.0 + 33 + bytes.len() as u64 + sum(&bytes[..length]);
    let checksum = !folded(all);
    bytes[6..8].copy_from_slice(&checksum.to_be_bytes());
}

/// What a packet is written from.
#[derive(Clone, Copy, Debug)]
pub struct Draft<'a> {
    pub kind: Kind,
    pub is_long: bool,
    pub number: u64,
    pub acknowledged: u64,
    pub service: u32,
    pub code: u8,
    pub details: [u8; 3],
    pub options: &'a [u8],
    pub data: &'a [u8],
}

impl Draft<'_> {
    /// Writes the packet, with its checksum.
    pub fn write(&self, ports: (u16, u16), addresses: Addresses, out: &mut Vec<u8>) {
        out.clear();
        let options = self.options.len().next_multiple_of(4);
        let offset = self.kind.fixed(self.is_long) + options;
        let mark = (self.kind as u8) << 1 | u8::from(self.is_long);
        out.extend(ports.0.to_be_bytes());
        out.extend(ports.1.to_be_bytes());
        out.extend([(offset / 4) as u8, 0, 0, 0, mark]);
        let (number, acknowledged) = (self.number.to_be_bytes(), self.acknowledged.to_be_bytes());
        if self.is_long {
            out.push(0);
            out.extend(&number[2..]);
        } else {
            out.extend(&number[5..]);
        }
        if self.kind.has_acknowledgement() {
            if self.is_long {
                out.extend([0; 2]);
                out.extend(&acknowledged[2..]);
            } else {
                out.push(0);
                out.extend(&acknowledged[5..]);
            }
        }
        match self.kind {
            Kind::Request | Kind::Response => out.extend(self.service.to_be_bytes()),
            Kind::Reset => {
                out.push(self.code);
                out.extend(self.details);
            }
            _ => {}
        }
        out.extend(self.options);
        out.resize(offset, 0);
        out.extend(self.data);
        seal(addresses, out);
    }
}
