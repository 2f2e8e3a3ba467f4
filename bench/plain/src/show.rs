//! `show`: the DCCP packets of a classic capture.

use crate::lines::{put_hex, put_number};
use crate::options::{List, Next};
use crate::packet::{Addresses, Cause, KINDS, Kind, Packet, check};
use crate::tell::put;
use std::collections::HashMap;

const MOST_RECORD: u32 = 262_144;
const DCCP: u8 = 33;

/// An address and a port; of IPv4 the address is in the first four bytes.
type Corner = ([u8; 16], u16);

/// How the numbers of a capture are written.
#[derive(Clone, Copy, Debug)]
struct Format {
    is_big: bool,
    has_nanoseconds: bool,
    is_ethernet: bool,
}

impl Format {
    fn number(self, bytes: &[u8]) -> u32 {
        let bytes = [bytes[0], bytes[1], bytes[2], bytes[3]];
        if self.is_big {
            u32::from_be_bytes(bytes)
        } else {
            u32::from_le_bytes(bytes)
        }
    }

    fn read(header: &[u8]) -> Result<Format, &'static str> {
        let magic = header.get(..4).ok_or("CutShort")?;
        let (is_big, has_nanoseconds) = match magic {
            [0xa1, 0xb2, 0xc3, 0xd4] => (true, false),
            [0xd4, 0xc3, 0xb2, 0xa1] => (false, false),
            [0xa1, 0xb2, 0x3c, 0x4d] => (true, true),
            [0x4d, 0x3c, 0xb2, 0xa1] => (false, true),
            _ => return Err("BadMagic"),
        };
        let mut format = Format {
            is_big,
            has_nanoseconds,
            is_ethernet: false,
        };
        let header = header.get(..24).ok_or("CutShort")?;
        let version: &[u8] = if is_big { &[0, 2, 0, 4] } else { &[2, 0, 4, 0] };
        if &header[4..8] != version {
            return Err("BadVersion");
        }
        format.is_ethernet = match format.number(&header[20..]) {
            1 => true,
            101 => false,
            _ => return Err("BadLink"),
        };
        Ok(format)
    }
}

/// What IP carries.
struct IpPayload<'a> {
    /// What of the packet was captured.
    bytes: &'a [u8],
    /// How long it is.
    length: usize,
    from: &'a [u8],
    to: &'a [u8],
}

/// What of a record's bytes is DCCP; None of every other record.
fn carried(format: Format, record: &[u8]) -> Option<IpPayload<'_>> {
    let mut packet = record;
    let mut wanted = None;
    if format.is_ethernet {
        wanted = match record.get(12..14)? {
            [8, 0] => Some(4),
            [0x86, 0xdd] => Some(6),
            _ => return None,
        };
        packet = &record[14..];
    }
    let version = packet.first()? >> 4;
    if wanted.is_some_and(|wanted| wanted != version) {
        return None;
    }
    match version {
        4 => {
            let header = 4 * usize::from(packet[0] & 15);
            if header < 20 || packet.len() < header {
                return None;
            }
            let total = usize::from(packet[2]) << 8 | usize::from(packet[3]);
            let fragment = [packet[6] & 0x3f, packet[7]];
            if total < header || fragment != [0, 0] || packet[9] != DCCP {
                return None;
            }
            let length = total - header;
            let bytes = &packet[header..packet.len().min(total)];
            Some(IpPayload {
                bytes,
                length,
                from: &packet[12..16],
                to: &packet[16..20],
            })
        }
        6 => {
            if packet.len() < 40 || packet[6] != DCCP {
                return None;
            }
            let length = usize::from(packet[4]) << 8 | usize::from(packet[5]);
            let bytes = &packet[40..packet.len().min(40 + length)];
            Some(IpPayload {
                bytes,
                length,
                from: &packet[8..24],
                to: &packet[24..40],
            })
        }
        _ => None,
    }
}

/// A capture that is shown.
struct Show<'a> {
    flows: HashMap<(Corner, Corner), u64>,
    records: u64,
    shown: u64,
    out: &'a mut Vec<u8>,
}

/// Shows a capture. Returns whether it was read to its end.
pub fn show(input: &[u8], out: &mut Vec<u8>) -> bool {
    let mut show = Show {
        flows: HashMap::new(),
        records: 0,
        shown: 0,
        out,
    };
    let fault = match Format::read(input) {
        Ok(format) => show.records(format, &input[24..]).err(),
        Err(why) => Some(why),
    };
    let (records, shown) = (show.records, show.shown);
    let line = match fault {
        None => format!(
            "records {records} shown {shown} skipped {} flows {}\n",
            records - shown,
            show.flows.len()
        ),
        Some(why) => format!("capture {why} after record {records}\n"),
    };
    put(&line, show.out);
    fault.is_none()
}

impl Show<'_> {
    fn records(&mut self, format: Format, mut rest: &[u8]) -> Result<(), &'static str> {
        while !rest.is_empty() {
            let header = rest.get(..16).ok_or("CutShort")?;
            let length = format.number(&header[8..]);
            if length > MOST_RECORD {
                return Err("RecordTooLong");
            }
            let record = rest.get(16..16 + length as usize).ok_or("CutShort")?;
            rest = &rest[16 + length as usize..];
            self.records += 1;
            self.record(format, header, record);
        }
        Ok(())
    }

    fn record(&mut self, format: Format, header: &[u8], record: &[u8]) {
        let Some(carried) = carried(format, record) else {
            return;
        };
        let is_whole = carried.bytes.len() == carried.length;
        match Packet::read(carried.bytes, carried.length) {
            Ok(packet) => {
                self.put_time(format, header);
                self.put_packet(&carried, &packet, is_whole);
            }
            Err(cause) if is_whole => {
                self.put_time(format, header);
                put(&format!(" malformed {cause:?}"), self.out);
            }
            Err(_) => return,
        }
        self.out.push(b'\n');
        self.shown += 1;
    }

    fn put_time(&mut self, format: Format, header: &[u8]) {
        put_number(self.records, self.out);
        self.out.push(b' ');
        put_number(u64::from(format.number(header)), self.out);
        self.out.push(b'.');
        let fraction = u64::from(format.number(&header[4..]));
        let digits = if format.has_nanoseconds { 9 } else { 6 };
        let length = fraction.checked_ilog10().map_or(1, |log| log + 1);
        for _ in length..digits {
            self.out.push(b'0');
        }
        put_number(fraction, self.out);
    }

    /// The number of the flow between two corners, in either direction.
    fn flow(&mut self, from: Corner, to: Corner) -> u64 {
        let next = self.flows.len() as u64 + 1;
        *self
            .flows
            .entry((from.min(to), from.max(to)))
            .or_insert(next)
    }

    fn put_corner(&mut self, address: &[u8], port: u16) {
        if address.len() == 4 {
            for (at, byte) in address.iter().enumerate() {
                if at > 0 {
                    self.out.push(b'.');
                }
                put_number(u64::from(*byte), self.out);
            }
        } else {
            let groups: Vec<String> = address
                .chunks(2)
                .map(|pair| format!("{:x}", u16::from_be_bytes([pair[0], pair[1]])))
                .collect();
            put(&groups.join(":"), self.out);
        }
        self.out.push(b' ');
        put_number(u64::from(port), self.out);
    }

    fn put_packet(&mut self, carried: &IpPayload<'_>, packet: &Packet<'_>, is_whole: bool) {
        let port = |at: usize| u16::from_be_bytes([carried.bytes[at], carried.bytes[at + 1]]);
        let corner = |address: &[u8], port| {
            let mut whole = [0; 16];
            whole[..address.len()].copy_from_slice(address);
            (whole, port)
        };
        let (from, to) = (port(0), port(2));
        let flow = self.flow(corner(carried.from, from), corner(carried.to, to));
        put(" flow ", self.out);
        put_number(flow, self.out);
        self.out.push(b' ');
        self.put_corner(carried.from, from);
        put(" > ", self.out);
        self.put_corner(carried.to, to);
        self.out.push(b' ');
        put(KINDS[packet.kind as usize].1, self.out);
        put(" seq ", self.out);
        put_number(packet.number, self.out);
        if packet.kind.has_acknowledgement() {
            put(" ack ", self.out);
            put_number(packet.acknowledged, self.out);
        }
        match packet.kind {
            Kind::Request | Kind::Response => {
                put(" service ", self.out);
                put_number(u64::from(packet.service), self.out);
            }
            Kind::Reset => {
                let [a, b, c] = packet.details;
                put(&format!(" code {} {a} {b} {c}", packet.code), self.out);
            }
            _ => {}
        }
        for item in List::of(packet.kind, packet.options) {
            put_option(&item, self.out);
        }
        put(" data ", self.out);
        put_number(packet.data.len() as u64, self.out);
        let verdict = match check_captured(carried, is_whole) {
            None => " sum unknown",
            Some(Ok(())) => " sum ok",
            Some(Err(Cause::CoverageTooLarge)) => " sum coverage",
            Some(Err(_)) => " sum wrong",
        };
        put(verdict, self.out);
    }
}

/// The verdict on the checksum; None if bytes of the packet were not captured.
fn check_captured(carried: &IpPayload<'_>, is_whole: bool) -> Option<Result<(), Cause>> {
    is_whole.then(|| check(Addresses::new(carried.from, carried.to), carried.bytes))
}

fn put_option(item: &Next<'_>, out: &mut Vec<u8>) {
    let entry = match item {
        Next::MandatoryFault => return put(" [mandatory fault]", out),
        Next::Entry(entry) => entry,
    };
    put(
        if entry.is_mandatory {
            " [mandatory "
        } else {
            " ["
        },
        out,
    );
    let (mut data, mut has_data) = (entry.data, true);
    let name = match entry.kind {
        2 => {
            has_data = false;
            "slow-receiver"
        }
        32 => "change-l",
        33 => "confirm-l",
        34 => "change-r",
        35 => "confirm-r",
        36 => "init-cookie",
        37 => "ndp-count",
        38 => "ack-vector-0",
        39 => "ack-vector-1",
        40 => "data-dropped",
        41 => "timestamp",
        42 => "timestamp-echo",
        43 => "elapsed-time",
        44 => "data-checksum",
        128.. => "ccid",
        _ => "option",
    };
    let is_speaking = matches!(entry.kind, 32..=35);
    if is_speaking && let Some((feature, rest)) = data.split_first() {
        put(&format!("{name} {feature}"), out);
        data = rest;
    } else if is_speaking || matches!(name, "ccid" | "option") {
        let name = if is_speaking { "option" } else { name };
        put(&format!("{name} {}", entry.kind), out);
    } else {
        put(name, out);
    }
    if has_data {
        out.push(b' ');
        put_hex(data, out);
    }
    out.push(b']');
}
