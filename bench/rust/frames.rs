//! Packets as they travel, and their checksum (RFC 4340, sections 5 and 9.1).

use std::hint::black_box;

/// The yardstick: the bytes are copied once, and the checksum of the copy is taken. Returns whether that is sound.
pub fn copy(from: [u8; 4], to: [u8; 4], packet: &[u8], room: &mut [u8]) -> bool {
    let copied = &mut room[..packet.len()];
    copied.copy_from_slice(packet);
    let copied = black_box(copied);
    sum(from, to, copied) == 0xffff
}

/// Writes the checksum of a packet between these addresses, of which the whole packet is covered.
pub fn seal(from: [u8; 4], to: [u8; 4], packet: &mut [u8]) {
    packet[6..8].fill(0);
    let checksum = !sum(from, to, packet);
    packet[6..8].copy_from_slice(&checksum.to_be_bytes());
}

/// The sum of a packet and its pseudo-header, folded into 16 bits (RFC 1071). A sum of words in the machine's order has its bytes swapped,
/// where that is not the network's.
fn sum(from: [u8; 4], to: [u8; 4], packet: &[u8]) -> u16 {
    const PROTOCOL: u8 = 33;
    let [high, low] = (packet.len() as u16).to_be_bytes();
    let words = [from, to, [0, PROTOCOL, high, low]];
    let mut sum = words.into_iter().map(word).sum::<u64>() + words_of(packet);
    while sum > 0xffff {
        sum = (sum & 0xffff) + (sum >> 16);
    }
    u16::from_be(sum as u16)
}

fn word(bytes: [u8; 4]) -> u64 {
    u64::from(u32::from_ne_bytes(bytes))
}

/// The last word is filled with zeros.
fn words_of(packet: &[u8]) -> u64 {
    let (words, rest) = packet.as_chunks();
    let mut last = [0; 4];
    last[..rest.len()].copy_from_slice(rest);
    words.iter().copied().map(word).sum::<u64>() + word(last)
}

/// The types of packets by their numbers (RFC 4340, section 5.1).
pub const DATA: u8 = 2;

pub const ACK: u8 = 3;

pub const DATA_ACK: u8 = 4;

/// The type of a packet.
pub fn kind(packet: &[u8]) -> u8 {
    packet[8] >> 1 & 15
}

/// Whether a packet's header, with its options, is longer than an Ack's without: 6 words.
pub fn has_options(packet: &[u8]) -> bool {
    packet[4] > 6
}

/// A packet with these data under this number: a DataAck where it acknowledges one, else a Data. It has no checksum yet.
pub fn put_data(
    ports: (u16, u16),
    number: u64,
    ack: Option<u64>,
    data: &[u8],
    packet: &mut Vec<u8>,
) {
    let (kind, words) = if ack.is_some() {
        (DATA_ACK, 6)
    } else {
        (DATA, 4)
    };
    packet.clear();
    packet.extend(ports.0.to_be_bytes());
    packet.extend(ports.1.to_be_bytes());
    packet.extend([words, 0, 0, 0, kind << 1 | 1, 0]);
    packet.extend(&number.to_be_bytes()[2..]);
    if let Some(ack) = ack {
        packet.extend([0, 0]);
        packet.extend(&ack.to_be_bytes()[2..]);
    }
    packet.extend(data);
}
