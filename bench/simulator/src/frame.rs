//! What a frame's header says, as far as a path, an attacker or an owner looks at it (RFC 4340, section 5.1).

use std::net::SocketAddrV4;

/// The types of packets (RFC 4340, section 5.1) that are looked for here.
pub const ACK: u8 = 3;
/// See [`ACK`].
pub const DATA_ACK: u8 = 4;
/// See [`ACK`].
pub const SYNC: u8 = 8;
/// See [`ACK`].
pub const SYNC_ACK: u8 = 9;

const DATA: u8 = 2;
const REQUEST: u8 = 0;

/// How many numbers the short form tells apart (RFC 4340, section 7.6).
const SHORT: u64 = 1 << 24;
/// How many numbers there are (RFC 4340, section 7.1).
const NUMBERS: u64 = 1 << 48;

const PROTOCOL: u8 = 33;

/// A packet's type; None if it has too few bytes.
pub fn kind(frame: &[u8]) -> Option<u8> {
    frame.get(8).map(|byte| (byte >> 1) & 15)
}

/// The numbers of a packet, in full.
#[derive(Clone, Copy, Debug, PartialEq, Eq)]
pub struct Numbers {
    /// Its type.
    pub kind: u8,
    /// Its own number.
    pub own: u64,
    /// The number that it acknowledges, if its type has one.
    pub acknowledged: Option<u64>,
}

fn number_at(frame: &[u8], place: usize, length: usize) -> Option<u64> {
    let bytes = frame.get(place..place + length)?;
    Some(
        bytes
            .iter()
            .fold(0, |all, byte| all << 8 | u64::from(*byte)),
    )
}

/// The number nearest the reference that ends with these 24 bits (RFC 4340, section 7.6).
fn near(short: u64, reference: u64) -> u64 {
    let ahead = short.wrapping_sub(reference) % SHORT;
    let turn_back = if ahead < SHORT / 2 { 0 } else { SHORT };
    (reference + ahead).wrapping_sub(turn_back) % NUMBERS
}

/// The numbers of a frame; None if it has too few bytes. Short ones are those nearest the greatest number received, and the greatest sent.
pub fn numbers(frame: &[u8], received: u64, sent: u64) -> Option<Numbers> {
    let kind = kind(frame)?;
    let has_acknowledged = !matches!(kind, REQUEST | DATA);
    let (own, acknowledged) = if frame[8] & 1 == 1 {
        let acknowledged = has_acknowledged.then(|| number_at(frame, 18, 6));
        (number_at(frame, 10, 6)?, acknowledged)
    } else {
        let short = has_acknowledged.then(|| number_at(frame, 13, 3));
        let own = near(number_at(frame, 9, 3)?, received);
        (own, short.map(|it| it.map(|it| near(it, sent))))
    };
    let acknowledged = match acknowledged {
        Some(number) => Some(number?),
        None => None,
    };
    Some(Numbers {
        kind,
        own,
        acknowledged,
    })
}

/// A Data packet with this number and no data, with right ports and a right checksum (RFC 4340, section 9.1).
pub fn forged_data(from: SocketAddrV4, to: SocketAddrV4, number: u64) -> Vec<u8> {
    let number = number.to_be_bytes();
    let long = [
        DATA << 1 | 1,
        0,
        number[2],
        number[3],
        number[4],
        number[5],
        number[6],
        number[7],
    ];
    forged(from, to, &long)
}

/// The same with a short number: the last 24 bits of this one.
pub fn forged_short_data(from: SocketAddrV4, to: SocketAddrV4, number: u64) -> Vec<u8> {
    let number = number.to_be_bytes();
    forged(from, to, &[DATA << 1, number[5], number[6], number[7]])
}

/// A packet with these bytes after its checksum.
fn forged(from: SocketAddrV4, to: SocketAddrV4, rest: &[u8]) -> Vec<u8> {
    let mut frame = Vec::with_capacity(16);
    frame.extend(from.port().to_be_bytes());
    frame.extend(to.port().to_be_bytes());
    let words = (8 + rest.len()) / 4;
    frame.extend([words as u8, 0, 0, 0]);
    frame.extend(rest);
    let mut summed = Vec::with_capacity(28);
    summed.extend(from.ip().octets());
    summed.extend(to.ip().octets());
    summed.extend([0, PROTOCOL, 0, frame.len() as u8]);
    summed.extend(&frame);
    frame[6..8].copy_from_slice(&checksum(&summed).to_be_bytes());
    frame
}

/// The Internet checksum (RFC 1071) of an even number of bytes.
fn checksum(bytes: &[u8]) -> u16 {
    let words = bytes.chunks(2);
    let mut sum: u32 = words
        .map(|word| u32::from(word[0]) << 8 | u32::from(word[1]))
        .sum();
    while sum >> 16 != 0 {
        sum = (sum & 0xffff) + (sum >> 16);
    }
    !(sum as u16)
}

#[cfg(test)]
mod tests {
    use super::*;

    #[test]
    fn a_forged_packet_is_sound() {
        let (from, to) = (
            SocketAddrV4::new([10, 0, 0, 1].into(), 40_000),
            SocketAddrV4::new([10, 0, 0, 2].into(), 5_001),
        );
        let frame = forged_data(from, to, 0x0102_0304_0506);
        // By hand: the words 0a00 0001 0a00 0002 0021 0010 9c40 1389 0400 0500 0102 0304 0506 make d609, and its complement is 29f6.
        let bytes = [
            0x9c, 0x40, 0x13, 0x89, 4, 0, 0x29, 0xf6, 5, 0, 1, 2, 3, 4, 5, 6,
        ];
        assert_eq!(frame, bytes);
        let numbers = numbers(&frame, 0, 0).map(|it| (it.kind, it.own, it.acknowledged));
        assert_eq!(numbers, Some((DATA, 0x0102_0304_0506, None)));
    }

    #[test]
    fn short_numbers_are_near() {
        // An Ack with the short numbers 1002 and 2001, from an example of the library's pages.
        let ack = [
            0x9c, 0x40, 0x13, 0x89, 4, 0, 0x26, 0x47, 6, 0, 0x03, 0xea, 0, 0, 0x07, 0xd1,
        ];
        let read = |received, sent| {
            numbers(&ack, received, sent).map(|it| (it.kind, it.own, it.acknowledged))
        };
        assert_eq!(read(1_001, 2_001), Some((ACK, 1_002, Some(2_001))));
        // A turn later, and a turn before, where the reference is at the other edge of its turn.
        assert_eq!(
            read(SHORT - 1, 2_001),
            Some((ACK, SHORT + 1_002, Some(2_001)))
        );
        assert_eq!(near(SHORT - 1, SHORT), SHORT - 1);
        assert_eq!(near(SHORT - 1, 0), NUMBERS - 1);
        assert_eq!(near(0, NUMBERS - 1), 0);
    }
}
