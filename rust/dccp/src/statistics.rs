//! What a connection has counted.

use crate::packets::{PacketType, header_length};
use crate::{RoundTrip, sys};

/// Packets that went one way, by their types (RFC 4340, section 5.1).
#[derive(Clone, Copy, Debug, Default, PartialEq, Eq)]
#[non_exhaustive]
pub struct Traffic {
    /// Packets with data: Data and DataAck.
    pub data: u64,
    /// The bytes of these data.
    pub data_bytes: u64,
    /// Acknowledgements without data: Ack.
    pub acks: u64,
    /// Sync and SyncAck.
    pub syncs: u64,
    /// Reset.
    pub resets: u64,
    /// What opens and closes: Request, Response, CloseReq and Close.
    pub others: u64,
}

impl Traffic {
    /// Counts a packet by its type.
    pub(crate) fn count(&mut self, packet: &[u8]) {
        match PacketType::of(packet) {
            Some(PacketType::Data | PacketType::DataAck) => self.data += 1,
            Some(PacketType::Ack) => self.acks += 1,
            Some(PacketType::Sync | PacketType::SyncAck) => self.syncs += 1,
            Some(PacketType::Reset) => self.resets += 1,
            Some(PacketType::Request | PacketType::Other) => self.others += 1,
            None => {}
        }
    }

    pub(crate) fn count_bytes(&mut self, data: &[u8]) {
        self.data_bytes += data.len() as u64;
    }
}

/// The data of a packet, which follow its header and options.
fn data_of(packet: &[u8]) -> &[u8] {
    let place = header_length(packet).unwrap_or_default();
    packet.get(place..).unwrap_or_default()
}

/// What a connection has counted and measured, and its window.
#[derive(Clone, Copy, Debug, Default, PartialEq, Eq)]
#[non_exhaustive]
pub struct Statistics {
    /// Packets that were handed out for the peer. A network may lose them.
    pub sent: Traffic,
    /// Packets of the peer that were taken.
    pub received: Traffic,
    /// Datagrams that were dropped, or answered by a Sync, or by a Reset for a fault.
    pub not_taken: u64,
    /// Packets of data that count as lost: three later ones were reported, or there was a timeout. A late report changes nothing here.
    pub lost: u64,
    /// Of a socket: Syncs and Resets that were not sent, since the limit was reached.
    pub answers_left_out: u64,
    /// Packets of data that were dropped, since too many waited to be read, or the application reads no more: of a socket, and with
    /// [`Config::holding`](crate::Config::holding).
    pub unread_dropped: u64,
    /// How many packets of data may be in flight.
    pub window: u32,
    /// How many packets of data are in flight.
    pub in_flight: u32,
    /// The round trip, its variance, and how long the end waits for a report.
    pub round_trip: RoundTrip,
}

impl Statistics {
    /// Counts a datagram by its outcome.
    pub(crate) fn heard(&mut self, told: &sys::Told, datagram: &[u8]) {
        match told.kind {
            _ if sys::MOST_FRAME_BYTES < datagram.len() => self.not_taken += 1,
            sys::TOLD_TOOK | sys::TOLD_WAS_RESET => self.received.count(datagram),
            sys::TOLD_WAITS | sys::TOLD_NOT_KEPT => {
                self.received.count(datagram);
                self.received.count_bytes(data_of(datagram));
                self.unread_dropped += u64::from(told.kind == sys::TOLD_NOT_KEPT);
            }
            sys::TOLD_DATA => {
                self.received.count(datagram);
                self.received.count_bytes(&datagram[told.first..told.past]);
            }
            // The Close that ends a connection in order.
            sys::TOLD_SENT_RESET if told.code == 1 => self.received.count(datagram),
            _ => self.not_taken += 1,
        }
    }
}
