//! What the first bytes of a packet say, before or beside the library (RFC 4340, section 5.1).

/// The types of packets that are told apart here.
#[derive(Clone, Copy, Debug, PartialEq, Eq)]
pub(crate) enum PacketType {
    Request,
    Data,
    Ack,
    DataAck,
    Reset,
    Sync,
    SyncAck,
    /// Response, CloseReq, Close, or a number that is reserved.
    Other,
}

impl PacketType {
    /// The type of a datagram, which is in its ninth byte, or None if it is shorter.
    pub(crate) fn of(datagram: &[u8]) -> Option<PacketType> {
        Some(match (datagram.get(8)? >> 1) & 15 {
            0 => PacketType::Request,
            2 => PacketType::Data,
            3 => PacketType::Ack,
            4 => PacketType::DataAck,
            7 => PacketType::Reset,
            8 => PacketType::Sync,
            9 => PacketType::SyncAck,
            _ => PacketType::Other,
        })
    }
}

/// The bytes of a packet's header with its options, by its Data Offset, which counts words of four bytes.
pub(crate) fn header_length(datagram: &[u8]) -> Option<usize> {
    datagram.get(4).map(|words| 4 * usize::from(*words))
}
