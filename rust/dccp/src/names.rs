//! Names for the numbers that are passed to the library and back.

use crate::sys;
use std::error::Error;
use std::fmt;

/// The phase of a connection (RFC 4340, section 8.4).
#[derive(Clone, Copy, Debug, PartialEq, Eq)]
pub enum Phase {
    /// It has ended, or a client has not asked yet.
    Closed,
    /// A server waits for a Request.
    Listen,
    /// A client has asked.
    Request,
    /// A server has answered.
    Respond,
    /// A client has its answer, and waits until the server knows.
    PartOpen,
    /// Data may go out.
    Open,
    /// A server wants to close.
    CloseReq,
    /// An end has closed.
    Closing,
    /// It has ended, and waits for late packets.
    TimeWait,
}

impl Phase {
    pub(crate) fn of(number: u32) -> Phase {
        match number {
            0 => Phase::Closed,
            1 => Phase::Listen,
            2 => Phase::Request,
            3 => Phase::Respond,
            4 => Phase::PartOpen,
            5 => Phase::Open,
            6 => Phase::CloseReq,
            7 => Phase::Closing,
            8 => Phase::TimeWait,
            _ => unreachable!("the library has nine phases"),
        }
    }
}

/// What became of a packet of data that was sent.
#[derive(Clone, Copy, Debug, PartialEq, Eq)]
#[non_exhaustive]
pub enum Fate {
    /// None was sent under this number, or its fate is not known any more: 2,048 later ones were sent, there was a timeout, another CCID
    /// began, or the connection ended while it was in flight.
    Unknown,
    /// It is on its way.
    InFlight,
    /// The peer has reported that it arrived. Whether its owner has read the data is not known.
    Delivered,
    /// It arrived, and the peer has reported that it dropped the data, or what is wrong with them. The last 2,048 of an end, or of all
    /// flows of a listener, are known; a drop that is reported after a later packet counts as delivered.
    Dropped(DropCode),
    /// Three later ones were reported and it was not (RFC 4341, section 5). A report may still follow.
    Lost,
}

impl Fate {
    pub(crate) fn of(number: u32) -> Fate {
        match number {
            0 => Fate::Unknown,
            1 => Fate::InFlight,
            2 => Fate::Delivered,
            3 => Fate::Lost,
            dropped => Fate::Dropped(DropCode::of(dropped - sys::FATE_DROPPED)),
        }
    }

    /// The same in this phase: once the connection has ended, nothing more is heard about what is in flight.
    pub(crate) fn once(self, phase: Phase) -> Fate {
        let has_ended = matches!(phase, Phase::Closed | Phase::TimeWait);
        if has_ended && self == Fate::InFlight {
            Fate::Unknown
        } else {
            self
        }
    }
}

/// Why the data of a packet that arrived were dropped (RFC 4340, section 11.7).
#[derive(Clone, Copy, Debug, PartialEq, Eq)]
pub enum DropCode {
    /// The protocol does not allow data now: hold them back until it does.
    Protocol,
    /// No application listens any more: no further data will reach one.
    NotListening,
    /// The receive buffer had no room.
    BufferFull,
    /// They were corrupt.
    Corrupt,
    /// A code without a meaning yet, 4 to 6.
    Reserved(u8),
    /// They were corrupt, and were delivered so.
    DeliveredCorrupt,
}

impl DropCode {
    fn of(code: u32) -> DropCode {
        match code {
            0 => DropCode::Protocol,
            1 => DropCode::NotListening,
            2 => DropCode::BufferFull,
            3 => DropCode::Corrupt,
            4..=6 => DropCode::Reserved(code as u8),
            7 => DropCode::DeliveredCorrupt,
            _ => unreachable!("there are eight Drop Codes"),
        }
    }
}

/// A feature (RFC 4340, section 6.4), with the values that may be wished for.
#[derive(Clone, Copy, Debug, PartialEq, Eq)]
#[non_exhaustive]
pub enum Feature {
    /// 2 and 248.
    Ccid = 1,
    /// 0 and 1.
    ShortSeqnos = 2,
    /// One value, 32 to 2^46 - 1, in packets.
    SequenceWindow = 3,
    /// 1 here; 0 and 1 at the peer.
    EcnIncapable = 4,
    /// One value, 0 to 65,535, in data packets for one Ack.
    AckRatio = 5,
    /// 0 and 1.
    SendAckVector = 6,
    /// 0.
    SendNdpCount = 7,
    /// 0 to 15.
    MinCsCov = 8,
    /// 0.
    CheckDataChecksum = 9,
}

/// A timer of an end. [`Connection::handle_timeout`](crate::Connection::handle_timeout) keeps all six.
#[derive(Clone, Copy, Debug, PartialEq, Eq)]
#[non_exhaustive]
pub enum Timer {
    /// The Request was not answered.
    Request = 0,
    /// An acknowledgement is due.
    Ack = 1,
    /// A Change is not confirmed.
    Negotiate = 2,
    /// Data are not acknowledged.
    Rto = 3,
    /// A Close or CloseReq is not answered.
    Close = 4,
    /// Two segment lifetimes have passed in TIMEWAIT.
    TimeWait = 5,
}

/// The numbers of a connection's packets (RFC 4340, section 7.1), each below 2^48.
#[derive(Clone, Copy, Debug, PartialEq, Eq)]
#[non_exhaustive]
pub struct Numbers {
    /// ISS: of the first packet that this end sends.
    pub first_sent: u64,
    /// GSS: the greatest that this end has sent.
    pub greatest_sent: u64,
    /// GAR: the greatest that the peer has acknowledged; ISS before the first.
    pub greatest_acknowledged: u64,
    /// ISR: of the first packet of the peer; 0 before it was received.
    pub first_received: u64,
    /// GSR: the greatest that was received; 0 before any was.
    pub greatest_received: u64,
}

/// Where a feature is located.
#[derive(Clone, Copy, Debug, PartialEq, Eq)]
pub enum Place {
    /// At this end.
    Here,
    /// At its peer.
    There,
}

impl Place {
    pub(crate) fn is_peer(self) -> bool {
        self == Place::There
    }
}

/// What an end holds for a feature.
#[derive(Clone, Copy, Debug, PartialEq, Eq)]
#[non_exhaustive]
pub struct Held {
    /// The value that holds.
    pub value: u64,
    /// Whether this end asks for nothing and waits for nothing. If that holds at both ends, they hold one value.
    pub is_stable: bool,
}

impl Held {
    pub(crate) fn of(state: &sys::FeatureState) -> Held {
        Held {
            value: state.value,
            is_stable: state.stand == 0,
        }
    }
}

/// The refusals of a call, each with its status in the library and its text.
macro_rules! refusals {
    ($(#[$head:meta])* $name:ident { $($(#[$doc:meta])* $variant:ident = $status:ident, $said:literal;)+ }) => {
        $(#[$head])*
        #[derive(Clone, Copy, Debug, PartialEq, Eq)]
        #[non_exhaustive]
        pub enum $name {
            $($(#[$doc])* $variant,)+
        }

        impl $name {
            pub(crate) fn answer(status: u32) -> Result<(), $name> {
                match status {
                    sys::DONE => Ok(()),
                    $(sys::$status => Err($name::$variant),)+
                    _ => unreachable!("the library has no such status here"),
                }
            }
        }

        impl fmt::Display for $name {
            fn fmt(&self, f: &mut fmt::Formatter<'_>) -> fmt::Result {
                f.write_str(match self { $($name::$variant => $said,)+ })
            }
        }

        impl Error for $name {}
    };
}

refusals! {
    /// Why no end was made.
    MakeError {
        /// There is no memory.
        NoMemory = NO_MEMORY, "no memory for an end";
        /// The first number is not below 2^48.
        FirstNumber = NO_NUMBER, "the first number is not below 2^48";
        /// A wish has no values, or over eight, one twice, one not permitted, or more than one where one is needed.
        BadList = BAD_LIST, "values that a feature may not have";
        /// A wish for Sequence Window or Ack Ratio of the peer, which only the peer sets.
        NotOurs = NOT_OURS, "a feature that the peer alone sets";
    }
}

refusals! {
    /// Why a connection was not opened.
    OpenError {
        /// The end is a server's, or was opened before.
        NotFresh = NOT_FRESH, "a server's end, or one that was opened before";
    }
}

refusals! {
    /// Why data were not sent: the first cause that holds.
    SendError {
        /// The peer has reported that no application listens any more, so data would reach nobody.
        NotListening = NOT_LISTENING, "no application listens at the peer";
        /// The phase is neither `PartOpen` nor `Open`.
        NotOpen = NOT_OPEN, "the connection is not open";
        /// There are more than 1,024 bytes.
        TooLong = TOO_LONG, "more than 1,024 bytes of data";
        /// The peer does not yet send Ack Vectors, which CCID 2 needs.
        NotNegotiated = NOT_NEGOTIATED, "the peer sends no Ack Vectors yet";
        /// The window is full: offer the data again, or drop them.
        WindowFull = WINDOW_FULL, "the window is full";
    }
}

refusals! {
    /// Why a feature's values were not asked for.
    PreferError {
        /// The phase is neither `PartOpen` nor `Open`.
        NotOpen = NOT_OPEN, "the connection is not open";
        /// There are no values, or over eight, one twice, one not permitted, or more than one where one is needed.
        BadList = BAD_LIST, "values that a feature may not have";
        /// Sequence Window or Ack Ratio of the peer, which only the peer sets.
        NotOurs = NOT_OURS, "a feature that the peer alone sets";
    }
}

refusals! {
    /// Why a connection was not closed.
    CloseError {
        /// The phase is neither `PartOpen` nor `Open`.
        NotOpen = NOT_OPEN, "the connection is not open";
    }
}

refusals! {
    /// Why a connection was not aborted.
    AbortError {
        /// The phase is `Closed`, `Listen` or `TimeWait`.
        NotLive = NOT_LIVE, "there is no connection";
    }
}

refusals! {
    /// Why no listener was made.
    ListenError {
        /// There is no memory.
        NoMemory = NO_MEMORY, "no memory for a listener";
        /// There are not 1 to 1,024 flows at a time, or over 16 Service Codes, or one twice; or the configuration is of IPv6, and so not a
        /// [`Config::listener`](crate::Config::listener).
        Limit = NO_SUCH_LISTENER, "not 1 to 1,024 flows, or not the configuration of a listener";
        /// The first number is not below 2^48.
        FirstNumber = NO_NUMBER, "the first number is not below 2^48";
        /// A wish has no values, or over eight, one twice, one not permitted, or more than one where one is needed.
        BadList = BAD_LIST, "values that a feature may not have";
        /// A wish for Sequence Window or Ack Ratio of the peer, which only the peer sets.
        NotOurs = NOT_OURS, "a feature that the peer alone sets";
    }
}

refusals! {
    /// Why a datagram changed nothing.
    ArriveError {
        /// The listener is full, and it would open one more flow; a Reset that says so waits to be sent.
        Busy = BUSY, "no room for another connection";
        /// It would open a flow, and [`Listener::set_shut`](crate::Listener::set_shut) takes none; a Reset that says so waits to be sent.
        Refused = REFUSED, "no new connections are taken";
        /// There is no memory for a flow.
        NoMemory = NO_MEMORY, "no memory for a connection";
        /// The first number is not below 2^48.
        FirstNumber = NO_NUMBER, "the first number is not below 2^48";
        /// It has more than 2,044 bytes.
        TooLong = TOO_LONG, "a datagram of more than 2,044 bytes";
    }
}

refusals! {
    /// Why reading of a peer's data was not stopped.
    StopError {
        /// The peer has no flow.
        NoFlow = NO_FLOW, "no connection to this peer";
        /// There was no memory for the report to the peer, or unread data of connections that are over have all places.
        NoMemory = NO_MEMORY, "no memory for what is to be told";
        /// Data do not wait at this listener ([`Config::holding`](crate::Config::holding)).
        NotHolding = NOTHING_DUE, "data do not wait here";
    }
}

refusals! {
    /// Why a call of a peer's flow was refused: the first cause that holds. No such call takes memory (a law of dccp_c), so none fails for lack
    /// of it.
    FlowError {
        /// The peer has no flow.
        NoFlow = NO_FLOW, "no connection to this peer";
        /// `send`: the phase is not `Open`. `close`: it is neither that nor `PartOpen`.
        NotOpen = NOT_OPEN, "the connection is not open";
        /// `abort`: the phase is `TimeWait`.
        NotLive = NOT_LIVE, "there is no connection";
        /// There are more than 1,024 bytes.
        TooLong = TOO_LONG, "more than 1,024 bytes of data";
        /// The peer does not yet send Ack Vectors, which CCID 2 needs.
        NotNegotiated = NOT_NEGOTIATED, "the peer sends no Ack Vectors yet";
        /// The window is full: offer the data again, or drop them.
        WindowFull = WINDOW_FULL, "the window is full";
        /// `send`: the peer has reported that no application listens any more, so data would reach nobody.
        NotListening = NOT_LISTENING, "no application listens at the peer";
        /// `prefer`: there are no values, or over eight, one twice, one not permitted, or more than one where one is needed.
        BadList = BAD_LIST, "values that a feature may not have";
        /// `prefer`: the Sequence Window or Ack Ratio of the peer, which only the peer sets.
        NotOurs = NOT_OURS, "a feature that the peer alone sets";
    }
}
