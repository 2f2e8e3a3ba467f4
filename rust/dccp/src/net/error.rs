//! Why a call of a socket failed.

use crate::MakeError;
use std::error;
use std::fmt;
use std::io;

/// How a connection ended.
#[derive(Clone, Copy, Debug, PartialEq, Eq)]
#[non_exhaustive]
pub enum End {
    /// By a Reset with this code (RFC 4340, section 5.6): 1 is an orderly close, and so is 3, which comes after this end's own close if the
    /// last Reset was lost; 2 means that the peer gave up, 8 that it does not serve the Service Code, 9 that it is too busy.
    Reset {
        /// The Reset Code.
        code: u8,
    },
    /// The peer does not know the connection (Reset Code 3), which this end had not closed: it was started again, or a router has given
    /// this end another port. Connect again.
    Forgotten,
    /// The client has begun anew from its port: its next connection is another socket of the listener.
    Anew,
    /// No packet of the peer was taken for [`Options::idle`](super::Options::idle), or it did not answer the Request or the close.
    Silent,
    /// This end gave up.
    Aborted,
    /// The system's socket failed.
    Failed,
}

impl End {
    /// Whether both ends closed, as far as this end can know.
    pub fn is_orderly(self) -> bool {
        matches!(self, End::Reset { code: 1 | 3 })
    }
}

impl fmt::Display for End {
    fn fmt(&self, f: &mut fmt::Formatter<'_>) -> fmt::Result {
        match self {
            End::Reset { code } => write!(f, "{} (Reset Code {code})", reset_name(*code)),
            End::Forgotten => f.write_str("the peer does not know the connection (Reset Code 3)"),
            End::Anew => f.write_str("the client has begun anew"),
            End::Silent => f.write_str("the peer is silent"),
            End::Aborted => f.write_str("given up"),
            End::Failed => f.write_str("the socket failed"),
        }
    }
}

/// The name of a Reset Code in RFC 4340, section 5.6.
fn reset_name(code: u8) -> &'static str {
    match code {
        0 => "unspecified",
        1 => "closed",
        2 => "aborted",
        3 => "no connection",
        4 => "packet error",
        5 => "option error",
        6 => "mandatory error",
        7 => "connection refused",
        8 => "bad service code",
        9 => "too busy",
        10 => "bad init cookie",
        11 => "aggression penalty",
        12..=127 => "reserved",
        128..=255 => "a code of the congestion control",
    }
}

/// Why a call of a socket failed.
#[derive(Debug)]
#[non_exhaustive]
pub enum Error {
    /// The connection has ended.
    Ended(End),
    /// The time is over: no packet was sent, or none arrived.
    TimedOut,
    /// The call would have to wait: there is no room, or nothing has arrived.
    WouldBlock,
    /// There are more than [`MOST_DATA_BYTES`](crate::MOST_DATA_BYTES) bytes.
    TooLong,
    /// The peer has reported that no application listens any more, so data would reach nobody.
    NotListening,
    /// The options were refused: no end can be made with them.
    Make(MakeError),
    /// The system refused its socket, its thread or its random numbers.
    Io(io::Error),
}

impl fmt::Display for Error {
    fn fmt(&self, f: &mut fmt::Formatter<'_>) -> fmt::Result {
        match self {
            Error::Ended(end) => write!(f, "the connection has ended: {end}"),
            Error::TimedOut => f.write_str("the time was over"),
            Error::WouldBlock => f.write_str("no room, or nothing has come"),
            Error::TooLong => f.write_str("more bytes than a packet may have"),
            Error::NotListening => f.write_str("no application listens at the peer"),
            Error::Make(fault) => write!(f, "no end was made: {fault}"),
            Error::Io(fault) => write!(f, "the system's socket: {fault}"),
        }
    }
}

impl error::Error for Error {
    fn source(&self) -> Option<&(dyn error::Error + 'static)> {
        match self {
            Error::Make(fault) => Some(fault),
            Error::Io(fault) => Some(fault),
            Error::Ended(_)
            | Error::TimedOut
            | Error::WouldBlock
            | Error::TooLong
            | Error::NotListening => None,
        }
    }
}

impl From<io::Error> for Error {
    fn from(fault: io::Error) -> Error {
        Error::Io(fault)
    }
}

impl From<MakeError> for Error {
    fn from(fault: MakeError) -> Error {
        Error::Make(fault)
    }
}

impl From<Error> for io::Error {
    fn from(fault: Error) -> io::Error {
        let kind = match &fault {
            Error::Ended(_) => io::ErrorKind::NotConnected,
            Error::NotListening => io::ErrorKind::BrokenPipe,
            Error::TimedOut => io::ErrorKind::TimedOut,
            Error::WouldBlock => io::ErrorKind::WouldBlock,
            Error::TooLong | Error::Make(_) => io::ErrorKind::InvalidInput,
            Error::Io(_) => io::ErrorKind::Other,
        };
        match fault {
            Error::Io(fault) => fault,
            fault => io::Error::new(kind, fault),
        }
    }
}
