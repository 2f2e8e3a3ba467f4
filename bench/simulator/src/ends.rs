//! The two ends of a path, in the manners in which they are driven.

use crate::end::{End, Flow, LoneEnd};
use crate::owner::Owner;
use crate::rules::OFFERED_WIDTH;
use dccp::{AcceptOutcome, Config, Connection, Feature, Place};
use std::net::SocketAddrV4;
use std::time::Instant;

/// How an end is driven.
#[derive(Clone, Copy, Debug, PartialEq, Eq)]
pub enum Manner {
    /// With the waits that RFC 4340 gives as examples, and no other rule.
    Classic,
    /// By itself, with no wishes.
    Usual,
    /// Classic, and by the owner of this program.
    Reference,
}

/// What a datagram of an unknown peer makes.
pub enum StrangerResult {
    /// A server's end.
    End(Box<dyn End>),
    /// No end, and an answer.
    Answer(Vec<u8>),
    /// Nothing.
    Nothing,
}

const SERVICE: u32 = 42;

/// The addresses of the client and the server, as their packets have them.
pub fn addresses() -> (SocketAddrV4, SocketAddrV4) {
    let client = SocketAddrV4::new([10, 0, 0, 1].into(), 40_000);
    (client, SocketAddrV4::new([10, 0, 0, 2].into(), 5_001))
}

/// What an end wishes for besides its manner.
#[derive(Clone, Copy, Debug, Default)]
pub struct Wishes {
    /// The congestion control of a sender, if another than is usual (RFC 4340, section 10).
    pub ccid: Option<u64>,
    /// Short numbers both ways (RFC 4340, section 7.6.1).
    pub is_short: bool,
}

/// The configuration of an end that is driven in this manner.
fn configured(config: Config, manner: Manner, wishes: Wishes) -> Config {
    let config = if wishes.is_short {
        config.offer(Feature::ShortSeqnos, Place::Here, &[1]).offer(
            Feature::ShortSeqnos,
            Place::There,
            &[1],
        )
    } else {
        config
    };
    let config = match manner {
        Manner::Classic => config.classic(),
        Manner::Usual => config,
        Manner::Reference => {
            let classic = config.classic();
            classic.offer(Feature::SequenceWindow, Place::Here, &[OFFERED_WIDTH])
        }
    };
    let Some(ccid) = wishes.ccid else {
        return config;
    };
    let config = config.offer(Feature::Ccid, Place::Here, &[ccid]);
    match manner {
        Manner::Classic | Manner::Usual => config,
        Manner::Reference => config.offer(Feature::AckRatio, Place::Here, &[1]),
    }
}

/// A client's end.
pub fn client(manner: Manner, wishes: Wishes, first: u64, now: Instant) -> Box<dyn End> {
    let (here, there) = addresses();
    let config = Config::client(here.into(), there.into(), SERVICE, first);
    let config = configured(config, manner, wishes);
    let connection = Connection::new(&config).expect("the wishes are permitted");
    match manner {
        Manner::Classic | Manner::Usual => Box::new(LoneEnd::new(connection)),
        Manner::Reference => Box::new(Owner::new(connection, now)),
    }
}

/// What a server makes of an unknown peer's datagram.
pub fn server(
    manner: Manner,
    wishes: Wishes,
    first: u64,
    datagram: &[u8],
    now: Instant,
) -> StrangerResult {
    let (here, there) = addresses();
    let config = Config::server(there.into(), here.into(), SERVICE, first);
    let config = configured(config, manner, wishes);
    match Connection::accept(&config, datagram, now).expect("the wishes are permitted") {
        AcceptOutcome::Connection(connection) => StrangerResult::End(match manner {
            Manner::Classic | Manner::Usual => Box::new(LoneEnd::new(*connection)),
            Manner::Reference => Box::new(Owner::accepted(*connection, now)),
        }),
        AcceptOutcome::Answer(answer) => StrangerResult::Answer(answer.bytes),
        // It is no Request, or the crate has a further variant.
        _ => StrangerResult::Nothing,
    }
}

/// A listener's end of the client. It has no owner of this program: in place of the reference it is driven by itself.
pub fn flow(manner: Manner, wishes: Wishes, first: u64) -> Box<dyn End> {
    let (here, there) = addresses();
    let manner = match manner {
        Manner::Classic => Manner::Classic,
        Manner::Usual | Manner::Reference => Manner::Usual,
    };
    let config = configured(Config::listener(there, SERVICE), manner, wishes);
    Box::new(Flow::new(&config, here.into(), first))
}
