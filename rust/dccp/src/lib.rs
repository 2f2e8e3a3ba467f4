//! One end of a DCCP connection (RFC 4340) with CCID 2 (RFC 4341) and feature negotiation, over the proved library for C.
//!
//! It has no socket, no clock and no thread. A [`Connection`] takes datagrams and the time, and gives frames and events. An [`Endpoint`]
//! does so for a server of many peers, and so does a [`Listener`], over the listener of the library.
//! The library is proved, and this crate is not: `docs/LIBRARY.md` of the repository says more.
//!
//! ```
//! use dccp::{AcceptOutcome, Config, Connection, Event};
//! use std::time::Instant;
//!
//! let (here, there) = ("192.0.2.1:40000".parse()?, "192.0.2.2:5001".parse()?);
//! let now = Instant::now();
//! let mut client = Connection::new(&Config::client(here, there, 42, 1_000))?;
//! client.open(now)?;
//!
//! // A server makes a connection from the Request. A real one draws the first number.
//! let request = client.poll_transmit().ok_or("a Request")?;
//! let config = Config::server(there, here, 42, 2_000);
//! let AcceptOutcome::Connection(mut server) = Connection::accept(&config, &request.bytes, now)? else {
//!     return Err("a Request is accepted".into());
//! };
//!
//! // In place of a network: frames arrive until there are no more.
//! let exchange = |client: &mut Connection, server: &mut Connection| loop {
//!     match (client.poll_transmit(), server.poll_transmit()) {
//!         (None, None) => break,
//!         (to_server, to_client) => {
//!             to_server.iter().for_each(|it| server.handle_datagram(&it.bytes, now));
//!             to_client.iter().for_each(|it| client.handle_datagram(&it.bytes, now));
//!         }
//!     }
//! };
//! exchange(&mut client, &mut server);
//! client.send(b"hello", now)?;
//! exchange(&mut client, &mut server);
//! assert_eq!(server.poll_event(), Some(Event::Data(b"hello".to_vec())));
//! client.close(now)?;
//! exchange(&mut client, &mut server);
//! assert_eq!(server.poll_event(), Some(Event::Ended { code: 1 }));
//! assert_eq!(client.poll_event(), Some(Event::Ended { code: 1 }));
//! # Ok::<(), Box<dyn std::error::Error>>(())
//! ```

mod anew;
mod config;
mod connection;
mod cookies;
mod end;
mod endpoint;
mod fates;
mod flows;
mod frames;
mod listener;
mod names;
pub mod net;
mod origins;
mod packets;
mod rules;
mod statistics;

use dccp_sys as sys;

pub use crate::config::{Config, PathRule};
pub use crate::connection::{AcceptOutcome, Connection, Event, RoundTrip, Segments, Transmit};
pub use crate::cookies::CookieKeys;
pub use crate::endpoint::Endpoint;
pub use crate::listener::{Cause, Change, Listener, Way};
pub use crate::names::{
    AbortError, ArriveError, CloseError, DropCode, Fate, Feature, FlowError, Held, ListenError,
    MakeError, Numbers, OpenError, Phase, Place, PreferError, SendError, StopError, Timer,
};
pub use crate::rules::{Cookies, FlowRules};
pub use crate::statistics::{Statistics, Traffic};

/// The most data of one packet.
pub const MOST_DATA_BYTES: usize = sys::MOST_DATA_BYTES;

/// The most data of one datagram.
pub const MOST_READ_BYTES: usize = sys::MOST_READ_BYTES;

/// The longest frame, and the longest datagram that is taken.
pub const MOST_FRAME_BYTES: usize = sys::MOST_FRAME_BYTES;
