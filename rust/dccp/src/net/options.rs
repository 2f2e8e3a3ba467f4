//! The options of a socket.

use super::{Error, Listener, Socket};
use crate::{Config, Feature, Place};
use std::net::{SocketAddr, ToSocketAddrs};
use std::time::Duration;

/// The options of a [`Socket`] or a [`Listener`].
///
/// ```no_run
/// use dccp::net::Options;
/// use dccp::{Feature, Place};
///
/// // Voice: a fixed window of eight packets in place of CCID 2.
/// let voice = Options::new().offer(Feature::Ccid, Place::Here, &[248]);
/// let socket = voice.connect("192.0.2.1:5001", 42)?;
/// # Ok::<(), dccp::net::Error>(())
/// ```
#[derive(Clone, Debug)]
pub struct Options {
    wishes: Vec<(Feature, Place, Vec<u64>)>,
    names: Option<(SocketAddr, SocketAddr)>,
    pub(super) patience: Duration,
    pub(super) idle: Duration,
    pub(super) most_waiting: usize,
    pub(super) holding: usize,
    pub(super) most_connections: usize,
    pub(super) most_per_host: usize,
}

impl Default for Options {
    fn default() -> Options {
        Options::new()
    }
}

impl Options {
    /// The options of [`Socket::connect`] and [`Listener::bind`]: 30 seconds to connect, three minutes of silence, 4,096 packets that wait,
    /// 1,000 connections, any number of them from one host, and the usual wishes. Each end follows the rules of its path ([`PathRule`](crate::PathRule)).
    pub fn new() -> Options {
        Options {
            wishes: Vec::new(),
            names: None,
            patience: Duration::from_secs(30),
            idle: Duration::from_secs(180),
            most_waiting: 4_096,
            holding: 0,
            most_connections: 1_000,
            most_per_host: usize::MAX,
        }
    }

    /// Asks the peer for these values of a feature, best first, as [`Config::offer`]. A later wish replaces an earlier one.
    pub fn offer(mut self, feature: Feature, place: Place, values: &[u64]) -> Options {
        self.wishes.retain(|it| (it.0, it.1) != (feature, place));
        self.wishes.push((feature, place, values.to_vec()));
        self
    }

    /// Names of the client and the server on which both have agreed, for addresses that are translated on the way. They are in each packet and
    /// its checksum in place of addresses and ports. Any addresses are possible, if they are the same at both ends.
    pub fn names(mut self, client: SocketAddr, server: SocketAddr) -> Options {
        self.names = Some((client, server));
        self
    }

    /// How long [`Options::connect`] waits for an answer; 30 seconds by default.
    pub fn patience(mut self, wait: Duration) -> Options {
        self.patience = wait;
        self
    }

    /// After how much silence a connection is given up; three minutes by default. An idle end sends an Ack at least every 20 seconds, so
    /// a time below that ends idle connections. An end gives up a silent peer after three minutes in any case, so a longer time changes
    /// nothing.
    pub fn idle(mut self, wait: Duration) -> Options {
        self.idle = wait;
        self
    }

    /// How many packets of data are kept for an owner that does not read them; 4,096 by default. Further ones are dropped, and counted as
    /// [`Statistics::unread_dropped`](crate::Statistics::unread_dropped), but the peer is not told: for that, see [`Options::holding`].
    pub fn most_waiting(mut self, most: usize) -> Options {
        self.most_waiting = most;
        self
    }

    /// Data wait in the end itself, in place of [`Options::most_waiting`], for up to this many packets, 1,024 at most. Each takes 2 KB, from the
    /// beginning. The end then reports drops and a nearly full buffer to its peer, which sends less, down to one packet in a round trip (RFC
    /// 4340, sections 11.6 and 11.7). The peer has [`Fate::Dropped`](crate::Fate::Dropped) for what was dropped.
    pub fn holding(mut self, most: usize) -> Options {
        self.holding = most;
        self
    }

    /// How many connections a listener has at a time; 1,000 by default. Each takes 123 KB. One more Request takes the place of the connection
    /// that ended, or has been half open, for the longest time, if that is at least a second. Otherwise it gets no answer, and its client asks
    /// again; if all are open, it is answered by a Reset with code 9.
    pub fn most_connections(mut self, most: usize) -> Options {
        self.most_connections = most;
        self
    }

    /// How many connections of a listener may be open for one host at a time; by default as many as there are. More Requests of the host are
    /// answered by a Reset with code 9, and a connection that opens beyond it is aborted. A host is an address of IPv4, or the first 64 bits of
    /// one of IPv6. All clients that share the address of one router count as one host.
    pub fn most_per_host(mut self, most: usize) -> Options {
        self.most_per_host = most;
        self
    }

    /// As [`Socket::connect`].
    pub fn connect(&self, address: impl ToSocketAddrs, service: u32) -> Result<Socket, Error> {
        Socket::connect_with(self, address, service)
    }

    /// As [`Listener::bind`].
    pub fn bind(&self, address: impl ToSocketAddrs, services: &[u32]) -> Result<Listener, Error> {
        Listener::bind_with(self, address, services)
    }

    /// A client's end between these addresses, or those on which both have agreed.
    pub(super) fn client(
        &self,
        own: SocketAddr,
        peer: SocketAddr,
        service: u32,
        first: u64,
    ) -> Config {
        let (own, peer) = self.names.unwrap_or((own, peer));
        self.wished(Config::client(own, peer, service, first))
    }

    /// A server's end between these addresses, or those on which both have agreed.
    pub(super) fn server(
        &self,
        own: SocketAddr,
        peer: SocketAddr,
        service: u32,
        first: u64,
    ) -> Config {
        let (peer, own) = self.names.unwrap_or((peer, own));
        self.wished(Config::server(own, peer, service, first))
    }

    fn wished(&self, config: Config) -> Config {
        self.wishes.iter().fold(
            config.holding(self.holding),
            |config, (feature, place, values)| config.offer(*feature, *place, values),
        )
    }
}
