//! The configuration of a connection.

use crate::origins::Paths;
use crate::{Feature, Place, sys};
use std::net::{IpAddr, Ipv6Addr, SocketAddr, SocketAddrV4};

/// The configuration of an end: client or server, addresses, and wishes for its features.
#[derive(Clone, Debug)]
pub struct Config {
    settings: sys::Settings,
    services: Vec<u32>,
    own_v6: Option<Ipv6Addr>,
    agreed: Option<(SocketAddr, SocketAddr)>,
    wishes: Vec<sys::Wish>,
}

impl Config {
    /// A client's end from `own` to `peer`, which asks for this Service Code. `first_number` is the number of its first packet, below
    /// 2^48, which nobody can guess (RFC 4340, section 7.2). The ports and addresses are those of the DCCP packets.
    pub fn client(own: SocketAddr, peer: SocketAddr, service: u32, first_number: u64) -> Config {
        Config::between(own, peer, service, first_number, false)
    }

    /// A server's end for one peer, which serves this Service Code; the rest is as for [`Config::client`].
    pub fn server(own: SocketAddr, peer: SocketAddr, service: u32, first_number: u64) -> Config {
        Config::between(own, peer, service, first_number, true)
    }

    /// The ends of a [`Listener`](crate::Listener) at this address and port, which serve this Service Code.
    pub fn listener(own: SocketAddrV4, service: u32) -> Config {
        Config::between(own.into(), own.into(), service, 0, true)
    }

    fn between(
        own: SocketAddr,
        peer: SocketAddr,
        service: u32,
        first_number: u64,
        is_server: bool,
    ) -> Config {
        let is_v6 = own.is_ipv6() || peer.is_ipv6();
        let settings = sys::Settings {
            size: size_of::<sys::Settings>(),
            own_address: address(own.ip(), is_v6),
            peer_address: address(peer.ip(), is_v6),
            first_number,
            service,
            own_port: own.port(),
            peer_port: peer.port(),
            is_server,
            is_v6,
            is_plain: false,
            without_wide_window: false,
            without_round_trip: false,
            without_soon_acks: false,
            without_ack_ratio: false,
            without_probes: false,
            without_limits: false,
            without_giving_up: false,
            without_heed: false,
            most_held: 0,
        };
        Config {
            settings,
            services: Vec::new(),
            own_v6: None,
            agreed: None,
            wishes: Vec::new(),
        }
    }

    /// The same, except for the number of its first packet.
    pub(crate) fn first_number(mut self, number: u64) -> Config {
        self.settings.first_number = number;
        self
    }

    /// The Service Codes of a [`Listener`](crate::Listener), at most 16, each once; if there are none, the one that it was made with. A
    /// connection has only its own.
    pub fn services(mut self, services: &[u32]) -> Config {
        self.services = services.to_vec();
        self
    }

    /// Removes the usual offers, so that the end makes only those of [`Config::offer`].
    pub fn plain(mut self) -> Config {
        self.settings.is_plain = true;
        self
    }

    /// The end does not follow this rule of the path, nor do the connections of a listener that is made from this.
    pub fn without(mut self, rule: PathRule) -> Config {
        let settings = &mut self.settings;
        match rule {
            PathRule::WideWindow => settings.without_wide_window = true,
            PathRule::RoundTrip => settings.without_round_trip = true,
            PathRule::SoonAcks => settings.without_soon_acks = true,
            PathRule::AckRatio => settings.without_ack_ratio = true,
            PathRule::Probes => settings.without_probes = true,
            PathRule::Limits => settings.without_limits = true,
            PathRule::GivingUp => settings.without_giving_up = true,
            PathRule::Heed => settings.without_heed = true,
        }
        self
    }

    /// The end follows no rule of the path: timers wait as RFC 4340 says, and limits and silent peers are left to the caller.
    pub fn classic(self) -> Config {
        PathRule::ALL
            .into_iter()
            .fold(self, |config, rule| config.without(rule))
    }

    /// Data wait, for up to this many packets of each connection, until [`Connection::read`](crate::Connection::read) or
    /// [`Listener::read`](crate::Listener::read) takes them; more than 1,024 counts as 1,024. Data without room are dropped, which is
    /// reported to the peer (RFC 4340, section 11.7). With 0, the default, data come by [`Event::Data`](crate::Event::Data).
    pub fn holding(mut self, most: usize) -> Config {
        self.settings.most_held = most;
        self
    }

    /// Wishes for these values of a feature, best first, and answers the peer's wishes by them.
    pub fn wish(self, feature: Feature, place: Place, values: &[u64]) -> Config {
        self.with(feature, place, values, false, false)
    }

    /// Wishes for these values of a feature, best first, and asks the peer for them.
    pub fn offer(self, feature: Feature, place: Place, values: &[u64]) -> Config {
        self.with(feature, place, values, true, false)
    }

    /// Wishes for these values of a feature, and asks the peer for them. A peer that does not know the feature has to end the
    /// connection.
    pub fn insist(self, feature: Feature, place: Place, values: &[u64]) -> Config {
        self.with(feature, place, values, true, true)
    }

    fn with(
        mut self,
        feature: Feature,
        place: Place,
        given: &[u64],
        is_offered: bool,
        is_mandatory: bool,
    ) -> Config {
        let mut values = [0; 8];
        for (value, wanted) in values.iter_mut().zip(given) {
            *value = *wanted;
        }
        // The count of more than eight values is passed on, and refused when the end is made.
        let count = given.len();
        self.wishes.push(sys::Wish {
            values,
            count,
            feature: feature as u32,
            at_peer: place.is_peer(),
            is_offered,
            is_mandatory,
        });
        self
    }

    pub(crate) fn settings(&self) -> &sys::Settings {
        &self.settings
    }

    /// A [`Listener`](crate::Listener) also serves peers of IPv6, at this address and the same port.
    pub fn also_at(mut self, own: Ipv6Addr) -> Config {
        self.own_v6 = Some(own);
        self
    }

    /// For a [`Listener`](crate::Listener) beyond a router that translates addresses. These are in the packets of all its peers, in place
    /// of the client's and the server's addresses and ports. A client has them in [`Config::client`] as its own and its peer's. The
    /// listener tells its peers apart by the addresses from which their datagrams come.
    pub fn agreed(mut self, client: SocketAddr, server: SocketAddr) -> Config {
        self.agreed = Some((client, server));
        self.settings.own_port = server.port();
        self
    }

    pub(crate) fn paths(&self) -> Paths {
        let agreed = self
            .agreed
            .map(|(client, server)| Config::between(server, client, 0, 0, true).settings);
        Paths {
            listener: self.settings.clone(),
            own_v6: self.own_v6.map(|it| it.octets()),
            agreed,
        }
    }

    pub(crate) fn given_services(&self) -> &[u32] {
        &self.services
    }

    pub(crate) fn wishes(&self) -> &[sys::Wish] {
        &self.wishes
    }
}

/// What an end does for its path, unless it is told not to ([`Config::without`]).
#[derive(Clone, Copy, Debug, PartialEq, Eq)]
#[non_exhaustive]
pub enum PathRule {
    /// It asks for a Sequence Window of 10,000.
    WideWindow,
    /// It measures the round trip, and its timers wait by that.
    RoundTrip,
    /// Its Acks go out after 50 milliseconds, at once if there is a gap before the data that arrive, and every 20 seconds at least.
    SoonAcks,
    /// The Ack Ratio of its data follows its window, under CCID 2.
    AckRatio,
    /// It asks its peer for a sign of life before it counts a large window as lost.
    Probes,
    /// It does not hear datagrams that would bring too many Syncs.
    Limits,
    /// It asks a silent peer, and gives it up.
    GivingUp,
    /// Its data wait if the peer reports that the application which reads them is slow, that its buffer is full, or that none listens any more.
    Heed,
}

impl PathRule {
    /// All of them.
    pub const ALL: [PathRule; 8] = [
        PathRule::WideWindow,
        PathRule::RoundTrip,
        PathRule::SoonAcks,
        PathRule::AckRatio,
        PathRule::Probes,
        PathRule::Limits,
        PathRule::GivingUp,
        PathRule::Heed,
    ];
}

/// An address in network order; of IPv4 the first four bytes, or the mapped address if the other is of IPv6.
fn address(ip: IpAddr, is_v6: bool) -> [u8; 16] {
    match ip {
        IpAddr::V4(v4) if !is_v6 => {
            let mut bytes = [0; 16];
            bytes[..4].copy_from_slice(&v4.octets());
            bytes
        }
        IpAddr::V4(v4) => v4.to_ipv6_mapped().octets(),
        IpAddr::V6(v6) => v6.octets(),
    }
}
