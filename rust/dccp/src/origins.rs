//! The addresses from which a listener's peers send, and the names by which the library's listener knows these peers.
//!
//! A name is an IPv4 address with a port. A peer that sends from IPv4 is known by its address. Any other peer, of IPv6 or beyond a router that
//! translates addresses, has a name that counts in the checksum as the addresses in its packets do (`dccp_listener_name`).

use crate::sys;
use std::collections::BTreeMap;
use std::hash::{BuildHasher, RandomState};
use std::net::{Ipv4Addr, SocketAddr, SocketAddrV4};

/// Between which addresses the packets of peers travel.
#[derive(Clone, Debug)]
pub struct Paths {
    /// The listener's address and port.
    pub listener: sys::Settings,
    /// The listener's address for peers of IPv6, if there is one.
    pub own_v6: Option<[u8; 16]>,
    /// The addresses in all packets, if both ends have agreed on some.
    pub agreed: Option<sys::Settings>,
}

impl Paths {
    /// The addresses in a peer's packets; None if its name is its address, or the listener has no address for it.
    fn of(&self, origin: SocketAddr) -> Option<sys::Settings> {
        if self.agreed.is_some() {
            return self.agreed.clone();
        }
        let SocketAddr::V6(peer) = origin else {
            return None;
        };
        Some(sys::Settings {
            own_address: self.own_v6?,
            peer_address: peer.ip().octets(),
            peer_port: peer.port(),
            is_v6: true,
            ..self.listener.clone()
        })
    }
}

/// The names of the peers that have a flow.
#[derive(Debug)]
pub struct Origins {
    paths: Paths,
    names: BTreeMap<SocketAddr, SocketAddrV4>,
    origins: BTreeMap<SocketAddrV4, SocketAddr>,
    /// The turn from which a peer's name is searched. Mostly the peer gets the same name again, so that an Init Cookie for that name is
    /// good when the peer returns it, although others came in between.
    turns: RandomState,
}

/// An IPv4 peer at a socket of both families comes from a mapped address.
fn unmapped(origin: SocketAddr) -> SocketAddr {
    SocketAddr::new(origin.ip().to_canonical(), origin.port())
}

impl Origins {
    pub fn new(paths: Paths) -> Origins {
        Origins {
            paths,
            names: BTreeMap::new(),
            origins: BTreeMap::new(),
            turns: RandomState::new(),
        }
    }

    /// The settings of the listener.
    pub fn listener(&self) -> &sys::Settings {
        &self.paths.listener
    }

    /// How many peers have a name that is not their address.
    pub fn count(&self) -> usize {
        self.names.len()
    }

    /// Their names.
    pub fn names(&self) -> Vec<SocketAddrV4> {
        self.names.values().copied().collect()
    }

    /// The name of a peer, if it has one.
    pub fn known(&self, origin: SocketAddr) -> Option<SocketAddrV4> {
        match (unmapped(origin), &self.paths.agreed) {
            (SocketAddr::V4(peer), None) => Some(peer),
            (origin, _) => self.names.get(&origin).copied(),
        }
    }

    /// Gives a peer a name; None if the listener has no address for it.
    pub fn name(&mut self, origin: SocketAddr) -> Option<SocketAddrV4> {
        if let Some(name) = self.known(origin) {
            return Some(name);
        }
        let origin = unmapped(origin);
        let path = self.paths.of(origin)?;
        // Each turn has its own name, and there are more than peers with a name.
        let first = self.turns.hash_one(origin) as u16;
        let name = (0..=u16::MAX)
            .map(|step| first.wrapping_add(step))
            .filter(|turn| *turn != 0)
            .map(|turn| name_of(&self.paths.listener, &path, turn))
            .find(|it| !self.origins.contains_key(it))?;
        self.names.insert(origin, name);
        self.origins.insert(name, origin);
        Some(name)
    }

    /// The address from which a peer sends.
    pub fn origin(&self, name: SocketAddrV4) -> SocketAddr {
        self.origins.get(&name).copied().unwrap_or(name.into())
    }

    /// A peer has no flow any more.
    pub fn release(&mut self, name: SocketAddrV4) {
        if let Some(origin) = self.origins.remove(&name) {
            self.names.remove(&origin);
        }
    }
}

fn name_of(listener: &sys::Settings, path: &sys::Settings, turn: u16) -> SocketAddrV4 {
    let mut name = sys::PeerAddress::default();
    // SAFETY: the settings are shared and read, and the name belongs to this function. Both have the library's sizes.
    unsafe { sys::dccp_listener_name(listener, path, turn, &mut name) };
    SocketAddrV4::new(Ipv4Addr::from(name.address), name.port)
}
