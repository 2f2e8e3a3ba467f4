//! Datagrams of the system's UDP, many with one call if possible.

use super::system::{ROOMS, System};
use crate::frames::Frames;
use std::io::{self, ErrorKind};
use std::net::{Ipv4Addr, Ipv6Addr, SocketAddr, UdpSocket};
use std::ops::Range;
use std::time::Duration;

/// Datagrams that were heard at once, each with its sender.
pub(super) struct Batch {
    /// Where the system puts them.
    pub(super) rooms: Vec<u8>,
    /// The sender of each, and its place in the rooms.
    pub(super) heard: Vec<(SocketAddr, Range<usize>)>,
}

impl Batch {
    pub(super) fn new() -> Batch {
        Batch {
            rooms: vec![0; ROOMS],
            heard: Vec::new(),
        }
    }

    /// Successive datagrams of one sender, until there are no more.
    pub(super) fn by_sender(&self) -> impl Iterator<Item = (SocketAddr, Datagrams<'_>)> {
        let rooms = &self.rooms;
        self.heard
            .chunk_by(|one, next| one.0 == next.0)
            .map(|heard| (heard[0].0, Datagrams { rooms, heard }))
    }
}

/// Successive datagrams of one sender.
#[derive(Clone, Copy)]
pub(super) struct Datagrams<'a> {
    rooms: &'a [u8],
    heard: &'a [(SocketAddr, Range<usize>)],
}

impl<'a> Datagrams<'a> {
    /// The bytes of each.
    pub(super) fn iter(self) -> impl Iterator<Item = &'a [u8]> {
        self.heard
            .iter()
            .map(move |(_, place)| &self.rooms[place.clone()])
    }
}

/// A socket of the system, which hears one peer, or all.
pub(super) struct Wire {
    socket: UdpSocket,
    peer: Option<SocketAddr>,
    system: System,
}

impl Wire {
    /// A wire over a socket that is connected to this peer, or to none.
    pub(super) fn new(socket: UdpSocket, peer: Option<SocketAddr>) -> io::Result<Wire> {
        let system = System::new(&socket)?;
        Ok(Wire {
            socket,
            peer,
            system,
        })
    }

    pub(super) fn local_addr(&self) -> io::Result<SocketAddr> {
        self.socket.local_addr()
    }

    /// The address from which this machine sends to a peer: the socket's, or if that is any, the one that the system would choose.
    pub(super) fn address_towards(&self, peer: SocketAddr) -> io::Result<SocketAddr> {
        let own = self.local_addr()?;
        if !own.ip().is_unspecified() {
            return Ok(own);
        }
        let probe = UdpSocket::bind(any_address(peer))?;
        probe.connect(peer)?;
        Ok(SocketAddr::new(probe.local_addr()?.ip(), own.port()))
    }

    /// Hears datagrams that have come, or that come in this time; maybe none.
    pub(super) fn receive(&self, batch: &mut Batch, wait: Duration) -> io::Result<()> {
        self.system.receive(&self.socket, self.peer, batch, wait)
    }

    /// Sends frames to a peer. A frame that the system does not take is lost.
    pub(super) fn send(&self, peer: SocketAddr, frames: &Frames) {
        let to = self.peer.is_none().then_some(peer);
        match frames.first() {
            Some((frame, _)) if frames.len() == 1 => send_one(&self.socket, to, frame),
            _ => self.system.send(&self.socket, to, frames),
        }
    }

    /// Sends a frame to a peer. If the system does not take it, it is lost.
    pub(super) fn send_frame(&self, peer: SocketAddr, frame: &[u8]) {
        send_one(&self.socket, self.peer.is_none().then_some(peer), frame);
    }

    /// Wakes the driver, if it sleeps for long.
    pub(super) fn ring(&self) {
        self.system.ring();
    }
}

/// Sends a frame, to this peer if the socket is not connected. If the system does not take it, it is lost.
pub(super) fn send_one(socket: &UdpSocket, to: Option<SocketAddr>, frame: &[u8]) {
    let send = || match to {
        Some(peer) => socket.send_to(frame, peer),
        None => socket.send(frame),
    };
    if send().is_err_and(|it| it.kind() == ErrorKind::ConnectionRefused) {
        // That of an earlier datagram, which it reported in place of sending.
        let _ = send();
    }
}

/// Any address and port of the family of a peer.
pub(super) fn any_address(peer: SocketAddr) -> SocketAddr {
    match peer {
        SocketAddr::V4(_) => (Ipv4Addr::UNSPECIFIED, 0).into(),
        SocketAddr::V6(_) => (Ipv6Addr::UNSPECIFIED, 0).into(),
    }
}

/// Whether an error of a datagram socket means that a datagram was lost, or that none has come, and not that the socket failed.
pub(super) fn is_passing(fault: &io::Error) -> bool {
    matches!(
        fault.kind(),
        ErrorKind::WouldBlock
            | ErrorKind::TimedOut
            | ErrorKind::Interrupted
            | ErrorKind::ConnectionRefused
            | ErrorKind::ConnectionReset
            | ErrorKind::HostUnreachable
            | ErrorKind::NetworkUnreachable
    )
}
