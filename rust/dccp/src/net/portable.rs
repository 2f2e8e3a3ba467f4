//! Datagrams by the standard library alone, one for each call.

use super::wire::{Batch, is_passing, send_one};
use crate::MOST_FRAME_BYTES;
use crate::frames::Frames;
use std::io;
use std::net::{SocketAddr, UdpSocket};
use std::time::Duration;

/// A byte more than a frame may have, so that a longer datagram is noticed.
pub(super) const ROOMS: usize = MOST_FRAME_BYTES + 1;

/// Whether the system says at once that nothing has come.
pub(super) const CAN_LOOK: bool = false;

/// The shortest time for which a read may wait.
const SHORTEST: Duration = Duration::from_millis(1);
/// The longest time for which a driver sleeps, since nothing wakes it.
const LONGEST: Duration = Duration::from_millis(50);

/// A socket of the standard library.
pub(super) struct System;

impl System {
    pub(super) fn new(_: &UdpSocket) -> io::Result<System> {
        Ok(System)
    }

    /// Hears datagrams that come in this time; maybe none.
    pub(super) fn receive(
        &self,
        socket: &UdpSocket,
        peer: Option<SocketAddr>,
        batch: &mut Batch,
        wait: Duration,
    ) -> io::Result<()> {
        batch.heard.clear();
        socket.set_read_timeout(Some(wait.clamp(SHORTEST, LONGEST)))?;
        match socket.recv_from(&mut batch.rooms) {
            Ok((length, from)) => batch.heard.push((peer.unwrap_or(from), 0..length)),
            Err(fault) if is_passing(&fault) => {}
            Err(fault) => return Err(fault),
        }
        Ok(())
    }

    /// Sends frames, to this peer if the socket is not connected. A frame that the system does not take is lost.
    pub(super) fn send(&self, socket: &UdpSocket, to: Option<SocketAddr>, frames: &Frames) {
        frames
            .runs(1, usize::MAX)
            .for_each(|it| send_one(socket, to, it.bytes));
    }

    pub(super) fn ring(&self) {}
}
