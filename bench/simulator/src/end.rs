//! One end of a path, however it is driven.

use dccp::{Change, Config, Connection, Event, Listener, Phase};
use std::fmt;
use std::net::SocketAddr;
use std::time::Instant;

/// An end, and what a path asks of it.
pub trait End: fmt::Debug + Send {
    /// A client asks for its service.
    fn open(&mut self, now: Instant);
    /// A datagram has arrived.
    fn receive(&mut self, datagram: &[u8], now: Instant);
    /// Sends data; returns whether they went.
    fn send(&mut self, data: &[u8], now: Instant) -> bool;
    /// Closes the connection.
    fn close(&mut self, now: Instant);
    /// When [`End::tick`] has something to do.
    fn due(&mut self) -> Option<Instant>;
    /// The time of [`End::due`] has come.
    fn tick(&mut self, now: Instant);
    /// The next frame for the peer.
    fn frame(&mut self) -> Option<Vec<u8>>;
    /// The next event for its owner.
    fn event(&mut self) -> Option<Event>;
    /// Its phase; CLOSED once it is gone.
    fn phase(&mut self) -> Phase;
    /// Its window, in packets.
    fn window(&mut self) -> u32;
    /// How many timeouts were reported to its congestion control.
    fn timeouts(&self) -> u64;
}

/// An end that its connection drives alone.
#[derive(Debug)]
pub struct LoneEnd {
    connection: Connection,
    timeouts: u64,
}

impl LoneEnd {
    /// The end of this connection.
    pub fn new(connection: Connection) -> LoneEnd {
        LoneEnd {
            connection,
            timeouts: 0,
        }
    }
}

impl End for LoneEnd {
    fn open(&mut self, now: Instant) {
        self.connection.open(now).expect("it is fresh");
    }

    fn receive(&mut self, datagram: &[u8], now: Instant) {
        self.connection.handle_datagram(datagram, now);
    }

    fn send(&mut self, data: &[u8], now: Instant) -> bool {
        self.connection.in_flight() < self.connection.window()
            && self.connection.send(data, now).is_ok()
    }

    fn close(&mut self, now: Instant) {
        // It may have been closed by the peer.
        let _ = self.connection.close(now);
    }

    fn due(&mut self) -> Option<Instant> {
        self.connection.poll_timeout()
    }

    fn tick(&mut self, now: Instant) {
        let had = self.connection.in_flight() > 0;
        self.connection.handle_timeout(now);
        self.timeouts += u64::from(had && self.connection.in_flight() == 0);
    }

    fn frame(&mut self) -> Option<Vec<u8>> {
        self.connection.poll_transmit().map(|it| it.bytes)
    }

    fn event(&mut self) -> Option<Event> {
        self.connection.poll_event()
    }

    fn phase(&mut self) -> Phase {
        self.connection.phase()
    }

    fn window(&mut self) -> u32 {
        self.connection.window()
    }

    fn timeouts(&self) -> u64 {
        self.timeouts
    }
}

/// The flow of one peer at a listener.
#[derive(Debug)]
pub struct Flow {
    listener: Listener,
    peer: SocketAddr,
    first_number: u64,
    timeouts: u64,
}

impl Flow {
    /// A listener for this peer.
    pub fn new(config: &Config, peer: SocketAddr, first_number: u64) -> Flow {
        Flow {
            listener: Listener::new(config, 1).expect("a listener is made"),
            peer,
            first_number,
            timeouts: 0,
        }
    }

    fn in_flight(&mut self) -> u32 {
        self.listener.in_flight(self.peer).unwrap_or(0)
    }
}

impl End for Flow {
    fn open(&mut self, _: Instant) {}

    fn receive(&mut self, datagram: &[u8], now: Instant) {
        let heard = self
            .listener
            .handle_datagram(self.peer, self.first_number, datagram, now);
        heard.expect("the peer is the only one");
    }

    fn send(&mut self, data: &[u8], now: Instant) -> bool {
        self.in_flight() < self.window() && self.listener.send(self.peer, data, now).is_ok()
    }

    fn close(&mut self, now: Instant) {
        // It may have been closed by the peer.
        let _ = self.listener.close(self.peer, now);
    }

    fn due(&mut self) -> Option<Instant> {
        self.listener.poll_timeout()
    }

    fn tick(&mut self, now: Instant) {
        let had = self.in_flight() > 0;
        self.listener.handle_timeout(now);
        self.timeouts += u64::from(had && self.in_flight() == 0);
    }

    fn frame(&mut self) -> Option<Vec<u8>> {
        self.listener.poll_transmit().map(|(_, it)| it.bytes)
    }

    fn event(&mut self) -> Option<Event> {
        loop {
            match self.listener.poll_change()?.1 {
                Change::Data { data, .. } => return Some(Event::Data(data)),
                Change::Ended { code, .. } => return Some(Event::Ended { code }),
                _ => {}
            }
        }
    }

    fn phase(&mut self) -> Phase {
        self.listener.phase(self.peer).unwrap_or(Phase::Closed)
    }

    fn window(&mut self) -> u32 {
        self.listener.window(self.peer).unwrap_or(0)
    }

    fn timeouts(&self) -> u64 {
        self.timeouts
    }
}
