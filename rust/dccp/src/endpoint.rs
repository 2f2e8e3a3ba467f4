//! A server's connections, one for each peer.

use crate::packets::PacketType;
use crate::{AcceptOutcome, Config, Connection, Event, MakeError, Phase, Transmit};
use std::collections::{BTreeMap, VecDeque};
use std::fmt;
use std::iter;
use std::net::SocketAddr;
use std::time::Instant;

/// The Reset Codes of a server that takes no more connections, and of a full one (RFC 4340, section 5.6).
pub(crate) const REFUSED: u8 = 7;
pub(crate) const TOO_BUSY: u8 = 9;

/// Makes the configuration of a connection to a peer.
type Configure = Box<dyn FnMut(SocketAddr) -> Config + Send>;

/// A server of many peers over one socket: a connection for each address from which a Request has come, up to a greatest number of them.
/// What one peer sends changes nothing for another, as long as there is room. Like a [`Connection`], it has no socket and no clock.
///
/// After each call, ask [`poll_accept`](Endpoint::poll_accept), [`poll_transmit`](Endpoint::poll_transmit) and
/// [`poll_event`](Endpoint::poll_event) until they have nothing more: what waits there has no bound. Call
/// [`handle_timeout`](Endpoint::handle_timeout) once [`poll_timeout`](Endpoint::poll_timeout) has passed. A closed connection is dropped,
/// and so is that of a client that begins anew from its port. A silent peer keeps its place until the owner aborts its connection.
///
/// ```
/// use dccp::{Config, Connection, Endpoint, Event};
/// use std::time::Instant;
///
/// let (here, there) = ("192.0.2.1:40000".parse()?, "192.0.2.2:5001".parse()?);
/// let now = Instant::now();
/// // A real server draws the first number for each peer.
/// let mut server = Endpoint::new(1_000, move |peer| Config::server(there, peer, 42, 2_000));
/// let mut client = Connection::new(&Config::client(here, there, 42, 1_000))?;
/// client.open(now)?;
/// loop {
///     while let Some(frame) = client.poll_transmit() {
///         server.handle_datagram(here, &frame.bytes, now)?;
///     }
///     let Some((_, frame)) = server.poll_transmit() else { break };
///     client.handle_datagram(&frame.bytes, now);
/// }
/// assert_eq!(server.poll_accept(), Some(here));
/// assert!(server.call(here, |it| it.send(b"hello", now)).is_some_and(|it| it.is_ok()));
/// let (peer, frame) = server.poll_transmit().ok_or("a frame")?;
/// client.handle_datagram(&frame.bytes, now);
/// assert_eq!((peer, client.poll_event()), (here, Some(Event::Data(b"hello".to_vec()))));
/// # Ok::<(), Box<dyn std::error::Error>>(())
/// ```
pub struct Endpoint {
    most: usize,
    configure: Configure,
    connections: BTreeMap<SocketAddr, Connection>,
    accepted: VecDeque<SocketAddr>,
    frames: VecDeque<(SocketAddr, Transmit)>,
    events: VecDeque<(SocketAddr, Event)>,
}

impl fmt::Debug for Endpoint {
    fn fmt(&self, f: &mut fmt::Formatter<'_>) -> fmt::Result {
        f.debug_struct("Endpoint")
            .field("most", &self.most)
            .field("connections", &self.connections)
            .finish_non_exhaustive()
    }
}

impl Endpoint {
    /// A server of at most so many peers at a time. `configure` gives the configuration for a peer that is not known, a
    /// [`Config::server`] with a first number that nobody can guess.
    pub fn new(
        most: usize,
        configure: impl FnMut(SocketAddr) -> Config + Send + 'static,
    ) -> Endpoint {
        Endpoint {
            most,
            configure: Box::new(configure),
            connections: BTreeMap::new(),
            accepted: VecDeque::new(),
            frames: VecDeque::new(),
            events: VecDeque::new(),
        }
    }

    /// A datagram has arrived from this address. A Request from an unknown peer makes a connection, unless its options have a fault, which
    /// is only answered. If there is no room for a connection, a Reset with code 9, Too Busy, answers it. Refused as [`Connection::accept`]
    /// is.
    pub fn handle_datagram(
        &mut self,
        peer: SocketAddr,
        datagram: &[u8],
        now: Instant,
    ) -> Result<(), MakeError> {
        if let Some(connection) = self.connections.get_mut(&peer) {
            connection.handle_datagram(datagram, now);
        } else if self.connections.len() < self.most
            && PacketType::of(datagram) == Some(PacketType::Request)
        {
            match Connection::accept(&(self.configure)(peer), datagram, now)? {
                AcceptOutcome::Connection(mut connection)
                    if connection.phase() == Phase::Closed =>
                {
                    // It has ended before the owner knew of it: its Reset goes out, and the owner gets no event.
                    let frames = iter::from_fn(|| connection.poll_transmit());
                    self.frames.extend(frames.map(|frame| (peer, frame)));
                }
                AcceptOutcome::Connection(connection) => {
                    self.connections.insert(peer, *connection);
                    self.accepted.push_back(peer);
                }
                AcceptOutcome::Answer(frame) => self.frames.push_back((peer, frame)),
                AcceptOutcome::Nothing => {}
            }
        } else {
            // No end is made for it: any other packet is answered as an end would answer it.
            let refused = Connection::refuse(&(self.configure)(peer), datagram, TOO_BUSY);
            self.frames.extend(refused.map(|frame| (peer, frame)));
        }
        self.gather(peer);
        Ok(())
    }

    /// Makes calls of a peer's connection, such as `send` and `close`. None if there is no connection.
    pub fn call<T>(
        &mut self,
        peer: SocketAddr,
        doing: impl FnOnce(&mut Connection) -> T,
    ) -> Option<T> {
        let answer = doing(self.connections.get_mut(&peer)?);
        self.gather(peer);
        Some(answer)
    }

    /// The connections, and their peers.
    pub fn connections(&self) -> impl Iterator<Item = (SocketAddr, &Connection)> {
        self.connections.iter().map(|(peer, it)| (*peer, it))
    }

    /// Fires each timer of each connection that has run out. Calling it early does nothing.
    pub fn handle_timeout(&mut self, now: Instant) {
        let due: Vec<SocketAddr> = self
            .connections()
            .filter(|(_, it)| it.poll_timeout().is_some_and(|due| due <= now))
            .map(|(peer, _)| peer)
            .collect();
        for peer in due {
            self.call(peer, |it| it.handle_timeout(now));
        }
    }

    /// When [`Endpoint::handle_timeout`] has something to do; None if no timer runs. Ask again after every other call.
    pub fn poll_timeout(&self) -> Option<Instant> {
        self.connections()
            .filter_map(|(_, it)| it.poll_timeout())
            .min()
    }

    /// The next peer with a new connection. If that has already ended, [`Endpoint::call`] returns None.
    pub fn poll_accept(&mut self) -> Option<SocketAddr> {
        self.accepted.pop_front()
    }

    /// The next frame, and the peer to which it goes.
    pub fn poll_transmit(&mut self) -> Option<(SocketAddr, Transmit)> {
        self.frames.pop_front()
    }

    /// The next event, and its peer.
    pub fn poll_event(&mut self) -> Option<(SocketAddr, Event)> {
        self.events.pop_front()
    }

    /// Takes the frames and events of a connection, and drops it once it is closed.
    fn gather(&mut self, peer: SocketAddr) {
        let Some(connection) = self.connections.get_mut(&peer) else {
            return;
        };
        while let Some(frame) = connection.poll_transmit() {
            self.frames.push_back((peer, frame));
        }
        while let Some(event) = connection.poll_event() {
            self.events.push_back((peer, event));
        }
        if connection.phase() == Phase::Closed {
            self.connections.remove(&peer);
        }
    }
}
