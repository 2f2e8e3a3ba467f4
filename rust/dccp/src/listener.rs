//! A server of many peers by one value of the library.

use crate::connection::is_answer;
use crate::fates::InFlight;
use crate::flows::Flows;
use crate::{
    ArriveError, Config, Fate, Feature, FlowError, FlowRules, Held, ListenError, Phase, Place,
    RoundTrip, Statistics, StopError, Timer, Transmit, sys,
};
use std::collections::{HashMap, VecDeque};
use std::net::SocketAddr;
use std::time::{Duration, Instant};

/// What became of a connection, which [`Listener::poll_change`] returns.
#[derive(Clone, Debug, PartialEq, Eq)]
#[non_exhaustive]
pub enum Change {
    /// The handshake is complete: the peer has shown that it is where it says.
    Opened {
        /// The number that [`Listener::set_user`] wrote beside it.
        user: u64,
    },
    /// The data of one packet came, maybe no bytes. No packet's data come twice.
    Data {
        /// Its bytes.
        data: Vec<u8>,
        /// As above.
        user: u64,
    },
    /// With [`Config::holding`]: the data of one packet came, and wait for [`Listener::read`].
    Waits {
        /// As above.
        user: u64,
    },
    /// Data came and were dropped: they are no longer read (code 1), or there was no room (code 2; RFC 4340, section 11.7).
    Dropped {
        /// The Drop Code, which is reported to the peer.
        code: u8,
        /// As above.
        user: u64,
    },
    /// Data may be sent that were refused before: there is room in the window and at the peer's application, and the peer sends the Ack
    /// Vectors that CCID 2 needs.
    Room {
        /// As above.
        user: u64,
    },
    /// The connection is over. This comes once, and last, even if the handshake was never complete.
    Ended {
        /// Why.
        cause: Cause,
        /// The Reset Code (RFC 4340, section 5.6), 1 if that was orderly; 0 if no Reset was sent or received.
        code: u8,
        /// As above.
        user: u64,
    },
}

/// Why a connection is over.
#[derive(Clone, Copy, Debug, PartialEq, Eq)]
#[non_exhaustive]
pub enum Cause {
    /// The peer has closed or aborted it.
    Peer,
    /// The owner has closed, aborted or forgotten it.
    Own,
    /// The peer was silent, or did not go on with the handshake or the closing, for longer than the rules allow.
    Silent,
    /// It made room for another.
    Evicted,
    /// The peer has begun anew from its port.
    Anew,
    /// The end has answered a packet by a Reset.
    Fault,
}

impl Cause {
    fn of(cause: u32) -> Cause {
        match cause {
            sys::BY_PEER => Cause::Peer,
            sys::BY_OWN => Cause::Own,
            sys::BY_SILENT => Cause::Silent,
            sys::BY_EVICTED => Cause::Evicted,
            sys::BY_FAULT => Cause::Fault,
            sys::BY_ANEW => Cause::Anew,
            other => unreachable!("the library has no cause {other}"),
        }
    }
}

/// How a [`Listener`] has treated a datagram, with Init Cookies or without (RFC 4340, section 8.1.4).
#[derive(Clone, Copy, Debug, PartialEq, Eq)]
#[non_exhaustive]
pub enum Way {
    /// Without cookies.
    Plain,
    /// A Request was answered with a cookie, and there is no connection yet.
    Greeted,
    /// A Request was ignored: its options are too long for a cookie, or there was no memory to answer it.
    Unanswered,
    /// Its cookie has opened its connection, which has heard it.
    Reopened,
    /// Its cookie is good, but there is no room or no memory for a connection: the peer's next packet has it again.
    Unopened,
}

impl Way {
    fn of(way: u32) -> Way {
        match way {
            sys::WAY_PLAIN => Way::Plain,
            sys::WAY_GREETED => Way::Greeted,
            sys::WAY_UNANSWERED => Way::Unanswered,
            sys::WAY_REOPENED => Way::Reopened,
            sys::WAY_UNOPENED => Way::Unopened,
            other => unreachable!("the library has no way {other}"),
        }
    }
}

/// A server of many peers over one socket, at most 1,024 at a time, whose connections the library keeps. Each peer is answered just as a
/// server for it alone would answer it, whatever the others send (`docs/LIBRARY.md`); but others may take all places. It makes an end only
/// for a datagram that opens a connection. It has no socket and no clock.
///
/// After each call, ask [`poll_accept`](Listener::poll_accept), [`poll_transmit`](Listener::poll_transmit) and
/// [`poll_change`](Listener::poll_change) until they have nothing more: what waits there has no bound. Call
/// [`handle_timeout`](Listener::handle_timeout) once [`poll_timeout`](Listener::poll_timeout) has passed. A closed connection is dropped.
/// By its [`FlowRules`] a silent peer is given up, a Request at a full table may end a connection that only waits, and a peer that begins
/// anew from its port is served anew; [`poll_change`](Listener::poll_change) reports these. Once [`rekey`](Listener::rekey) has set a
/// key, Requests need no connection in a crowd.
///
/// ```
/// use dccp::{ArriveError, Config, Connection, Event, Listener};
/// use std::net::SocketAddr;
/// use std::time::Instant;
///
/// let here: SocketAddr = "192.0.2.1:40000".parse()?;
/// let there = "192.0.2.2:5001".parse()?;
/// let now = Instant::now();
/// let mut server = Listener::new(&Config::listener(there, 42), 1)?;
/// let mut client = Connection::new(&Config::client(here, there.into(), 42, 1_000))?;
/// client.open(now)?;
/// loop {
///     while let Some(frame) = client.poll_transmit() {
///         // A real server draws the first number.
///         server.handle_datagram(here, 2_000, &frame.bytes, now)?;
///     }
///     let Some((_, frame)) = server.poll_transmit() else { break };
///     client.handle_datagram(&frame.bytes, now);
/// }
/// assert_eq!(server.poll_accept(), Some(here));
/// server.send(here, b"hello", now)?;
/// let (peer, frame) = server.poll_transmit().ok_or("a frame")?;
/// client.handle_datagram(&frame.bytes, now);
/// assert_eq!((peer, client.poll_event()), (here, Some(Event::Data(b"hello".to_vec()))));
///
/// // Another peer finds the server busy, and a Reset says so.
/// let other: SocketAddr = "192.0.2.3:40000".parse()?;
/// let mut late = Connection::new(&Config::client(other, there.into(), 42, 1_000))?;
/// late.open(now)?;
/// let request = late.poll_transmit().ok_or("a Request")?;
/// assert_eq!(server.handle_datagram(other, 2_000, &request.bytes, now), Err(ArriveError::Busy));
/// let (_, reset) = server.poll_transmit().ok_or("a Reset")?;
/// late.handle_datagram(&reset.bytes, now);
/// // RFC 4340, section 5.6: Too Busy.
/// assert_eq!(late.poll_event(), Some(Event::Ended { code: 9 }));
/// # Ok::<(), Box<dyn std::error::Error>>(())
/// ```
#[derive(Debug)]
pub struct Listener {
    flows: Flows,
    changes: VecDeque<(SocketAddr, Change)>,
    counts: HashMap<SocketAddr, Counts>,
    /// The key from which first numbers are drawn.
    key: Option<sys::Key>,
    /// The flows count their time in milliseconds from the first call that has one.
    begun: Option<Instant>,
    /// The time of the last call.
    time: u64,
    accepted: VecDeque<SocketAddr>,
    frames: VecDeque<(SocketAddr, Transmit)>,
}

/// The counts of a connection, and its packets of data in flight.
#[derive(Debug, Default)]
struct Counts {
    counted: Statistics,
    in_flight: InFlight,
}

impl Counts {
    /// Removes the packets of data that are not in flight any more, and counts those that are lost.
    fn settle(&mut self, flows: &mut Flows, peer: SocketAddr) {
        if self.in_flight.is_empty() {
            return;
        }
        if let Some(view) = flows.look(peer) {
            self.counted.lost += self
                .in_flight
                .settle(view.in_flight, |number| flows.fate(peer, number));
        }
    }
}

impl Listener {
    /// A server of at most this many peers at a time, 1 to 1,024. The configuration is a [`Config::listener`].
    pub fn new(config: &Config, most: u16) -> Result<Listener, ListenError> {
        let mut flows = Flows::none(config.paths());
        ListenError::answer(flows.make(config.given_services(), config.wishes(), most))?;
        Ok(Listener {
            flows,
            changes: VecDeque::new(),
            counts: HashMap::new(),
            key: None,
            begun: None,
            time: 0,
            accepted: VecDeque::new(),
            frames: VecDeque::new(),
        })
    }

    /// A datagram has arrived from this peer. If it opens a connection, `first_number` is the number of the first packet from here, below
    /// 2^48, which nobody can guess (RFC 4340, section 7.2). A refused datagram has changed nothing; `Busy` is reported to the peer.
    pub fn handle_datagram(
        &mut self,
        peer: SocketAddr,
        first_number: u64,
        datagram: &[u8],
        now: Instant,
    ) -> Result<(), ArriveError> {
        let time = self.time(now);
        let counts = self.counts.get_mut(&peer);
        // A connection that is not over has counts, so there is no need to ask the library.
        let was = match counts {
            Some(_) => Stand::Connection,
            None => Stand::at(&mut self.flows, peer),
        };
        let (status, frame, told) = self.flows.arrive(peer, first_number, datagram, time);
        let is_refusal = matches!(status, sys::BUSY | sys::REFUSED);
        let is_answer = is_refusal || is_answer(&told);
        queue(&mut self.frames, peer, frame, is_answer);
        let is = was.after(&told, &mut self.flows, peer);
        if was == Stand::Nothing && is != Stand::Nothing {
            self.accepted.push_back(peer);
        }
        if is == Stand::Connection {
            let counts = match counts {
                Some(counts) => counts,
                None => self.counts.entry(peer).or_default(),
            };
            counts.counted.heard(&told, datagram);
            counts.settle(&mut self.flows, peer);
        }
        self.tell_changes(datagram);
        ArriveError::answer(status)
    }

    /// Sets the key for Init Cookies: 32 random bytes, drawn anew each hour or so. Cookies of the earlier key stay good for their two
    /// minutes. Without a key a listener gives none; with one, [`FlowRules::cookies`] says when.
    ///
    /// ```
    /// use dccp::{Config, Connection, Cookies, FlowRules, Listener, Phase, Way};
    /// use std::net::SocketAddr;
    /// use std::time::Instant;
    ///
    /// let here: SocketAddr = "192.0.2.1:40000".parse()?;
    /// let there = "192.0.2.2:5001".parse()?;
    /// let now = Instant::now();
    /// let mut server = Listener::new(&Config::listener(there, 42), 1_024)?;
    /// // A real server draws the key.
    /// server.rekey([7; 32], now);
    /// let mut rules = FlowRules::default();
    /// rules.cookies = Cookies::Always;
    /// server.set_rules(rules);
    /// let mut client = Connection::new(&Config::client(here, there.into(), 42, 1_000))?;
    /// client.open(now)?;
    /// let request = client.poll_transmit().ok_or("a Request")?;
    /// server.handle_datagram(here, 2_000, &request.bytes, now)?;
    /// // The Response goes out, and nothing is kept.
    /// assert_eq!((server.way(), server.flows()), (Way::Greeted, 0));
    /// let (_, response) = server.poll_transmit().ok_or("a Response")?;
    /// client.handle_datagram(&response.bytes, now);
    /// let ack = client.poll_transmit().ok_or("an Ack")?;
    /// server.handle_datagram(here, 2_000, &ack.bytes, now)?;
    /// assert_eq!((server.way(), server.phase(here)), (Way::Reopened, Some(Phase::Open)));
    /// # Ok::<(), Box<dyn std::error::Error>>(())
    /// ```
    pub fn rekey(&mut self, key: [u8; 32], now: Instant) {
        let time = self.time(now);
        self.flows.rekey(&sys::Key { bytes: key }, time);
    }

    /// How the last datagram was treated.
    pub fn way(&mut self) -> Way {
        Way::of(self.flows.way())
    }

    /// How many connections there are.
    pub fn flows(&mut self) -> u16 {
        self.flows.count()
    }

    /// Sets the key for the first numbers of [`hear`](Listener::hear): 32 random bytes that nobody else knows.
    pub fn set_key(&mut self, key: [u8; 32]) {
        self.key = Some(sys::Key { bytes: key });
    }

    /// As [`handle_datagram`](Listener::handle_datagram), with a first number that is drawn from the key (RFC 4340, section 7.2; as RFC
    /// 1948 does for TCP). Refused with `FirstNumber` if [`set_key`](Listener::set_key) has set no key.
    ///
    /// ```
    /// use dccp::{ArriveError, Config, Listener};
    /// use std::time::Instant;
    ///
    /// let mut server = Listener::new(&Config::listener("192.0.2.2:5001".parse()?, 42), 1_024)?;
    /// let (peer, now) = ("192.0.2.1:40000".parse()?, Instant::now());
    /// assert_eq!(server.hear(peer, b"no packet", now), Err(ArriveError::FirstNumber));
    /// // A real server draws the key.
    /// server.set_key([7; 32]);
    /// assert_eq!(server.hear(peer, b"no packet", now), Ok(()));
    /// # Ok::<(), Box<dyn std::error::Error>>(())
    /// ```
    pub fn hear(
        &mut self,
        peer: SocketAddr,
        datagram: &[u8],
        now: Instant,
    ) -> Result<(), ArriveError> {
        let Some(key) = self.key else {
            return Err(ArriveError::FirstNumber);
        };
        let time = self.time(now);
        let first_number = self.flows.keyed_number(peer, &key, time);
        self.handle_datagram(peer, first_number, datagram, now)
    }

    /// Sends data to a peer, 0 to 1,024 bytes, in one packet. The peer has to send Ack Vectors, for which the end here asks unless its
    /// configuration is plain. A refused call changes nothing.
    ///
    /// ```
    /// use dccp::{Config, FlowError, Listener};
    /// use std::time::Instant;
    ///
    /// let mut server = Listener::new(&Config::listener("192.0.2.2:5001".parse()?, 42), 1_024)?;
    /// let early = server.send("192.0.2.1:40000".parse()?, b"early", Instant::now());
    /// assert_eq!(early, Err(FlowError::NoFlow));
    /// # Ok::<(), Box<dyn std::error::Error>>(())
    /// ```
    pub fn send(&mut self, peer: SocketAddr, data: &[u8], now: Instant) -> Result<u64, FlowError> {
        let time = self.time(now);
        let (status, frame) = self.flows.send(peer, data, time);
        queue(&mut self.frames, peer, frame, false);
        FlowError::answer(status)?;
        let number = self.flows.number();
        let counts = self.counts.entry(peer).or_default();
        counts.in_flight.note(number);
        counts.counted.sent.count_bytes(data);
        Ok(number)
    }

    /// Takes the data of the packet of a peer that has waited longest. None if none wait, as always without [`Config::holding`]. Data
    /// that wait can also be read after the connection has ended, until the peer's next one opens. There are as many places for data that
    /// wait as connections. If there is no memory for them, or connections that are over have all places, data come by [`Change::Data`].
    ///
    /// ```
    /// use dccp::{Change, Config, Connection, Listener};
    /// use std::net::SocketAddr;
    /// use std::time::Instant;
    ///
    /// let here: SocketAddr = "192.0.2.1:40000".parse()?;
    /// let there = "192.0.2.2:5001".parse()?;
    /// let now = Instant::now();
    /// let mut server = Listener::new(&Config::listener(there, 42).holding(1), 1_024)?;
    /// let mut client = Connection::new(&Config::client(here, there.into(), 42, 1_000))?;
    /// let exchange = |client: &mut Connection, server: &mut Listener| loop {
    ///     match (client.poll_transmit(), server.poll_transmit()) {
    ///         (None, None) => break Ok::<(), dccp::ArriveError>(()),
    ///         (to_server, to_client) => {
    ///             to_client.iter().for_each(|(_, it)| client.handle_datagram(&it.bytes, now));
    ///             for it in to_server {
    ///                 server.handle_datagram(here, 2_000, &it.bytes, now)?;
    ///             }
    ///         }
    ///     }
    /// };
    /// client.open(now)?;
    /// exchange(&mut client, &mut server)?;
    /// client.send(b"one", now)?;
    /// client.send(b"two", now)?;
    /// exchange(&mut client, &mut server)?;
    /// // There is room for one: the other is dropped, with the Drop Code 2 (RFC 4340, section 11.7).
    /// let told: Vec<Change> = std::iter::from_fn(|| server.poll_change()).map(|(_, it)| it).collect();
    /// assert!(told.ends_with(&[Change::Waits { user: 0 }, Change::Dropped { code: 2, user: 0 }]));
    /// client.close(now)?;
    /// exchange(&mut client, &mut server)?;
    /// // The connection is over, and what waited can still be read.
    /// assert_eq!((server.phase(here), server.held(here)), (None, 1));
    /// assert_eq!(server.read(here), Some(b"one".to_vec()));
    /// assert_eq!((server.held(here), server.read(here)), (0, None));
    /// # Ok::<(), Box<dyn std::error::Error>>(())
    /// ```
    pub fn read(&mut self, peer: SocketAddr) -> Option<Vec<u8>> {
        self.flows.read(peer)
    }

    /// Data of a peer are read no more: those that arrive from now on are dropped, and the peer is told so.
    ///
    /// ```
    /// use dccp::{Config, Listener, StopError};
    ///
    /// let mut server = Listener::new(&Config::listener("192.0.2.2:5001".parse()?, 42), 1_024)?;
    /// assert_eq!(server.stop_reading("192.0.2.1:40000".parse()?), Err(StopError::NoFlow));
    /// # Ok::<(), Box<dyn std::error::Error>>(())
    /// ```
    pub fn stop_reading(&mut self, peer: SocketAddr) -> Result<(), StopError> {
        StopError::answer(self.flows.stop_reading(peer))
    }

    /// How many packets' data of a peer wait to be read.
    pub fn held(&mut self, peer: SocketAddr) -> usize {
        self.flows.held(peer)
    }

    /// What became of the packet of data with this number to a peer, as [`Connection::fate`](crate::Connection::fate);
    /// [`Fate::Unknown`] also if there is no connection.
    ///
    /// ```
    /// use dccp::{Config, Fate, Listener};
    ///
    /// let mut server = Listener::new(&Config::listener("192.0.2.2:5001".parse()?, 42), 1_024)?;
    /// assert_eq!(server.fate("192.0.2.1:40000".parse()?, 1), Fate::Unknown);
    /// # Ok::<(), Box<dyn std::error::Error>>(())
    /// ```
    pub fn fate(&mut self, peer: SocketAddr, number: u64) -> Fate {
        let fate = self.flows.fate(peer, number);
        self.phase(peer).map_or(fate, |phase| fate.once(phase))
    }

    /// The longest data to a peer, 0 to 1,024 bytes, whose frame surely has no more than `most` bytes now, as
    /// [`Connection::longest_data`](crate::Connection::longest_data); 0 if there is no connection.
    pub fn longest_data(&mut self, peer: SocketAddr, most: usize) -> usize {
        self.flows.longest_data(peer, most)
    }

    /// What was counted and measured of the connection to a peer, and its window; None if there is none.
    ///
    /// ```
    /// use dccp::{Config, Listener};
    ///
    /// let mut server = Listener::new(&Config::listener("192.0.2.2:5001".parse()?, 42), 1_024)?;
    /// assert_eq!(server.statistics("192.0.2.1:40000".parse()?), None);
    /// # Ok::<(), Box<dyn std::error::Error>>(())
    /// ```
    pub fn statistics(&mut self, peer: SocketAddr) -> Option<Statistics> {
        let view = self.flows.look(peer)?;
        let trip = self.flows.round_trip(peer)?;
        let counted = self.counts.get(&peer).map(|it| it.counted);
        Some(Statistics {
            window: view.window,
            in_flight: view.in_flight,
            round_trip: RoundTrip::of(&trip),
            ..counted.unwrap_or_default()
        })
    }

    /// Asks for these values of a feature of the connection to a peer, as [`Connection::prefer`](crate::Connection::prefer).
    ///
    /// ```
    /// use dccp::{Config, Feature, FlowError, Listener, Place};
    /// use std::time::Instant;
    ///
    /// let mut server = Listener::new(&Config::listener("192.0.2.2:5001".parse()?, 42), 1_024)?;
    /// let stranger = "192.0.2.1:40000".parse()?;
    /// let asked = server.prefer(stranger, Feature::AckRatio, Place::Here, &[4], Instant::now());
    /// assert_eq!(asked, Err(FlowError::NoFlow));
    /// assert_eq!(server.feature(stranger, Feature::AckRatio, Place::Here), None);
    /// # Ok::<(), Box<dyn std::error::Error>>(())
    /// ```
    pub fn prefer(
        &mut self,
        peer: SocketAddr,
        feature: Feature,
        place: Place,
        values: &[u64],
        now: Instant,
    ) -> Result<(), FlowError> {
        let time = self.time(now);
        let (status, frame) =
            self.flows
                .prefer(peer, feature as u32, place.is_peer(), values, time);
        queue(&mut self.frames, peer, frame, false);
        FlowError::answer(status)
    }

    /// What the connection to a peer holds for a feature; None if there is none.
    pub fn feature(&mut self, peer: SocketAddr, feature: Feature, place: Place) -> Option<Held> {
        let state = self.flows.feature(peer, feature as u32, place.is_peer())?;
        Some(Held::of(&state))
    }

    /// Closes the connection to a peer in order, as [`Connection::close`](crate::Connection::close).
    pub fn close(&mut self, peer: SocketAddr, now: Instant) -> Result<(), FlowError> {
        let time = self.time(now);
        let (status, frame) = self.flows.close(peer, time);
        queue(&mut self.frames, peer, frame, false);
        FlowError::answer(status)
    }

    /// Ends the connection to a peer at once.
    pub fn abort(&mut self, peer: SocketAddr, now: Instant) -> Result<(), FlowError> {
        let time = self.time(now);
        let (status, frame) = self.flows.abort(peer, time);
        queue(&mut self.frames, peer, frame, false);
        self.tell_changes(&[]);
        FlowError::answer(status)
    }

    /// Fires each timer of each connection that has run out, and gives up those that have been in their phase, or silent, for too long.
    /// Calling it early does nothing.
    pub fn handle_timeout(&mut self, now: Instant) {
        let time = self.time(now);
        loop {
            let (status, peer, frame) = self.flows.tick(time);
            if !matches!(status, sys::DONE | sys::GAVE_UP) {
                break;
            }
            queue(&mut self.frames, peer, frame, false);
            self.settle(peer);
            self.tell_changes(&[]);
        }
    }

    /// Fires a timer of the connection to a peer, for an owner that keeps the timers itself and does not call
    /// [`handle_timeout`](Listener::handle_timeout). Returns whether it had something to do.
    ///
    /// ```
    /// use dccp::{Config, Listener, Timer};
    /// use std::time::Instant;
    ///
    /// let mut server = Listener::new(&Config::listener("192.0.2.2:5001".parse()?, 42), 1_024)?;
    /// assert!(!server.handle_timer("192.0.2.1:40000".parse()?, Timer::Ack, Instant::now()));
    /// # Ok::<(), Box<dyn std::error::Error>>(())
    /// ```
    pub fn handle_timer(&mut self, peer: SocketAddr, timer: Timer, now: Instant) -> bool {
        let time = self.time(now);
        let (status, frame) = self.flows.timer(peer, timer as u32, time);
        queue(&mut self.frames, peer, frame, false);
        self.settle(peer);
        self.tell_changes(&[]);
        status == sys::DONE
    }

    /// The Service Code of the connection that a datagram would open, so that an owner can decide before it calls
    /// [`handle_datagram`](Listener::handle_datagram): it hands the datagram on, refuses it, or ignores it. None if it would open no connection,
    /// or the peer has one.
    ///
    /// ```
    /// use dccp::{Config, Connection, Event, Listener};
    /// use std::net::SocketAddr;
    /// use std::time::Instant;
    ///
    /// let here: SocketAddr = "192.0.2.1:40000".parse()?;
    /// let there = "192.0.2.2:5001".parse()?;
    /// let now = Instant::now();
    /// let mut server = Listener::new(&Config::listener(there, 42).services(&[42, 43]), 1_024)?;
    /// let mut client = Connection::new(&Config::client(here, there.into(), 43, 1_000))?;
    /// client.open(now)?;
    /// let request = client.poll_transmit().ok_or("a Request")?.bytes;
    /// assert_eq!(server.asks(here, &request), Some(43));
    /// // RFC 4340, section 5.6: Connection Refused.
    /// assert!(server.refuse(here, &request, 7, now));
    /// assert_eq!(server.asks(here, b"no Request"), None);
    /// let (_, reset) = server.poll_transmit().ok_or("a Reset")?;
    /// client.handle_datagram(&reset.bytes, now);
    /// assert_eq!(client.poll_event(), Some(Event::Ended { code: 7 }));
    /// # Ok::<(), Box<dyn std::error::Error>>(())
    /// ```
    pub fn asks(&mut self, peer: SocketAddr, datagram: &[u8]) -> Option<u32> {
        self.flows.asks(peer, datagram)
    }

    /// Refuses a datagram that would open a connection, by a Reset with this code (RFC 4340, section 5.6), which counts as an answer to
    /// strangers, limited by the rules. False if it would open none; then nothing is sent.
    pub fn refuse(&mut self, peer: SocketAddr, datagram: &[u8], code: u8, now: Instant) -> bool {
        let time = self.time(now);
        let (status, frame) = self.flows.refuse(peer, datagram, code, time);
        queue(&mut self.frames, peer, frame, true);
        status == sys::DONE
    }

    /// Takes no new connections (true), or takes them again (false). A Request is then refused by a Reset with code 7, Connection Refused;
    /// open connections go on.
    ///
    /// ```
    /// use dccp::{ArriveError, Config, Connection, Listener};
    /// use std::net::SocketAddr;
    /// use std::time::Instant;
    ///
    /// let here: SocketAddr = "192.0.2.1:40000".parse()?;
    /// let there = "192.0.2.2:5001".parse()?;
    /// let now = Instant::now();
    /// let mut server = Listener::new(&Config::listener(there, 42), 1_024)?;
    /// server.set_shut(true);
    /// let mut client = Connection::new(&Config::client(here, there.into(), 42, 1_000))?;
    /// client.open(now)?;
    /// let request = client.poll_transmit().ok_or("a Request")?.bytes;
    /// let answer = server.handle_datagram(here, 2_000, &request, now);
    /// assert_eq!((answer, server.phase(here)), (Err(ArriveError::Refused), None));
    /// # Ok::<(), Box<dyn std::error::Error>>(())
    /// ```
    pub fn set_shut(&mut self, is_shut: bool) {
        self.flows.shut(is_shut);
    }

    /// When [`Listener::handle_timeout`] has something to do; None if no timer runs. Ask again after other calls.
    pub fn poll_timeout(&mut self) -> Option<Instant> {
        let left = self.flows.until_first(self.time)?;
        let begun = self.begun?;
        Some(begun + Duration::from_millis(self.time + left))
    }

    /// The next peer with a new connection, which may already have ended.
    pub fn poll_accept(&mut self) -> Option<SocketAddr> {
        self.accepted.pop_front()
    }

    /// The next frame, and the peer to which it goes.
    pub fn poll_transmit(&mut self) -> Option<(SocketAddr, Transmit)> {
        let (peer, frame) = self.frames.pop_front()?;
        if let Some(counts) = self.counts.get_mut(&peer) {
            counts.counted.sent.count(&frame.bytes);
        }
        Some((peer, frame))
    }

    /// The phase of the connection to a peer; None if there is none.
    pub fn phase(&mut self, peer: SocketAddr) -> Option<Phase> {
        phase_at(&mut self.flows, peer)
    }

    /// The peers that have a connection, in the order of their addresses and ports.
    pub fn peers(&mut self) -> Vec<SocketAddr> {
        self.flows.peers()
    }

    /// The next change of a connection, with its data, and its peer.
    pub fn poll_change(&mut self) -> Option<(SocketAddr, Change)> {
        self.changes.pop_front()
    }

    /// Sets the rules.
    ///
    /// ```
    /// use dccp::{Config, FlowRules, Listener};
    /// use std::time::Duration;
    ///
    /// let mut server = Listener::new(&Config::listener("192.0.2.2:5001".parse()?, 42), 1_024)?;
    /// let mut rules = FlowRules::default();
    /// rules.idle = Some(Duration::from_secs(30));
    /// server.set_rules(rules);
    /// # Ok::<(), Box<dyn std::error::Error>>(())
    /// ```
    pub fn set_rules(&mut self, rules: FlowRules) {
        self.flows.rules(&rules.for_c());
    }

    /// Ends the connection to a peer at once, whatever its phase, also in TIMEWAIT, and sends nothing. Refused if there is none.
    ///
    /// ```
    /// use dccp::{Config, FlowError, Listener};
    /// use std::time::Instant;
    ///
    /// let mut server = Listener::new(&Config::listener("192.0.2.2:5001".parse()?, 42), 1_024)?;
    /// assert_eq!(server.forget("192.0.2.1:40000".parse()?, Instant::now()), Err(FlowError::NoFlow));
    /// # Ok::<(), Box<dyn std::error::Error>>(())
    /// ```
    pub fn forget(&mut self, peer: SocketAddr, now: Instant) -> Result<(), FlowError> {
        let time = self.time(now);
        let status = self.flows.forget(peer, time);
        self.tell_changes(&[]);
        FlowError::answer(status)
    }

    /// The number that was written beside the connection to a peer, 0 at first; None if there is none.
    pub fn user(&mut self, peer: SocketAddr) -> Option<u64> {
        self.flows.life(peer).map(|it| it.user)
    }

    /// Writes a number beside the connection to a peer, for as long as that lasts. Refused if there is none.
    ///
    /// ```
    /// use dccp::{Config, FlowError, Listener};
    ///
    /// let mut server = Listener::new(&Config::listener("192.0.2.2:5001".parse()?, 42), 1_024)?;
    /// assert_eq!(server.set_user("192.0.2.1:40000".parse()?, 7), Err(FlowError::NoFlow));
    /// assert_eq!(server.user("192.0.2.1:40000".parse()?), None);
    /// # Ok::<(), Box<dyn std::error::Error>>(())
    /// ```
    pub fn set_user(&mut self, peer: SocketAddr, user: u64) -> Result<(), FlowError> {
        FlowError::answer(self.flows.set_user(peer, user))
    }

    /// How long the end of a peer has taken no packet; None if there is no connection. A packet that was dropped, or answered by a Sync, is
    /// no sign of life.
    pub fn silence(&mut self, peer: SocketAddr, now: Instant) -> Option<Duration> {
        let time = self.time(now);
        let life = self.flows.life(peer)?;
        Some(Duration::from_millis(time.saturating_sub(life.taken)))
    }

    /// The Service Code for which the connection to a peer was opened; None if there is none.
    pub fn service(&mut self, peer: SocketAddr) -> Option<u32> {
        self.flows.look(peer).map(|it| it.service)
    }

    /// How many data packets to a peer may be in flight, as [`Connection::window`](crate::Connection::window); None if there is none.
    pub fn window(&mut self, peer: SocketAddr) -> Option<u32> {
        self.flows.look(peer).map(|it| it.window)
    }

    /// How many data packets to a peer are in flight; None if there is no connection.
    pub fn in_flight(&mut self, peer: SocketAddr) -> Option<u32> {
        self.flows.look(peer).map(|it| it.in_flight)
    }

    /// Keeps the events of the last call until the owner asks. Data are in its datagram, if it had one.
    fn tell_changes(&mut self, datagram: &[u8]) {
        while let Some((peer, event)) = self.flows.event() {
            let user = event.user;
            let change = match event.kind {
                sys::EVENT_OPENED => Change::Opened { user },
                sys::EVENT_DATA => {
                    let data = datagram[event.first..event.past].to_vec();
                    Change::Data { data, user }
                }
                sys::EVENT_WAITS => Change::Waits { user },
                sys::EVENT_DROPPED => {
                    let code = event.code;
                    Change::Dropped { code, user }
                }
                sys::EVENT_ROOM => Change::Room { user },
                sys::EVENT_ENDED => {
                    self.counts.remove(&peer);
                    let (cause, code) = (Cause::of(event.cause), event.code);
                    Change::Ended { cause, code, user }
                }
                _ => continue,
            };
            self.changes.push_back((peer, change));
        }
    }

    /// Removes the packets of data to a peer that are not in flight any more, and counts those that are lost.
    fn settle(&mut self, peer: SocketAddr) {
        if let Some(counts) = self.counts.get_mut(&peer) {
            counts.settle(&mut self.flows, peer);
        }
    }

    /// The time in milliseconds, as the flows count it.
    fn time(&mut self, now: Instant) -> u64 {
        let begun = *self.begun.get_or_insert(now);
        self.time = now.saturating_duration_since(begun).as_millis() as u64;
        self.time
    }
}

/// Keeps the frame that a call has left, if any.
fn queue(
    frames: &mut VecDeque<(SocketAddr, Transmit)>,
    peer: SocketAddr,
    frame: &[u8],
    is_answer: bool,
) {
    if !frame.is_empty() {
        let bytes = frame.to_vec();
        frames.push_back((peer, Transmit { bytes, is_answer }));
    }
}

/// What a peer has at a listener.
#[derive(Clone, Copy, PartialEq, Eq)]
enum Stand {
    Nothing,
    /// One that is not over.
    Connection,
    /// One that has ended, and answers what is still under way.
    TimeWait,
}

fn phase_at(flows: &mut Flows, peer: SocketAddr) -> Option<Phase> {
    flows.look(peer).map(|it| Phase::of(it.phase))
}

impl Stand {
    /// What a peer has after a datagram, which ends a connection only if a Reset is sent or received.
    fn after(self, told: &sys::Told, flows: &mut Flows, peer: SocketAddr) -> Stand {
        match told.kind {
            sys::TOLD_WAS_RESET | sys::TOLD_SENT_RESET => Stand::at(flows, peer),
            _ if self == Stand::Connection => self,
            _ => Stand::at(flows, peer),
        }
    }

    /// What a peer has by the library.
    fn at(flows: &mut Flows, peer: SocketAddr) -> Stand {
        match phase_at(flows, peer) {
            None | Some(Phase::Closed | Phase::Listen) => Stand::Nothing,
            Some(Phase::TimeWait) => Stand::TimeWait,
            Some(
                Phase::Request
                | Phase::Respond
                | Phase::PartOpen
                | Phase::Open
                | Phase::CloseReq
                | Phase::Closing,
            ) => Stand::Connection,
        }
    }
}
