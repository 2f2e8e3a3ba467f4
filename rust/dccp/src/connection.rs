//! A connection: an end, the frames that wait to be sent, and the events for its owner.

use crate::anew::LastSync;
use crate::end::End;
use crate::fates::InFlight;
use crate::frames::{Frames, Run};
use crate::{
    AbortError, CloseError, Config, CookieKeys, Fate, Feature, Held, MakeError, Numbers, OpenError,
    Phase, Place, PreferError, SendError, Statistics, Timer, sys,
};
use std::collections::VecDeque;
use std::mem;
use std::time::{Duration, Instant};

/// A frame for the peer: the bytes of one DCCP packet, from the generic header on.
#[derive(Clone, Debug, PartialEq, Eq)]
#[non_exhaustive]
pub struct Transmit {
    /// At most 2,044 bytes.
    pub bytes: Vec<u8>,
    /// Whether it is a Sync or a Reset that answers a packet. Anybody may cause these: limit how many go out in a second (RFC 4340, sections
    /// 7.5.4 and 8.3.1). One that is not sent counts as a lost frame.
    pub is_answer: bool,
}

/// Frames for the peer in a buffer, each of which is one datagram, in the form of UDP_SEGMENT of Linux.
#[derive(Clone, Copy, Debug, PartialEq, Eq)]
#[non_exhaustive]
pub struct Segments {
    /// Their length together, in bytes.
    pub length: usize,
    /// The length of each, in bytes; the last may be shorter.
    pub segment: usize,
    /// Whether it is one frame, which answers a packet, as [`Transmit::is_answer`] has it.
    pub is_answer: bool,
}

impl Segments {
    fn of(run: &Run<'_>) -> Segments {
        Segments {
            length: run.bytes.len(),
            segment: run.length,
            is_answer: run.is_answer,
        }
    }
}

/// What an end has measured of its path (RFC 6298).
#[derive(Clone, Copy, Debug, Default, PartialEq, Eq)]
#[non_exhaustive]
pub struct RoundTrip {
    /// The round trip; zero before the first sample.
    pub smoothed: Duration,
    /// Its variation, RTTVAR; zero before the first sample.
    pub variance: Duration,
    /// How long the end waits for a report.
    pub timeout: Duration,
}

impl RoundTrip {
    pub(crate) fn of(trip: &sys::RoundTripView) -> RoundTrip {
        RoundTrip {
            smoothed: Duration::from_micros(trip.smoothed.into()),
            variance: Duration::from_micros(trip.variance.into()),
            timeout: Duration::from_millis(trip.timeout),
        }
    }
}

/// An event of a connection.
#[derive(Clone, Debug, PartialEq, Eq)]
#[non_exhaustive]
pub enum Event {
    /// The data of one packet arrived, maybe no bytes. No packet's data arrive twice.
    Data(Vec<u8>),
    /// With [`Config::holding`]: the data of one packet came, and wait for [`Connection::read`], or [`Listener::read`](crate::Listener::read).
    Waits,
    /// Data arrived and were dropped: the application stopped reading (code 1), or there was no room (code 2; RFC 4340, section 11.7).
    Dropped {
        /// The Drop Code, which is reported to the peer.
        code: u8,
    },
    /// The connection has ended, by a Reset with this code: 1 is an orderly close, 2 means that the peer gave up, any other is a fault (RFC
    /// 4340, section 5.6). The end that closes may also hear 3. There is at most one such event, and none after [`Connection::abort`].
    Ended {
        /// The Reset Code.
        code: u8,
    },
    /// The client has begun anew from its port, so this connection is over, and the client's next Request opens another. Only a server's
    /// connection has this event, in place of [`Event::Ended`] (own; RFC 4340, section 8.5, step 4).
    Anew,
}

/// A server's answer to a datagram from a peer that it does not know.
#[derive(Debug)]
#[non_exhaustive]
pub enum AcceptOutcome {
    /// It is a Request: this is the connection, and its answer waits in [`Connection::poll_transmit`]. If its options have a fault, the
    /// connection has already ended, and its phase is [`Phase::Closed`].
    Connection(Box<Connection>),
    /// It is no Request, and this answers it.
    Answer(Transmit),
    /// It is no Request, and nothing answers it.
    Nothing,
}

/// One end of a DCCP connection, with its timers. It has no socket and no clock: its owner hands in datagrams and the time.
///
/// After each call, ask [`poll_transmit`](Connection::poll_transmit) and [`poll_event`](Connection::poll_event) until they have nothing
/// more. Call [`handle_timeout`](Connection::handle_timeout) once [`poll_timeout`](Connection::poll_timeout) has passed. Drop a connection
/// once its phase is [`Phase::Closed`] again; in [`Phase::TimeWait`] it still answers late packets.
///
/// A connection may move to another thread, but threads cannot share it:
///
/// ```
/// fn moves<T: Send>() {}
/// moves::<dccp::Connection>();
/// ```
///
/// ```compile_fail,E0277
/// fn shares<T: Sync>() {}
/// shares::<dccp::Connection>();
/// ```
#[derive(Debug)]
pub struct Connection {
    end: End,
    view: sys::View,
    /// The end counts its time in milliseconds from the first call that has one.
    begun: Option<Instant>,
    due: Option<Instant>,
    outgoing: OutgoingFrames,
    events: VecDeque<Event>,
    has_ended: bool,
    /// Of a server's end.
    last_sync: Option<LastSync>,
}

/// The frames that wait for the peer, the packets of data in flight, and the counts.
#[derive(Debug, Default)]
struct OutgoingFrames {
    frames: Frames,
    in_flight: InFlight,
    counts: Statistics,
}

impl Connection {
    /// A connection that has sent and received nothing. Refused if a wish is refused, or if there is no memory.
    ///
    /// ```
    /// use dccp::{Config, Connection, Feature, MakeError, Phase, Place};
    ///
    /// let (own, peer) = ("192.0.2.1:40000".parse()?, "192.0.2.2:5001".parse()?);
    /// let config = Config::client(own, peer, 42, 1_000);
    /// assert_eq!(Connection::new(&config)?.phase(), Phase::Closed);
    ///
    /// // RFC 4340, section 7.5.2: a Sequence Window is at least 32.
    /// let narrow = config.offer(Feature::SequenceWindow, Place::Here, &[31]);
    /// assert_eq!(Connection::new(&narrow).unwrap_err(), MakeError::BadList);
    /// # Ok::<(), Box<dyn std::error::Error>>(())
    /// ```
    pub fn new(config: &Config) -> Result<Connection, MakeError> {
        let mut end = End::none();
        MakeError::answer(end.make(config.settings(), config.wishes()))?;
        Ok(Connection::of(end, config.settings().is_server))
    }

    fn of(mut end: End, is_server: bool) -> Connection {
        let view = end.look();
        Connection {
            end,
            view,
            begun: None,
            due: None,
            outgoing: OutgoingFrames::default(),
            events: VecDeque::new(),
            has_ended: false,
            last_sync: is_server.then(LastSync::default),
        }
    }

    /// Takes a datagram from a peer that the server does not know. It makes a connection exactly if the datagram leads a new server's end
    /// of this configuration out of [`Phase::Listen`].
    ///
    /// ```
    /// use dccp::{AcceptOutcome, Config, Connection};
    /// use std::time::Instant;
    ///
    /// let (here, there) = ("192.0.2.1:40000".parse()?, "192.0.2.2:5001".parse()?);
    /// let config = Config::server(there, here, 42, 2_000);
    /// assert!(matches!(Connection::accept(&config, b"no packet", Instant::now())?, AcceptOutcome::Nothing));
    ///
    /// let mut client = Connection::new(&Config::client(here, there, 42, 1_000))?;
    /// client.open(Instant::now())?;
    /// let request = client.poll_transmit().ok_or("a Request")?;
    /// assert!(matches!(Connection::accept(&config, &request.bytes, Instant::now())?, AcceptOutcome::Connection(_)));
    /// # Ok::<(), Box<dyn std::error::Error>>(())
    /// ```
    pub fn accept(
        config: &Config,
        datagram: &[u8],
        now: Instant,
    ) -> Result<AcceptOutcome, MakeError> {
        let mut end = End::none();
        let (status, frame, told) = end.accept(config.settings(), config.wishes(), datagram, 0);
        let mut outgoing = OutgoingFrames::default();
        queue(&mut outgoing, (status, frame), is_answer(&told));
        match status {
            sys::TOO_LONG | sys::NO_CONNECTION => Ok(outgoing
                .frames
                .take_first()
                .map_or(AcceptOutcome::Nothing, AcceptOutcome::Answer)),
            _ => {
                MakeError::answer(status)?;
                let mut connection = Connection::of(end, true);
                connection.outgoing = outgoing;
                // The data of a Request are not delivered.
                let _ = connection.hear(&told, datagram, Phase::Listen);
                connection.called(now);
                Ok(AcceptOutcome::Connection(Box::new(connection)))
            }
        }
    }

    /// Answers a Request with an Init Cookie, and keeps nothing (RFC 4340, section 8.1.4): [`recall`](Connection::recall) makes the
    /// connection once the cookie comes back. Any datagram that is no Request for this server is answered as by [`Connection::accept`].
    /// None if there is no answer, as for a Request whose options are too long for a cookie.
    ///
    /// ```
    /// use dccp::{Config, Connection, CookieKeys, Phase};
    /// use std::time::Instant;
    ///
    /// let (here, there) = ("192.0.2.1:40000".parse()?, "192.0.2.2:5001".parse()?);
    /// let (config, now) = (Config::server(there, here, 42, 2_000), Instant::now());
    /// // A real server draws the key.
    /// let keys = CookieKeys::new([7; 32], now);
    /// let mut client = Connection::new(&Config::client(here, there, 42, 1_000))?;
    /// client.open(now)?;
    /// let request = client.poll_transmit().ok_or("a Request")?;
    /// let response = Connection::greet(&config, &keys, &request.bytes, now)?.ok_or("a Response")?;
    /// client.handle_datagram(&response.bytes, now);
    /// let ack = client.poll_transmit().ok_or("an Ack")?;
    /// let server = Connection::recall(&config, &keys, &ack.bytes, now)?.ok_or("a connection")?;
    /// assert_eq!(server.phase(), Phase::Open);
    /// // Without the cookie there is none.
    /// assert!(Connection::recall(&config, &keys, &request.bytes, now)?.is_none());
    /// # Ok::<(), Box<dyn std::error::Error>>(())
    /// ```
    pub fn greet(
        config: &Config,
        keys: &CookieKeys,
        datagram: &[u8],
        now: Instant,
    ) -> Result<Option<Transmit>, MakeError> {
        let (mut end, time) = (End::none(), keys.time(now));
        let (settings, wishes) = (config.settings(), config.wishes());
        let (status, frame) = end.greet(settings, wishes, keys.pair(), datagram, time);
        if !matches!(status, sys::NO_CONNECTION | sys::TOO_LONG) {
            MakeError::answer(status)?;
        }
        Ok((!frame.is_empty()).then(|| Transmit {
            bytes: frame.to_vec(),
            is_answer: status != sys::DONE,
        }))
    }

    /// The connection of a datagram that returns a good Init Cookie, at most two minutes old. It has heard the datagram. None if there is
    /// no good cookie. The configuration is that of [`Connection::greet`]; its first number makes no difference.
    pub fn recall(
        config: &Config,
        keys: &CookieKeys,
        datagram: &[u8],
        now: Instant,
    ) -> Result<Option<Box<Connection>>, MakeError> {
        let mut end = End::none();
        let (status, request) =
            end.recall(config.settings(), keys.pair(), datagram, keys.time(now));
        if status != sys::DONE {
            return Ok(None);
        }
        let request = request.to_vec();
        let config = config.clone().first_number(end.number());
        let AcceptOutcome::Connection(mut connection) = Connection::accept(&config, &request, now)?
        else {
            return Ok(None);
        };
        // Its Response went out when the cookie was given.
        connection.outgoing = OutgoingFrames::default();
        connection.handle_datagram(datagram, now);
        Ok(Some(connection))
    }

    /// Turns away the first datagram of a peer, and takes no memory except for the frame. A Request for which [`Connection::accept`] would
    /// make a connection is answered by a Reset with this code (RFC 4340, section 5.6), such as 9, Too Busy, or 7, Connection Refused. Any
    /// other datagram is answered as by that call. Wishes make no difference.
    ///
    /// ```
    /// use dccp::{Config, Connection, Event};
    /// use std::time::Instant;
    ///
    /// let (here, there) = ("192.0.2.1:40000".parse()?, "192.0.2.2:5001".parse()?);
    /// let now = Instant::now();
    /// let mut client = Connection::new(&Config::client(here, there, 42, 1_000))?;
    /// client.open(now)?;
    /// let request = client.poll_transmit().ok_or("a Request")?;
    /// let reset = Connection::refuse(&Config::server(there, here, 42, 2_000), &request.bytes, 9);
    /// client.handle_datagram(&reset.ok_or("a Reset")?.bytes, now);
    /// assert_eq!(client.poll_event(), Some(Event::Ended { code: 9 }));
    /// # Ok::<(), Box<dyn std::error::Error>>(())
    /// ```
    pub fn refuse(config: &Config, datagram: &[u8], code: u8) -> Option<Transmit> {
        let mut end = End::none();
        let (_, frame) = end.refuse(config.settings(), datagram, code);
        (!frame.is_empty()).then(|| Transmit {
            bytes: frame.to_vec(),
            is_answer: true,
        })
    }

    /// A client asks for its service, once: its Request goes out.
    ///
    /// ```
    /// use dccp::{Config, Connection, OpenError};
    /// use std::time::{Duration, Instant};
    ///
    /// let (own, peer) = ("192.0.2.1:40000".parse()?, "192.0.2.2:5001".parse()?);
    /// let mut client = Connection::new(&Config::client(own, peer, 42, 1_000))?;
    /// let now = Instant::now();
    /// client.open(now)?;
    /// // A Request has type 0 (RFC 4340, section 5.1). The next goes out after a second.
    /// let request = client.poll_transmit().ok_or("a Request")?;
    /// assert_eq!((request.bytes[8] >> 1) & 15, 0);
    /// assert_eq!(client.poll_timeout(), Some(now + Duration::from_secs(1)));
    /// assert_eq!(client.open(now), Err(OpenError::NotFresh));
    /// # Ok::<(), Box<dyn std::error::Error>>(())
    /// ```
    pub fn open(&mut self, now: Instant) -> Result<(), OpenError> {
        let time = self.time(now);
        let status = queue(&mut self.outgoing, self.end.open(time), false);
        self.called(now);
        OpenError::answer(status)
    }

    /// Sends data, 0 to 1,024 bytes, in one packet, and returns its sequence number; in [`Phase::PartOpen`] a client speaks first. A
    /// refused call changes nothing. [`Connection::fate`] says what became of the packet.
    ///
    /// ```
    /// use dccp::{Config, Connection, SendError};
    /// use std::time::Instant;
    ///
    /// let (own, peer) = ("192.0.2.1:40000".parse()?, "192.0.2.2:5001".parse()?);
    /// let mut client = Connection::new(&Config::client(own, peer, 42, 1_000))?;
    /// assert_eq!(client.send(b"early", Instant::now()), Err(SendError::NotOpen));
    /// # Ok::<(), Box<dyn std::error::Error>>(())
    /// ```
    pub fn send(&mut self, data: &[u8], now: Instant) -> Result<u64, SendError> {
        let time = self.time(now);
        let number = self.send_unseen(data, time);
        self.called(now);
        number
    }

    /// As [`send`](Connection::send), at a time as the end counts it, but the end is looked at by [`called`](Connection::called) alone: once
    /// for many packets.
    pub(crate) fn send_unseen(&mut self, data: &[u8], time: u64) -> Result<u64, SendError> {
        let status = queue(&mut self.outgoing, self.end.send(data, time), false);
        let number = self.end.number();
        if status == sys::DONE {
            self.outgoing.in_flight.note(number);
            self.outgoing.counts.sent.count_bytes(data);
        }
        SendError::answer(status)?;
        Ok(number)
    }

    /// What became of the packet of data with this number, which [`Connection::send`] has returned. Ask after
    /// [`Connection::handle_datagram`], and before [`Connection::handle_timeout`], which may cause a timeout.
    ///
    /// ```
    /// use dccp::{Config, Connection, Fate};
    ///
    /// let (own, peer) = ("192.0.2.1:40000".parse()?, "192.0.2.2:5001".parse()?);
    /// let mut client = Connection::new(&Config::client(own, peer, 42, 1_000))?;
    /// // It has sent nothing yet.
    /// assert_eq!(client.fate(1_001), Fate::Unknown);
    /// # Ok::<(), Box<dyn std::error::Error>>(())
    /// ```
    pub fn fate(&mut self, number: u64) -> Fate {
        self.end.fate(number).once(self.phase())
    }

    /// The longest data, 0 to 1,024 bytes, whose frame surely has no more than `most` bytes now. A frame also has a header and, if the
    /// end sends Ack Vectors, one that may grow with what arrives. Over IPv6 paths of 1,280 bytes UDP leaves 1,232.
    ///
    /// ```
    /// use dccp::{Config, Connection};
    ///
    /// let (own, peer) = ("192.0.2.1:40000".parse()?, "192.0.2.2:5001".parse()?);
    /// let mut client = Connection::new(&Config::client(own, peer, 42, 1_000))?;
    /// assert_eq!(client.longest_data(1_232), 1_024);
    /// // A DataAck with a long number has a header of 24 bytes (RFC 4340, section 5.3).
    /// assert_eq!(client.longest_data(24), 0);
    /// # Ok::<(), Box<dyn std::error::Error>>(())
    /// ```
    pub fn longest_data(&mut self, most: usize) -> usize {
        self.end.longest_data(most)
    }

    /// Asks for these values of a feature, best first. [`Connection::feature`] shows the result.
    ///
    /// ```
    /// use dccp::{Config, Connection, Feature, Place, PreferError};
    /// use std::time::Instant;
    ///
    /// let (own, peer) = ("192.0.2.1:40000".parse()?, "192.0.2.2:5001".parse()?);
    /// let mut client = Connection::new(&Config::client(own, peer, 42, 1_000))?;
    /// let early = client.prefer(Feature::AckRatio, Place::Here, &[4], Instant::now());
    /// assert_eq!(early, Err(PreferError::NotOpen));
    /// # Ok::<(), Box<dyn std::error::Error>>(())
    /// ```
    pub fn prefer(
        &mut self,
        feature: Feature,
        place: Place,
        values: &[u64],
        now: Instant,
    ) -> Result<(), PreferError> {
        let time = self.time(now);
        let left = self
            .end
            .prefer(feature as u32, place.is_peer(), values, time);
        let status = queue(&mut self.outgoing, left, false);
        self.called(now);
        PreferError::answer(status)
    }

    /// Closes the connection in order. No more data are delivered to this end. Data in flight may arrive after the close, so first wait
    /// until [`Connection::in_flight`] is 0, or for some seconds.
    ///
    /// ```
    /// use dccp::{CloseError, Config, Connection};
    /// use std::time::Instant;
    ///
    /// let (own, peer) = ("192.0.2.1:40000".parse()?, "192.0.2.2:5001".parse()?);
    /// let mut client = Connection::new(&Config::client(own, peer, 42, 1_000))?;
    /// assert_eq!(client.close(Instant::now()), Err(CloseError::NotOpen));
    /// # Ok::<(), Box<dyn std::error::Error>>(())
    /// ```
    pub fn close(&mut self, now: Instant) -> Result<(), CloseError> {
        let time = self.time(now);
        let status = queue(&mut self.outgoing, self.end.close(time), false);
        self.called(now);
        CloseError::answer(status)
    }

    /// Ends the connection at once.
    ///
    /// ```
    /// use dccp::{AbortError, Config, Connection, Phase};
    /// use std::time::Instant;
    ///
    /// let (own, peer) = ("192.0.2.1:40000".parse()?, "192.0.2.2:5001".parse()?);
    /// let mut client = Connection::new(&Config::client(own, peer, 42, 1_000))?;
    /// assert_eq!(client.abort(Instant::now()), Err(AbortError::NotLive));
    /// client.open(Instant::now())?;
    /// client.abort(Instant::now())?;
    /// assert_eq!(client.phase(), Phase::Closed);
    /// # Ok::<(), Box<dyn std::error::Error>>(())
    /// ```
    pub fn abort(&mut self, now: Instant) -> Result<(), AbortError> {
        let time = self.time(now);
        let status = queue(&mut self.outgoing, self.end.abort(time), false);
        self.has_ended |= status == sys::DONE;
        self.called(now);
        AbortError::answer(status)
    }

    /// A datagram of the peer has arrived: the bytes of one DCCP packet. One of more than 2,044 bytes changes nothing.
    ///
    /// ```
    /// use dccp::{Config, Connection};
    /// use std::time::Instant;
    ///
    /// let (own, peer) = ("192.0.2.1:40000".parse()?, "192.0.2.2:5001".parse()?);
    /// let mut client = Connection::new(&Config::client(own, peer, 42, 1_000))?;
    /// client.handle_datagram(b"no packet", Instant::now());
    /// assert_eq!((client.poll_transmit(), client.poll_event()), (None, None));
    /// # Ok::<(), Box<dyn std::error::Error>>(())
    /// ```
    pub fn handle_datagram(&mut self, datagram: &[u8], now: Instant) {
        if let Some(data) = self.receive(datagram, now) {
            self.events.push_back(Event::Data(data.to_vec()));
        }
    }

    /// The same, but data are returned in place, in the datagram, and make no event.
    ///
    /// ```
    /// use dccp::{Config, Connection};
    /// use std::time::Instant;
    ///
    /// let (own, peer) = ("192.0.2.1:40000".parse()?, "192.0.2.2:5001".parse()?);
    /// let mut client = Connection::new(&Config::client(own, peer, 42, 1_000))?;
    /// assert_eq!(client.receive(b"no packet", Instant::now()), None);
    /// # Ok::<(), Box<dyn std::error::Error>>(())
    /// ```
    pub fn receive<'a>(&mut self, datagram: &'a [u8], now: Instant) -> Option<&'a [u8]> {
        let (was, time) = (self.phase(), self.time(now));
        let told = self.take(datagram, time);
        self.called(now);
        self.hear(&told, datagram, was)
    }

    /// As [`receive`](Connection::receive) of each, but the end is looked at once, and after a Reset.
    pub(crate) fn receive_all<'a>(
        &mut self,
        datagrams: impl Iterator<Item = &'a [u8]>,
        now: Instant,
        mut keep: impl FnMut(&'a [u8]),
    ) {
        let time = self.time(now);
        for datagram in datagrams {
            let was = self.phase();
            let told = self.take(datagram, time);
            if matches!(told.kind, sys::TOLD_WAS_RESET | sys::TOLD_SENT_RESET) {
                self.called(now);
            }
            if let Some(data) = self.hear(&told, datagram, was) {
                keep(data);
            }
        }
        self.called(now);
    }

    /// Takes the data of the packet that has waited longest. None if none wait, as always without [`Config::holding`].
    ///
    /// ```
    /// use dccp::{AcceptOutcome, Config, Connection, Event};
    /// use std::time::Instant;
    ///
    /// let (here, there) = ("192.0.2.1:40000".parse()?, "192.0.2.2:5001".parse()?);
    /// let now = Instant::now();
    /// let mut client = Connection::new(&Config::client(here, there, 42, 1_000).holding(1))?;
    /// client.open(now)?;
    /// let request = client.poll_transmit().ok_or("a Request")?;
    /// let config = Config::server(there, here, 42, 2_000);
    /// let AcceptOutcome::Connection(mut server) = Connection::accept(&config, &request.bytes, now)? else {
    ///     return Err("a Request is accepted".into());
    /// };
    /// let exchange = |client: &mut Connection, server: &mut Connection| loop {
    ///     match (client.poll_transmit(), server.poll_transmit()) {
    ///         (None, None) => break,
    ///         (to_server, to_client) => {
    ///             to_server.iter().for_each(|it| server.handle_datagram(&it.bytes, now));
    ///             to_client.iter().for_each(|it| client.handle_datagram(&it.bytes, now));
    ///         }
    ///     }
    /// };
    /// exchange(&mut client, &mut server);
    /// server.send(b"one", now)?;
    /// server.send(b"two", now)?;
    /// exchange(&mut client, &mut server);
    /// // There is room for one: the other is dropped, with the Drop Code 2 (RFC 4340, section 11.7).
    /// assert_eq!(client.poll_event(), Some(Event::Waits));
    /// assert_eq!(client.poll_event(), Some(Event::Dropped { code: 2 }));
    /// assert_eq!((client.held(), client.read()), (1, Some(b"one".to_vec())));
    /// assert_eq!((client.held(), client.read()), (0, None));
    /// # Ok::<(), Box<dyn std::error::Error>>(())
    /// ```
    pub fn read(&mut self) -> Option<Vec<u8>> {
        self.end.read()
    }

    /// The application reads no more: data that arrive from now on are dropped, and the peer is told so. False without
    /// [`Config::holding`].
    pub fn stop_reading(&mut self) -> bool {
        self.end.stop_reading()
    }

    /// How many packets' data wait to be read.
    pub fn held(&mut self) -> usize {
        self.end.held()
    }

    /// Fires each timer that has run out. Calling it early does nothing.
    ///
    /// ```
    /// use dccp::{Config, Connection};
    /// use std::time::Instant;
    ///
    /// let (own, peer) = ("192.0.2.1:40000".parse()?, "192.0.2.2:5001".parse()?);
    /// let mut client = Connection::new(&Config::client(own, peer, 42, 1_000))?;
    /// client.open(Instant::now())?;
    /// let request = client.poll_transmit();
    /// let due = client.poll_timeout().ok_or("a timer")?;
    /// client.handle_timeout(due);
    /// // Another Request, under the next number.
    /// assert!(client.poll_transmit().is_some_and(|it| Some(it) != request));
    /// # Ok::<(), Box<dyn std::error::Error>>(())
    /// ```
    pub fn handle_timeout(&mut self, now: Instant) {
        let time = self.time(now);
        while queue(&mut self.outgoing, self.end.tick(time), false) == sys::DONE {}
        self.called(now);
    }

    /// A timer has run out: for an owner who keeps the timers himself, and does not call [`Connection::handle_timeout`]. Returns whether
    /// it had something to do in this phase; a timer that had nothing to do changes nothing.
    ///
    /// ```
    /// use dccp::{Config, Connection, Timer};
    /// use std::time::Instant;
    ///
    /// let (own, peer) = ("192.0.2.1:40000".parse()?, "192.0.2.2:5001".parse()?);
    /// let mut client = Connection::new(&Config::client(own, peer, 42, 1_000))?;
    /// let now = Instant::now();
    /// client.open(now)?;
    /// // In REQUEST no data are in flight, and another Request may go out at any time.
    /// assert!(!client.handle_timer(Timer::Rto, now));
    /// assert!(client.handle_timer(Timer::Request, now));
    /// // The second Request has the number after that of the first.
    /// assert_eq!(client.numbers().greatest_sent, 1_001);
    /// # Ok::<(), Box<dyn std::error::Error>>(())
    /// ```
    pub fn handle_timer(&mut self, timer: Timer, now: Instant) -> bool {
        let time = self.time(now);
        let status = queue(
            &mut self.outgoing,
            self.end.timer(timer as u32, time),
            false,
        );
        self.called(now);
        status == sys::DONE
    }

    /// When [`Connection::handle_timeout`] has something to do; None if no timer runs. Ask again after every other call.
    pub fn poll_timeout(&self) -> Option<Instant> {
        self.due
    }

    /// The next frame for the peer.
    pub fn poll_transmit(&mut self) -> Option<Transmit> {
        self.outgoing.frames.take_first()
    }

    /// Writes frames for the peer into a buffer, one after another: as many as have one length, except that the last may have fewer bytes, at
    /// most `most` of them, and no more than the buffer has room for. None if no frame waits, or there is no room for the next; a buffer of
    /// 2,044 bytes has room for any.
    ///
    /// ```
    /// use dccp::{Config, Connection};
    /// use std::time::Instant;
    ///
    /// let (own, peer) = ("192.0.2.1:40000".parse()?, "192.0.2.2:5001".parse()?);
    /// let mut client = Connection::new(&Config::client(own, peer, 42, 1_000))?;
    /// client.open(Instant::now())?;
    /// let mut buffer = [0; 2_044];
    /// let request = client.poll_transmit_into(&mut buffer, 64).ok_or("a Request")?;
    /// assert_eq!((request.length, request.is_answer), (request.segment, false));
    /// assert_eq!((buffer[8] >> 1) & 15, 0);
    /// assert_eq!(client.poll_transmit_into(&mut buffer, 64), None);
    /// # Ok::<(), Box<dyn std::error::Error>>(())
    /// ```
    pub fn poll_transmit_into(&mut self, buffer: &mut [u8], most: usize) -> Option<Segments> {
        let run = self.outgoing.frames.runs(most, buffer.len()).next()?;
        if most == 0 || buffer.len() < run.bytes.len() {
            return None;
        }
        buffer[..run.bytes.len()].copy_from_slice(run.bytes);
        let (count, segments) = (run.count, Segments::of(&run));
        self.outgoing.frames.remove(count);
        Some(segments)
    }

    /// The next event for the owner.
    pub fn poll_event(&mut self) -> Option<Event> {
        self.events.pop_front()
    }

    /// What this end holds for a feature.
    ///
    /// ```
    /// use dccp::{Config, Connection, Feature, Place};
    ///
    /// let (own, peer) = ("192.0.2.1:40000".parse()?, "192.0.2.2:5001".parse()?);
    /// let mut client = Connection::new(&Config::client(own, peer, 42, 1_000))?;
    /// // RFC 4340, section 7.5.2: a Sequence Window begins with 100.
    /// assert_eq!(client.feature(Feature::SequenceWindow, Place::Here).value, 100);
    /// # Ok::<(), Box<dyn std::error::Error>>(())
    /// ```
    pub fn feature(&mut self, feature: Feature, place: Place) -> Held {
        Held::of(&self.end.feature(feature as u32, place.is_peer()))
    }

    /// The phase of the connection.
    pub fn phase(&self) -> Phase {
        Phase::of(self.view.phase)
    }

    /// The Service Code for which a client asked, or for which it asked this server's end (RFC 4340, section 8.1.2).
    pub fn service(&self) -> u32 {
        self.view.service
    }

    /// How many data packets may be in flight: the window, or what the application that reads them leaves of it.
    pub fn window(&self) -> u32 {
        self.view.window
    }

    /// How many data packets are in flight.
    pub fn in_flight(&self) -> u32 {
        self.view.in_flight
    }

    /// What was counted and measured, and the window.
    pub fn statistics(&mut self) -> Statistics {
        Statistics {
            window: self.window(),
            in_flight: self.in_flight(),
            round_trip: self.round_trip(),
            ..self.outgoing.counts
        }
    }

    /// How many packets were taken as new: a sign of the peer's life.
    pub(crate) fn taken(&self) -> u64 {
        self.view.marked
    }

    /// How many frames wait for the peer.
    pub(crate) fn frames(&self) -> usize {
        self.outgoing.frames.len()
    }

    /// All frames that wait for the peer, in place of these, which were sent.
    pub(crate) fn exchange_frames(&mut self, frames: &mut Frames) {
        frames.clear();
        mem::swap(frames, &mut self.outgoing.frames);
    }

    /// Keeps the buffer of frames that were sent, for further ones.
    pub(crate) fn keep_buffer(&mut self, frames: &mut Frames) {
        self.outgoing.frames.keep_buffer(frames);
    }

    /// The numbers of this end's packets and of its peer's.
    pub fn numbers(&self) -> Numbers {
        Numbers {
            first_sent: self.view.iss,
            greatest_sent: self.view.gss,
            greatest_acknowledged: self.view.gar,
            first_received: self.view.isr,
            greatest_received: self.view.gsr,
        }
    }

    /// What was measured of the path.
    pub fn round_trip(&mut self) -> RoundTrip {
        RoundTrip::of(&self.end.round_trip())
    }

    /// The time as the end counts it.
    pub(crate) fn time(&mut self, now: Instant) -> u64 {
        let begun = *self.begun.get_or_insert(now);
        now.saturating_duration_since(begun).as_millis() as u64
    }

    /// The end receives a datagram, and its answer goes out. If the client begins anew, the end is over, and says nothing to it.
    fn take(&mut self, datagram: &[u8], time: u64) -> sys::Told {
        if self.last_sync.as_ref().is_some_and(LastSync::was_refused) {
            return sys::Told {
                kind: sys::TOLD_DROPPED,
                ..sys::Told::default()
            };
        }
        let (status, _, told) = self.end.receive(datagram, time);
        let (end, last_sync) = (&self.end, self.last_sync.as_mut());
        if last_sync.is_some_and(|it| it.is_refused(end, &told, datagram)) {
            let _ = self.end.abort(time);
            self.outgoing.frames.clear();
            self.over(Event::Anew);
            return told;
        }
        queue(
            &mut self.outgoing,
            (status, self.end.frame()),
            is_answer(&told),
        );
        told
    }

    /// Tells the owner what became of a datagram, by the phase before it, and answers the data.
    fn hear<'a>(&mut self, told: &sys::Told, datagram: &'a [u8], was: Phase) -> Option<&'a [u8]> {
        self.outgoing.counts.heard(told, datagram);
        let has_closed = was != Phase::Closed && self.phase() == Phase::Closed;
        match told.kind {
            sys::TOLD_DATA => return Some(&datagram[told.first..told.past]),
            sys::TOLD_WAITS => self.events.push_back(Event::Waits),
            sys::TOLD_NOT_KEPT => self.events.push_back(Event::Dropped { code: told.code }),
            sys::TOLD_WAS_RESET => self.over(Event::Ended { code: told.code }),
            sys::TOLD_SENT_RESET if has_closed => self.over(Event::Ended { code: told.code }),
            _ => {}
        }
        None
    }

    /// The last event of the connection.
    fn over(&mut self, event: Event) {
        if !self.has_ended {
            self.has_ended = true;
            self.events.push_back(event);
        }
    }

    /// Looks at what a call has done to the end, and when its next timer runs out.
    pub(crate) fn called(&mut self, now: Instant) {
        self.view = self.end.look();
        let left = self.view.in_flight;
        self.outgoing.counts.lost += self
            .outgoing
            .in_flight
            .settle(left, |number| self.end.fate(number));
        let time = self.time(now);
        let left = self.end.until_first(time);
        self.due = self
            .begun
            .zip(left)
            .map(|(begun, left)| begun + Duration::from_millis(time + left));
    }
}

/// Whether a frame is an answer that anybody can cause by a datagram.
pub(crate) fn is_answer(told: &sys::Told) -> bool {
    matches!(told.kind, sys::TOLD_SYNCED | sys::TOLD_SENT_RESET)
}

/// Keeps the frame that a call has left, if any, and returns the call's status.
fn queue(outgoing: &mut OutgoingFrames, (status, frame): (u32, &[u8]), is_answer: bool) -> u32 {
    if !frame.is_empty() {
        outgoing.counts.sent.count(frame);
        outgoing.frames.push(frame, is_answer);
    }
    status
}
