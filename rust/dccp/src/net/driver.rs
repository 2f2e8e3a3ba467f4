//! The thread that hears for connections, and runs their timers.

use super::agenda::Agenda;
use super::line::{Limit, Line};
use super::listener::Door;
use super::options::Options;
use super::random::Random;
use super::system::CAN_LOOK;
use super::wire::{Batch, Wire};
use super::{Error, Socket};
use crate::endpoint::{REFUSED, TOO_BUSY};
use crate::frames::Frames;
use crate::packets::{PacketType, header_length};
use crate::{AcceptOutcome, Config, Connection, CookieKeys, Phase};
use std::collections::{HashMap, HashSet};
use std::io;
use std::net::{IpAddr, Ipv6Addr, SocketAddr};
use std::sync::Arc;
use std::thread;
use std::time::{Duration, Instant};

/// How many Resets answer datagrams of no connection in a second (RFC 4340, section 8.3.1; the number is own).
const STRANGERS: u32 = 100;

/// How long a Request may occupy a place if no other is left.
const SHORTEST_STAY: Duration = Duration::from_secs(1);

/// How long one key of Init Cookies is used (own).
const KEY_LIFETIME: Duration = Duration::from_secs(3_600);

/// How often it looks for more datagrams before frames go out and readers are woken.
const MOST_LOOKS: u32 = 16;

/// What the driver of a listener needs for peers without a connection.
pub(super) struct Reception {
    pub(super) door: Arc<Door>,
    pub(super) options: Options,
    pub(super) services: Vec<u32>,
    pub(super) random: Random,
    pub(super) answers: Limit,
    /// The keys of Init Cookies.
    keys: CookieKeys,
    rekeyed: Instant,
}

impl Reception {
    pub(super) fn new(options: &Options, services: &[u32]) -> io::Result<Reception> {
        let (mut random, now) = (Random::new()?, Instant::now());
        Ok(Reception {
            door: Arc::new(Door::new()),
            options: options.clone(),
            services: services.to_vec(),
            keys: CookieKeys::new(random.key()?, now),
            rekeyed: now,
            random,
            answers: Limit::new(STRANGERS, now),
        })
    }

    /// Changes the key of Init Cookies once an hour. If the system gives no new key, the old one stays.
    fn rekey(&mut self, now: Instant) {
        if self.rekeyed + KEY_LIFETIME <= now
            && let Ok(key) = self.random.key()
        {
            self.keys.change(key, now);
            self.rekeyed = now;
        }
    }
}

/// The connections over one wire.
pub(super) struct Driver {
    wire: Arc<Wire>,
    agenda: Arc<Agenda>,
    lines: HashMap<SocketAddr, Arc<Line>>,
    /// Those that are half open.
    half_open: HashSet<SocketAddr>,
    reception: Option<Reception>,
    /// Connections whose readers are to be woken once there are no more datagrams.
    to_wake: Vec<Arc<Line>>,
}

/// An IPv4 address as such, even if the system gives it as one of IPv6.
fn plain(address: SocketAddr) -> SocketAddr {
    SocketAddr::new(address.ip().to_canonical(), address.port())
}

/// What counts as one host: an address of IPv4, or the first 64 bits of one of IPv6, which one machine may have to itself (own).
fn host_of(peer: SocketAddr) -> IpAddr {
    match peer.ip().to_canonical() {
        IpAddr::V4(address) => IpAddr::V4(address),
        IpAddr::V6(address) => IpAddr::V6(Ipv6Addr::from_bits(address.to_bits() >> 64 << 64)),
    }
}

/// The Service Code that a Request asks for (RFC 4340, section 5.1): after the generic header with its long number.
fn asked_service(datagram: &[u8]) -> Option<u32> {
    let bytes = datagram.get(16..20)?.try_into().ok()?;
    (PacketType::of(datagram) == Some(PacketType::Request)).then(|| u32::from_be_bytes(bytes))
}

/// Whether a datagram is an Ack or a DataAck whose options have room for an Init Cookie, at least 34 bytes (RFC 4340, section 5.1).
fn may_return_cookie(datagram: &[u8]) -> bool {
    let kind = PacketType::of(datagram);
    matches!(kind, Some(PacketType::Ack | PacketType::DataAck))
        && header_length(datagram).is_some_and(|it| it >= 60)
}

impl Driver {
    /// A driver over a wire, with the one connection of a client, or for a listener.
    pub(super) fn new(
        wire: Arc<Wire>,
        agenda: Arc<Agenda>,
        reception: Option<Reception>,
    ) -> Driver {
        Driver {
            wire,
            agenda,
            lines: HashMap::new(),
            half_open: HashSet::new(),
            reception,
            to_wake: Vec::new(),
        }
    }

    pub(super) fn add(&mut self, line: Arc<Line>) {
        self.lines.insert(line.peer(), line);
    }

    /// Starts its thread, which ends once there is neither a connection nor a listener.
    pub(super) fn start(self, name: &str) -> io::Result<()> {
        thread::Builder::new()
            .name(name.into())
            .spawn(|| self.run())
            .map(drop)
    }

    fn run(mut self) {
        let (mut batch, mut looks) = (Batch::new(), 0);
        while !self.is_over() {
            let heard = self.receive(&mut batch);
            if let Err(fault) = heard {
                self.fail(fault);
                return;
            }
            self.hear(&batch);
            self.fire();
            // If a reader is to be woken, there is another look for datagrams first.
            looks += 1;
            let is_last = self.to_wake.is_empty() || MOST_LOOKS <= looks;
            if batch.heard.is_empty() || !CAN_LOOK || is_last {
                self.hand_over();
                self.to_wake.drain(..).for_each(|it| it.wake_readers());
                looks = 0;
            }
            if !batch.heard.is_empty() {
                // Senders and readers run first: then more is heard with one call.
                thread::yield_now();
            }
        }
    }

    /// Hears datagrams, and waits for them if no reader is to be woken.
    fn receive(&self, batch: &mut Batch) -> io::Result<()> {
        if !self.to_wake.is_empty() {
            return self.wire.receive(batch, Duration::ZERO);
        }
        let wait = self.agenda.begin_sleep(Instant::now());
        let heard = self.wire.receive(batch, wait);
        self.agenda.end_sleep();
        heard
    }

    fn is_over(&self) -> bool {
        let is_open = self.reception.as_ref().is_some_and(|it| it.door.is_open());
        self.lines.is_empty() && !is_open
    }

    fn fail(&self, fault: io::Error) {
        self.lines.values().for_each(|line| line.fail());
        if let Some(reception) = &self.reception {
            reception.door.fail(fault);
        }
    }

    fn hear(&mut self, batch: &Batch) {
        for (peer, datagrams) in batch.by_sender() {
            let known = self.lines.get(&peer).map(Arc::clone);
            let asks = datagrams.iter().next().and_then(asked_service).is_some();
            // A connection that has ended does not prevent a new Request.
            match known.filter(|it| !asks || it.end().is_none()) {
                Some(line) if !self.half_open.contains(&peer) => self.tell(&line, datagrams.iter()),
                _ => datagrams.iter().for_each(|it| self.meet(peer, it)),
            }
        }
    }

    /// Hears a datagram of a peer without a connection that has opened and not ended; of a client there is none other.
    fn meet(&mut self, peer: SocketAddr, datagram: &[u8]) {
        if may_return_cookie(datagram) && self.recall(peer, datagram) {
            return;
        }
        if let Some(line) = self.lines.get(&peer).filter(|it| it.end().is_none()) {
            let line = Arc::clone(line);
            return self.tell(&line, [datagram].into_iter());
        }
        let asked = asked_service(datagram);
        let has_share = asked.is_some() && self.has_its_share(peer);
        if asked.is_some() && !has_share && self.is_crowded() {
            return self.greet(peer, asked, datagram);
        }
        let place = if has_share {
            self.refusal()
        } else {
            self.place_for(peer, asked.is_some())
        };
        let Some(reception) = &mut self.reception else {
            return;
        };
        // If the system gives no number, or no address, the peer asks again.
        let Ok(config) = config_for(reception, &self.wire, peer, asked) else {
            return;
        };
        let met = match place {
            Room::Free => Connection::accept(&config, datagram, Instant::now()),
            Room::Refusal { code } => Ok(Connection::refuse(&config, datagram, code)
                .map_or(AcceptOutcome::Nothing, AcceptOutcome::Answer)),
            Room::Silence => return,
        };
        if let Ok(accepted) = met {
            self.take_in(peer, accepted);
        }
    }

    /// Whether half-open connections take over half of the places that others leave.
    fn is_crowded(&self) -> bool {
        let open = self.reception.as_ref().filter(|it| it.door.is_open());
        let asked = self.half_open.len();
        let others = self.lines.len() - asked;
        open.is_some_and(|it| it.options.most_connections < 2 * asked + others)
    }

    /// Whether the host of this peer has as many other connections open as one may have.
    fn has_its_share(&self, peer: SocketAddr) -> bool {
        let Some(reception) = self.reception.as_ref().filter(|it| it.door.is_open()) else {
            return false;
        };
        let (most, host) = (reception.options.most_per_host, host_of(peer));
        let others = || {
            let lines = self.lines.iter().filter(|(it, _)| **it != peer);
            lines.filter(|(it, line)| host_of(**it) == host && line.is_open())
        };
        most < usize::MAX && most <= others().count()
    }

    /// A Request is turned away, if strangers may be answered.
    fn refusal(&mut self) -> Room {
        let reception = self.reception.as_mut();
        if reception.is_some_and(|it| it.answers.may(Instant::now())) {
            Room::Refusal { code: TOO_BUSY }
        } else {
            Room::Silence
        }
    }

    /// Answers a Request with an Init Cookie, and keeps nothing (RFC 4340, section 8.1.4).
    fn greet(&mut self, peer: SocketAddr, asked: Option<u32>, datagram: &[u8]) {
        let Some(reception) = &mut self.reception else {
            return;
        };
        let Ok(config) = config_for(reception, &self.wire, peer, asked) else {
            return;
        };
        let now = Instant::now();
        reception.rekey(now);
        if let Ok(Some(frame)) = Connection::greet(&config, &reception.keys, datagram, now)
            && (!frame.is_answer || reception.answers.may(now))
        {
            self.wire.send_frame(peer, &frame.bytes);
        }
    }

    /// Opens the connection for which a datagram returns an Init Cookie, from a peer without a connection or with a half-open one.
    /// Whether it has returned one.
    fn recall(&mut self, peer: SocketAddr, datagram: &[u8]) -> bool {
        let Some(reception) = self.reception.as_mut().filter(|it| it.door.is_open()) else {
            return false;
        };
        if self.lines.contains_key(&peer) && !self.half_open.contains(&peer) {
            return false;
        }
        let Ok(config) = config_for(reception, &self.wire, peer, None) else {
            return false;
        };
        let (most, now) = (reception.options.most_connections, Instant::now());
        let recalled = Connection::recall(&config, &reception.keys, datagram, now);
        let Some(connection) = recalled.ok().flatten() else {
            return false;
        };
        self.remove(peer);
        // A peer that returns a cookie has shown its address: half-open connections make room for it at once.
        let has_place = self.lines.len() < most;
        if has_place || matches!(self.make_room(now, Duration::ZERO), Room::Free) {
            self.take_in(peer, AcceptOutcome::Connection(connection));
        }
        true
    }

    fn remove(&mut self, peer: SocketAddr) {
        self.lines.remove(&peer);
        self.half_open.remove(&peer);
    }

    /// What a stranger's datagram finds. A Request is looked at if there is a place, and of other datagrams as many as may be answered. A peer
    /// whose connection has ended has its place.
    fn place_for(&mut self, peer: SocketAddr, is_request: bool) -> Room {
        let (now, had_place) = (Instant::now(), self.lines.contains_key(&peer));
        let Some(reception) = &mut self.reception else {
            return Room::Silence;
        };
        let is_open = reception.door.is_open();
        let is_free = had_place || self.lines.len() < reception.options.most_connections;
        let has_place = is_open && is_free;
        if is_request && has_place {
            Room::Free
        } else if !reception.answers.may(now) {
            Room::Silence
        } else if !is_open {
            Room::Refusal { code: REFUSED }
        } else if !is_request {
            Room::Refusal { code: TOO_BUSY }
        } else {
            self.make_room(now, SHORTEST_STAY)
        }
    }

    /// Drops the connection that has been there the longest without being open, if that is long enough. If it is not, it is better that the peer
    /// asks again.
    fn make_room(&mut self, now: Instant, shortest_stay: Duration) -> Room {
        let idle = self
            .lines
            .iter()
            .filter_map(|(peer, line)| Some((line.idle_since()?, *peer)));
        match idle.min() {
            Some((since, peer)) if since + shortest_stay <= now => {
                self.remove(peer);
                Room::Free
            }
            Some(_) => Room::Silence,
            None => Room::Refusal { code: TOO_BUSY },
        }
    }

    /// Takes what became of a stranger's datagram.
    fn take_in(&mut self, peer: SocketAddr, accepted: AcceptOutcome) {
        match accepted {
            AcceptOutcome::Connection(mut connection) if connection.phase() == Phase::Closed => {
                let mut frames = Frames::default();
                connection.exchange_frames(&mut frames);
                self.wire.send(peer, &frames);
            }
            AcceptOutcome::Connection(connection) => {
                let Some(reception) = &self.reception else {
                    return;
                };
                let options = &reception.options;
                let line = Line::new(*connection, peer, &self.wire, &self.agenda, options);
                line.begin();
                self.half_open.insert(peer);
                self.lines.insert(peer, Arc::clone(&line));
                self.announce(&line);
            }
            AcceptOutcome::Answer(frame) => self.wire.send_frame(peer, &frame.bytes),
            AcceptOutcome::Nothing => {}
        }
    }

    fn tell<'a>(&mut self, line: &Arc<Line>, datagrams: impl Iterator<Item = &'a [u8]>) {
        if line.hear(datagrams) {
            self.wake_later(line);
        }
        self.announce(line);
    }

    fn wake_later(&mut self, line: &Arc<Line>) {
        if !self.to_wake.iter().any(|it| Arc::ptr_eq(it, line)) {
            self.to_wake.push(Arc::clone(line));
        }
    }

    /// Hands a connection that has just opened to the listener's owner.
    fn announce(&mut self, line: &Arc<Line>) {
        if self.reception.is_none() || !line.opens() {
            return;
        }
        self.half_open.remove(&line.peer());
        if self.has_its_share(line.peer()) {
            // Others of its host have opened since its Request.
            line.abort();
        } else if let Some(reception) = &self.reception {
            reception.door.enter(Socket::of(Arc::clone(line)));
        }
    }

    /// Hands over the frames that other threads left to this one.
    fn hand_over(&mut self) {
        for peer in self.agenda.take_left() {
            let Some(line) = self.lines.get(&peer).map(Arc::clone) else {
                continue;
            };
            if line.hand_over_left() {
                self.wake_later(&line);
            }
        }
    }

    fn fire(&mut self) {
        let now = Instant::now();
        while let Some(peer) = self.agenda.next_due(now) {
            let Some(line) = self.lines.get(&peer) else {
                continue;
            };
            line.fire();
            if line.is_over() {
                self.remove(peer);
            }
        }
    }
}

/// What a stranger's datagram finds at a listener.
enum Room {
    /// A place, for a Request.
    Free,
    /// No place, and none will be free soon: a Request is turned away by a Reset with this code, and others as by an end without one.
    Refusal {
        /// The Reset Code.
        code: u8,
    },
    /// Nobody looks at it.
    Silence,
}

/// The configuration of a connection to this peer, which asks for this service, or for none.
fn config_for(
    reception: &mut Reception,
    wire: &Wire,
    peer: SocketAddr,
    asked: Option<u32>,
) -> Result<Config, Error> {
    let served = asked.filter(|it| reception.services.contains(it));
    // Any end answers a Request for a service that is not served.
    let service = served.or(reception.services.first().copied()).unwrap_or(0);
    let named = plain(peer);
    let own = match plain(wire.local_addr()?) {
        own if own.ip().is_unspecified() => plain(wire.address_towards(peer)?),
        own => own,
    };
    debug_assert!(matches!(named.ip(), IpAddr::V4(_)) == matches!(own.ip(), IpAddr::V4(_)));
    let number = reception.random.first_number()?;
    Ok(reception.options.server(own, named, service, number))
}
