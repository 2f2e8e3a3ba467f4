//! Our end in a case: it sends packets with numbers in them, counts those that come, and ends the connection.

use crate::wire::Wire;
use dccp::{Accepted, Config, Connection, Event, Feature, PathRule, Phase, Place};
use std::collections::HashSet;
use std::io;
use std::time::{Duration, Instant};

/// The port of the server, whichever end that is.
pub const PORT: u16 = 5001;
#[derive(Clone, Copy, Debug, PartialEq, Eq)]
pub enum Role {
    Client,
    Server,
    /// Our side serves no port: a closed end answers.
    Nobody,
}

#[derive(Clone, Copy, Debug, PartialEq, Eq)]
pub enum End {
    /// Closes once all has gone both ways.
    Closes,
    /// Aborts once all has gone both ways.
    Aborts,
    /// Waits for the kernel's end.
    Waits,
    /// Falls silent without a word once all has gone both ways.
    Vanishes,
    /// Forgets its connection without a word once all has gone both ways, and goes on as a server that has none.
    Restarts,
}

/// What our end does.
#[derive(Clone, Debug)]
pub struct Plan {
    pub role: Role,
    pub service: u32,
    /// The port of our client.
    pub port: u16,
    /// The first sequence number.
    pub first: u64,
    pub send: u32,
    pub size: usize,
    /// How many packets with data the kernel's end will send.
    pub expect: u32,
    /// Sends nothing before so many packets with data came.
    pub after: u32,
    pub end: End,
    /// Once a connection of our server has ended, it waits for another one.
    pub serves_again: bool,
    /// Offers in the handshake.
    pub offers: Vec<(Feature, Place, Vec<u64>)>,
    /// What it asks for after the first packets.
    pub prefers: Vec<(Feature, Place, Vec<u64>)>,
    /// What is read at the end, after what it asks for.
    pub reads: Vec<(Feature, Place)>,
    /// Whether the owner's rules leave the Ack Ratio to this plan.
    pub keeps_ack_ratio: bool,
    pub limit: Duration,
}

impl Plan {
    /// An end's configuration with what the plan offers, and the rules that it leaves to the owner.
    fn configured(&self, config: Config) -> Config {
        let offers = self.offers.iter();
        let config = offers.fold(config, |config, (feature, place, values)| {
            config.offer(*feature, *place, values)
        });
        if self.keeps_ack_ratio {
            // A probe, too, is a wish for the Ack Ratio.
            config.without(PathRule::AckRatio).without(PathRule::Probes)
        } else {
            config
        }
    }
}

/// What our end has counted.
#[derive(Clone, Debug, Default)]
pub struct Counts {
    pub sent: u32,
    pub received: u32,
    pub repeated: u32,
    pub strange: u32,
    pub was_open: bool,
    pub ended: Option<u8>,
    /// The features that were asked for, that are read and that were offered, at the end: value, and whether it is settled.
    pub features: Vec<(u64, bool)>,
}

pub struct OwnEnd<'a> {
    plan: &'a Plan,
    wire: &'a mut Wire,
    connection: Option<Connection>,
    config: Config,
    counts: Counts,
    seen: HashSet<u32>,
    has_preferred: bool,
    /// When something last came or went.
    moved: Instant,
}

/// The bytes of a packet with this number in its first four.
fn payload(index: u32, size: usize) -> Vec<u8> {
    let numbered = (4..size).map(|at| (index as usize + at) as u8);
    index.to_be_bytes().into_iter().chain(numbered).collect()
}

impl<'a> OwnEnd<'a> {
    pub fn new(
        plan: &'a Plan,
        wire: &'a mut Wire,
    ) -> Result<OwnEnd<'a>, Box<dyn std::error::Error>> {
        let (here, there) = (wire.addresses().own(), wire.addresses().kernel());
        let config = match plan.role {
            Role::Client => Config::client(
                (here, plan.port).into(),
                (there, PORT).into(),
                plan.service,
                plan.first,
            ),
            Role::Server | Role::Nobody => Config::server(
                (here, PORT).into(),
                (there, 0).into(),
                plan.service,
                plan.first,
            ),
        };
        let config = plan.configured(config);
        let mut own = OwnEnd {
            plan,
            wire,
            connection: None,
            config,
            counts: Counts::default(),
            seen: HashSet::new(),
            has_preferred: false,
            moved: Instant::now(),
        };
        if plan.role == Role::Client {
            let mut connection = Connection::new(&own.config)?;
            connection.open(Instant::now())?;
            own.connection = Some(connection);
        }
        Ok(own)
    }

    /// Plays until the connection has ended, or the limit has gone by. `is_over` says whether the kernel's side is done.
    pub fn play(
        mut self,
        mut is_over: impl FnMut() -> bool,
    ) -> Result<Counts, Box<dyn std::error::Error>> {
        let limit = Instant::now() + self.plan.limit;
        let mut over_since = None;
        while Instant::now() < limit {
            self.flush()?;
            self.speak();
            self.flush()?;
            if self.has_ended() {
                break;
            }
            if is_over() {
                let since = *over_since.get_or_insert_with(Instant::now);
                if since.elapsed() > Duration::from_secs(3) {
                    break;
                }
            }
            let due = self.connection.as_ref().and_then(Connection::poll_timeout);
            let wait = due.map_or(Duration::from_millis(5), |it| {
                it.saturating_duration_since(Instant::now())
            });
            let mut next = self.wire.receive(wait.min(Duration::from_millis(5)))?;
            // All that has come is heard before a timer runs out.
            while let Some(packet) = next {
                self.hear(&packet)?;
                next = self.wire.receive(Duration::ZERO)?;
            }
            if let Some(connection) = &mut self.connection {
                connection.handle_timeout(Instant::now());
            }
        }
        self.flush()?;
        self.finish()
    }

    fn finish(mut self) -> Result<Counts, Box<dyn std::error::Error>> {
        let plan = self.plan;
        let place = |it: &(Feature, Place, Vec<u64>)| (it.0, it.1);
        let asked: Vec<_> = (plan.prefers.iter().map(place))
            .chain(plan.reads.iter().copied())
            .chain(plan.offers.iter().map(place))
            .collect();
        if let Some(connection) = &mut self.connection {
            self.counts.features = asked
                .iter()
                .map(|(feature, place)| connection.feature(*feature, *place))
                .map(|held| (held.value, held.is_stable))
                .collect();
        }
        Ok(self.counts)
    }

    fn flush(&mut self) -> io::Result<()> {
        let Some(connection) = &mut self.connection else {
            return Ok(());
        };
        while let Some(frame) = connection.poll_transmit() {
            self.wire.send(&frame.bytes)?;
        }
        Ok(())
    }

    fn hear(&mut self, packet: &[u8]) -> Result<(), Box<dyn std::error::Error>> {
        let now = Instant::now();
        let Some(connection) = &mut self.connection else {
            return self.greet(packet, now);
        };
        connection.handle_datagram(packet, now);
        while let Some(event) = connection.poll_event() {
            match event {
                Event::Data(data) => {
                    self.moved = now;
                    self.counts.received += 1;
                    let index = data.first_chunk().map(|it| u32::from_be_bytes(*it));
                    match index {
                        Some(index) if payload(index, data.len()) == data => {
                            self.counts.repeated += u32::from(!self.seen.insert(index));
                        }
                        _ => self.counts.strange += 1,
                    }
                }
                Event::Ended { code } => self.counts.ended = Some(code),
                _ => {}
            }
        }
        self.counts.was_open |= connection.phase() == Phase::Open;
        if self.plan.serves_again && matches!(connection.phase(), Phase::Closed | Phase::TimeWait) {
            self.flush()?;
            self.connection = None;
            self.seen.clear();
        }
        Ok(())
    }

    /// A server's first packet of a peer.
    fn greet(&mut self, packet: &[u8], now: Instant) -> Result<(), Box<dyn std::error::Error>> {
        let Some(port) = packet.first_chunk().map(|it| u16::from_be_bytes(*it)) else {
            return Ok(());
        };
        let (here, there) = (self.wire.addresses().own(), self.wire.addresses().kernel());
        if self.plan.role == Role::Nobody {
            let closed = Config::client(
                (here, PORT).into(),
                (there, port).into(),
                self.plan.service,
                self.plan.first,
            );
            let mut closed = Connection::new(&closed)?;
            closed.handle_datagram(packet, now);
            while let Some(frame) = closed.poll_transmit() {
                self.wire.send(&frame.bytes)?;
            }
            return Ok(());
        }
        let config = Config::server(
            (here, PORT).into(),
            (there, port).into(),
            self.plan.service,
            self.plan.first,
        );
        self.config = self.plan.configured(config);
        match Connection::accept(&self.config, packet, now)? {
            Accepted::Connection(connection) if connection.phase() != Phase::Closed => {
                self.connection = Some(*connection);
            }
            Accepted::Answer(answer) => self.wire.send(&answer.bytes)?,
            _ => {}
        }
        Ok(())
    }

    fn speak(&mut self) {
        let now = Instant::now();
        let all_came = self.wire.came.data >= self.plan.expect;
        let Some(connection) = &mut self.connection else {
            return;
        };
        if !self.has_preferred
            && connection.phase() == Phase::Open
            && self.counts.received.max(self.counts.sent) >= 10.min(self.plan.send)
        {
            self.has_preferred = true;
            for (feature, place, values) in &self.plan.prefers {
                // A refusal shows by the feature that is read at the end.
                let _ = connection.prefer(*feature, *place, values, now);
            }
        }
        if self.counts.received >= self.plan.after {
            while self.counts.sent < self.plan.send
                && connection
                    .send(&payload(self.counts.sent, self.plan.size), now)
                    .is_ok()
            {
                self.counts.sent += 1;
                self.moved = now;
            }
        }
        let all_went = self.counts.sent == self.plan.send && all_came;
        if all_went && self.plan.end == End::Restarts {
            self.connection = None;
            return;
        }
        let is_quiet = self.moved.elapsed()
            > Duration::from_secs(if connection.in_flight() == 0 { 1 } else { 4 });
        if !(all_went && is_quiet) || connection.phase() != Phase::Open {
            return;
        }
        match self.plan.end {
            End::Closes => drop(connection.close(now)),
            End::Aborts => drop(connection.abort(now)),
            End::Vanishes => self.connection = None,
            End::Waits | End::Restarts => {}
        }
    }

    fn has_ended(&self) -> bool {
        match &self.connection {
            Some(connection) => matches!(connection.phase(), Phase::Closed | Phase::TimeWait),
            None => self.plan.end == End::Vanishes && self.counts.was_open,
        }
    }
}
