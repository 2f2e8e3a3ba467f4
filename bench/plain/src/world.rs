//! Two ends, every frame that either sent, and what happens to them.

use crate::endpoint::{Endpoint, Flow, Outcome, Refusal, Timer};
use crate::features::{FEATURES, Features, Place, Stand};

/// One of the two ends.
#[derive(Clone, Copy, Debug, PartialEq, Eq)]
pub enum Side {
    Client,
    Server,
}

impl Side {
    pub fn name(self) -> &'static str {
        match self {
            Side::Client => "client",
            Side::Server => "server",
        }
    }

    pub fn letter(self) -> u8 {
        self.name().as_bytes()[0]
    }

    pub fn other(self) -> Side {
        match self {
            Side::Client => Side::Server,
            Side::Server => Side::Client,
        }
    }
}

/// Something that happens.
#[derive(Clone, Copy, Debug)]
pub enum Event<'a> {
    Open,
    Deliver(Side, usize),
    Send(Side, &'a [u8]),
    Prefer(Side, Place, u8, &'a [u64]),
    Timer(Side, Timer),
    Close(Side),
    Abort(Side),
}

/// What an event gave.
#[derive(Clone, Debug)]
pub enum EventResult {
    Called(Result<(), Refusal>),
    Rang(bool),
    /// What became of the frame with this index.
    Heard(Outcome),
}

/// The frames that a side sent, one after the other.
#[derive(Clone, Debug, Default)]
pub struct Frames {
    bytes: Vec<u8>,
    ends: Vec<usize>,
}

impl Frames {
    pub fn count(&self) -> usize {
        self.ends.len()
    }

    pub fn get(&self, index: usize) -> Option<&[u8]> {
        let end = *self.ends.get(index)?;
        let begin = index.checked_sub(1).map_or(0, |before| self.ends[before]);
        Some(&self.bytes[begin..end])
    }

    fn push(&mut self, frame: &[u8]) {
        self.bytes.extend_from_slice(frame);
        self.ends.push(self.bytes.len());
    }
}

/// A client and a server, and what they sent.
#[derive(Debug)]
pub struct World {
    client: Endpoint,
    server: Endpoint,
    from_client: Frames,
    from_server: Frames,
}

/// An end of the usual addresses, ports and Service Code.
pub fn usual_end(side: Side, first: u64, features: Features, has_two_vectors: bool) -> Endpoint {
    let (client, server) = ([10, 0, 0, 1], [10, 0, 0, 2]);
    let flow = match side {
        Side::Client => Flow {
            own: client,
            peer: server,
            ports: (40_000, 5_001),
            service: 42,
        },
        Side::Server => Flow {
            own: server,
            peer: client,
            ports: (5_001, 40_000),
            service: 42,
        },
    };
    Endpoint::new(side == Side::Server, flow, first, features, has_two_vectors)
}

impl World {
    pub fn new(client: Endpoint, server: Endpoint) -> World {
        World {
            client,
            server,
            from_client: Frames::default(),
            from_server: Frames::default(),
        }
    }

    pub fn end(&self, side: Side) -> &Endpoint {
        match side {
            Side::Client => &self.client,
            Side::Server => &self.server,
        }
    }

    fn end_mut(&mut self, side: Side) -> &mut Endpoint {
        match side {
            Side::Client => &mut self.client,
            Side::Server => &mut self.server,
        }
    }

    pub fn frames(&self, side: Side) -> &Frames {
        match side {
            Side::Client => &self.from_client,
            Side::Server => &self.from_server,
        }
    }

    /// Lets an event happen. Gives the side that acted, and what that gave; None if the frame is not there.
    pub fn step(&mut self, event: Event<'_>) -> Option<(Side, EventResult)> {
        let (side, given) = match event {
            Event::Open => (Side::Client, EventResult::Called(self.client.open())),
            Event::Deliver(from, index) => {
                let outcome = match from {
                    Side::Client => self.server.receive(self.from_client.get(index)?),
                    Side::Server => self.client.receive(self.from_server.get(index)?),
                };
                (from.other(), EventResult::Heard(outcome))
            }
            Event::Send(side, data) => (side, EventResult::Called(self.end_mut(side).send(data))),
            Event::Prefer(side, place, feature, values) => (
                side,
                EventResult::Called(self.end_mut(side).prefer(feature, place, values)),
            ),
            Event::Timer(side, timer) => (side, EventResult::Rang(self.end_mut(side).timer(timer))),
            Event::Close(side) => (side, EventResult::Called(self.end_mut(side).close())),
            Event::Abort(side) => (side, EventResult::Called(self.end_mut(side).abort())),
        };
        match side {
            Side::Client if !self.client.frame.is_empty() => {
                self.from_client.push(&self.client.frame)
            }
            Side::Server if !self.server.frame.is_empty() => {
                self.from_server.push(&self.server.frame)
            }
            Side::Client | Side::Server => {}
        }
        Some((side, given))
    }

    /// How many features at either side both ends call settled.
    pub fn settled(&self) -> u64 {
        let is_settled = |at: &Endpoint, peer: &Endpoint, feature| {
            let own = at.features.stand(feature, Place::Here);
            own == Stand::Stable && peer.features.stand(feature, Place::There) == Stand::Stable
        };
        let of = |feature| {
            u64::from(is_settled(&self.client, &self.server, feature))
                + u64::from(is_settled(&self.server, &self.client, feature))
        };
        (1..=FEATURES).map(of).sum()
    }
}
