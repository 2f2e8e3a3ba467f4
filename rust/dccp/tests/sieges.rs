//! Four small sieges of a listener of eight places, in counted time: what strangers and restarts may do to it, and when the next client
//! is served.

use dccp::{Config, Connection, Listener, Phase, Way};
use std::error::Error;
use std::net::{SocketAddr, SocketAddrV4};
use std::time::{Duration, Instant};

const PLACES: u16 = 8;
const SERVICE: u32 = 42;
const STEP: Duration = Duration::from_millis(10);

type Outcome = Result<(), Box<dyn Error>>;

fn at(last: u8) -> SocketAddr {
    SocketAddr::new([192, 0, 2, last].into(), 40_000)
}

fn here() -> SocketAddrV4 {
    SocketAddrV4::new([192, 0, 2, 200].into(), 5_001)
}

fn client(own: SocketAddr, first: u64) -> Result<Connection, Box<dyn Error>> {
    let config = Config::client(own, here().into(), SERVICE, first);
    Ok(Connection::new(&config)?)
}

/// A listener, and how many packets went either way.
struct Field {
    server: Listener,
    packets: usize,
    now: Instant,
}

impl Field {
    fn new() -> Result<Field, Box<dyn Error>> {
        Ok(Field {
            server: Listener::new(&Config::listener(here(), SERVICE), PLACES)?,
            packets: 0,
            now: Instant::now(),
        })
    }

    /// A datagram of a peer, whether the listener takes it or not.
    fn send(&mut self, peer: SocketAddr, bytes: &[u8]) {
        self.packets += 1;
        let _ = self.server.handle_datagram(peer, 7_000, bytes, self.now);
    }

    /// What the listener has for the peers; that of others is lost.
    fn answers(&mut self, peer: SocketAddr, to: &mut Connection) {
        while let Some((whose, frame)) = self.server.poll_transmit() {
            if whose == peer {
                self.packets += 1;
                to.handle_datagram(&frame.bytes, self.now);
            }
        }
    }

    /// A client asks until it is open, for so long at most. How long it took.
    fn connect(
        &mut self,
        own: SocketAddr,
        it: &mut Connection,
        most: Duration,
    ) -> Option<Duration> {
        let begun = self.now;
        it.open(self.now).ok()?;
        while self.now - begun <= most {
            for _ in 0..10 {
                while let Some(frame) = it.poll_transmit() {
                    self.send(own, &frame.bytes);
                }
                self.answers(own, it);
            }
            if it.phase() == Phase::Open && self.server.phase(own) == Some(Phase::Open) {
                return Some(self.now - begun);
            }
            self.now += STEP;
            it.handle_timeout(self.now);
            self.server.handle_timeout(self.now);
        }
        None
    }
}

/// Takes all places by Requests, of which nothing more is heard.
fn half_open(field: &mut Field) -> Outcome {
    for last in 1..=PLACES as u8 {
        let mut it = client(at(last), 1_000)?;
        it.open(field.now)?;
        let request = it.poll_transmit().ok_or("a Request")?;
        field.send(at(last), &request.bytes);
    }
    assert_eq!(field.server.peers().len(), usize::from(PLACES));
    Ok(())
}

#[test]
fn clients_that_give_up_leave_room() -> Outcome {
    let mut field = Field::new()?;
    for last in 1..=PLACES as u8 {
        let mut it = client(at(last), 1_000)?;
        field
            .connect(at(last), &mut it, Duration::from_secs(1))
            .ok_or("a connection")?;
        it.abort(field.now)?;
        let reset = it.poll_transmit().ok_or("a Reset")?;
        field.send(at(last), &reset.bytes);
        assert_eq!(field.server.phase(at(last)), Some(Phase::TimeWait));
    }
    let mut next = client(at(100), 5_000)?;
    field
        .connect(at(100), &mut next, Duration::from_secs(5))
        .ok_or("a place within 5 seconds")?;
    Ok(())
}

#[test]
fn half_open_flows_leave_room() -> Outcome {
    let mut field = Field::new()?;
    half_open(&mut field)?;
    // A client that finds the server busy asks again a second later.
    let is_served = (0..30).any(|tried| {
        client(at(100), 5_000 + tried)
            .ok()
            .and_then(|mut next| field.connect(at(100), &mut next, Duration::from_secs(1)))
            .is_some()
    });
    assert!(is_served, "no place within 30 seconds");
    Ok(())
}

#[test]
fn no_flood_of_requests_keeps_a_client_out_where_there_is_a_key() -> Outcome {
    let mut field = Field::new()?;
    field.server.rekey([7; 32], field.now);
    let mut answers = 0;
    for last in 0..1_000 {
        let own = SocketAddr::new([198, 51, 100, 7].into(), 10_000 + last);
        let mut stranger = client(own, 9_000)?;
        stranger.open(field.now)?;
        let request = stranger.poll_transmit().ok_or("a Request")?;
        field.send(own, &request.bytes);
        while field.server.poll_transmit().is_some() {
            answers += 1;
        }
    }
    // Each Request has one Response, and connections in RESPOND are one more than half of the places.
    assert_eq!((answers, field.server.flows()), (1_000, 5));
    let mut next = client(at(100), 5_000)?;
    let waited = field.connect(at(100), &mut next, Duration::from_secs(1));
    assert_eq!(waited, Some(Duration::ZERO));
    assert_eq!(field.server.way(), Way::Reopened);
    Ok(())
}

#[test]
fn strangers_are_answered_a_hundred_times_a_second() -> Outcome {
    let mut field = Field::new()?;
    half_open(&mut field)?;
    while field.server.poll_transmit().is_some() {}
    let mut answers = [0, 0];
    for (second, count) in answers.iter_mut().enumerate() {
        field.now += Duration::from_secs(second as u64 * 2);
        for last in 0..1_000 {
            let own = SocketAddr::new([198, 51, 100, 7].into(), 10_000 + last);
            let mut stranger = client(own, 9_000)?;
            stranger.open(field.now)?;
            let request = stranger.poll_transmit().ok_or("a Request")?;
            field.send(own, &request.bytes);
            while field.server.poll_transmit().is_some() {
                *count += 1;
            }
        }
    }
    assert_eq!(answers, [100, 100]);
    Ok(())
}

#[test]
fn a_client_that_begins_anew_is_served() -> Outcome {
    let mut field = Field::new()?;
    let mut old = client(at(1), 1_000)?;
    field
        .connect(at(1), &mut old, Duration::from_secs(1))
        .ok_or("a connection")?;
    drop(old);
    field.packets = 0;
    let mut new = client(at(1), 900_000_000)?;
    field
        .connect(at(1), &mut new, Duration::from_secs(20))
        .ok_or("a connection within 20 seconds")?;
    assert!(field.packets <= 200, "{} packets", field.packets);
    Ok(())
}

#[test]
fn a_forged_request_keeps_nobody_out() -> Outcome {
    let mut field = Field::new()?;
    let mut forged = client(at(1), 1_000)?;
    forged.open(field.now)?;
    let request = forged.poll_transmit().ok_or("a Request")?;
    field.send(at(1), &request.bytes);
    // The answer goes to a client that has not asked yet.
    while field.server.poll_transmit().is_some() {}
    field.packets = 0;
    let mut client = client(at(1), 900_000_000)?;
    field
        .connect(at(1), &mut client, Duration::from_secs(20))
        .ok_or("a connection within 20 seconds")?;
    assert!(field.packets <= 200, "{} packets", field.packets);
    Ok(())
}

#[test]
fn a_forged_request_ends_no_living_flow() -> Outcome {
    let mut field = Field::new()?;
    let mut living = client(at(1), 1_000)?;
    field
        .connect(at(1), &mut living, Duration::from_secs(1))
        .ok_or("a connection")?;
    for first in [5, 900_000_000, 1 << 40] {
        let mut forged = client(at(1), first)?;
        forged.open(field.now)?;
        let request = forged.poll_transmit().ok_or("a Request")?;
        field.send(at(1), &request.bytes);
        for _ in 0..10 {
            field.answers(at(1), &mut living);
            while let Some(frame) = living.poll_transmit() {
                field.send(at(1), &frame.bytes);
            }
        }
        assert_eq!(living.phase(), Phase::Open);
        assert_eq!(field.server.phase(at(1)), Some(Phase::Open));
    }
    Ok(())
}
