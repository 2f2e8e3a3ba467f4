//! What deadlines cost a server of 1,024 flows in OPEN, beside 1,024 ends in OPEN in a list: the timers of all due at one time, and
//! the first deadline asked for after each of a million datagrams, of which each brings data. It prints figures of processor time, each the
//! least of some runs, and ends with 1 where the server's is over twice the ends'.

use dccp::{Config, Connection, Listener, Phase};
use std::error::Error;
use std::fs;
use std::hint::black_box;
use std::net::{Ipv4Addr, SocketAddr, SocketAddrV4};
use std::process::ExitCode;
use std::thread;
use std::time::{Duration, Instant};

const FLOWS: u16 = 1_024;
const SERVICE: u32 = 42;
/// The rounds of each run: in one, a datagram of each client arrives. All runs have a million of them.
const DATAGRAM_ROUNDS: usize = 98;
/// From one round to the next, as in a call of voice.
const GAP: Duration = Duration::from_millis(20);
/// Once data have come, each end owes an Ack, whose timer has run out by then.
const WAIT: Duration = Duration::from_secs(1);
const ROUNDS: usize = 16;
const RUNS: usize = 10;
const MOST_TIMES: f64 = 2.0;

/// The processor time of this program so far, which Linux counts in nanoseconds. It counts on where a thread gives its processor up.
fn processor_time() -> Result<Duration, Box<dyn Error>> {
    thread::yield_now();
    let told = fs::read_to_string("/proc/self/schedstat")?;
    let nanoseconds = told.split_whitespace().next().ok_or("no processor time is told")?;
    Ok(Duration::from_nanos(nanoseconds.parse()?))
}

fn here() -> SocketAddrV4 {
    SocketAddrV4::new(Ipv4Addr::new(192, 0, 2, 200), 5_001)
}

fn peer(place: u16) -> SocketAddrV4 {
    SocketAddrV4::new(Ipv4Addr::new(198, 51, place.to_be_bytes()[0], place.to_be_bytes()[1]), 40_000)
}

/// A server of 1,024 clients, each at its place.
trait Server {
    fn hear(&mut self, place: u16, datagram: &[u8], now: Instant);
    /// Fires all timers that have run out.
    fn tell(&mut self, now: Instant);
    /// When there is something to do for whom the last datagram came from, or for any.
    fn first_deadline(&mut self, place: u16) -> Option<Instant>;
    /// The next frame that goes out, and to which place.
    fn frame(&mut self) -> Option<(u16, Vec<u8>)>;
    fn phase(&mut self, place: u16) -> Option<Phase>;
}

impl Server for Listener {
    fn hear(&mut self, place: u16, datagram: &[u8], now: Instant) {
        self.handle_datagram(peer(place).into(), u64::from(place) << 20, datagram, now)
            .expect("each client has a place");
        while self.poll_change().is_some() {}
        while self.poll_accept().is_some() {}
    }

    fn tell(&mut self, now: Instant) {
        self.handle_timeout(now);
    }

    fn first_deadline(&mut self, _place: u16) -> Option<Instant> {
        self.poll_timeout()
    }

    fn frame(&mut self) -> Option<(u16, Vec<u8>)> {
        let (to, frame) = self.poll_transmit()?;
        let SocketAddr::V4(to) = to else { return None };
        let [_, _, high, low] = to.ip().octets();
        Some((u16::from_be_bytes([high, low]), frame.bytes))
    }

    fn phase(&mut self, place: u16) -> Option<Phase> {
        Listener::phase(self, peer(place).into())
    }
}

/// Ends without a listener, each found at its place. The last that heard a datagram may have a frame; after timers each may.
struct Ends {
    ends: Vec<Connection>,
    /// The first place that may have a frame still.
    next: usize,
}

impl Server for Ends {
    fn hear(&mut self, place: u16, datagram: &[u8], now: Instant) {
        let end = &mut self.ends[usize::from(place)];
        end.handle_datagram(datagram, now);
        while end.poll_event().is_some() {}
        self.next = usize::from(place);
    }

    fn tell(&mut self, now: Instant) {
        for end in &mut self.ends {
            end.handle_timeout(now);
        }
        self.next = 0;
    }

    fn first_deadline(&mut self, place: u16) -> Option<Instant> {
        self.ends[usize::from(place)].poll_timeout()
    }

    fn frame(&mut self) -> Option<(u16, Vec<u8>)> {
        while let Some(end) = self.ends.get_mut(self.next) {
            if let Some(frame) = end.poll_transmit() {
                return Some((self.next as u16, frame.bytes));
            }
            self.next += 1;
        }
        None
    }

    fn phase(&mut self, place: u16) -> Option<Phase> {
        Some(self.ends[usize::from(place)].phase())
    }
}

fn clients() -> Result<Vec<Connection>, Box<dyn Error>> {
    (0..FLOWS)
        .map(|place| {
            let config = Config::client(peer(place).into(), here().into(), SERVICE, u64::from(place) << 20 | 1);
            Ok(Connection::new(&config)?)
        })
        .collect()
}

fn ends() -> Result<Ends, Box<dyn Error>> {
    let ends = (0..FLOWS).map(|place| {
        let config = Config::server(here().into(), peer(place).into(), SERVICE, u64::from(place) << 20);
        Ok(Connection::new(&config)?)
    });
    Ok(Ends {
        ends: ends.collect::<Result<Vec<_>, Box<dyn Error>>>()?,
        next: usize::from(FLOWS),
    })
}

/// Carries all frames of the clients and the server to one another, until there are none.
fn carry(server: &mut impl Server, clients: &mut [Connection], now: Instant) {
    loop {
        let mut is_quiet = true;
        for place in 0..FLOWS {
            if let Some(frame) = clients[usize::from(place)].poll_transmit() {
                is_quiet = false;
                server.hear(place, &frame.bytes, now);
            }
            while let Some((to, bytes)) = server.frame() {
                clients[usize::from(to)].handle_datagram(&bytes, now);
            }
            let client = &mut clients[usize::from(place)];
            while client.poll_event().is_some() {}
        }
        if is_quiet {
            return;
        }
    }
}

/// All clients and their flows are in OPEN, and no timer is due.
fn opened(server: &mut impl Server, clients: &mut [Connection], now: &mut Instant) -> Result<(), Box<dyn Error>> {
    for client in &mut *clients {
        client.open(*now)?;
    }
    // What is owed after the handshake, as the Ack of PARTOPEN, comes by timers.
    for _ in 0..8 {
        carry(server, clients, *now);
        *now += WAIT;
        for client in &mut *clients {
            client.handle_timeout(*now);
        }
        server.tell(*now);
        while let Some((to, bytes)) = server.frame() {
            clients[usize::from(to)].handle_datagram(&bytes, *now);
        }
    }
    carry(server, clients, *now);
    for place in 0..FLOWS {
        if server.phase(place) != Some(Phase::Open) || clients[usize::from(place)].phase() != Phase::Open {
            return Err(format!("client {place} is not in OPEN").into());
        }
    }
    Ok(())
}

/// One packet of data of each client.
fn data(clients: &mut [Connection], now: Instant) -> Result<Vec<Vec<u8>>, Box<dyn Error>> {
    clients
        .iter_mut()
        .map(|client| {
            client.send(b"data", now)?;
            Ok(client.poll_transmit().ok_or("no frame")?.bytes)
        })
        .collect()
}

/// What it takes to tell 1,024 timers that are due at one time, for each.
fn telling(server: &mut impl Server, clients: &mut [Connection], now: &mut Instant) -> Result<f64, Box<dyn Error>> {
    let mut took = Duration::MAX;
    for _ in 0..ROUNDS {
        for (place, bytes) in (0..FLOWS).zip(data(clients, *now)?) {
            server.hear(place, &bytes, *now);
        }
        while let Some((to, bytes)) = server.frame() {
            clients[usize::from(to)].handle_datagram(&bytes, *now);
        }
        *now += WAIT;
        let begun = processor_time()?;
        server.tell(*now);
        took = took.min(processor_time()? - begun);
        let mut told = 0;
        while let Some((to, bytes)) = server.frame() {
            told += 1;
            clients[usize::from(to)].handle_datagram(&bytes, *now);
        }
        if told < usize::from(FLOWS) {
            return Err(format!("{told} of {FLOWS} timers were told").into());
        }
        for client in &mut *clients {
            client.handle_timeout(*now);
            while client.poll_transmit().is_some() {}
        }
    }
    Ok(took.as_secs_f64() * 1e9 / f64::from(FLOWS))
}

/// Places that lie apart, one after the other.
fn apart(turn: u16) -> u16 {
    turn.wrapping_mul(387) % FLOWS
}

/// A datagram of each client arrives, and the first deadline is asked for after each: the time of that alone.
fn round(server: &mut impl Server, clients: &mut [Connection], now: &mut Instant) -> Result<Duration, Box<dyn Error>> {
    let packets = data(clients, *now)?;
    let begun = processor_time()?;
    for place in (0..FLOWS).map(apart) {
        server.hear(place, &packets[usize::from(place)], *now);
        black_box(server.first_deadline(place));
    }
    let took = processor_time()? - begun;
    *now += GAP;
    server.tell(*now);
    for client in &mut *clients {
        client.handle_timeout(*now);
    }
    carry(server, clients, *now);
    Ok(took)
}

/// What a datagram of data takes with the first deadline asked for after it.
fn asking(server: &mut impl Server, clients: &mut [Connection], now: &mut Instant) -> Result<f64, Box<dyn Error>> {
    let mut least = Duration::MAX;
    for _ in 0..RUNS {
        let mut took = Duration::ZERO;
        for _ in 0..DATAGRAM_ROUNDS {
            took += round(server, clients, now)?;
        }
        least = least.min(took);
    }
    Ok(least.as_secs_f64() * 1e9 / (DATAGRAM_ROUNDS as f64 * f64::from(FLOWS)))
}

/// What both take at a server, each with its own clients.
fn figures(server: &mut impl Server) -> Result<[f64; 2], Box<dyn Error>> {
    let mut clients = clients()?;
    let mut now = Instant::now();
    opened(server, &mut clients, &mut now)?;
    Ok([telling(server, &mut clients, &mut now)?, asking(server, &mut clients, &mut now)?])
}

fn main() -> Result<ExitCode, Box<dyn Error>> {
    let alone = figures(&mut ends()?)?;
    let flows = figures(&mut Listener::new(&Config::listener(here(), SERVICE), FLOWS)?)?;
    let mut is_slow = false;
    for (what, (flow, end)) in ["a timer that is told", "a datagram, and the first deadline after it"]
        .iter()
        .zip(flows.iter().zip(alone))
    {
        println!(
            "{what}: {flow:.0} ns at a server of {FLOWS} flows, {end:.0} ns at ends alone, {:.2} times",
            flow / end
        );
        is_slow |= MOST_TIMES * end < *flow;
    }
    Ok(ExitCode::from(u8::from(is_slow)))
}
