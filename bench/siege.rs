//! A siege in counted time: real clients of a server of 1,024 places, and 20,000 hostile datagrams a second of strangers, who do not see the
//! packets of others. It prints figures, and ends with status 1 if one exceeds its bound.
//!
//!     siege [CLIENTS [always]]
//!
//! Without words it has 200 clients, and cookies in a crowd.

use dccp::{Cause, Change, Config, Connection, Cookies, FlowRules, Listener, Phase};
use std::collections::BTreeMap;
use std::env;
use std::error::Error;
use std::fs;
use std::net::{Ipv4Addr, SocketAddr, SocketAddrV4};
use std::process::ExitCode;
use std::time::{Duration, Instant};

const PLACES: u16 = 1_024;
const USUAL_CLIENTS: usize = 200;
const SERVICE: u32 = 42;
const STEP: Duration = Duration::from_millis(10);
const LENGTH: Duration = Duration::from_secs(20);
/// How many hostile datagrams come in a step.
const HOSTILE: usize = 200;
/// When a client may begin, at the latest.
const BEGINS_WITHIN_STEPS: u64 = 1_000;
const CONNECTS_WITHIN: Duration = Duration::from_secs(5);
/// How many answers a second may go to peers without a connection, beside one Response for each Request: those of the rules by default.
const ANSWERS_A_SECOND: usize = 100;
/// How much memory may grow in the second half, in which no client begins, in KiB: each flow keeps what it knows of its last packets.
const GROWTH_A_CLIENT: usize = 32;

fn here() -> SocketAddrV4 {
    SocketAddrV4::new(Ipv4Addr::new(192, 0, 2, 200), 5_001)
}

/// Numbers that are drawn: a linear congruence, of which the upper half is taken.
struct Numbers(u64);

impl Numbers {
    fn next(&mut self) -> u64 {
        self.0 = self.0.wrapping_mul(6_364_136_223_846_793_005).wrapping_add(1_442_695_040_888_963_407);
        self.0 >> 32
    }

    fn below(&mut self, bound: u64) -> u64 {
        self.next() % bound
    }
}

/// A client that speaks ten times a second. If it hears that the server is busy, it asks again a second later.
struct Client {
    own: SocketAddrV4,
    end: Connection,
    begins: Instant,
    /// When it asks, or asks again.
    asks: Instant,
    is_begun: bool,
    opened: Option<Instant>,
    is_lost: bool,
}

/// The Internet checksum over the pseudo-header of IPv4 and the packet (RFC 4340, section 9.1; RFC 1071).
fn seal(packet: &mut [u8], from: SocketAddrV4) {
    packet[6..8].fill(0);
    let length = packet.len() as u16;
    let mut bytes = Vec::with_capacity(packet.len() + 12);
    bytes.extend(from.ip().octets());
    bytes.extend(here().ip().octets());
    bytes.extend([0, 33]);
    bytes.extend(length.to_be_bytes());
    bytes.extend(&*packet);
    let sum: u32 = bytes
        .chunks(2)
        .map(|it| u32::from(it[0]) << 8 | u32::from(*it.get(1).unwrap_or(&0)))
        .sum();
    let folded = (sum & 0xffff) + (sum >> 16);
    let folded = (folded & 0xffff) + (folded >> 16);
    packet[6..8].copy_from_slice(&(!(folded as u16)).to_be_bytes());
}

/// A packet with a long number (RFC 4340, section 5.1): its type, and what follows the number.
fn packet(from: SocketAddrV4, kind: u8, number: u64, rest: &[u8]) -> Vec<u8> {
    let mut it = Vec::new();
    it.extend(from.port().to_be_bytes());
    it.extend(here().port().to_be_bytes());
    it.extend([((16 + rest.len()) / 4) as u8, 0, 0, 0, kind << 1 | 1, 0]);
    it.extend(&number.to_be_bytes()[2..]);
    it.extend(rest);
    seal(&mut it, from);
    it
}

/// What follows the number if a packet acknowledges one (section 5.1).
fn acknowledging(number: u64) -> Vec<u8> {
    let mut it = vec![0, 0];
    it.extend(&number.to_be_bytes()[2..]);
    it
}

/// A hostile datagram, and in whose name it comes: of a stranger or of a client.
fn hostile(numbers: &mut Numbers, clients: &[Client]) -> (SocketAddrV4, Vec<u8>) {
    let stranger = SocketAddrV4::new(
        Ipv4Addr::from(0x0a00_0000 | numbers.below(1 << 24) as u32),
        1_024 + numbers.below(60_000) as u16,
    );
    let client = clients[numbers.below(clients.len() as u64) as usize].own;
    let (number, other) = (numbers.next() << 16 | numbers.below(1 << 16), numbers.next() << 16);
    let whose = if numbers.below(2) == 0 { stranger } else { client };
    let bytes = match numbers.below(5) {
        0 => packet(stranger, 0, number, &SERVICE.to_be_bytes()),
        // In a client's name: a Request with another first number.
        1 => packet(whose, 0, number, &SERVICE.to_be_bytes()),
        2 => packet(whose, 7, number, &[acknowledging(other), vec![4, 0, 0, 0]].concat()),
        3 => packet(whose, 8, number, &acknowledging(other)),
        _ => (0..numbers.below(64)).map(|_| numbers.next() as u8).collect(),
    };
    let from = u16::from_be_bytes([*bytes.first().unwrap_or(&0), *bytes.get(1).unwrap_or(&0)]);
    let whose = if from == stranger.port() { stranger } else { whose };
    (whose, bytes)
}

/// How the siege ended.
#[derive(Default)]
struct Figures {
    slowest: Duration,
    not_connected: usize,
    lost: usize,
    /// Those that went to peers without a connection, and were no Response.
    to_strangers: usize,
    /// Requests that came.
    requests: usize,
    /// Responses that went to peers without a connection: with Init Cookies.
    greetings: usize,
    sent: usize,
    /// What the process holds after half of the time, and at its end, in KiB.
    memory: [usize; 2],
    evicted: usize,
    most_flows: usize,
}

fn end_of(own: SocketAddrV4, numbers: &mut Numbers) -> Result<Connection, Box<dyn Error>> {
    Ok(Connection::new(&Config::client(own.into(), here().into(), SERVICE, numbers.next() << 8))?)
}

fn client_of(place: usize, numbers: &mut Numbers, now: Instant) -> Result<Client, Box<dyn Error>> {
    let own = SocketAddrV4::new(Ipv4Addr::from(0xc633_6400 + place as u32), 40_000);
    let begins = now + STEP * numbers.below(BEGINS_WITHIN_STEPS) as u32;
    let end = end_of(own, numbers)?;
    Ok(Client {
        own,
        end,
        begins,
        asks: begins,
        is_begun: false,
        opened: None,
        is_lost: false,
    })
}

/// What the process holds, in KiB.
fn resident() -> Result<usize, Box<dyn Error>> {
    let status = fs::read_to_string("/proc/self/status")?;
    let line = status.lines().find_map(|it| it.strip_prefix("VmRSS:")).ok_or("no VmRSS")?;
    Ok(line.trim().trim_end_matches(" kB").parse()?)
}

/// The type of a packet (RFC 4340, section 5.1).
fn kind_of(bytes: &[u8]) -> u8 {
    bytes.get(8).map_or(15, |it| it >> 1 & 15)
}

/// A siege of a server with so many clients, these rules and a key for Init Cookies.
fn besiege(count: usize, rules: FlowRules) -> Result<Figures, Box<dyn Error>> {
    let begun = Instant::now();
    let mut now = begun;
    let mut numbers = Numbers(20_261_130);
    let mut server = Listener::new(&Config::listener(here(), SERVICE), PLACES)?;
    server.rekey([7; 32], now);
    server.set_rules(rules);
    let mut clients = (1..=count)
        .map(|place| client_of(place, &mut numbers, now))
        .collect::<Result<Vec<_>, _>>()?;
    let places: BTreeMap<SocketAddr, usize> = clients.iter().enumerate().map(|(place, it)| (it.own.into(), place)).collect();
    let mut figures = Figures::default();
    for step in 0_u64.. {
        if LENGTH < now - begun {
            break;
        }
        for _ in 0..HOSTILE {
            let (whose, bytes) = hostile(&mut numbers, &clients);
            let first = numbers.next() << 8;
            figures.requests += usize::from(kind_of(&bytes) == 0);
            let _ = server.handle_datagram(whose.into(), first, &bytes, now);
        }
        for (place, client) in clients.iter_mut().enumerate() {
            // A client that found the server busy is closed, and asks again.
            if client.opened.is_none() && client.end.phase() == Phase::Closed && client.asks <= now {
                if client.is_begun {
                    client.end = end_of(client.own, &mut numbers)?;
                }
                client.is_begun = true;
                client.asks = now + Duration::from_secs(1);
                client.end.open(now)?;
            }
            if client.end.phase() == Phase::Open && (step + place as u64) % 10 == 0 {
                let _ = client.end.send(b"voice", now);
            }
            client.end.handle_timeout(now);
            while let Some(frame) = client.end.poll_transmit() {
                let first = numbers.next() << 8;
                figures.requests += usize::from(kind_of(&frame.bytes) == 0);
                let _ = server.handle_datagram(client.own.into(), first, &frame.bytes, now);
            }
        }
        server.handle_timeout(now);
        while let Some((whose, frame)) = server.poll_transmit() {
            figures.sent += 1;
            let is_greeting = kind_of(&frame.bytes) == 1;
            let is_strange = server.phase(whose).is_none();
            figures.greetings += usize::from(is_greeting && is_strange);
            figures.to_strangers += usize::from(frame.is_answer && !is_greeting && is_strange);
            // The answer to a forged Request reaches nobody before the client has asked.
            if let Some(client) = places.get(&whose).map(|place| &mut clients[*place]).filter(|it| it.is_begun) {
                client.end.handle_datagram(&frame.bytes, now);
            }
        }
        while server.poll_accept().is_some() {}
        while let Some((_, change)) = server.poll_change() {
            if let Change::Ended { cause: Cause::Evicted, .. } = change {
                figures.evicted += 1;
            }
        }
        for client in &mut clients {
            if client.end.phase() == Phase::Open && client.opened.is_none() {
                client.opened = Some(now);
                figures.slowest = figures.slowest.max(now - client.begins);
            }
            let has_gone = client.opened.is_some() && (client.end.phase() != Phase::Open || server.phase(client.own.into()).is_none());
            client.is_lost |= has_gone;
        }
        figures.most_flows = figures.most_flows.max(usize::from(server.flows()));
        if now - begun == LENGTH / 2 {
            figures.memory[0] = resident()?;
        }
        now += STEP;
    }
    figures.memory[1] = resident()?;
    figures.not_connected = clients.iter().filter(|it| it.opened.is_none()).count();
    figures.lost = clients.iter().filter(|it| it.is_lost).count();
    Ok(figures)
}

/// Prints the result of a siege, and whether it is within its bounds.
fn judge(count: usize, it: &Figures) -> bool {
    println!(
        "of {count} clients {} not connected, {} lost, the slowest after {:?}",
        it.not_connected, it.lost, it.slowest
    );
    println!(
        "    frames {}, of them Responses with cookies {} for {} Requests, other answers to strangers {}; flows at most {}, evicted {}; \
         memory {} and {} KiB",
        it.sent, it.greetings, it.requests, it.to_strangers, it.most_flows, it.evicted, it.memory[0], it.memory[1]
    );
    // At first there are as many tokens as come in a second.
    let most_answers = ANSWERS_A_SECOND * (LENGTH.as_secs() as usize + 1);
    it.not_connected == 0
        && it.lost == 0
        && it.slowest <= CONNECTS_WITHIN
        && it.most_flows <= usize::from(PLACES)
        && it.to_strangers <= most_answers
        && it.greetings <= it.requests
        && it.memory[1] <= it.memory[0] + GROWTH_A_CLIENT * count
}

fn main() -> Result<ExitCode, Box<dyn Error>> {
    let words: Vec<String> = env::args().skip(1).collect();
    let count = words.first().map_or(Ok(USUAL_CLIENTS), |it| it.parse())?;
    let mut rules = FlowRules::default();
    if words.get(1).is_some_and(|it| it == "always") {
        rules.cookies = Cookies::Always;
    }
    let holds = judge(count, &besiege(count, rules)?);
    Ok(ExitCode::from(u8::from(!holds)))
}
