//! A storm over loopback: real clients of an echo server, which runs as its own process, and hostile datagrams of many sockets. It prints
//! figures, and ends with status 1 if one exceeds its bound: storm PORT.

use dccp::{Config, Connection, Event, Phase};
use std::env;
use std::error::Error;
use std::io::ErrorKind;
use std::net::{Ipv4Addr, SocketAddrV4, UdpSocket};
use std::process::ExitCode;
use std::time::{Duration, Instant};

const CLIENTS: usize = 10;
const SERVICE: u32 = 42;
const LENGTH: Duration = Duration::from_secs(20);
const STEP: Duration = Duration::from_millis(10);
/// How many sockets strangers have, and how many datagrams they send in a step.
const STRANGERS: usize = 200;
const HOSTILE: usize = 50;
const CONNECTS_WITHIN: Duration = Duration::from_secs(5);
/// What of the data has to come back.
const LEAST_SHARE: f64 = 0.9;

/// Numbers that are drawn: a linear congruence, of which the upper half is taken.
struct Numbers(u64);

impl Numbers {
    fn below(&mut self, bound: u64) -> u64 {
        self.0 = self.0.wrapping_mul(6_364_136_223_846_793_005).wrapping_add(1_442_695_040_888_963_407);
        (self.0 >> 32) % bound
    }
}

/// A client that speaks ten times a second. If it hears that the server is busy, it asks again a second later.
struct Client {
    socket: UdpSocket,
    own: SocketAddrV4,
    end: Connection,
    asks: Instant,
    opened: Option<Duration>,
    is_lost: bool,
    sent: usize,
    back: usize,
}

fn end_of(own: SocketAddrV4, server: SocketAddrV4, numbers: &mut Numbers) -> Result<Connection, Box<dyn Error>> {
    let first = numbers.below(1 << 32) << 8;
    Ok(Connection::new(&Config::client(own.into(), server.into(), SERVICE, first))?)
}

/// A socket of this machine at its own address.
fn socket_at(last: u8) -> Result<(UdpSocket, SocketAddrV4), Box<dyn Error>> {
    let socket = UdpSocket::bind(SocketAddrV4::new(Ipv4Addr::new(127, 0, 0, last), 0))?;
    socket.set_nonblocking(true)?;
    let port = socket.local_addr()?.port();
    Ok((socket, SocketAddrV4::new(Ipv4Addr::new(127, 0, 0, last), port)))
}

fn client_of(server: SocketAddrV4, numbers: &mut Numbers, now: Instant) -> Result<Client, Box<dyn Error>> {
    let (socket, own) = socket_at(1)?;
    Ok(Client {
        socket,
        own,
        end: end_of(own, server, numbers)?,
        asks: now,
        opened: None,
        is_lost: false,
        sent: 0,
        back: 0,
    })
}

/// The Internet checksum over the pseudo-header of IPv4 and the packet (RFC 4340, section 9.1; RFC 1071).
fn seal(packet: &mut [u8], from: Ipv4Addr, to: Ipv4Addr) {
    let length = packet.len() as u16;
    let mut bytes = [from.octets(), to.octets()].concat();
    bytes.extend([0, 33]);
    bytes.extend(length.to_be_bytes());
    bytes.extend(&*packet);
    let sum: u32 = bytes.chunks(2).map(|it| u32::from(it[0]) << 8 | u32::from(*it.get(1).unwrap_or(&0))).sum();
    let folded = (sum & 0xffff) + (sum >> 16);
    let folded = (folded & 0xffff) + (folded >> 16);
    packet[6..8].copy_from_slice(&(!(folded as u16)).to_be_bytes());
}

/// A hostile datagram: a Request, a Reset, a Sync (RFC 4340, section 5.1) or garbage.
fn hostile(from: SocketAddrV4, to: SocketAddrV4, numbers: &mut Numbers) -> Vec<u8> {
    let number = numbers.below(1 << 32) << 16;
    let acknowledging = [vec![0, 0], (numbers.below(1 << 32) << 16).to_be_bytes()[2..].to_vec()].concat();
    let (kind, rest) = match numbers.below(5) {
        0 | 1 => (0, SERVICE.to_be_bytes().to_vec()),
        2 => (7, [acknowledging, vec![4, 0, 0, 0]].concat()),
        3 => (8, acknowledging),
        _ => return (0..numbers.below(64)).map(|_| numbers.below(256) as u8).collect(),
    };
    let mut it = [from.port().to_be_bytes(), to.port().to_be_bytes()].concat();
    it.extend([((16 + rest.len()) / 4) as u8, 0, 0, 0, kind << 1 | 1, 0]);
    it.extend(&number.to_be_bytes()[2..]);
    it.extend(rest);
    seal(&mut it, *from.ip(), *to.ip());
    it
}

impl Client {
    /// Goes through what has come, what is due and what is to go out.
    fn go_on(&mut self, server: SocketAddrV4, begun: Instant, says: bool, numbers: &mut Numbers) -> Result<(), Box<dyn Error>> {
        let now = Instant::now();
        if self.opened.is_none() && self.end.phase() == Phase::Closed && self.asks <= now {
            self.end = end_of(self.own, server, numbers)?;
            self.asks = now + Duration::from_secs(1);
            self.end.open(now)?;
        }
        let mut room = [0; 2_048];
        loop {
            match self.socket.recv(&mut room) {
                Ok(length) => self.end.handle_datagram(&room[..length], now),
                Err(fault) if fault.kind() == ErrorKind::WouldBlock => break,
                Err(fault) => return Err(fault.into()),
            };
        }
        self.end.handle_timeout(now);
        while let Some(event) = self.end.poll_event() {
            self.back += usize::from(matches!(event, Event::Data(_)));
        }
        if self.end.phase() == Phase::Open {
            self.opened.get_or_insert(now - begun);
            self.sent += usize::from(says && self.end.send(b"voice", now).is_ok());
        }
        self.is_lost |= self.opened.is_some() && self.end.phase() != Phase::Open;
        while let Some(frame) = self.end.poll_transmit() {
            let _ = self.socket.send_to(&frame.bytes, server);
        }
        Ok(())
    }
}

fn main() -> Result<ExitCode, Box<dyn Error>> {
    let port = env::args().nth(1).ok_or("storm PORT")?.parse()?;
    let server = SocketAddrV4::new(Ipv4Addr::LOCALHOST, port);
    let mut numbers = Numbers(20_261_130);
    let strangers = (0..STRANGERS).map(|place| socket_at(2 + (place % 200) as u8)).collect::<Result<Vec<_>, _>>()?;
    let begun = Instant::now();
    let mut clients = (0..CLIENTS).map(|_| client_of(server, &mut numbers, begun)).collect::<Result<Vec<_>, _>>()?;
    let mut step = 0_u32;
    while begun.elapsed() < LENGTH {
        for _ in 0..HOSTILE {
            let (socket, from) = &strangers[numbers.below(STRANGERS as u64) as usize];
            let _ = socket.send_to(&hostile(*from, server, &mut numbers), server);
        }
        for (place, client) in clients.iter_mut().enumerate() {
            client.go_on(server, begun, (step as usize + place) % 10 == 0, &mut numbers)?;
        }
        step += 1;
        std::thread::sleep((STEP * step).saturating_sub(begun.elapsed()));
    }
    let slowest = clients.iter().filter_map(|it| it.opened).max().unwrap_or(LENGTH);
    let not_connected = clients.iter().filter(|it| it.opened.is_none()).count();
    let lost = clients.iter().filter(|it| it.is_lost).count();
    let (sent, back) = clients.iter().fold((0, 0), |(sent, back), it| (sent + it.sent, back + it.back));
    println!("storm: of {CLIENTS} clients {not_connected} not connected, {lost} lost, the slowest after {slowest:?}; of {sent} data {back} came back");
    let holds = not_connected == 0 && lost == 0 && slowest <= CONNECTS_WITHIN && LEAST_SHARE * sent as f64 <= back as f64;
    Ok(ExitCode::from(u8::from(!holds)))
}
