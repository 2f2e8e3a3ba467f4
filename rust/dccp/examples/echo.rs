//! A server of many clients over UDP on this machine. It sends back what each client sends.
//!
//!     cargo run --example echo -- PORT [translated]
//!
//! The client of `talk`, in Rust or in C, may speak to it. The listener gives up a client that is silent for two minutes, and limits its answers
//! to strangers. Where a router translates addresses and ports, as `relay` does, both say `translated`: then their packets contain no address
//! and no port, and a client is known by where its datagrams come from. It runs until it is stopped.

use dccp::{ArriveError, Change, Config, Listener, MOST_FRAME_BYTES};
use std::collections::{BTreeMap, VecDeque};
use std::env;
use std::error::Error;
use std::fs::File;
use std::io::{self, ErrorKind, Read};
use std::net::{Ipv4Addr, SocketAddr, SocketAddrV4, UdpSocket};
use std::time::{Duration, Instant};

const SERVICE: u32 = 42;
const MOST_PEERS: u16 = 1_000;
/// How many packets are kept for a peer while its window is full; more are dropped.
const MOST_WAITING: usize = 64;

const HOUR: Duration = Duration::from_secs(3_600);

/// The next datagram, if one comes in this time.
fn receive(
    socket: &UdpSocket,
    room: &mut [u8],
    wait: Duration,
) -> io::Result<Option<(usize, SocketAddr)>> {
    socket.set_read_timeout(Some(wait.max(Duration::from_millis(1))))?;
    match socket.recv_from(room) {
        Ok(found) => Ok(Some(found)),
        Err(fault) if matches!(fault.kind(), ErrorKind::WouldBlock | ErrorKind::TimedOut) => {
            Ok(None)
        }
        Err(fault) => Err(fault),
    }
}

/// The data of each peer that wait for room in its window.
type WaitingData = BTreeMap<SocketAddr, VecDeque<Vec<u8>>>;

/// Takes the events of the server: who has come, who has gone, and what data came. A peer that has only asked may be forged, so it counts once
/// it has opened its connection.
fn take_news(server: &mut Listener, waiting: &mut WaitingData) {
    while server.poll_accept().is_some() {}
    while let Some((address, change)) = server.poll_change() {
        match change {
            Change::Opened { .. } => drop(waiting.insert(address, VecDeque::new())),
            Change::Ended { .. } => drop(waiting.remove(&address)),
            Change::Data { data, .. } => {
                let queue = waiting.get_mut(&address);
                if let Some(queue) = queue.filter(|it| it.len() < MOST_WAITING) {
                    queue.push_back(data);
                }
            }
            _ => {}
        }
    }
}

/// Sends back what the window of each peer has room for.
fn send_back(server: &mut Listener, waiting: &mut WaitingData, now: Instant) {
    for (address, queue) in waiting {
        while let Some(data) = queue.front() {
            match server.send(*address, data, now) {
                Ok(_) => drop(queue.pop_front()),
                Err(_) => break,
            }
        }
    }
}

/// Sends each frame to its peer. If the socket does not take it, it is lost.
fn hand_over(server: &mut Listener, socket: &UdpSocket) {
    while let Some((address, frame)) = server.poll_transmit() {
        let _ = socket.send_to(&frame.bytes, address);
    }
}

/// A key.
fn drawn() -> io::Result<[u8; 32]> {
    let mut key = [0; 32];
    File::open("/dev/urandom")?.read_exact(&mut key)?;
    Ok(key)
}

fn main() -> Result<(), Box<dyn Error>> {
    let words: Vec<String> = env::args().skip(1).collect();
    let (port, is_translated) = match words.as_slice() {
        [port] => (port.parse()?, false),
        [port, how] if how == "translated" => (port.parse()?, true),
        _ => return Err("echo PORT [translated]".into()),
    };
    let own = SocketAddrV4::new(Ipv4Addr::LOCALHOST, port);
    let socket = UdpSocket::bind(own)?;
    let mut config = Config::listener(own, SERVICE);
    if is_translated {
        let none = SocketAddrV4::new(Ipv4Addr::UNSPECIFIED, 0).into();
        config = config.agreed(none, none);
    }
    let mut server = Listener::new(&config, MOST_PEERS)?;
    // First numbers that nobody can guess are drawn from a key (RFC 4340, section 7.2).
    server.set_key(drawn()?);
    let mut rekeyed = None;
    let (mut room, mut waiting) = ([0; MOST_FRAME_BYTES + 1], WaitingData::new());
    loop {
        // Where strangers fill the table by Requests, these are answered by Init Cookies, whose key is another each hour.
        if rekeyed.is_none_or(|since: Instant| since.elapsed() >= HOUR) {
            let now = Instant::now();
            server.rekey(drawn()?, now);
            rekeyed = Some(now);
        }
        let soon = Instant::now() + Duration::from_secs(1);
        let due = server.poll_timeout().map_or(soon, |it| it.min(soon));
        let wait = due.saturating_duration_since(Instant::now());
        let found = receive(&socket, &mut room, wait)?;
        let now = Instant::now();
        if let Some((length, address)) = found {
            match server.hear(address, &room[..length], now) {
                // A peer that finds the server busy is told so.
                Ok(()) | Err(ArriveError::Busy) => {}
                Err(fault) => eprintln!("echo: {address}: {fault}"),
            }
        }
        server.handle_timeout(now);
        take_news(&mut server, &mut waiting);
        send_back(&mut server, &mut waiting, now);
        hand_over(&mut server, &socket);
    }
}
