//! Ten megabytes over UDP on this machine, from one thread to another: by a connection, and by plain datagrams beside it.
//!
//!     cargo bench --bench transfer
//!
//! A line each says how many packets of 1,024 bytes came of 10,240, in how many seconds, and how many megabytes a second that is.
//! What is lost stays lost. The plain datagrams are as many in flight as a connection may have, and each is answered.

use dccp::{AcceptOutcome, Config, Connection, Event, Feature, MOST_FRAME_BYTES, Phase, Place};
use std::error::Error;
use std::fs::File;
use std::io::{self, ErrorKind, Read};
use std::net::UdpSocket;
use std::thread;
use std::time::{Duration, Instant};

const PACKETS: u32 = 10_240;
const BYTES: usize = 1_024;
const MOST_IN_FLIGHT: u32 = 64;
const SERVICE: u32 = 42;
const PATIENCE: Duration = Duration::from_millis(200);
const MOST_TIME: Duration = Duration::from_secs(60);

type Answer<T> = Result<T, Box<dyn Error + Send + Sync>>;

/// A number that nobody can guess, for the first packet (RFC 4340, section 7.2).
fn first_number() -> io::Result<u64> {
    let mut bytes = [0; 8];
    File::open("/dev/urandom")?.read_exact(&mut bytes)?;
    Ok(u64::from_ne_bytes(bytes) >> 16)
}

/// The next datagram, if one comes in this time.
fn receive(socket: &UdpSocket, room: &mut [u8], wait: Duration) -> io::Result<Option<usize>> {
    socket.set_read_timeout(Some(wait.max(Duration::from_micros(1))))?;
    match socket.recv(room) {
        Ok(length) => Ok(Some(length)),
        Err(fault) if matches!(fault.kind(), ErrorKind::WouldBlock | ErrorKind::TimedOut) => {
            Ok(None)
        }
        Err(fault) => Err(fault),
    }
}

fn send_all(connection: &mut Connection, socket: &UdpSocket) {
    while let Some(frame) = connection.poll_transmit() {
        // One that the socket does not take is lost.
        let _ = socket.send(&frame.bytes);
    }
}

/// Hears one datagram or the next timer, until this time at the latest.
fn step(
    connection: &mut Connection,
    socket: &UdpSocket,
    room: &mut [u8],
    last: Instant,
) -> io::Result<()> {
    if last < Instant::now() {
        return Err(ErrorKind::TimedOut.into());
    }
    send_all(connection, socket);
    let due = connection.poll_timeout();
    let wait = due.map_or(PATIENCE, |it| it.saturating_duration_since(Instant::now()));
    if let Some(length) = receive(socket, room, wait)? {
        connection.handle_datagram(&room[..length], Instant::now());
    }
    connection.handle_timeout(Instant::now());
    send_all(connection, socket);
    Ok(())
}

/// Takes one connection, and answers how many packets of data came.
fn serve(socket: UdpSocket, last: Instant) -> Answer<u32> {
    let mut room = [0; MOST_FRAME_BYTES + 1];
    let (length, peer) = socket.recv_from(&mut room)?;
    socket.connect(peer)?;
    let config = Config::server(socket.local_addr()?, peer, SERVICE, first_number()?);
    let AcceptOutcome::Connection(mut connection) =
        Connection::accept(&config, &room[..length], Instant::now())?
    else {
        return Err("the first datagram is a Request".into());
    };
    let mut got = 0;
    loop {
        while let Some(event) = connection.poll_event() {
            match event {
                Event::Data(data) => got += u32::from(data.len() == BYTES),
                Event::Ended { .. } => return Ok(got),
                _ => {}
            }
        }
        step(&mut connection, &socket, &mut room, last)?;
    }
}

fn by_connection() -> Answer<(u32, Duration)> {
    let (there, here) = (
        UdpSocket::bind("127.0.0.1:0")?,
        UdpSocket::bind("127.0.0.1:0")?,
    );
    let (own, peer) = (here.local_addr()?, there.local_addr()?);
    here.connect(peer)?;
    let config = Config::client(own, peer, SERVICE, first_number()?);
    let mut connection =
        Connection::new(&config.offer(Feature::SequenceWindow, Place::Here, &[10_000]))?;
    let last = Instant::now() + MOST_TIME;
    let server = thread::spawn(move || serve(there, last));
    connection.open(Instant::now())?;
    let (mut room, mut sent, mut begun) = ([0; MOST_FRAME_BYTES + 1], 0, None);
    while sent < PACKETS || connection.in_flight() != 0 {
        while sent < PACKETS && connection.send(&[7; BYTES], Instant::now()).is_ok() {
            begun.get_or_insert_with(Instant::now);
            sent += 1;
        }
        step(&mut connection, &here, &mut room, last)?;
        if let Some(Event::Ended { code }) = connection.poll_event() {
            return Err(format!("the connection has ended with code {code}").into());
        }
    }
    let took = begun.map_or(Duration::ZERO, |it| it.elapsed());
    connection.close(Instant::now())?;
    while connection.phase() != Phase::TimeWait && connection.phase() != Phase::Closed {
        step(&mut connection, &here, &mut room, last)?;
    }
    let got = server.join().map_err(|_| "the server panicked")??;
    Ok((got, took))
}

/// Answers each datagram, until none comes any more.
fn echo(socket: UdpSocket) -> Answer<u32> {
    let mut room = [0; BYTES];
    let (mut got, mut wait) = (0, Duration::from_secs(5));
    while let Some(length) = receive(&socket, &mut room, wait)? {
        got += u32::from(length == BYTES);
        let _ = socket.send(&room[..1]);
        wait = PATIENCE;
    }
    Ok(got)
}

fn by_datagrams() -> Answer<(u32, Duration)> {
    let (there, here) = (
        UdpSocket::bind("127.0.0.1:0")?,
        UdpSocket::bind("127.0.0.1:0")?,
    );
    here.connect(there.local_addr()?)?;
    there.connect(here.local_addr()?)?;
    let echo = thread::spawn(|| echo(there));
    let (mut room, begun) = ([0; BYTES], Instant::now());
    let (mut sent, mut answered) = (0, 0);
    while answered < PACKETS {
        while sent < PACKETS && sent - answered < MOST_IN_FLIGHT {
            here.send(&[7; BYTES])?;
            sent += 1;
        }
        match receive(&here, &mut room, PATIENCE)? {
            Some(_) => answered += 1,
            None => break,
        }
    }
    let took = begun.elapsed();
    Ok((echo.join().map_err(|_| "the echo panicked")??, took))
}

fn main() -> Answer<()> {
    for (name, way) in [
        ("connection", by_connection as fn() -> _),
        ("datagrams", by_datagrams),
    ] {
        let (got, took): (u32, Duration) = way()?;
        let megabytes = f64::from(got) * BYTES as f64 / 1e6 / took.as_secs_f64();
        println!(
            "{name} {got} of {PACKETS} packets in {:.3} s, {megabytes:.0} MB a second",
            took.as_secs_f64()
        );
    }
    Ok(())
}
