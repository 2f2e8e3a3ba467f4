//! A client and a server with tokio: the types of `dccp` without sockets, driven by tasks.
//!
//!     cargo run -- server ADDRESS:PORT
//!     cargo run -- client ADDRESS:PORT WORD
//!
//! The server sends back what each client sends, until it is stopped; the client prints the answer, and the code of the end.

use dccp::{Config, Connection, Endpoint, Event, MOST_FRAME_BYTES, Transmit};
use std::collections::hash_map::RandomState;
use std::error::Error;
use std::hash::{BuildHasher, Hasher};
use std::net::SocketAddr;
use std::time::{Duration, Instant};
use tokio::net::UdpSocket;
use tokio::time::sleep_until;

const SERVICE: u32 = 42;
const MOST_PEERS: usize = 1_000;
const ANSWERS_A_SECOND: u32 = 100;

type Outcome<T = ()> = Result<T, Box<dyn Error>>;

/// A number below 2^48 that nobody can guess (RFC 4340, section 7.2): the system's random key, through a hash that is keyed by it.
fn first_number() -> u64 {
    RandomState::new().build_hasher().finish() >> 16
}

/// When a task that waits for `due` wakes up; within a minute in any case.
fn waking(due: Option<Instant>) -> tokio::time::Instant {
    let latest = Instant::now() + Duration::from_secs(60);
    due.map_or(latest, |it| it.min(latest)).into()
}

/// Sends the frames of a connection.
async fn hand_over(socket: &UdpSocket, connection: &mut Connection) {
    while let Some(frame) = connection.poll_transmit() {
        // A frame that the system does not take is lost.
        let _ = socket.send(&frame.bytes).await;
    }
}

/// Sends the frames of a connection, and waits until a datagram has come or a timer has run out.
async fn step(socket: &UdpSocket, connection: &mut Connection) -> Outcome {
    let mut room = [0; MOST_FRAME_BYTES + 1];
    hand_over(socket, connection).await;
    tokio::select! {
        found = socket.recv(&mut room) => connection.handle_datagram(&room[..found?], Instant::now()),
        () = sleep_until(waking(connection.poll_timeout())) => connection.handle_timeout(Instant::now()),
    }
    Ok(())
}

async fn client(server: SocketAddr, word: &str) -> Outcome {
    let socket = UdpSocket::bind("127.0.0.1:0").await?;
    socket.connect(server).await?;
    let config = Config::client(socket.local_addr()?, server, SERVICE, first_number());
    let mut connection = Connection::new(&config)?;
    connection.open(Instant::now())?;
    let mut is_said = false;
    loop {
        step(&socket, &mut connection).await?;
        // It is refused until the server has answered.
        is_said = is_said || connection.send(word.as_bytes(), Instant::now()).is_ok();
        while let Some(event) = connection.poll_event() {
            match event {
                Event::Data(data) => {
                    println!("{}", String::from_utf8_lossy(&data));
                    connection.close(Instant::now())?;
                }
                Event::Ended { code } => {
                    println!("code {code}");
                    hand_over(&socket, &mut connection).await;
                    return Ok(());
                }
                _ => {}
            }
        }
    }
}

/// How many answers to strangers may still go out in this second.
struct Limit {
    second: Instant,
    left: u32,
}

impl Limit {
    fn may(&mut self) -> bool {
        if Duration::from_secs(1) < self.second.elapsed() {
            (self.second, self.left) = (Instant::now(), ANSWERS_A_SECOND);
        }
        self.left = self.left.saturating_sub(1);
        0 < self.left
    }
}

async fn server(own: SocketAddr) -> Outcome {
    let socket = UdpSocket::bind(own).await?;
    let mut endpoint = Endpoint::new(MOST_PEERS, move |peer| {
        Config::server(own, peer, SERVICE, first_number())
    });
    let mut limit = Limit {
        second: Instant::now(),
        left: ANSWERS_A_SECOND,
    };
    let mut room = [0; MOST_FRAME_BYTES + 1];
    loop {
        while endpoint.poll_accept().is_some() {}
        while let Some((peer, event)) = endpoint.poll_event() {
            if let Event::Data(data) = event {
                // Data without room are dropped.
                let _ = endpoint.call(peer, |it| it.send(&data, Instant::now()));
            }
        }
        while let Some((
            peer,
            Transmit {
                bytes, is_answer, ..
            },
        )) = endpoint.poll_transmit()
        {
            if !is_answer || limit.may() {
                let _ = socket.send_to(&bytes, peer).await;
            }
        }
        tokio::select! {
            found = socket.recv_from(&mut room) => {
                let (length, peer) = found?;
                // If there is no memory for a connection, the peer asks again.
                let _ = endpoint.handle_datagram(peer, &room[..length], Instant::now());
            }
            () = sleep_until(waking(endpoint.poll_timeout())) => endpoint.handle_timeout(Instant::now()),
        }
    }
}

#[tokio::main(flavor = "current_thread")]
async fn main() -> Outcome {
    let words: Vec<String> = std::env::args().skip(1).collect();
    match &words[..] {
        [side, address] if side == "server" => server(address.parse()?).await,
        [side, address, word] if side == "client" => client(address.parse()?, word).await,
        _ => Err("tokio_echo server ADDRESS:PORT, or tokio_echo client ADDRESS:PORT WORD".into()),
    }
}
