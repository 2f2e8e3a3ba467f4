//! A relay that loses and delays datagrams, and gives each client another port, as routers do.
//!
//!     cargo run --example relay -- PORT SERVER_PORT DELAY_MS LOSS_PERCENT
//!
//! Losses are drawn from a generator with a fixed seed, so two runs lose alike. It runs until it is stopped.

use std::cmp::Reverse;
use std::collections::{BinaryHeap, HashMap};
use std::error::Error;
use std::net::{Ipv4Addr, SocketAddr, UdpSocket};
use std::thread;
use std::time::{Duration, Instant};

/// How many datagrams of one socket are taken before those of others.
const MOST_AT_ONCE: usize = 64;

/// How long the relay sleeps if nothing has come.
const PAUSE: Duration = Duration::from_micros(200);

/// A datagram under way: when it goes out, its number, the client's socket, whether it goes to the server, and its bytes.
type Way = Reverse<(Instant, u64, SocketAddr, bool, Vec<u8>)>;

struct Relay {
    front: UdpSocket,
    server: SocketAddr,
    clients: HashMap<SocketAddr, UdpSocket>,
    under_way: BinaryHeap<Way>,
    delay: Duration,
    loss: u64,
    drawn: u64,
    count: u64,
}

impl Relay {
    /// Takes a datagram, unless it is lost.
    fn take(&mut self, client: SocketAddr, to_server: bool, bytes: &[u8]) {
        // Knuth's generator MMIX, of which the upper bits count.
        self.drawn = self
            .drawn
            .wrapping_mul(6_364_136_223_846_793_005)
            .wrapping_add(1_442_695_040_888_963_407);
        self.count += 1;
        if self.loss <= (self.drawn >> 33) % 100 {
            let way = (
                Instant::now() + self.delay,
                self.count,
                client,
                to_server,
                bytes.to_vec(),
            );
            self.under_way.push(Reverse(way));
        }
    }

    /// Takes datagrams, up to the limit for a turn, and returns whether there were any.
    fn hear(&mut self) -> Result<bool, Box<dyn Error>> {
        let mut room = [0; 2_048];
        let before = self.count;
        for _ in 0..MOST_AT_ONCE {
            let Ok((length, client)) = self.front.recv_from(&mut room) else {
                break;
            };
            if !self.clients.contains_key(&client) {
                let own = UdpSocket::bind((Ipv4Addr::LOCALHOST, 0))?;
                own.connect(self.server)?;
                own.set_nonblocking(true)?;
                self.clients.insert(client, own);
            }
            self.take(client, true, &room[..length]);
        }
        let clients: Vec<SocketAddr> = self.clients.keys().copied().collect();
        for client in clients {
            for _ in 0..MOST_AT_ONCE {
                let Ok(length) = self.clients[&client].recv(&mut room) else {
                    break;
                };
                self.take(client, false, &room[..length]);
            }
        }
        Ok(self.count != before)
    }

    /// Sends what has been under way for long enough. A datagram that the system does not take is lost.
    fn hand_over(&mut self) {
        let now = Instant::now();
        while self.under_way.peek().is_some_and(|it| it.0.0 <= now) {
            let Some(Reverse((_, _, client, to_server, bytes))) = self.under_way.pop() else {
                break;
            };
            let _ = match to_server {
                true => self.clients[&client].send(&bytes),
                false => self.front.send_to(&bytes, client),
            };
        }
    }
}

fn main() -> Result<(), Box<dyn Error>> {
    let words: Vec<u64> = std::env::args()
        .skip(1)
        .map(|it| it.parse())
        .collect::<Result<_, _>>()?;
    let [port, server_port, delay, loss] = words[..] else {
        return Err("relay PORT SERVER_PORT DELAY_MS LOSS_PERCENT".into());
    };
    let front = UdpSocket::bind((Ipv4Addr::LOCALHOST, u16::try_from(port)?))?;
    front.set_nonblocking(true)?;
    let mut relay = Relay {
        front,
        server: (Ipv4Addr::LOCALHOST, u16::try_from(server_port)?).into(),
        clients: HashMap::new(),
        under_way: BinaryHeap::new(),
        delay: Duration::from_millis(delay),
        loss,
        drawn: 1,
        count: 0,
    };
    loop {
        let has_heard = relay.hear()?;
        relay.hand_over();
        if !has_heard {
            thread::sleep(PAUSE);
        }
    }
}
