//! Two ends over sockets of the loopback, through a relay that delays and loses, beside the same path in counted time.

use crate::end::End;
use crate::ends::{self, Manner, StrangerResult, Wishes};
use crate::link::{Capacity, Link, Loss, MILLISECOND, Micros, SECOND, Way};
use crate::random::Random;
use crate::run::{Load, Scenario, Sender, run};
use dccp::Event;
use std::collections::VecDeque;
use std::io;
use std::net::{Ipv4Addr, SocketAddr, UdpSocket};
use std::sync::atomic::{AtomicBool, AtomicU64, Ordering};
use std::thread;
use std::time::{Duration, Instant};

/// A row: how probably a datagram is lost on either way.
struct Path {
    title: &'static str,
    loss: Loss,
}

const PATHS: [Path; 2] = [
    Path {
        title: "25 ms each way",
        loss: Loss::Never,
    },
    Path {
        title: "25 ms each way, loss 1%",
        loss: Loss::Each(0.01),
    },
];

impl Path {
    /// A way of 25 milliseconds, of a rate that a busy machine can carry too.
    fn way(&self) -> Way {
        Way {
            capacity: Capacity::Frames(4_000),
            delay: 25 * MILLISECOND,
            queue: 200,
            loss: self.loss,
            jitter: 0,
            outage: 0..0,
        }
    }
}

/// How far a figure may be from that in counted time.
const TOLERANCE: f64 = 0.2;

/// How long a thread sleeps that has nothing to do.
const NAP: Duration = Duration::from_micros(100);

/// The bytes of a packet of data: few, so that what the system holds for a socket has room for many.
const DATA: usize = 64;

/// Measures each row for so many seconds. Returns whether all are near those in counted time.
pub fn measure(seconds: u64) -> io::Result<bool> {
    let mut are_near = true;
    for path in &PATHS {
        let (real, counted) = (real(path, seconds)?, counted(path, seconds));
        let ratio = real / counted;
        println!(
            "{:<26} {real:>8.0} packets a second, {counted:>8.0} in counted time, ratio {ratio:.2}",
            path.title
        );
        are_near &= (ratio - 1.0).abs() <= TOLERANCE;
    }
    Ok(are_near)
}

/// Packets a second in counted time.
fn counted(path: &Path, seconds: u64) -> f64 {
    let way = path.way();
    let scenario = Scenario {
        there: way.clone(),
        back: way,
        sender: Sender::Client,
        load: Load::Always(DATA),
        ccid: None,
        measured: 0..seconds * SECOND,
        forged: 0,
        is_short: false,
    };
    let manners = (Manner::Usual, Manner::Usual);
    let delivered = (1..=10).map(|seed| run(&scenario, manners, seed).delivered);
    delivered.sum::<u64>() as f64 / 10.0 / seconds as f64
}

/// Packets a second over sockets.
fn real(path: &Path, seconds: u64) -> io::Result<f64> {
    let [client, front, back, server] = [socket()?, socket()?, socket()?, socket()?];
    client.connect(front.local_addr()?)?;
    server.connect(back.local_addr()?)?;
    let (to_client, to_server) = (client.local_addr()?, server.local_addr()?);
    let (is_over, delivered) = (AtomicBool::new(false), AtomicU64::new(0));
    let end = Instant::now() + Duration::from_secs(seconds);
    thread::scope(|scope| {
        let way = |from, out, to, seed| {
            let mut relay = Relay {
                link: Link::new(path.way(), Random::new(seed)),
                begun: Instant::now(),
                from,
                out,
                to,
                under_way: VecDeque::new(),
            };
            let is_over = &is_over;
            scope.spawn(move || relay.carry(is_over));
        };
        way(&front, &back, to_server, 1);
        way(&back, &front, to_client, 2);
        scope.spawn(|| receive(&server, &is_over, &delivered));
        send(&client, end);
        is_over.store(true, Ordering::Relaxed);
    });
    Ok(delivered.load(Ordering::Relaxed) as f64 / seconds as f64)
}

fn socket() -> io::Result<UdpSocket> {
    let socket = UdpSocket::bind((Ipv4Addr::LOCALHOST, 0))?;
    socket.set_nonblocking(true)?;
    Ok(socket)
}

/// One way of the relay.
struct Relay<'a> {
    link: Link,
    begun: Instant,
    from: &'a UdpSocket,
    out: &'a UdpSocket,
    to: SocketAddr,
    under_way: VecDeque<(Instant, Vec<u8>)>,
}

impl Relay<'_> {
    /// Carries datagrams until all is over.
    fn carry(&mut self, is_over: &AtomicBool) {
        let mut room = [0; 2_048];
        while !is_over.load(Ordering::Relaxed) {
            let has_taken = self.take(&mut room);
            let has_given = self.give();
            if !has_taken && !has_given {
                thread::sleep(NAP);
            }
        }
    }

    /// Takes a datagram, if one has come. Returns whether one has.
    fn take(&mut self, room: &mut [u8]) -> bool {
        let Ok((length, _)) = self.from.recv_from(room) else {
            return false;
        };
        let now = self.begun.elapsed().as_micros() as Micros;
        if let Some(arrives) = self.link.carry(length, now) {
            let due = self.begun + Duration::from_micros(arrives);
            self.under_way.push_back((due, room[..length].to_vec()));
        }
        true
    }

    /// Gives the first datagram out, if it has been under way for long enough. What the system does not take is lost.
    fn give(&mut self) -> bool {
        let now = Instant::now();
        let Some((_, bytes)) = self.under_way.pop_front_if(|(due, _)| *due <= now) else {
            return false;
        };
        let _ = self.out.send_to(&bytes, self.to);
        true
    }
}

/// Hands over what an end has to send. What the system does not take is lost.
fn hand_over(end: &mut dyn End, socket: &UdpSocket) {
    while let Some(frame) = end.frame() {
        let _ = socket.send(&frame);
    }
}

/// Takes a datagram, if one has come, or the time that is due. Returns whether there was something to do.
fn hear(end: &mut dyn End, socket: &UdpSocket, room: &mut [u8]) -> bool {
    let now = Instant::now();
    if let Ok(length) = socket.recv(room) {
        end.receive(&room[..length], now);
        return true;
    }
    let is_due = end.due().is_some_and(|due| due <= now);
    if is_due {
        end.tick(now);
    }
    is_due
}

/// The client sends all that it may, up to this time.
fn send(socket: &UdpSocket, until: Instant) {
    let mut room = [0; 2_048];
    let (first, now) = (Random::new(3).draw() >> 16, Instant::now());
    let mut client = ends::client(Manner::Usual, Wishes::default(), first, now);
    client.open(now);
    while Instant::now() < until {
        let has_heard = hear(&mut *client, socket, &mut room);
        while client.send(&[0; DATA], Instant::now()) {
            hand_over(&mut *client, socket);
        }
        hand_over(&mut *client, socket);
        if !has_heard {
            thread::sleep(NAP);
        }
    }
}

/// The server counts what comes, until all is over.
fn receive(socket: &UdpSocket, is_over: &AtomicBool, delivered: &AtomicU64) {
    let mut room = [0; 2_048];
    let mut server = None;
    let first = Random::new(4).draw() >> 16;
    while !is_over.load(Ordering::Relaxed) {
        let Some(end) = &mut server else {
            let made = socket.recv(&mut room).map(|length| {
                let now = Instant::now();
                ends::server(
                    Manner::Usual,
                    Wishes::default(),
                    first,
                    &room[..length],
                    now,
                )
            });
            match made {
                Ok(StrangerResult::End(end)) => server = Some(end),
                Ok(StrangerResult::Answer(_) | StrangerResult::Nothing) | Err(_) => {
                    thread::sleep(NAP)
                }
            }
            continue;
        };
        let end: &mut dyn End = &mut **end;
        let has_heard = hear(end, socket, &mut room);
        hand_over(end, socket);
        while let Some(event) = end.event() {
            let is_data = matches!(event, Event::Data(_));
            delivered.fetch_add(u64::from(is_data), Ordering::Relaxed);
        }
        if !has_heard {
            thread::sleep(NAP);
        }
    }
}
