//! 10 MB to an application that reads half as fast as they are sent: a receive buffer of 64 packets, and 20 milliseconds each way. A sender that
//! slows down when its peer reports dropped packets is run beside one that does not, in counted time and over loopback, where datagrams are held
//! back for as long. It prints what was dropped, in flight and read, and ends with status 1 if the first sender loses more packets than were in
//! flight when the buffer filled, each time that it fills, or if the application reads less than nine tenths of what it could.

use dccp::{AcceptOutcome, Config, Connection, Event, PathRule, Phase};
use std::collections::VecDeque;
use std::error::Error;
use std::net::{SocketAddr, UdpSocket};
use std::process::ExitCode;
use std::thread;
use std::time::{Duration, Instant};

const PACKETS: u64 = 10_000;
const BYTES: usize = 1_000;
/// In each millisecond.
const SENT: u32 = 2;
const READ: u32 = 1;
/// How many packets the receive buffer holds.
const ROOM: usize = 64;
const DELAY: Duration = Duration::from_millis(20);
const STEP: Duration = Duration::from_millis(1);
const SERVICE: u32 = 42;
const LEAST_SHARE: f64 = 0.9;

type Result<T> = std::result::Result<T, Box<dyn Error>>;

/// What goes one way, and when each datagram arrives; over loopback it passes a socket of the system first.
struct Way {
    coming: VecDeque<(Instant, Vec<u8>)>,
    sockets: Option<(UdpSocket, UdpSocket)>,
}

impl Way {
    fn counted() -> Way {
        Way { coming: VecDeque::new(), sockets: None }
    }

    fn loopback() -> Result<Way> {
        let (from, to) = (UdpSocket::bind("127.0.0.1:0")?, UdpSocket::bind("127.0.0.1:0")?);
        from.connect(to.local_addr()?)?;
        to.set_nonblocking(true)?;
        Ok(Way { coming: VecDeque::new(), sockets: Some((from, to)) })
    }

    fn put(&mut self, frame: Vec<u8>, now: Instant) -> Result<()> {
        match &self.sockets {
            Some((from, _)) => {
                from.send(&frame)?;
            }
            None => self.coming.push_back((now + DELAY, frame)),
        }
        Ok(())
    }

    fn take(&mut self, now: Instant) -> Option<Vec<u8>> {
        let mut bytes = [0; 2_044];
        if let Some((_, to)) = &self.sockets {
            while let Ok(length) = to.recv(&mut bytes) {
                self.coming.push_back((now + DELAY, bytes[..length].to_vec()));
            }
        }
        let is_here = self.coming.front().is_some_and(|(due, _)| *due <= now);
        if is_here { self.coming.pop_front().map(|(_, frame)| frame) } else { None }
    }
}

/// A time at which the buffer was full: until none was dropped for a round trip.
struct Fill {
    /// In flight when it began.
    in_flight: u32,
    dropped: u64,
    last: Instant,
}

/// What a run has reached.
struct Figures {
    fills: Vec<Fill>,
    lost: u64,
    /// The most in flight in the last quarter of the packets.
    at_last: u32,
    /// What was read, as a share of what the application could read in that time.
    share: f64,
}

struct Run {
    sender: Connection,
    reader: Option<Connection>,
    to_reader: Way,
    to_sender: Way,
    config: Config,
    sent: u64,
    read: u64,
    fills: Vec<Fill>,
    at_last: u32,
}

impl Run {
    fn exchange(&mut self, now: Instant) -> Result<()> {
        // As the reader hears its datagrams: what the sender hears comes after that.
        let in_flight = self.sender.statistics().in_flight;
        while let Some(datagram) = self.to_reader.take(now) {
            self.hear(&datagram, now)?;
        }
        while let Some(datagram) = self.to_sender.take(now) {
            self.sender.handle_datagram(&datagram, now);
        }
        self.sender.handle_timeout(now);
        while self.sender.poll_event().is_some() {}
        while let Some(frame) = self.sender.poll_transmit() {
            self.to_reader.put(frame.bytes, now)?;
        }
        let Some(reader) = &mut self.reader else { return Ok(()) };
        reader.handle_timeout(now);
        while let Some(event) = reader.poll_event() {
            if let Event::Dropped { .. } = event {
                note_drop(&mut self.fills, in_flight, now);
            }
        }
        while let Some(frame) = reader.poll_transmit() {
            self.to_sender.put(frame.bytes, now)?;
        }
        Ok(())
    }

    fn hear(&mut self, datagram: &[u8], now: Instant) -> Result<()> {
        match &mut self.reader {
            Some(reader) => reader.handle_datagram(datagram, now),
            None => {
                if let AcceptOutcome::Connection(reader) = Connection::accept(&self.config, datagram, now)? {
                    self.reader = Some(*reader);
                }
            }
        }
        Ok(())
    }

    /// A millisecond's packets, as many as there is room for.
    fn send(&mut self, now: Instant) {
        for _ in 0..SENT {
            if self.sent < PACKETS && self.sender.send(&[7; BYTES], now).is_ok() {
                self.sent += 1;
            }
        }
        if 3 * PACKETS < 4 * self.sent {
            self.at_last = self.at_last.max(self.sender.statistics().in_flight);
        }
    }

    fn take(&mut self) {
        let Some(reader) = &mut self.reader else { return };
        for _ in 0..READ {
            if reader.read().is_some() {
                self.read += 1;
            }
        }
    }
}

fn note_drop(fills: &mut Vec<Fill>, in_flight: u32, now: Instant) {
    match fills.last_mut() {
        Some(fill) if now <= fill.last + 2 * DELAY => {
            fill.dropped += 1;
            fill.last = now;
        }
        _ => fills.push(Fill { in_flight, dropped: 1, last: now }),
    }
}

fn dropped(fills: &[Fill]) -> u64 {
    fills.iter().map(|it| it.dropped).sum()
}

/// In counted time the clock steps on by itself; otherwise a step lasts as long as it says.
fn run(heeds: bool, is_counted: bool) -> Result<Figures> {
    let (own, peer): (SocketAddr, SocketAddr) = ("192.0.2.1:40000".parse()?, "192.0.2.2:5001".parse()?);
    let mut client = Config::client(own, peer, SERVICE, 1_000);
    if !heeds {
        client = client.without(PathRule::Heed);
    }
    let way = || if is_counted { Ok(Way::counted()) } else { Way::loopback() };
    let mut now = Instant::now();
    let mut run = Run {
        sender: Connection::new(&client)?,
        reader: None,
        to_reader: way()?,
        to_sender: way()?,
        config: Config::server(peer, own, SERVICE, 2_000).holding(ROOM),
        sent: 0,
        read: 0,
        fills: Vec::new(),
        at_last: 0,
    };
    run.sender.open(now)?;
    let (mut began, mut due) = (None, now);
    while run.read + dropped(&run.fills) + run.sender.statistics().lost < PACKETS {
        run.exchange(now)?;
        if run.sender.phase() == Phase::Open {
            began.get_or_insert(now);
            run.send(now);
            run.take();
        }
        due += STEP;
        now = if is_counted { due } else { reached(due) };
    }
    let lasted = now - began.ok_or("the connection never opened")?;
    Ok(Figures {
        lost: run.sender.statistics().lost,
        at_last: run.at_last,
        fills: run.fills,
        share: run.read as f64 / (lasted.as_secs_f64() * 1_000.0 * f64::from(READ)),
    })
}

/// Sleeps until a time, unless it is over: so steps that took too long are made up for.
fn reached(due: Instant) -> Instant {
    thread::sleep(due.saturating_duration_since(Instant::now()));
    Instant::now()
}

fn tell(name: &str, it: &Figures) {
    println!(
        "{name}: {} of {PACKETS} packets dropped, {} lost; the buffer filled {} times, first with {} in flight, of which {} were dropped; \
         {} in flight at most in the last quarter; {:.2} of the reader's time used",
        dropped(&it.fills),
        it.lost,
        it.fills.len(),
        it.fills.first().map_or(0, |fill| fill.in_flight),
        it.fills.first().map_or(0, |fill| fill.dropped),
        it.at_last,
        it.share
    );
}

fn is_amiss(it: &Figures) -> bool {
    it.fills.iter().any(|fill| u64::from(fill.in_flight) < fill.dropped) || it.share < LEAST_SHARE
}

fn all() -> Result<bool> {
    let mut amiss = false;
    for (clock, is_counted) in [("counted time", true), ("loopback", false)] {
        let heeding = run(true, is_counted)?;
        tell(&format!("{clock}, heeding"), &heeding);
        tell(&format!("{clock}, not heeding"), &run(false, is_counted)?);
        amiss |= is_amiss(&heeding);
    }
    Ok(amiss)
}

fn main() -> ExitCode {
    match all() {
        Ok(false) => ExitCode::SUCCESS,
        Ok(true) => {
            eprintln!("slow_reader: a sender that heeds loses too much, or leaves its reader waiting");
            ExitCode::FAILURE
        }
        Err(fault) => {
            eprintln!("slow_reader: {fault}");
            ExitCode::from(2)
        }
    }
}
