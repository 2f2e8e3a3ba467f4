//! A client and a server over UDP on this machine: `examples_c/talk.c` in Rust, and either talks to that one too.
//!
//!     cargo run --example talk -- server PORT [closes]
//!     cargo run --example talk -- client PORT [closes] [translated]
//!
//! Neither wishes for anything at first. Each sends 200 packets, the client first, and loses one frame in twenty on purpose; the one that
//! closes asks for a Sequence Window of 20,000 while data flow. Last comes a line: how many packets came, the Sequence Windows of this
//! end and of its peer, and the code with which the connection ended. A client that says `translated` speaks to such an `echo`.

use dccp::{
    AcceptOutcome, Config, Connection, Event, Feature, MOST_FRAME_BYTES, Phase, Place, Transmit,
};
use std::env;
use std::error::Error;
use std::fs::File;
use std::io::{self, ErrorKind, Read};
use std::net::{SocketAddr, UdpSocket};
use std::time::{Duration, Instant};

const PACKETS: u32 = 200;
const SERVICE: u32 = 42;
const WIDER: u64 = 20_000;
const LOST_OF: u32 = 20;
const ANSWERS_A_SECOND: u32 = 20;
const QUIET: Duration = Duration::from_secs(1);
/// An end that has ended is kept for a while, for late packets; TIMEWAIT would keep it for four minutes.
const LINGER: Duration = Duration::from_millis(1_500);

/// A number that nobody can guess, for the first packet (RFC 4340, section 7.2).
fn first_number() -> io::Result<u64> {
    let mut bytes = [0; 8];
    File::open("/dev/urandom")?.read_exact(&mut bytes)?;
    Ok(u64::from_ne_bytes(bytes) >> 16)
}

/// A socket that loses some frames, and limits answers to strangers.
struct Wire {
    socket: UdpSocket,
    handed: u32,
    answers: u32,
    second: Instant,
}

impl Wire {
    fn new(socket: UdpSocket) -> Wire {
        Wire {
            socket,
            handed: 0,
            answers: 0,
            second: Instant::now(),
        }
    }

    fn may_answer(&mut self) -> bool {
        if QUIET < self.second.elapsed() {
            (self.second, self.answers) = (Instant::now(), 0);
        }
        self.answers += 1;
        self.answers <= ANSWERS_A_SECOND
    }

    fn send(&mut self, frame: &Transmit) -> io::Result<()> {
        self.handed += 1;
        let is_lost =
            self.handed.is_multiple_of(LOST_OF) || (frame.is_answer && !self.may_answer());
        if is_lost {
            return Ok(());
        }
        match self.socket.send(&frame.bytes) {
            // A frame that the socket does not take is lost too.
            Err(fault)
                if !matches!(
                    fault.kind(),
                    ErrorKind::ConnectionRefused | ErrorKind::WouldBlock
                ) =>
            {
                Err(fault)
            }
            _ => Ok(()),
        }
    }

    /// The next datagram that comes within this time.
    fn receive(&self, room: &mut [u8], wait: Duration) -> io::Result<Option<usize>> {
        self.socket
            .set_read_timeout(Some(wait.max(Duration::from_millis(1))))?;
        match self.socket.recv(room) {
            Ok(length) => Ok(Some(length)),
            Err(fault)
                if matches!(
                    fault.kind(),
                    ErrorKind::ConnectionRefused | ErrorKind::WouldBlock | ErrorKind::TimedOut
                ) =>
            {
                Ok(None)
            }
            Err(fault) => Err(fault),
        }
    }
}

/// Waits for a client whose first datagram is a Request.
fn serve(port: u16) -> Result<(Connection, Wire), Box<dyn Error>> {
    let own = SocketAddr::from(([127, 0, 0, 1], port));
    let mut wire = Wire::new(UdpSocket::bind(own)?);
    let mut room = [0; MOST_FRAME_BYTES + 1];
    loop {
        let (length, peer) = wire.socket.recv_from(&mut room)?;
        let config = Config::server(own, peer, SERVICE, first_number()?);
        match Connection::accept(&config, &room[..length], Instant::now())? {
            AcceptOutcome::Connection(connection) => {
                wire.socket.connect(peer)?;
                return Ok((*connection, wire));
            }
            AcceptOutcome::Answer(answer) if wire.may_answer() => {
                // A frame that the socket does not take is lost.
                let _ = wire.socket.send_to(&answer.bytes, peer);
            }
            _ => {}
        }
    }
}

fn ask(port: u16, is_translated: bool) -> Result<(Connection, Wire), Box<dyn Error>> {
    let peer = SocketAddr::from(([127, 0, 0, 1], port));
    let socket = UdpSocket::bind(("127.0.0.1", 0))?;
    socket.connect(peer)?;
    let none = SocketAddr::from(([0, 0, 0, 0], 0));
    let (own, peer) = if is_translated {
        (none, none)
    } else {
        (socket.local_addr()?, peer)
    };
    let config = Config::client(own, peer, SERVICE, first_number()?);
    let mut connection = Connection::new(&config)?;
    connection.open(Instant::now())?;
    Ok((connection, Wire::new(socket)))
}

/// What has come and gone over a connection.
#[derive(Default)]
struct Talk {
    /// The server's: it speaks once it has heard something.
    waits: bool,
    sent: u32,
    got: u32,
    heard: Option<Instant>,
    ended: Option<(u8, Instant)>,
}

impl Talk {
    /// Takes the events of the connection, and sends its frames.
    fn take(&mut self, connection: &mut Connection, wire: &mut Wire) -> io::Result<()> {
        while let Some(event) = connection.poll_event() {
            match event {
                Event::Data(_) => (self.got, self.heard) = (self.got + 1, Some(Instant::now())),
                Event::Ended { code } => self.ended = Some((code, Instant::now())),
                _ => {}
            }
        }
        while let Some(frame) = connection.poll_transmit() {
            wire.send(&frame)?;
        }
        Ok(())
    }

    /// Sends data as long as the window has room. The end that closes asks for a wider Sequence Window on the way.
    fn say(&mut self, connection: &mut Connection, closes: bool) -> Result<(), Box<dyn Error>> {
        while self.sent < PACKETS
            && !(self.waits && self.got == 0)
            && connection
                .send(&[self.sent as u8; 64], Instant::now())
                .is_ok()
        {
            self.sent += 1;
            if closes && self.sent == PACKETS / 2 {
                connection.prefer(
                    Feature::SequenceWindow,
                    Place::Here,
                    &[WIDER],
                    Instant::now(),
                )?;
            }
        }
        Ok(())
    }

    /// Whether to close: everything was sent, the wider window is settled, and nothing has arrived for a second.
    fn is_done(&self, connection: &mut Connection) -> bool {
        let is_quiet = self.heard.is_none_or(|it| QUIET < it.elapsed());
        let all_went = self.sent == PACKETS
            && connection.in_flight() == 0
            && connection.phase() == Phase::Open;
        all_went
            && is_quiet
            && connection
                .feature(Feature::SequenceWindow, Place::Here)
                .is_stable
    }
}

fn talk(
    connection: &mut Connection,
    mut wire: Wire,
    closes: bool,
    waits: bool,
) -> Result<Talk, Box<dyn Error>> {
    let begun = Instant::now();
    let mut talk = Talk {
        waits,
        ..Talk::default()
    };
    let mut room = [0; MOST_FRAME_BYTES + 1];
    while talk.ended.is_none_or(|(_, at)| at.elapsed() < LINGER) {
        if Duration::from_secs(60) < begun.elapsed() {
            return Err("it takes over a minute".into());
        }
        talk.take(connection, &mut wire)?;
        let soon = Instant::now() + Duration::from_millis(50);
        let wait = connection
            .poll_timeout()
            .unwrap_or(soon)
            .min(soon)
            .saturating_duration_since(Instant::now());
        if let Some(length) = wire.receive(&mut room, wait)? {
            connection.handle_datagram(&room[..length], Instant::now());
        }
        connection.handle_timeout(Instant::now());
        talk.say(connection, closes)?;
        if closes && talk.is_done(connection) {
            connection.close(Instant::now())?;
        }
    }
    Ok(talk)
}

fn main() -> Result<(), Box<dyn Error>> {
    let words: Vec<String> = env::args().skip(1).collect();
    let words: Vec<&str> = words.iter().map(String::as_str).collect();
    let (words, is_translated) = match words[..] {
        [ref words @ .., "translated"] => (words, true),
        ref words => (words, false),
    };
    let (side, port, closes) = match *words {
        [side, port] => (side, port.parse()?, false),
        [side, port, "closes"] => (side, port.parse()?, true),
        _ => return Err("talk server PORT [closes], or talk client PORT [closes]".into()),
    };
    let (mut connection, wire) = match side {
        "server" => serve(port)?,
        "client" => ask(port, is_translated)?,
        _ => return Err("a server or a client".into()),
    };
    let talk = talk(&mut connection, wire, closes, side == "server")?;
    let code = talk.ended.map_or(0, |(code, _)| code);
    let mut width = |place| connection.feature(Feature::SequenceWindow, place).value;
    println!(
        "{side} got {} windows {} {} code {code}",
        talk.got,
        width(Place::Here),
        width(Place::There)
    );
    Ok(())
}
