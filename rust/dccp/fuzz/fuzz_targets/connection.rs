//! What any bytes, and any order of calls, do to a client, a server's end and a listener: no panic, and no data that were not sent.
//!
//!     cargo fuzz run connection                # with cargo-fuzz, in the folder above
//!
//! An input is a list of calls, each a byte that names it and what it needs; where the bytes end, the rest is 0.
#![no_main]

use dccp::{AcceptOutcome, Config, Connection, Event, Fate, Feature, Listener, MOST_FRAME_BYTES, Place};
use libfuzzer_sys::fuzz_target;
use std::net::SocketAddr;
use std::time::{Duration, Instant};

struct Input<'a>(&'a [u8]);

impl Input<'_> {
    fn byte(&mut self) -> u8 {
        self.0.split_off_first().copied().unwrap_or(0)
    }

    fn number(&mut self) -> usize {
        usize::from(self.byte()) << 8 | usize::from(self.byte())
    }

    /// A datagram: the last frame of another, maybe with a byte changed, or bytes of the input.
    fn datagram(&mut self, last: &[u8]) -> Vec<u8> {
        let form = self.byte();
        let mut bytes = if form & 1 == 1 {
            last.to_vec()
        } else {
            let length = self.number() % (MOST_FRAME_BYTES + 2);
            let (taken, rest) = self.0.split_at(length.min(self.0.len()));
            self.0 = rest;
            taken.to_vec()
        };
        if form & 2 == 2 && !bytes.is_empty() {
            let place = self.number() % bytes.len();
            bytes[place] ^= self.byte();
        }
        bytes
    }
}

/// The last frame of a client, of its server's end, and of a listener.
#[derive(Default)]
struct LastFrames([Vec<u8>; 3]);

fn addresses() -> (SocketAddr, SocketAddr) {
    (
        SocketAddr::from(([10, 0, 0, 1], 1)),
        SocketAddr::from(([10, 0, 0, 2], 2)),
    )
}

/// Sends data. Those that should fit a frame of some length do.
fn send(end: &mut Connection, length: usize, last: &mut Vec<u8>, now: Instant) {
    let most = length + 100;
    let fits = length <= end.longest_data(most);
    if let Ok(number) = end.send(&vec![7; length], now) {
        assert_eq!(end.fate(number), Fate::InFlight);
        let mut buffer = [0; MOST_FRAME_BYTES];
        while let Some(run) = end.poll_transmit_into(&mut buffer, 1) {
            *last = buffer[..run.length].to_vec();
        }
        assert!(!fits || last.len() <= most);
    }
}

/// Reads data that wait, and what was counted: then one fewer waits.
fn read(end: &mut Connection) {
    let waited = end.held();
    assert_eq!(end.read().is_some(), waited != 0);
    assert_eq!(end.held(), waited.saturating_sub(1));
    let counts = end.statistics();
    assert!(counts.lost <= counts.sent.data && u64::from(counts.in_flight) <= counts.sent.data);
}

/// Does a call of an end, and takes what it leaves.
fn call(end: &mut Connection, input: &mut Input, heard: &[u8], last: &mut Vec<u8>, now: Instant) {
    match input.byte() % 10 {
        0 | 1 => end.handle_datagram(&input.datagram(heard), now),
        2 => drop(end.receive(&input.datagram(heard), now)),
        3 => send(end, input.number() % 1_026, last, now),
        4 => drop(end.prefer(
            Feature::SequenceWindow,
            Place::Here,
            &[input.number() as u64],
            now,
        )),
        5 => drop(end.close(now)),
        6 => drop(end.abort(now)),
        7 => read(end),
        8 => drop(end.stop_reading()),
        _ => end.handle_timeout(now),
    }
    while let Some(frame) = end.poll_transmit() {
        assert!(frame.bytes.len() <= MOST_FRAME_BYTES);
        *last = frame.bytes;
    }
    while let Some(event) = end.poll_event() {
        if let Event::Data(data) = event {
            assert!(data.len() <= MOST_FRAME_BYTES);
        }
    }
}

fn call_listener(listener: &mut Listener, input: &mut Input, last: &mut LastFrames, now: Instant) {
    let peer = SocketAddr::from(([10, 0, 0, 1], 1 + u16::from(input.byte() % 3)));
    match input.byte() % 6 {
        0..=2 => drop(listener.handle_datagram(peer, 2_000, &input.datagram(&last.0[0]), now)),
        3 => drop(listener.send(peer, &vec![7; input.number() % 1_026], now)),
        4 => drop(listener.abort(peer, now)),
        _ => listener.handle_timeout(now),
    }
    while let Some((_, frame)) = listener.poll_transmit() {
        last.0[2] = frame.bytes;
    }
    while listener.poll_change().is_some() || listener.poll_accept().is_some() {}
    assert!(listener.peers().len() <= 2);
}

fuzz_target!(|data: &[u8]| {
    let (mut input, mut last, mut now) = (Input(data), LastFrames::default(), Instant::now());
    let (here, there) = addresses();
    let SocketAddr::V4(own) = there else { return };
    let Ok(mut client) = Connection::new(&Config::client(here, there, 42, 1_000)) else {
        return;
    };
    let Ok(mut listener) = Listener::new(&Config::listener(own, 42), 2) else {
        return;
    };
    let mut server: Option<Box<Connection>> = None;
    let _ = client.open(now);
    while !input.0.is_empty() {
        now += Duration::from_millis(input.number() as u64);
        match (input.byte() % 3, &mut server) {
            (0, _) => {
                let heard = last.0[1 + usize::from(input.byte() % 2)].clone();
                call(&mut client, &mut input, &heard, &mut last.0[0], now);
            }
            (1, Some(end)) => {
                let heard = last.0[0].clone();
                call(end, &mut input, &heard, &mut last.0[1], now);
            }
            (1, none) => {
                let datagram = input.datagram(&last.0[0]);
                let config = Config::server(there, here, 42, 9).holding(input.number() % 5);
                if let Ok(AcceptOutcome::Connection(it)) = Connection::accept(&config, &datagram, now) {
                    *none = Some(it);
                }
            }
            _ => call_listener(&mut listener, &mut input, &mut last, now),
        }
    }
});
