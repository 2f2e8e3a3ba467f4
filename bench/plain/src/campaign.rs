//! `campaign`: schedules drawn from seeds, and what is counted of them.

use crate::endpoint::{Outcome, Timer};
use crate::features::{ACK_RATIO, CCID, Features, Place, SEQUENCE_WINDOW};
use crate::tell::put;
use crate::world::{Event, EventResult, Side, World, usual_end};
use std::ops::AddAssign;
use std::sync::Mutex;
use std::sync::atomic::{AtomicU64, Ordering};
use std::thread;

/// Minimum Checksum Coverage.
const COVERAGE: u8 = 8;

const MULTIPLIER: u64 = 6_364_136_223_846_793_005;

/// PCG32 (O'Neill, 2014), seeded as `seed_from_u64` of rand_core has it.
struct Generator {
    state: u64,
    increment: u64,
}

fn output(state: u64) -> u32 {
    let mixed = (((state >> 18) ^ state) >> 27) as u32;
    mixed.rotate_right((state >> 59) as u32)
}

impl Generator {
    fn new(seed: u64) -> Generator {
        let mut state = seed;
        let mut word = || {
            state = state
                .wrapping_mul(MULTIPLIER)
                .wrapping_add(11_634_580_027_462_260_723);
            u64::from(output(state))
        };
        let [a, b, c, d] = [word(), word(), word(), word()];
        let (start, increment) = (b << 32 | a, (d << 32 | c) | 1);
        let mut generator = Generator {
            state: start.wrapping_add(increment),
            increment,
        };
        generator.word();
        generator
    }

    fn word(&mut self) -> u32 {
        let state = self.state;
        self.state = state.wrapping_mul(MULTIPLIER).wrapping_add(self.increment);
        output(state)
    }

    fn first_number(&mut self) -> u64 {
        let high = u64::from(self.word()) % 65_536;
        high << 32 | u64::from(self.word())
    }
}

/// What is counted.
#[derive(Clone, Copy, Debug, Default)]
struct Counts {
    seeds: u64,
    events: u64,
    client_frames: u64,
    server_frames: u64,
    took: u64,
    delivered: u64,
    dropped: u64,
    synced: u64,
    was_reset: u64,
    sent_reset: u64,
    refused: u64,
    settled: u64,
}

impl Counts {
    fn lines(&self) -> [(&'static str, u64); 12] {
        [
            ("seeds", self.seeds),
            ("events", self.events),
            ("client_frames", self.client_frames),
            ("server_frames", self.server_frames),
            ("took", self.took),
            ("delivered", self.delivered),
            ("dropped", self.dropped),
            ("synced", self.synced),
            ("was_reset", self.was_reset),
            ("sent_reset", self.sent_reset),
            ("refused", self.refused),
            ("settled", self.settled),
        ]
    }

    fn count(&mut self, given: &EventResult) {
        match given {
            EventResult::Called(Err(_)) => self.refused += 1,
            EventResult::Called(Ok(())) | EventResult::Rang(_) => {}
            EventResult::Heard(Outcome::Took(data)) => {
                self.took += 1;
                self.delivered += u64::from(data.is_some());
            }
            EventResult::Heard(Outcome::Dropped(_)) => self.dropped += 1,
            EventResult::Heard(Outcome::Synced(_)) => self.synced += 1,
            EventResult::Heard(Outcome::WasReset(_)) => self.was_reset += 1,
            EventResult::Heard(Outcome::SentReset(..)) => self.sent_reset += 1,
        }
    }
}

impl AddAssign for Counts {
    fn add_assign(&mut self, other: Counts) {
        self.seeds += other.seeds;
        self.events += other.events;
        self.client_frames += other.client_frames;
        self.server_frames += other.server_frames;
        self.took += other.took;
        self.delivered += other.delivered;
        self.dropped += other.dropped;
        self.synced += other.synced;
        self.was_reset += other.was_reset;
        self.sent_reset += other.sent_reset;
        self.refused += other.refused;
        self.settled += other.settled;
    }
}

/// Runs so many seeds from the first on, of so many events each, on so many threads.
pub fn campaign(first: u64, seeds: u64, events: u64, workers: u64, out: &mut Vec<u8>) {
    let next = AtomicU64::new(0);
    let all = Mutex::new(Counts::default());
    thread::scope(|scope| {
        for _ in 0..workers {
            scope.spawn(|| {
                let mut counts = Counts::default();
                loop {
                    let at = next.fetch_add(1, Ordering::Relaxed);
                    if at >= seeds {
                        break;
                    }
                    run(first + at, events, &mut counts);
                }
                *all.lock().expect("no thread has panicked") += counts;
            });
        }
    });
    let counts = all.into_inner().expect("no thread has panicked");
    for (name, count) in counts.lines() {
        put(&format!("{name} {count}\n"), out);
    }
}

fn run(seed: u64, events: u64, counts: &mut Counts) {
    let mut generator = Generator::new(seed);
    let (client, server) = (generator.first_number(), generator.first_number());
    let client = usual_end(Side::Client, client, Features::new(false), false);
    let server = usual_end(Side::Server, server, Features::new(true), false);
    let mut world = World::new(client, server);
    step(&mut world, Event::Open, counts);
    for _ in 1..events {
        let (kind, word) = (generator.word() % 32, generator.word());
        draw(&mut world, kind, word, counts);
    }
    counts.seeds += 1;
    counts.events += events;
    counts.client_frames += world.frames(Side::Client).count() as u64;
    counts.server_frames += world.frames(Side::Server).count() as u64;
    counts.settled += world.settled();
}

fn step(world: &mut World, event: Event<'_>, counts: &mut Counts) {
    let (_, given) = world.step(event).expect("the frame is there");
    counts.count(&given);
}

/// Draws the event of a number below 32 and a word, and lets it happen.
fn draw(world: &mut World, kind: u32, word: u32, counts: &mut Counts) {
    let side_of = |kind: u32| {
        if kind.is_multiple_of(2) {
            Side::Client
        } else {
            Side::Server
        }
    };
    let data = word.to_be_bytes();
    let event = match kind {
        0..=11 => delivery(world, Side::Client, word),
        12..=23 => delivery(world, Side::Server, word),
        24 | 25 => Event::Send(side_of(kind), &data),
        26 | 27 => return prefer(world, side_of(kind), word % 8, u64::from(word / 8), counts),
        28 | 29 => Event::Timer(side_of(kind), timer(word % 6)),
        30 => ending(word % 512),
        _ => Event::Timer(Side::Server, Timer::Negotiate),
    };
    step(world, event, counts);
}

/// A frame of a side arrives, mostly one of its last eight.
fn delivery(world: &World, from: Side, word: u32) -> Event<'static> {
    let count = world.frames(from).count();
    let word = word as usize;
    if count == 0 {
        return Event::Timer(Side::Client, Timer::Request);
    }
    let index = if (word / 256).is_multiple_of(16) {
        word / 4_096 % count
    } else {
        count - 1 - word % count.min(8)
    };
    Event::Deliver(from, index)
}

fn prefer(world: &mut World, side: Side, which: u32, rest: u64, counts: &mut Counts) {
    let width = [100 + rest % 1_000];
    let ratio = [1 + rest % 4];
    let (feature, place, values): (u8, Place, &[u64]) = match which {
        0 => (CCID, Place::Here, &[2, 248]),
        1 => (CCID, Place::Here, &[248, 2]),
        2 => (CCID, Place::There, &[248]),
        3 => (COVERAGE, Place::Here, &[1, 2, 3]),
        4 => (COVERAGE, Place::There, &[3, 1]),
        5 => (COVERAGE, Place::There, &[2]),
        6 => (SEQUENCE_WINDOW, Place::Here, &width),
        _ => (ACK_RATIO, Place::Here, &ratio),
    };
    step(world, Event::Prefer(side, place, feature, values), counts);
}

fn timer(which: u32) -> Timer {
    match which {
        0 => Timer::Request,
        1 => Timer::Ack,
        2 => Timer::Negotiate,
        3 => Timer::Rto,
        4 => Timer::Close,
        _ => Timer::TimeWait,
    }
}

/// Seldom an end of the connection.
fn ending(which: u32) -> Event<'static> {
    match which {
        0 => Event::Close(Side::Client),
        1 => Event::Close(Side::Server),
        2 => Event::Abort(Side::Client),
        3 => Event::Abort(Side::Server),
        _ => Event::Timer(Side::Client, Timer::Negotiate),
    }
}
