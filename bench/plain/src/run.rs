//! `run`: a schedule, played on two ends.

use crate::endpoint::Timer;
use crate::features::{FEATURES, Features, Place, Wish, WishFault, is_negotiable};
use crate::lines::{LineRefusal, Why, Words, lines, number, put_number, refused, says};
use crate::tell::{put, put_end, put_given, put_refused, put_sent};
use crate::world::{Event, Side, World, usual_end};

const MOST_EVENTS: usize = 16_384;
const MOST_VALUES: usize = 9;

const SIDES: [(&str, Side); 2] = [("client", Side::Client), ("server", Side::Server)];
const PLACES: [(&str, Place); 2] = [("here", Place::Here), ("there", Place::There)];

pub const TIMERS: [(&str, Timer); 6] = [
    ("request", Timer::Request),
    ("ack", Timer::Ack),
    ("negotiate", Timer::Negotiate),
    ("rto", Timer::Rto),
    ("close", Timer::Close),
    ("timewait", Timer::TimeWait),
];

/// The first word of a line.
#[derive(Clone, Copy, Debug, PartialEq, Eq)]
enum Verb {
    Version,
    Plain,
    Iss,
    Set,
    Offer,
    Open,
    Deliver,
    Send,
    Prefer,
    Timer,
    Close,
    Abort,
}

const VERBS: [(&str, Verb); 12] = [
    ("deliver", Verb::Deliver),
    ("send", Verb::Send),
    ("timer", Verb::Timer),
    ("prefer", Verb::Prefer),
    ("open", Verb::Open),
    ("close", Verb::Close),
    ("abort", Verb::Abort),
    ("version", Verb::Version),
    ("plain", Verb::Plain),
    ("iss", Verb::Iss),
    ("set", Verb::Set),
    ("offer", Verb::Offer),
];

/// How the ends of a schedule are made.
struct WorldSetup {
    client: (u64, Features),
    server: (u64, Features),
    has_two_vectors: bool,
}

impl WorldSetup {
    fn of(&mut self, side: Side) -> &mut (u64, Features) {
        match side {
            Side::Client => &mut self.client,
            Side::Server => &mut self.server,
        }
    }

    fn world(&self) -> World {
        let end =
            |side, of: &(u64, Features)| usual_end(side, of.0, of.1.clone(), self.has_two_vectors);
        World::new(
            end(Side::Client, &self.client),
            end(Side::Server, &self.server),
        )
    }
}

/// A schedule that is played.
struct Run {
    makings: WorldSetup,
    world: Option<World>,
    has_said: bool,
    events: usize,
    data: Vec<u8>,
    values: Vec<u64>,
}

/// Plays a schedule. Returns whether all its lines were played.
pub fn run(input: &[u8], out: &mut Vec<u8>) -> bool {
    let makings = WorldSetup {
        client: (1_000, Features::new(false)),
        server: (2_000, Features::new(true)),
        has_two_vectors: false,
    };
    let mut run = Run {
        makings,
        world: None,
        has_said: false,
        events: 0,
        data: Vec::new(),
        values: Vec::new(),
    };
    for (number, line) in lines(input).enumerate() {
        let played = line.and_then(|line| {
            if says(line) {
                run.line(number + 1, line, out)
            } else {
                Ok(())
            }
        });
        if let Err(refused) = played {
            put_refused(number + 1, refused, out);
            return false;
        }
    }
    let world = run.world.unwrap_or_else(|| run.makings.world());
    for side in [Side::Client, Side::Server] {
        put_end(side, world.end(side), out);
    }
    true
}

impl Run {
    fn line(&mut self, number: usize, line: &str, out: &mut Vec<u8>) -> Result<(), LineRefusal> {
        let mut words = Words::of(line);
        let verb = words.one_of(&VERBS)?;
        match verb {
            Verb::Version | Verb::Plain | Verb::Iss | Verb::Set | Verb::Offer => {
                self.header(verb, &mut words)?
            }
            Verb::Open
            | Verb::Deliver
            | Verb::Send
            | Verb::Prefer
            | Verb::Timer
            | Verb::Close
            | Verb::Abort => {
                self.event(verb, &mut words, number, line, out)?;
            }
        }
        self.has_said = true;
        Ok(())
    }

    fn is_late(&self, is_late: bool) -> Result<(), LineRefusal> {
        if is_late {
            refused(1, Why::HeaderLate)
        } else {
            Ok(())
        }
    }

    fn header(&mut self, verb: Verb, words: &mut Words<'_>) -> Result<(), LineRefusal> {
        let has_begun = self.world.is_some();
        match verb {
            Verb::Version => {
                let version = words
                    .one_of(&[("1", false), ("2", true)])
                    .or_else(|fault| match fault.why {
                        Why::UnknownWord => refused(fault.column, Why::BadNumber),
                        _ => Err(fault),
                    })?;
                words.end()?;
                self.is_late(self.has_said)?;
                self.makings.has_two_vectors = version;
            }
            Verb::Plain => {
                words.end()?;
                self.is_late(has_begun)?;
                self.makings.client.1.plain();
                self.makings.server.1.plain();
            }
            Verb::Iss => {
                let side = words.one_of(&SIDES)?;
                let first = words.number(1 << 48)?;
                words.end()?;
                self.is_late(has_begun)?;
                self.makings.of(side).0 = first;
            }
            Verb::Set => {
                let (side, place) = (words.one_of(&SIDES)?, words.one_of(&PLACES)?);
                let feature = feature(words)?;
                let column = self.values(words)?;
                words.end()?;
                self.is_late(has_begun)?;
                let wish =
                    Wish::judged(feature, place, &self.values).or_else(|fault| match fault {
                        WishFault::BadList => refused(column, Why::BadList),
                        WishFault::NotOurs => refused(column, Why::NotOurs),
                    })?;
                self.makings.of(side).1.set(feature, place, wish);
            }
            _ => {
                let (side, place) = (words.one_of(&SIDES)?, words.one_of(&PLACES)?);
                let mut at = words.clone();
                let (column, _) = at.next()?;
                let feature = feature(words)?;
                let is_mandatory = words.peek().is_some();
                if is_mandatory {
                    words.one_of(&[("mandatory", ())])?;
                }
                words.end()?;
                self.is_late(has_begun)?;
                if !is_negotiable(feature) && place == Place::There {
                    return refused(column, Why::NotOurs);
                }
                self.makings.of(side).1.offer(feature, place, is_mandatory);
            }
        }
        Ok(())
    }

    /// Reads values; gives their column.
    fn values(&mut self, words: &mut Words<'_>) -> Result<usize, LineRefusal> {
        let (column, word) = words.next()?;
        self.values.clear();
        for part in word.split(',') {
            match number(part) {
                Some(value) if value < 1 << 48 && self.values.len() < MOST_VALUES => {
                    self.values.push(value)
                }
                _ => return refused(column, Why::BadNumber),
            }
        }
        Ok(column)
    }

    fn event(
        &mut self,
        verb: Verb,
        words: &mut Words<'_>,
        at: usize,
        line: &str,
        out: &mut Vec<u8>,
    ) -> Result<(), LineRefusal> {
        let mut column = 1;
        let mut values = Vec::new();
        let event = match verb {
            Verb::Open => Event::Open,
            Verb::Deliver => {
                let (place, word) = words.next()?;
                column = place;
                let (from, index) = match (word.as_bytes()[0], &word[1..]) {
                    (b'c', index) => (Side::Client, index),
                    (b's', index) => (Side::Server, index),
                    _ => return refused(place, Why::UnknownWord),
                };
                match number(index) {
                    Some(index) if index < 1 << 47 => Event::Deliver(from, index as usize),
                    _ => return refused(place, Why::BadNumber),
                }
            }
            Verb::Send => {
                let side = words.one_of(&SIDES)?;
                if words.peek() == Some("-") {
                    words.next()?;
                    self.data.clear();
                } else {
                    words.hex(&mut self.data)?;
                }
                Event::Send(side, &self.data)
            }
            Verb::Prefer => {
                let (side, place) = (words.one_of(&SIDES)?, words.one_of(&PLACES)?);
                let feature = feature(words)?;
                self.values(words)?;
                values.clone_from(&self.values);
                Event::Prefer(side, place, feature, &values)
            }
            Verb::Timer => Event::Timer(words.one_of(&SIDES)?, words.one_of(&TIMERS)?),
            Verb::Close => Event::Close(words.one_of(&SIDES)?),
            _ => Event::Abort(words.one_of(&SIDES)?),
        };
        words.end()?;
        if self.events == MOST_EVENTS {
            return refused(1, Why::TooManyEvents);
        }
        let world = self.world.get_or_insert_with(|| self.makings.world());
        let Some((side, given)) = world.step(event) else {
            return refused(column, Why::NoSuchFrame);
        };
        self.events += 1;
        put_number(at as u64, out);
        out.push(b' ');
        let begin = out.len();
        put(line, out);
        // Digits are printed in lower case; no other word has letters of either case.
        out[begin..].make_ascii_lowercase();
        put(": ", out);
        let frame = match event {
            Event::Deliver(from, index) => world.frames(from).get(index).unwrap_or(&[]),
            _ => &[],
        };
        put_given(&given, frame, out);
        out.push(b'\n');
        let sent = &world.end(side).frame;
        if !sent.is_empty() {
            put_sent(side, world.frames(side).count() - 1, sent, out);
        }
        Ok(())
    }
}

fn feature(words: &mut Words<'_>) -> Result<u8, LineRefusal> {
    let (column, word) = words.next()?;
    match number(word) {
        Some(feature) if (1..=u64::from(FEATURES)).contains(&feature) => Ok(feature as u8),
        _ => refused(column, Why::BadNumber),
    }
}
