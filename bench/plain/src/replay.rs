//! `replay`: frames that are handed to one end.

use crate::buffer::Buffer;
use crate::endpoint::Outcome;
use crate::features::Features;
use crate::lines::{LineRefusal, Why, Words, lines, put_hex, put_number, refused, says};
use crate::packet::{Addresses, MOST_FRAME, seal};
use crate::tell::{put, put_end, put_outcome, put_refused, put_sent};
use crate::world::{Side, usual_end};

/// What a replay is made from.
#[derive(Clone, Copy, Debug)]
pub struct ReplaySetup {
    pub side: Side,
    pub is_plain: bool,
    pub buffer: Option<usize>,
}

struct Replay {
    side: Side,
    end: crate::endpoint::Endpoint,
    buffer: Option<Buffer>,
    from_peer: Addresses,
    sent: usize,
    frame: Vec<u8>,
}

/// Plays a replay. Returns whether all its lines were played.
pub fn replay(makings: ReplaySetup, input: &[u8], out: &mut Vec<u8>) -> bool {
    let (own, first) = match makings.side {
        Side::Client => ([10, 0, 0, 1], 1_000),
        Side::Server => ([10, 0, 0, 2], 2_000),
    };
    let peer = if makings.side == Side::Client {
        [10, 0, 0, 2]
    } else {
        [10, 0, 0, 1]
    };
    let mut features = Features::new(makings.side == Side::Server);
    if makings.is_plain {
        features.plain();
    }
    let mut replay = Replay {
        side: makings.side,
        end: usual_end(makings.side, first, features, false),
        buffer: makings.buffer.map(Buffer::new),
        from_peer: Addresses::new(&peer, &own),
        sent: 0,
        frame: Vec::new(),
    };
    if makings.side == Side::Client {
        put("open: ok\n", out);
        // The end is fresh.
        let _ = replay.end.open();
        replay.put_frame(out);
    }
    for (number, line) in lines(input).enumerate() {
        let played = line.and_then(|line| {
            if says(line) {
                replay.line(number + 1, line, out)
            } else {
                Ok(())
            }
        });
        if let Err(refused) = played {
            put_refused(number + 1, refused, out);
            return false;
        }
    }
    put_end(replay.side, &replay.end, out);
    true
}

impl Replay {
    fn put_frame(&mut self, out: &mut Vec<u8>) {
        if !self.end.frame.is_empty() {
            put_sent(self.side, self.sent, &self.end.frame, out);
            self.sent += 1;
        }
    }

    fn line(&mut self, number: usize, line: &str, out: &mut Vec<u8>) -> Result<(), LineRefusal> {
        if let Some(buffer) = &mut self.buffer
            && matches!(line, "read" | "stop")
        {
            put_number(number as u64, out);
            if line == "stop" {
                buffer.stop();
                put(": ok\n", out);
            } else if let Some(data) = buffer.read() {
                put(": read ", out);
                put_hex(&data, out);
                out.push(b'\n');
            } else {
                put(": empty\n", out);
            }
            return Ok(());
        }
        let mut words = Words::of(line);
        let is_sealed = words.peek() == Some("seal");
        if is_sealed {
            words.next()?;
        }
        let column = words.hex(&mut self.frame)?;
        words.end()?;
        if self.frame.len() > MOST_FRAME {
            return refused(column, Why::FrameTooLong);
        }
        if is_sealed && self.frame.len() < 8 {
            return refused(column, Why::SealShort);
        }
        if is_sealed {
            seal(self.from_peer, &mut self.frame);
        }
        let outcome = self.end.receive(&self.frame);
        put_number(number as u64, out);
        put(": ", out);
        self.put_heard(&outcome, out);
        out.push(b'\n');
        self.put_frame(out);
        Ok(())
    }

    fn put_heard(&mut self, outcome: &Outcome, out: &mut Vec<u8>) {
        let Some(buffer) = &mut self.buffer else {
            return put_outcome(outcome, &self.frame, out);
        };
        let code = match outcome {
            Outcome::Took(Some(place)) => {
                buffer.take(self.end.heard_number(), &self.frame[place.clone()])
            }
            Outcome::Took(None)
            | Outcome::Dropped(_)
            | Outcome::Synced(_)
            | Outcome::WasReset(_)
            | Outcome::SentReset(..) => None,
        };
        self.end.tell_buffer(buffer);
        match code {
            Some(code) => put(&format!("took dropped {code}"), out),
            None => put_outcome(outcome, &self.frame, out),
        }
    }
}
