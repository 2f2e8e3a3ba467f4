//! The numbers that an end has processed, and the Ack Vectors that report them (RFC 4340, section 11.4).

use crate::numbers::{ahead, distance, is_before};
use crate::options::ACK_VECTOR;
use std::collections::VecDeque;

const SPAN: u64 = 2_048;
const MOST_BYTES: usize = 253;
const MOST_RUN: u64 = 64;
const MOST_RECORDS: usize = 64;

/// The states of a vector's bytes.
const RECEIVED: u8 = 0;
const NOT_RECEIVED: u8 = 3 << 6;

/// What marking a number answers.
#[derive(Clone, Copy, Debug, PartialEq, Eq)]
pub enum Marked {
    New,
    Again,
    BelowFloor,
}

/// An Ack Vector that was sent.
#[derive(Clone, Copy, Debug)]
struct Record {
    number: u64,
    acknowledged: u64,
    is_whole: bool,
}

/// Successive numbers that are marked, as places: from the first up to, without, the last.
#[derive(Clone, Copy, Debug)]
struct Run {
    begin: u64,
    end: u64,
}

/// A set of numbers with a floor, as runs in ascending order. Places count on from the first floor, so that they do not wrap.
#[derive(Clone, Debug)]
pub struct Marks {
    floor: u64,
    /// The place of the floor.
    bottom: u64,
    runs: VecDeque<Run>,
    records: VecDeque<Record>,
}

impl Marks {
    /// None is marked from this number on.
    pub fn new(floor: u64) -> Marks {
        Marks {
            floor,
            bottom: 0,
            runs: VecDeque::new(),
            records: VecDeque::with_capacity(MOST_RECORDS),
        }
    }

    pub fn mark(&mut self, number: u64) -> Marked {
        let steps = distance(self.floor, number);
        if steps >= 1 << 47 {
            return Marked::BelowFloor;
        }
        let place = self.bottom + steps;
        if steps >= SPAN {
            self.raise(steps - (SPAN - 1));
        }
        // Mostly it is above all of them.
        let above = match self.runs.back() {
            Some(last) if last.begin <= place => self.runs.len(),
            _ => self.runs.partition_point(|run| run.begin <= place),
        };
        let below = above.checked_sub(1);
        if below.is_some_and(|at| place < self.runs[at].end) {
            return Marked::Again;
        }
        let below = below.filter(|at| self.runs[*at].end == place);
        let joins_above = self
            .runs
            .get(above)
            .is_some_and(|run| run.begin == place + 1);
        match (below, joins_above) {
            (Some(at), true) => {
                self.runs[at].end = self.runs[above].end;
                self.runs.remove(above);
            }
            (Some(at), false) => self.runs[at].end = place + 1,
            (None, true) => self.runs[above].begin = place,
            (None, false) => self.runs.insert(
                above,
                Run {
                    begin: place,
                    end: place + 1,
                },
            ),
        }
        Marked::New
    }

    /// Raises the floor by so many numbers; what lies below it leaves the set.
    fn raise(&mut self, steps: u64) {
        self.floor = ahead(self.floor, steps);
        self.bottom += steps;
        while let Some(first) = self.runs.front_mut() {
            if first.end > self.bottom {
                first.begin = first.begin.max(self.bottom);
                break;
            }
            self.runs.pop_front();
        }
    }

    /// Writes the options of the vector from this number down to the floor, of one option or two, and keeps a record of it.
    pub fn write(&mut self, number: u64, acknowledged: u64, has_two: bool, out: &mut Vec<u8>) {
        let steps = distance(self.floor, acknowledged);
        let mut vector = Vector::new(has_two);
        let is_whole = steps >= 1 << 47 || self.put_runs(self.bottom + steps + 1, &mut vector);
        vector.write(out);
        if self.records.len() == MOST_RECORDS {
            self.records.pop_front();
        }
        self.records.push_back(Record {
            number,
            acknowledged,
            is_whole,
        });
    }

    /// Puts what lies from the floor up to, without, this place, downwards. Returns whether there was room for all.
    fn put_runs(&self, mut place: u64, vector: &mut Vector) -> bool {
        for run in self.runs.iter().rev() {
            if !vector.put(NOT_RECEIVED, place - run.end)
                || !vector.put(RECEIVED, run.end - run.begin)
            {
                return false;
            }
            place = run.begin;
        }
        vector.put(NOT_RECEIVED, place - self.bottom)
    }

    /// The peer has an Ack or DataAck with this number; the floor rises if that reported all.
    pub fn acknowledge(&mut self, number: u64) {
        let is_found = |it: &&Record| it.number == number && it.is_whole;
        if let Some(record) = self.records.iter().rev().find(is_found) {
            let floor = ahead(record.acknowledged, 1);
            if is_before(self.floor, floor) {
                self.raise(distance(self.floor, floor));
            }
        }
    }
}

/// The bytes of a vector.
struct Vector {
    bytes: [u8; 2 * MOST_BYTES],
    count: usize,
    most: usize,
}

impl Vector {
    fn new(has_two: bool) -> Vector {
        let most = if has_two { 2 * MOST_BYTES } else { MOST_BYTES };
        Vector {
            bytes: [0; 2 * MOST_BYTES],
            count: 0,
            most,
        }
    }

    /// Puts a run, in pieces. Returns whether there was room.
    fn put(&mut self, state: u8, mut run: u64) -> bool {
        while run > 0 {
            if self.count == self.most {
                return false;
            }
            let piece = run.min(MOST_RUN);
            self.bytes[self.count] = state | (piece - 1) as u8;
            self.count += 1;
            run -= piece;
        }
        true
    }

    /// Writes the options, of which there is one at least.
    fn write(&self, out: &mut Vec<u8>) {
        let (first, second) = self.bytes[..self.count].split_at(self.count.min(MOST_BYTES));
        out.extend([ACK_VECTOR, 2 + first.len() as u8]);
        out.extend_from_slice(first);
        if !second.is_empty() {
            out.extend([ACK_VECTOR, 2 + second.len() as u8]);
            out.extend_from_slice(second);
        }
    }
}
