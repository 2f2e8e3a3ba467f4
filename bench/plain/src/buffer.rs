//! A bounded receive buffer of an end, and what its acknowledgements report of it (RFC 4340, sections 11.6 and 11.7).

use crate::numbers::distance;
use crate::packet::MOST_DATA;
use std::collections::VecDeque;

const DATA_DROPPED: u8 = 40;
const SLOW_RECEIVER: u8 = 2;
const MOST_DROPS: usize = 2_048;
const MOST_BYTES: usize = 253;
const SPAN: u64 = 2_048;
const MOST_HEADER: usize = 1_020;

/// Why data are dropped (RFC 4340, section 11.7).
const NOT_LISTENING: u8 = 1;
const NO_ROOM: u8 = 2;

/// Data that wait for an application, and the numbers of those that were dropped.
#[derive(Debug)]
pub struct Buffer {
    room: usize,
    held: VecDeque<Vec<u8>>,
    has_stopped: bool,
    drops: VecDeque<(u64, u8)>,
}

impl Buffer {
    pub fn new(room: usize) -> Buffer {
        Buffer {
            room,
            held: VecDeque::new(),
            has_stopped: false,
            drops: VecDeque::new(),
        }
    }

    pub fn read(&mut self) -> Option<Vec<u8>> {
        self.held.pop_front()
    }

    pub fn stop(&mut self) {
        self.has_stopped = true;
    }

    /// Takes the data of the packet with this number; the code where they are dropped.
    pub fn take(&mut self, number: u64, data: &[u8]) -> Option<u8> {
        let code = if self.has_stopped {
            NOT_LISTENING
        } else if self.held.len() >= self.room || data.len() > MOST_DATA {
            NO_ROOM
        } else {
            self.held.push_back(data.to_vec());
            return None;
        };
        if self.drops.len() == MOST_DROPS {
            self.drops.pop_front();
        }
        self.drops.push_back((number, code));
        Some(code)
    }

    fn is_slow(&self) -> bool {
        4 * self.held.len() >= 3 * self.room
    }

    /// The options for an acknowledgement of this number after a header of so many bytes, with zeros up to four bytes.
    pub fn options(&self, acknowledged: u64, header: usize) -> Vec<u8> {
        let mut options = self.dropped(acknowledged);
        if self.is_slow() {
            options.push(SLOW_RECEIVER);
        }
        options.resize(options.len().next_multiple_of(4), 0);
        if header + options.len() > MOST_HEADER {
            Vec::new()
        } else {
            options
        }
    }

    /// The option Data Dropped, where a number has a code.
    fn dropped(&self, acknowledged: u64) -> Vec<u8> {
        let mut codes = [0_u8; SPAN as usize];
        let mut past = 0;
        for (number, code) in &self.drops {
            let place = distance(*number, acknowledged);
            if place < SPAN {
                codes[place as usize] = *code;
                past = past.max(place as usize + 1);
            }
        }
        let mut bytes = Vec::new();
        for run in codes[..past].chunk_by(|one, other| one == other) {
            let (code, most) = (run[0], if run[0] == 0 { 128 } else { 16 });
            for piece in run.chunks(most) {
                let length = (piece.len() - 1) as u8;
                bytes.push(if code == 0 {
                    length
                } else {
                    128 | code << 4 | length
                });
            }
        }
        if bytes.is_empty() {
            return bytes;
        }
        bytes.truncate(MOST_BYTES);
        bytes.splice(0..0, [DATA_DROPPED, 2 + bytes.len() as u8]);
        bytes
    }
}
