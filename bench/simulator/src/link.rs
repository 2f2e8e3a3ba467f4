//! One way of a path: a queue before a link of some capacity, and what happens to a frame on the link.

use crate::random::Random;
use std::collections::VecDeque;
use std::ops::Range;

/// Microseconds of counted time.
pub type Micros = u64;

/// Microseconds of a second.
pub const SECOND: Micros = 1_000_000;

/// Microseconds of a millisecond.
pub const MILLISECOND: Micros = 1_000;

/// The bytes of a full packet: 1,024 of data, and 24 of a DataAck's header (RFC 4340, section 5.3).
pub const FULL_PACKET: usize = 1_048;

/// How much a link carries.
#[derive(Clone, Copy, Debug)]
pub enum Capacity {
    /// So many full packets a second, and shorter frames as much sooner.
    Packets(u64),
    /// So many frames a second, however long.
    Frames(u64),
}

impl Capacity {
    /// How long the link is busy with a frame, in nanoseconds.
    fn busy(self, length: usize) -> u64 {
        match self {
            Capacity::Packets(rate) => 1_000_000_000 * length as u64 / (rate * FULL_PACKET as u64),
            Capacity::Frames(rate) => 1_000_000_000 / rate,
        }
    }
}

/// Which frames are lost on a link.
#[derive(Clone, Copy, Debug)]
pub enum Loss {
    /// None.
    Never,
    /// Each with this probability.
    Each(f64),
    /// All of a burst. Bursts last so long, and take this share of the time.
    Bursts {
        /// From 0 up to 1.
        share: f64,
        /// How long each is.
        length: Micros,
    },
}

/// What one way of a path is like.
#[derive(Clone, Debug)]
pub struct Way {
    /// How much the link carries.
    pub capacity: Capacity,
    /// How long a frame is under way once the link has taken it.
    pub delay: Micros,
    /// How many frames wait at most, with the one that the link is busy with.
    pub queue: usize,
    /// Which frames are lost.
    pub loss: Loss,
    /// How much longer a frame may be under way; frames overtake each other by it.
    pub jitter: Micros,
    /// When all frames are lost.
    pub outage: Range<Micros>,
}

/// A way, and what is under way on it.
#[derive(Debug)]
pub struct Link {
    way: Way,
    random: Random,
    /// When each frame that still waits has left, in nanoseconds.
    leaves: VecDeque<u64>,
    /// The burst that is under way, or the next.
    burst: Range<Micros>,
}

impl Link {
    /// A link with nothing on it.
    pub fn new(way: Way, random: Random) -> Link {
        Link {
            way,
            random,
            leaves: VecDeque::new(),
            burst: 0..0,
        }
    }

    /// A frame of so many bytes is handed to the link. Gives the time when it arrives; None if it is lost.
    pub fn carry(&mut self, length: usize, now: Micros) -> Option<Micros> {
        let nanos = now * 1_000;
        while self.leaves.front().is_some_and(|leaves| *leaves <= nanos) {
            self.leaves.pop_front();
        }
        if self.leaves.len() >= self.way.queue {
            return None;
        }
        let free = self.leaves.back().copied().unwrap_or(nanos);
        let leaves = free + self.way.capacity.busy(length);
        self.leaves.push_back(leaves);
        let leaves = leaves.div_ceil(1_000);
        if self.way.outage.contains(&leaves) || self.is_lost(leaves) {
            return None;
        }
        let later = self.random.fraction() * self.way.jitter as f64;
        Some(leaves + self.way.delay + later as Micros)
    }

    /// Whether a frame is lost that leaves at this time.
    fn is_lost(&mut self, leaves: Micros) -> bool {
        match self.way.loss {
            Loss::Never => false,
            Loss::Each(probability) => self.random.happens(probability),
            Loss::Bursts { share, length } => {
                while self.burst.end <= leaves {
                    let pause = self.random.waiting(length as f64 * (1.0 - share) / share);
                    let begin = self.burst.end + pause as Micros;
                    self.burst = begin..begin + length;
                }
                self.burst.contains(&leaves)
            }
        }
    }
}

#[cfg(test)]
mod tests {
    use super::*;

    fn way() -> Way {
        Way {
            capacity: Capacity::Packets(1_000),
            delay: 50 * MILLISECOND,
            queue: 3,
            loss: Loss::Never,
            jitter: 0,
            outage: 0..0,
        }
    }

    #[test]
    fn full_packets_leave_one_after_the_other_and_the_fourth_finds_no_room() {
        let mut link = Link::new(way(), Random::new(1));
        let arrivals = [0, 0, 0, 0].map(|now| link.carry(FULL_PACKET, now));
        assert_eq!(arrivals, [Some(51_000), Some(52_000), Some(53_000), None]);
        // The first has left at 1 ms; half a packet takes half as long.
        assert_eq!(link.carry(FULL_PACKET / 2, 1_000), Some(53_500));
    }

    #[test]
    fn an_outage_loses_what_leaves_in_it() {
        let outage = 10_000..20_000;
        let mut link = Link::new(Way { outage, ..way() }, Random::new(1));
        assert_eq!(link.carry(FULL_PACKET, 8_999), Some(59_999));
        assert_eq!(link.carry(FULL_PACKET, 9_000), None);
        assert_eq!(link.carry(FULL_PACKET, 19_000), Some(70_000));
    }

    #[test]
    fn losses_have_their_share() {
        let bursts = Loss::Bursts {
            share: 0.1,
            length: 20 * MILLISECOND,
        };
        for loss in [Loss::Each(0.1), bursts] {
            let mut link = Link::new(Way { loss, ..way() }, Random::new(1));
            let sent = 0..100_000_u64;
            let lost = sent
                .filter(|at| link.carry(100, at * 2_000).is_none())
                .count();
            assert!((9_000..11_000).contains(&lost), "{lost} of 100,000");
        }
    }
}
