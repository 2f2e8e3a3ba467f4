//! The congestion control of what an end sends: CCID 2 (RFC 4341), and the fixed window of CCID 248.

use crate::numbers::{ahead, back, distance, is_before};
use std::collections::VecDeque;

const MOST_ENTRIES: usize = 2_048;
const MOST_WINDOW: u32 = 1_024;
const FIXED_WINDOW: u32 = 8;

#[derive(Clone, Copy, Debug, PartialEq, Eq)]
enum Standing {
    Out,
    Reported,
    Lost,
}

/// The flight list, and the window.
#[derive(Clone, Debug)]
pub struct Congestion {
    ccid: u64,
    entries: VecDeque<(u64, Standing)>,
    /// How many of the first entries are Reported: no report changes them.
    settled: usize,
    out: u32,
    window: u32,
    threshold: u32,
    credit: u32,
    recovery: Option<u64>,
    /// The packet that was sent last since the start.
    last: Option<u64>,
}

impl Congestion {
    pub fn new(ccid: u64) -> Congestion {
        Congestion {
            ccid,
            entries: VecDeque::new(),
            settled: 0,
            out: 0,
            window: if ccid == 2 { 4 } else { FIXED_WINDOW },
            threshold: MOST_WINDOW,
            credit: 0,
            recovery: None,
            last: None,
        }
    }

    pub fn window(&self) -> u32 {
        self.window
    }

    pub fn in_flight(&self) -> u32 {
        self.out
    }

    pub fn sent(&mut self, number: u64) {
        if self.entries.len() == MOST_ENTRIES {
            let oldest = self.entries.pop_front();
            self.out -= u32::from(oldest.is_some_and(|(_, standing)| standing == Standing::Out));
            self.settled = self.settled.saturating_sub(1);
        }
        self.entries.push_back((number, Standing::Out));
        self.last = Some(number);
        self.out += 1;
    }

    /// Hears the bytes of a packet's vectors, which report the number that it acknowledges and those below.
    pub fn report(&mut self, acknowledged: u64, vectors: impl Iterator<Item = u8>, ratio: u64) {
        let (mut is_congested, mut news) = (false, 0);
        let mut past = self.entries.len();
        let mut next = acknowledged;
        for byte in vectors {
            let (state, length) = (byte >> 6, u64::from(byte & 63) + 1);
            let number = next;
            next = back(next, length);
            if state > 1
                || past == self.settled
                || is_before(self.entries[past - 1].0, ahead(next, 1))
            {
                continue;
            }
            while past > self.settled {
                let (entry, standing) = self.entries[past - 1];
                let below = distance(entry, number);
                if below < length {
                    if standing != Standing::Reported {
                        self.out -= u32::from(standing == Standing::Out);
                        self.entries[past - 1].1 = Standing::Reported;
                        news += u32::from(state == 0);
                        is_congested |= state == 1 && self.is_after_recovery(entry);
                    }
                } else if below < 1 << 47 {
                    // It is below the stretch.
                    break;
                }
                past -= 1;
            }
        }
        while self
            .entries
            .get(self.settled)
            .is_some_and(|(_, standing)| *standing == Standing::Reported)
        {
            self.settled += 1;
        }
        is_congested |= self.lose();
        self.answer(is_congested, news, ratio);
    }

    fn is_after_recovery(&self, number: u64) -> bool {
        self.recovery
            .is_none_or(|recovery| is_before(recovery, number))
    }

    /// What is out with three reported after it is lost. Returns whether that is congestion.
    fn lose(&mut self) -> bool {
        let (mut reported, mut out, mut is_congested) = (0, self.out, false);
        for at in (0..self.entries.len()).rev() {
            if out == 0 {
                break;
            }
            match self.entries[at] {
                (_, Standing::Reported) => reported += 1,
                (number, Standing::Out) => {
                    out -= 1;
                    if reported >= 3 {
                        self.entries[at].1 = Standing::Lost;
                        self.out -= 1;
                        is_congested |= self.is_after_recovery(number);
                    }
                }
                (_, Standing::Lost) => {}
            }
        }
        is_congested
    }

    fn answer(&mut self, is_congested: bool, news: u32, ratio: u64) {
        if self.ccid != 2 {
            return;
        }
        if is_congested {
            self.window = (self.window / 2).max(1);
            self.threshold = self.window.max(2);
            self.credit = 0;
            self.recovery = self.last;
            return;
        }
        let credit = self.credit + news;
        if self.window < self.threshold {
            let most = (ratio / 2).max(1) as u32;
            self.window = (self.window + most.min(credit / 2)).min(MOST_WINDOW);
            self.credit = credit % 2;
        } else if credit >= self.window {
            self.window = (self.window + 1).min(MOST_WINDOW);
            self.credit = 0;
        } else {
            self.credit = credit;
        }
    }

    pub fn timeout(&mut self) {
        if self.ccid == 2 {
            self.threshold = (self.window / 2).max(2);
            self.window = 1;
            self.credit = 0;
            self.recovery = self.last.or(self.recovery);
        }
        self.entries.clear();
        (self.settled, self.out) = (0, 0);
    }
}
