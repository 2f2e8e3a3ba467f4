//! The rules by which an owner fills a path, each by itself: a second implementation, written apart from the library's own. Times are whole
//! milliseconds from any beginning. Where no standard is named, a rule is own.

/// The first wait of the timer Ack: a peer that waits for it is not kept for the 200 that RFC 4340, section 11.3, has as an example.
pub const FIRST_ACK_WAIT: u64 = 50;

/// The longest wait of the timer Ack: it keeps the entries of translators on the way, which may go after 30 seconds (RFC 4787, section 4.3).
pub const LONGEST_ACK_WAIT: u64 = 20_000;

/// The longest wait of every other timer.
pub const LONGEST_WAIT: u64 = 64_000;

/// The Sequence Window that an end offers: nearly ten of the library's greatest windows.
pub const OFFERED_WIDTH: u64 = 10_000;

/// From this window on a probe comes before a timeout.
pub const PROBED_WINDOW: u32 = 16;

/// After so long without an answer to a probe the timeout comes.
pub const LONGEST_PROBE: u64 = 60_000;

/// The longest wait of the timer Negotiate while a probe is out.
pub const LONGEST_PROBE_WAIT: u64 = 2_000;

/// How long a Request goes without an answer, a Response, and a Close; an OPEN end without a sign of life, and then with questions.
pub const REQUEST_LIMIT: u64 = 180_000;
/// See [`REQUEST_LIMIT`].
pub const RESPOND_LIMIT: u64 = 240_000;
/// See [`REQUEST_LIMIT`].
pub const CLOSE_LIMIT: u64 = 120_000;
/// See [`REQUEST_LIMIT`].
pub const SILENCE: u64 = 60_000;
/// See [`REQUEST_LIMIT`].
pub const SILENCE_LIMIT: u64 = 180_000;
/// How long apart the questions to a silent peer are.
pub const QUESTION_WAIT: u64 = 10_000;

/// The greatest number, which is followed by 0 (RFC 4340, section 7.1).
const NUMBERS: u64 = 1 << 48;

/// How far a number is after another, on the circle (RFC 4340, section 7.1).
pub fn distance(from: u64, to: u64) -> u64 {
    to.wrapping_sub(from) % NUMBERS
}

/// Whether a number is another or after it (RFC 4340, section 7.1).
pub fn is_at_or_after(number: u64, other: u64) -> bool {
    distance(other, number) < NUMBERS / 2
}

/// The round trip and what follows from it (RFC 6298, with another least value).
#[derive(Clone, Copy, Debug, Default)]
pub struct RoundTrip {
    /// The smoothed time, its variation; None before a sample.
    smoothed: Option<(u64, u64)>,
    doublings: u32,
}

impl RoundTrip {
    const LEAST_VARIATION: u64 = 250;

    /// A packet was acknowledged after so long (RFC 6298, sections 2.2 and 2.3).
    pub fn sample(&mut self, measured: u64) {
        self.smoothed = Some(match self.smoothed {
            None => (measured, measured / 2),
            Some((time, variation)) => (
                (7 * time + measured) / 8,
                (3 * variation + time.abs_diff(measured)) / 4,
            ),
        });
        self.doublings = 0;
    }

    /// Something in flight was acknowledged or lost.
    pub fn progress(&mut self) {
        self.doublings = 0;
    }

    /// A timeout was reported (RFC 6298, section 5.5).
    pub fn timeout(&mut self) {
        self.doublings = (self.doublings + 1).min(6);
    }

    /// The smoothed round trip.
    pub fn time(&self) -> Option<u64> {
        self.smoothed.map(|(time, _)| time)
    }

    /// How long data may go unacknowledged. The least value belongs to the variation, not to the sum: else the variation dies out on a
    /// path without jitter, and the wait is the round trip to the millisecond.
    pub fn timeout_wait(&self) -> u64 {
        let base = match self.smoothed {
            None => 1_000,
            Some((time, variation)) => time + (4 * variation).max(RoundTrip::LEAST_VARIATION),
        };
        (base << self.doublings).min(LONGEST_WAIT)
    }

    /// The first wait of the timer Negotiate.
    pub fn negotiate_wait(&self) -> u64 {
        self.smoothed
            .map_or(1_000, |_| self.timeout_wait().max(200))
    }

    /// The first wait of the timer Close.
    pub fn close_wait(&self) -> u64 {
        self.time().map_or(400, |time| (2 * time).max(100))
    }
}

/// How many packets were in flight at most, in this period and in the last. A period is a round trip, and at least 200 milliseconds.
#[derive(Clone, Copy, Debug, Default)]
pub struct MostInFlight {
    begun: u64,
    this: u32,
    last: u32,
}

impl MostInFlight {
    /// So many are in flight.
    pub fn see(&mut self, in_flight: u32, now: u64, period: u64) {
        if now - self.begun >= period {
            self.last = self.this;
            self.this = 0;
            self.begun = now;
        }
        self.this = self.this.max(in_flight);
    }

    /// What a sender uses: the window, or twice what was in flight if that is less.
    pub fn used(&self, window: u32) -> u32 {
        window.min(2 * self.this.max(self.last))
    }
}

/// What the rule of the Ack Ratio looks at.
#[derive(Clone, Copy, Debug)]
pub struct Use {
    /// The window.
    pub window: u32,
    /// How much of it the sender uses.
    pub used: u32,
    /// The peer's Sequence Window: its Acks are numbered, too, and valid no further back.
    pub peer_width: u64,
}

/// The Ack Ratio that a window should have (RFC 4341, section 6.1.2: at most half the window, rounded up, and at least 2 for a window of 4 or
/// more). Own: 1 for a lesser window, and 32 Acks a window, in place of a doubling for each lost Ack.
pub fn aim(it: Use) -> u64 {
    if it.window < 4 {
        return 1;
    }
    let used = u64::from(it.used);
    let few = used.div_ceil(32);
    let within_width = (4 * used).div_ceil(it.peer_width);
    let half = u64::from(it.window).div_ceil(2);
    few.max(within_width).max(2).min(half.max(2))
}

/// When the Ack Ratio changes.
#[derive(Clone, Copy, Debug, Default)]
pub struct AckRatio {
    changed: Option<u64>,
}

impl AckRatio {
    /// How long an Ack Ratio of 1 holds at least.
    const HOLD: u64 = 5_000;

    /// The Ack Ratio to ask for, if another than is held: lowered at once, and raised from 1 after some seconds.
    pub fn wanted(&mut self, it: Use, held: u64, now: u64, period: u64) -> Option<u64> {
        let aim = aim(it);
        let half = u64::from(it.window).div_ceil(2).max(2);
        let age = self.changed.map_or(u64::MAX, |changed| now - changed);
        let changes = if aim < held {
            aim == 1 || held > half || 2 * aim <= held
        } else if held == 1 {
            aim > 1 && age >= AckRatio::HOLD
        } else {
            aim >= 2 * held && age >= period
        };
        changes.then(|| {
            self.changed = Some(now);
            aim
        })
    }
}

/// Tokens: so many a second, and so many at most.
#[derive(Clone, Copy, Debug)]
pub struct Bucket {
    rate: u64,
    /// Thousandths of tokens.
    held: u64,
    since: u64,
}

impl Bucket {
    /// A full bucket of so many tokens a second.
    pub fn new(rate: u64) -> Bucket {
        Bucket {
            rate,
            held: 1_000 * rate,
            since: 0,
        }
    }

    /// Takes a token; returns whether there was one.
    pub fn take(&mut self, now: u64) -> bool {
        let gained = (now - self.since).saturating_mul(self.rate);
        self.held = self.held.saturating_add(gained).min(1_000 * self.rate);
        self.since = now;
        let has_one = self.held >= 1_000;
        if has_one {
            self.held -= 1_000;
        }
        has_one
    }
}

#[cfg(test)]
mod tests {
    use super::*;

    #[test]
    fn a_timeout_waits_for_the_round_trip_and_a_variation_of_a_quarter_of_a_second_at_least() {
        let mut trip = RoundTrip::default();
        assert_eq!(trip.timeout_wait(), 1_000);
        // RFC 6298, section 2.2: the variation is half the first sample, 4 times 50 under 250.
        trip.sample(100);
        assert_eq!((trip.time(), trip.timeout_wait()), (Some(100), 350));
        // Section 2.3: 7/8 of 100 and 1/8 of 900 is 200; 3/4 of 50 and 1/4 of 800 is 237.
        trip.sample(900);
        assert_eq!((trip.time(), trip.timeout_wait()), (Some(200), 200 + 948));
        trip.timeout();
        trip.timeout();
        assert_eq!(trip.timeout_wait(), 4 * 1_148);
        for _ in 0..20 {
            trip.timeout();
        }
        assert_eq!(trip.timeout_wait(), LONGEST_WAIT);
        trip.progress();
        assert_eq!(trip.timeout_wait(), 1_148);
    }

    #[test]
    fn an_ack_ratio_has_32_acks_a_window_and_at_most_half_of_it() {
        let of = |window, used, peer_width| {
            aim(Use {
                window,
                used,
                peer_width,
            })
        };
        assert_eq!(of(3, 3, 10_000), 1);
        assert_eq!(of(4, 4, 10_000), 2);
        assert_eq!(of(64, 64, 10_000), 2);
        // 65/32 rounded up.
        assert_eq!(of(65, 65, 10_000), 3);
        assert_eq!(of(1_024, 1_024, 10_000), 32);
        // A voice of 4 in flight under a large window.
        assert_eq!(of(1_024, 8, 10_000), 2);
        // A peer that keeps 100: 4 times 1,024 by 100, rounded up.
        assert_eq!(of(1_024, 1_024, 100), 41);
        // 4 times 40 by 32 is 5; of a window of 8 half is 4.
        assert_eq!(of(8, 40, 32), 4);
    }

    #[test]
    fn an_ack_ratio_falls_at_once_and_rises_from_1_after_five_seconds() {
        let mut ratio = AckRatio::default();
        let of = |window| Use {
            window,
            used: window,
            peer_width: 10_000,
        };
        assert_eq!(ratio.wanted(of(3), 2, 1_000, 200), Some(1));
        assert_eq!(ratio.wanted(of(8), 1, 5_999, 200), None);
        assert_eq!(ratio.wanted(of(8), 1, 6_000, 200), Some(2));
        // 4 is twice 2, and a period has gone by.
        assert_eq!(ratio.wanted(of(128), 2, 6_199, 200), None);
        assert_eq!(ratio.wanted(of(128), 2, 6_200, 200), Some(4));
        // 3 is neither under half of 4 nor over half of the window.
        assert_eq!(ratio.wanted(of(96), 4, 6_201, 200), None);
        assert_eq!(ratio.wanted(of(6), 4, 6_202, 200), Some(2));
    }

    #[test]
    fn a_bucket_has_a_second_of_tokens() {
        let mut bucket = Bucket::new(2);
        let taken: Vec<bool> = [0, 0, 0, 499, 500, 501, 10_000, 10_000, 10_000]
            .map(|now| bucket.take(now))
            .to_vec();
        assert_eq!(
            taken,
            [true, true, false, false, true, false, true, true, false]
        );
    }

    #[test]
    fn numbers_wrap() {
        assert_eq!(distance(NUMBERS - 1, 1), 2);
        assert!(is_at_or_after(1, NUMBERS - 1) && !is_at_or_after(NUMBERS - 1, 1));
    }
}
