//! The paths that are measured, and the figure that each has to reach.

use crate::link::{Capacity, Loss, MILLISECOND, Micros, SECOND, Way};
use crate::run::{Load, Outcome, Scenario, Sender};

/// What a row has to reach.
#[derive(Clone, Copy, Debug)]
pub enum Goal {
    /// At least this share, of what the link carries or of what voice has to say; the mean over the seeds.
    Share(f64),
    /// At most so long without a delivery; the mean over the seeds.
    Silence(Micros),
    /// No timeout at all.
    NoTimeout,
    /// The closing end waits at most so long, in 99 of 100 runs.
    Closes(Micros),
}

/// A path with a name.
#[derive(Clone, Debug)]
pub struct Row {
    /// The word that names it.
    pub name: String,
    /// What it is like.
    pub title: String,
    /// The path, and what is sent.
    pub scenario: Scenario,
    /// What it has to reach.
    pub goals: Vec<Goal>,
    /// Whether the peer of the sender is driven in the classic manner in all columns.
    pub has_classic_peer: bool,
    /// How many seeds are run.
    pub seeds: u64,
}

/// The result of a row: the outcomes of its seeds.
#[derive(Clone, Debug)]
pub struct Result {
    /// One for each seed.
    pub outcomes: Vec<Outcome>,
}

/// A way of so many full packets a second and half this round trip.
fn way(rate: u64, round_trip: Micros, queue: usize) -> Way {
    Way {
        capacity: Capacity::Packets(rate),
        delay: round_trip * MILLISECOND / 2,
        queue,
        loss: Loss::Never,
        jitter: 0,
        outage: 0..0,
    }
}

/// A path whose ways are alike, on which the client sends all that it may for so many seconds.
fn path(rate: u64, round_trip: u64, queue: usize, seconds: u64) -> Scenario {
    let way = way(rate, round_trip, queue);
    Scenario {
        there: way.clone(),
        back: way,
        sender: Sender::Client,
        load: Load::Always(1_024),
        ccid: None,
        measured: 0..seconds * SECOND,
        forged: 0,
        is_short: false,
    }
}

impl Scenario {
    fn from(mut self, sender: Sender) -> Scenario {
        self.sender = sender;
        self
    }

    fn losing(mut self, probability: f64) -> Scenario {
        self.there.loss = Loss::Each(probability);
        self.back.loss = Loss::Each(probability);
        self
    }

    fn losing_back(mut self, share: f64, length: u64) -> Scenario {
        self.back.loss = Loss::Bursts {
            share,
            length: length * MILLISECOND,
        };
        self
    }

    fn narrow_back(mut self, capacity: Capacity, queue: usize) -> Scenario {
        self.back.capacity = capacity;
        self.back.queue = queue;
        self
    }

    fn shaking(mut self, jitter: u64) -> Scenario {
        self.there.jitter = jitter * MILLISECOND;
        self.back.jitter = jitter * MILLISECOND;
        self
    }

    /// Nothing goes through for so long after 20 seconds, and the 30 seconds after that are measured.
    fn interrupted(mut self, length: u64) -> Scenario {
        let begin = 20 * SECOND;
        let end = begin + length * MILLISECOND;
        self.there.outage = begin..end;
        self.back.outage = begin..end;
        self.measured = end..end + 30 * SECOND;
        self
    }

    fn forged(mut self, each_second: u64) -> Scenario {
        self.forged = each_second;
        self
    }

    fn with_short_numbers(mut self) -> Scenario {
        self.is_short = true;
        self
    }

    /// 160 bytes each 20 milliseconds for two minutes.
    fn voice(mut self, ccid: Option<u64>) -> Scenario {
        self.load = Load::Voice(160, 20 * MILLISECOND);
        self.measured = 0..120 * SECOND;
        self.ccid = ccid;
        self
    }

    fn closing(mut self) -> Scenario {
        self.load = Load::Close;
        self.measured = 0..3_600 * SECOND;
        self
    }

    /// Whether the seed decides anything except the first numbers.
    fn is_drawn(&self) -> bool {
        let is_drawn = |way: &Way| way.jitter > 0 || !matches!(way.loss, Loss::Never);
        self.forged > 0 || is_drawn(&self.there) || is_drawn(&self.back)
    }

    /// How many full packets the way carries in the measured part.
    fn carried(&self) -> f64 {
        let seconds = (self.measured.end - self.measured.start) as f64 / SECOND as f64;
        match self.there.capacity {
            Capacity::Packets(rate) | Capacity::Frames(rate) => rate as f64 * seconds,
        }
    }

    /// The share of an outcome: of what the link carries, or of what voice had to say.
    pub fn share(&self, outcome: &Outcome) -> f64 {
        match self.load {
            Load::Voice(..) => outcome.delivered as f64 / outcome.offered as f64,
            Load::Always(_) | Load::Close => outcome.delivered as f64 / self.carried(),
        }
    }
}

/// How many seeds are run where something on the path is drawn, and where nothing is except the first numbers.
const SEEDS: u64 = 10;
const SEEDS_UNDRAWN: u64 = 3;

fn row(name: &str, title: &str, scenario: Scenario, goals: &[Goal]) -> Row {
    let seeds = if scenario.is_drawn() {
        SEEDS
    } else {
        SEEDS_UNDRAWN
    };
    Row {
        name: name.to_owned(),
        title: title.to_owned(),
        scenario,
        goals: goals.to_vec(),
        has_classic_peer: false,
        seeds,
    }
}

impl Row {
    fn with_classic_peer(mut self) -> Row {
        self.has_classic_peer = true;
        self
    }

    fn of_seeds(mut self, seeds: u64) -> Row {
        self.seeds = seeds;
        self
    }

    /// The same path, where a listener's flow sends in place of the client. Its silence has no figure: by the rules, where the Ack with the client's
    /// Confirms is lost, no data go until the flow has asked again.
    fn of_flow(self) -> Row {
        let has_figure = |goal: &Goal| !matches!(goal, Goal::Silence(_));
        let goals = self.goals.into_iter().filter(has_figure).collect();
        Row {
            name: format!("flow-{}", self.name),
            title: format!("flow: {}", self.title),
            scenario: self.scenario.from(Sender::Flow),
            goals,
            ..self
        }
    }
}

/// All rows.
pub fn rows() -> Vec<Row> {
    [bulk(), lossy(), voice(), flows()].concat()
}

/// Each path on which an end that sends data by itself has a figure to reach, where a listener's flow sends.
fn flows() -> Vec<Row> {
    let sends =
        |row: &Row| row.scenario.sender == Sender::Client && row.scenario.load != Load::Close;
    let rows = [bulk(), lossy(), voice()].concat().into_iter();
    rows.filter(|row| sends(row) && !row.has_classic_peer && !row.goals.is_empty())
        .map(Row::of_flow)
        .collect()
}

/// Paths that lose only what their queues cannot take.
fn bulk() -> Vec<Row> {
    let long = path(6_000, 100, 600, 60);
    vec![
        row(
            "long",
            "6,000/s, RTT 100, queue 600",
            long.clone(),
            &[Goal::Share(0.98)],
        ),
        row(
            "long-classic-peer",
            "the same, the peer classic",
            long.clone(),
            &[Goal::Share(0.95)],
        )
        .with_classic_peer(),
        row(
            "long-server",
            "the same, the server sends",
            long.clone().from(Sender::Server),
            &[Goal::Share(0.98)],
        ),
        row(
            "long-to-flow",
            "the same, to a listener's flow",
            long.clone().from(Sender::ToFlow),
            &[Goal::Share(0.98)],
        ),
        row(
            "fast",
            "100,000/s, RTT 4, queue 300",
            path(100_000, 4, 300, 10),
            &[Goal::Share(0.98)],
        ),
        row(
            "satellite",
            "40/s, RTT 1,200, queue 50",
            path(40, 1_200, 50, 120),
            &[Goal::Share(0.93), Goal::NoTimeout],
        ),
        row(
            "slow",
            "10/s, RTT 3,000, queue 50",
            path(10, 3_000, 50, 300),
            &[Goal::Share(0.93)],
        ),
        row(
            "narrow-back",
            "6,000/s, RTT 100, back 30 frames/s",
            path(6_000, 100, 300, 60).narrow_back(Capacity::Packets(30), 10),
            &[Goal::Share(0.93)],
        ),
        row(
            "few-frames-back",
            "the same, back 30 frames/s of any length",
            path(6_000, 100, 300, 60).narrow_back(Capacity::Frames(30), 10),
            &[],
        ),
        row(
            "outage",
            "6,000/s, RTT 100, 30 s after 1 s of outage",
            long.clone().interrupted(1_000),
            &[Goal::Share(0.75)],
        ),
        row(
            "forged",
            "1,200/s, RTT 40, 1,000 forged/s",
            path(1_200, 40, 100, 60).forged(1_000),
            &[Goal::Share(0.98)],
        ),
        // No figure is due: once in 1,678 times a guess of 24 bits lies in a window of 10,000, and is taken (RFC 4340, section 7.6.2).
        row(
            "forged-short",
            "the same, and all numbers short",
            path(1_200, 40, 100, 60).forged(1_000).with_short_numbers(),
            &[],
        ),
    ]
}

/// Paths that lose at random.
fn lossy() -> Vec<Row> {
    let short = path(1_200, 40, 100, 60);
    let losing = |share| short.clone().losing(share);
    vec![
        row(
            "lossy-1",
            "1,200/s, RTT 40, loss 1%",
            losing(0.01),
            &[Goal::Share(0.24)],
        ),
        row(
            "lossy-5",
            "1,200/s, RTT 40, loss 5%",
            losing(0.05),
            &[Goal::Share(0.110), Goal::Silence(500 * MILLISECOND)],
        ),
        row(
            "lossy-10",
            "1,200/s, RTT 40, loss 10%",
            losing(0.10),
            &[Goal::Share(0.055)],
        ),
        row(
            "bursts-back",
            "6,000/s, Acks lost 10% in bursts of 20 ms",
            path(6_000, 100, 600, 60).losing_back(0.10, 20),
            &[],
        ),
        row(
            "jitter",
            "1,200/s, RTT 40, jitter 10 ms",
            short.clone().shaking(10),
            &[],
        ),
        row(
            "close-20",
            "close at 20% loss, RTT 40",
            losing(0.20).closing(),
            &[Goal::Closes(1_600 * MILLISECOND)],
        )
        .of_seeds(1_000),
    ]
}

/// Voice over paths that lose at random: name, title, round trip and loss, and the goals with CCID 2 and with CCID 248.
type Voice = (
    [&'static str; 2],
    [&'static str; 2],
    u64,
    f64,
    [&'static [Goal]; 2],
);

/// At most this silence of voice by CCID 248.
const SHORT: Goal = Goal::Silence(100 * MILLISECOND);

const VOICES: [Voice; 8] = [
    (
        ["voice-0", "voice-248-0"],
        ["voice, RTT 40", "voice by CCID 248, RTT 40"],
        40,
        0.0,
        [&[], &[]],
    ),
    (
        ["voice-1", "voice-248-1"],
        [
            "voice, RTT 40, loss 1%",
            "voice by CCID 248, RTT 40, loss 1%",
        ],
        40,
        0.01,
        [&[], &[]],
    ),
    (
        ["voice-5", "voice-248-5"],
        [
            "voice, RTT 40, loss 5%",
            "voice by CCID 248, RTT 40, loss 5%",
        ],
        40,
        0.05,
        [&[Goal::Share(0.90)], &[Goal::Share(0.949), SHORT]],
    ),
    (
        ["voice-10", "voice-248-10"],
        [
            "voice, RTT 40, loss 10%",
            "voice by CCID 248, RTT 40, loss 10%",
        ],
        40,
        0.10,
        [&[Goal::Share(0.68)], &[Goal::Share(0.895), SHORT]],
    ),
    (
        ["voice-far-0", "voice-far-248-0"],
        ["voice, RTT 200", "voice by CCID 248, RTT 200"],
        200,
        0.0,
        [&[], &[]],
    ),
    (
        ["voice-far-1", "voice-far-248-1"],
        [
            "voice, RTT 200, loss 1%",
            "voice by CCID 248, RTT 200, loss 1%",
        ],
        200,
        0.01,
        [&[], &[]],
    ),
    (
        ["voice-far-5", "voice-far-248-5"],
        [
            "voice, RTT 200, loss 5%",
            "voice by CCID 248, RTT 200, loss 5%",
        ],
        200,
        0.05,
        [&[], &[]],
    ),
    (
        ["voice-far-10", "voice-far-248-10"],
        [
            "voice, RTT 200, loss 10%",
            "voice by CCID 248, RTT 200, loss 10%",
        ],
        200,
        0.10,
        [&[], &[]],
    ),
];

fn voice() -> Vec<Row> {
    let rows = |(names, titles, round_trip, loss, goals): Voice| {
        let path = path(1_200, round_trip, 100, 120).losing(loss);
        [None, Some(248)]
            .into_iter()
            .enumerate()
            .map(move |(at, ccid)| row(names[at], titles[at], path.clone().voice(ccid), goals[at]))
    };
    VOICES.into_iter().flat_map(rows).collect()
}

impl Result {
    fn mean(&self, of: impl Fn(&Outcome) -> f64) -> f64 {
        self.outcomes.iter().map(of).sum::<f64>() / self.outcomes.len() as f64
    }

    /// The mean share.
    pub fn share(&self, scenario: &Scenario) -> f64 {
        self.mean(|it| scenario.share(it))
    }

    /// The mean of the longest silences, in milliseconds.
    pub fn silence(&self) -> f64 {
        self.mean(|it| it.silence as f64 / MILLISECOND as f64)
    }

    /// The mean of timeouts.
    pub fn timeouts(&self) -> f64 {
        self.mean(|it| it.timeouts as f64)
    }

    /// The mean of Syncs.
    pub fn syncs(&self) -> f64 {
        self.mean(|it| it.syncs as f64)
    }

    /// The mean of frames that went back.
    pub fn frames_back(&self) -> f64 {
        self.mean(|it| it.frames_back as f64)
    }

    /// The wait of the closing end that 99 of 100 do not exceed, in milliseconds; a run that did not close counts as one without an end.
    pub fn closing(&self) -> f64 {
        let waits = self
            .outcomes
            .iter()
            .map(|it| it.closing.unwrap_or(Micros::MAX));
        let mut waits: Vec<Micros> = waits.collect();
        waits.sort_unstable();
        let place = (waits.len() * 99).div_ceil(100).max(1) - 1;
        waits[place] as f64 / MILLISECOND as f64
    }

    /// Which goals are not reached, each in words; none if nothing was run.
    pub fn misses(&self, row: &Row) -> Vec<String> {
        if self.outcomes.is_empty() {
            return Vec::new();
        }
        let miss = |goal: &Goal| match *goal {
            Goal::Share(least) => {
                let share = self.share(&row.scenario);
                (share < least).then(|| format!("share {share:.3} under {least}"))
            }
            Goal::Silence(most) => {
                let (silence, most) = (self.silence(), most / MILLISECOND);
                (silence > most as f64).then(|| format!("silence {silence:.0} ms over {most}"))
            }
            Goal::NoTimeout => {
                let timeouts = self.timeouts();
                (timeouts > 0.0).then(|| format!("{timeouts} timeouts"))
            }
            Goal::Closes(most) => {
                let (wait, most) = (self.closing(), most / MILLISECOND);
                (wait > most as f64).then(|| format!("close {wait:.0} ms over {most}"))
            }
        };
        row.goals.iter().filter_map(miss).collect()
    }
}
