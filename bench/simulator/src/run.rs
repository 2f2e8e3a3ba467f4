//! One run of a path: two ends, what one of them sends, and the result.

use crate::end::End;
use crate::ends::{self, Manner, StrangerResult, Wishes, addresses};
use crate::frame::{self, SYNC};
use crate::link::{Link, MILLISECOND, Micros, SECOND, Way};
use crate::random::Random;
use dccp::{Event, Phase};
use std::cmp::Reverse;
use std::collections::BinaryHeap;
use std::ops::Range;
use std::time::{Duration, Instant};

/// What the sender has to send.
#[derive(Clone, Copy, Debug, PartialEq, Eq)]
pub enum Load {
    /// Always a packet of so many bytes.
    Always(usize),
    /// So many bytes each so often; what is refused is dropped.
    Voice(usize, Micros),
    /// Nothing: the client closes as soon as it is open.
    Close,
}

/// Which end sends, and what the server is.
#[derive(Clone, Copy, Debug, PartialEq, Eq)]
pub enum Sender {
    /// The client, to an end.
    Client,
    /// A server's end.
    Server,
    /// The client, to a flow of a listener.
    ToFlow,
    /// A flow of a listener.
    Flow,
}

impl Sender {
    fn is_client(self) -> bool {
        matches!(self, Sender::Client | Sender::ToFlow)
    }

    fn has_flow(self) -> bool {
        matches!(self, Sender::Flow | Sender::ToFlow)
    }
}

/// A path, and what is sent over it.
#[derive(Clone, Debug)]
pub struct Scenario {
    /// The way from the sender.
    pub there: Way,
    /// The way to the sender.
    pub back: Way,
    /// Who sends.
    pub sender: Sender,
    /// What it sends.
    pub load: Load,
    /// The congestion control of the sender, if another than is usual (RFC 4340, section 10).
    pub ccid: Option<u64>,
    /// The part of the run that is measured; the run ends with it.
    pub measured: Range<Micros>,
    /// How many packets a second a stranger sends to the sender, with right ports and addresses and numbers that he guesses.
    pub forged: u64,
    /// Whether the packets of both ends may have short numbers, and those of the stranger do (RFC 4340, section 7.6).
    pub is_short: bool,
}

impl Scenario {
    /// What an end wishes for, the sender or the other.
    fn wishes(&self, is_sender: bool) -> Wishes {
        Wishes {
            ccid: self.ccid.filter(|_| is_sender),
            is_short: self.is_short,
        }
    }
}

/// The result of a run.
#[derive(Clone, Debug, Default)]
pub struct Outcome {
    /// How many packets were delivered in the measured part.
    pub delivered: u64,
    /// How many the sender had to send there, if that has a bound.
    pub offered: u64,
    /// The longest time there without a delivery.
    pub silence: Micros,
    /// How many Syncs the ends sent.
    pub syncs: u64,
    /// How many timeouts were reported to the sender.
    pub timeouts: u64,
    /// How many frames went back to the sender.
    pub frames_back: u64,
    /// How long the closing end waited until its phase was CLOSED or TIMEWAIT.
    pub closing: Option<Micros>,
    /// The sender's window and how many were delivered in all, by time.
    pub course: Vec<Point>,
}

/// A moment of a run.
#[derive(Clone, Copy, Debug)]
pub struct Point {
    /// When.
    pub time: Micros,
    /// The sender's window.
    pub window: u32,
    /// How many packets were delivered up to then.
    pub delivered: u64,
}

/// Something that will happen.
#[derive(Debug, PartialEq, Eq, PartialOrd, Ord)]
enum Delivery {
    ToServer(Vec<u8>),
    ToClient(Vec<u8>),
}

/// How a run is driven: the manners of the client and the server.
pub type Manners = (Manner, Manner);

/// A run that goes on.
#[derive(Debug)]
struct Run {
    /// The instants of the library count from here.
    base: Instant,
    now: Micros,
    client: Box<dyn End>,
    server: Option<Box<dyn End>>,
    to_server: Link,
    to_client: Link,
    coming: BinaryHeap<Reverse<(Micros, u64, Delivery)>>,
    order: u64,
    random: Random,
    scenario: Scenario,
    manners: Manners,
    outcome: Outcome,
    last_delivery: Micros,
    delivered: u64,
    /// When voice speaks next; None before the sender is open.
    next_voice: Option<Micros>,
    next_forged: Micros,
    closed: Option<Micros>,
    has_begun: bool,
}

/// Runs a scenario with the ends driven in these manners.
pub fn run(scenario: &Scenario, manners: Manners, seed: u64) -> Outcome {
    let mut run = Run::new(scenario, manners, seed);
    run.open();
    while run.step() {}
    run.finish()
}

impl Run {
    fn new(scenario: &Scenario, manners: Manners, seed: u64) -> Run {
        let mut random = Random::new(seed);
        let base = Instant::now();
        let wishes = scenario.wishes(scenario.sender.is_client());
        let client = ends::client(manners.0, wishes, random.draw() >> 16, base);
        let (up, down) = if scenario.sender.is_client() {
            (&scenario.there, &scenario.back)
        } else {
            (&scenario.back, &scenario.there)
        };
        Run {
            base,
            now: 0,
            client,
            server: None,
            to_server: Link::new(up.clone(), Random::new(random.draw())),
            to_client: Link::new(down.clone(), Random::new(random.draw())),
            coming: BinaryHeap::new(),
            order: 0,
            random,
            scenario: scenario.clone(),
            manners,
            outcome: Outcome::default(),
            last_delivery: scenario.measured.start,
            delivered: 0,
            next_voice: None,
            next_forged: 0,
            closed: None,
            has_begun: false,
        }
    }

    fn instant(&self) -> Instant {
        self.base + Duration::from_micros(self.now)
    }

    fn open(&mut self) {
        let now = self.instant();
        self.client.open(now);
        self.after_client();
    }

    /// Goes on to what happens next; whether there was something within the run.
    fn step(&mut self) -> bool {
        let base = self.base;
        let micros = |due: Instant| due.saturating_duration_since(base).as_micros() as Micros;
        let coming = self.coming.peek().map(|Reverse((time, ..))| *time);
        let client = self.client.due().map(micros);
        let server = self.server.as_mut().and_then(|it| it.due()).map(micros);
        let voice = self.next_voice;
        let forged = (self.scenario.forged > 0).then_some(self.next_forged);
        let times = [coming, client, server, voice, forged];
        let Some(next) = times.into_iter().flatten().min() else {
            return false;
        };
        if next >= self.scenario.measured.end || self.is_over() {
            return false;
        }
        self.now = self.now.max(next);
        if coming == Some(next) {
            self.arrive();
        } else if forged == Some(next) {
            self.forge();
        } else if voice == Some(next) {
            self.speak();
        } else if client == Some(next) {
            let now = self.instant();
            self.client.tick(now);
            self.after_client();
        } else {
            self.tick_server();
        }
        true
    }

    fn is_over(&self) -> bool {
        self.scenario.load == Load::Close && self.outcome.closing.is_some()
    }

    fn arrive(&mut self) {
        let now = self.instant();
        match self.coming.pop() {
            Some(Reverse((_, _, Delivery::ToClient(frame)))) => {
                self.client.receive(&frame, now);
                self.after_client();
            }
            Some(Reverse((_, _, Delivery::ToServer(frame)))) => {
                match &mut self.server {
                    Some(server) => server.receive(&frame, now),
                    None => self.accept(&frame),
                }
                self.after_server();
            }
            None => {}
        }
    }

    /// Makes the server's end of a Request.
    fn accept(&mut self, frame: &[u8]) {
        let now = self.instant();
        let first = self.random.draw() >> 16;
        let wishes = self.scenario.wishes(!self.scenario.sender.is_client());
        if self.scenario.sender.has_flow() {
            let mut flow = ends::flow(self.manners.1, wishes, first);
            flow.receive(frame, now);
            self.server = Some(flow);
            return;
        }
        match ends::server(self.manners.1, wishes, first, frame, now) {
            StrangerResult::End(end) => self.server = Some(end),
            StrangerResult::Answer(answer) => self.put_to_client(answer),
            StrangerResult::Nothing => {}
        }
    }

    fn tick_server(&mut self) {
        let now = self.instant();
        if let Some(server) = &mut self.server {
            server.tick(now);
        }
        self.after_server();
    }

    fn forge(&mut self) {
        let (here, there) = addresses();
        let number = self.random.draw() >> 16;
        let now = self.instant();
        self.next_forged += SECOND / self.scenario.forged;
        let forged = if self.scenario.is_short {
            frame::forged_short_data
        } else {
            frame::forged_data
        };
        if self.scenario.sender.is_client() {
            let frame = forged(there, here, number);
            self.client.receive(&frame, now);
            self.after_client();
        } else if let Some(server) = &mut self.server {
            let frame = forged(here, there, number);
            server.receive(&frame, now);
            self.after_server();
        }
    }

    fn speak(&mut self) {
        let Load::Voice(bytes, each) = self.scenario.load else {
            return;
        };
        self.next_voice = Some(self.now + each);
        let now = self.instant();
        let is_measured = self.scenario.measured.contains(&self.now);
        self.outcome.offered += u64::from(is_measured);
        let data = vec![0; bytes];
        if let Some(sender) = self.sender() {
            sender.send(&data, now);
        }
        self.after_client();
        self.after_server();
    }

    fn sender(&mut self) -> Option<&mut Box<dyn End>> {
        if self.scenario.sender.is_client() {
            Some(&mut self.client)
        } else {
            self.server.as_mut()
        }
    }

    /// The sender sends what it may.
    fn fill(&mut self) {
        let Load::Always(bytes) = self.scenario.load else {
            return;
        };
        let now = self.instant();
        if let Some(sender) = self.sender() {
            while sender.send(&[0; 1_024][..bytes], now) {}
        }
    }

    /// Silence counts, and voice speaks, once the sender is open.
    fn begin(&mut self) {
        let is_open = self.sender().is_some_and(|it| it.phase() == Phase::Open);
        if self.has_begun || !is_open {
            return;
        }
        self.has_begun = true;
        self.last_delivery = self.last_delivery.max(self.now);
        if matches!(self.scenario.load, Load::Voice(..)) {
            self.next_voice = Some(self.now);
        }
    }

    fn note(&mut self) {
        self.begin();
        let (time, delivered) = (self.now, self.delivered);
        let window = self.sender().map_or(0, |it| it.window());
        if self
            .outcome
            .course
            .last()
            .is_none_or(|it| it.window != window || time >= it.time + 100 * MILLISECOND)
        {
            let point = Point {
                time,
                window,
                delivered,
            };
            self.outcome.course.push(point);
        }
    }

    fn after_client(&mut self) {
        if self.scenario.sender.is_client() {
            self.fill();
        }
        while let Some(frame) = self.client.frame() {
            self.put_to_server(frame);
        }
        while let Some(event) = self.client.event() {
            self.hear(&event, !self.scenario.sender.is_client());
        }
        self.judge_closing();
        if self.scenario.sender.is_client() {
            self.note();
        }
    }

    fn after_server(&mut self) {
        let is_sender = !self.scenario.sender.is_client();
        if is_sender {
            self.fill();
        }
        while let Some(frame) = self.server.as_mut().and_then(|it| it.frame()) {
            self.put_to_client(frame);
        }
        while let Some(event) = self.server.as_mut().and_then(|it| it.event()) {
            self.hear(&event, !is_sender);
        }
        if is_sender {
            self.note();
        }
    }

    /// The client closes as soon as it is open, and how long it takes is noted.
    fn judge_closing(&mut self) {
        if self.scenario.load != Load::Close {
            return;
        }
        let phase = self.client.phase();
        match self.closed {
            None if phase == Phase::Open => {
                self.closed = Some(self.now);
                let now = self.instant();
                self.client.close(now);
                while let Some(frame) = self.client.frame() {
                    self.put_to_server(frame);
                }
            }
            Some(since) if matches!(phase, Phase::Closed | Phase::TimeWait) => {
                self.outcome.closing.get_or_insert(self.now - since);
            }
            _ => {}
        }
    }

    fn hear(&mut self, event: &Event, is_receiver: bool) {
        if !is_receiver || !matches!(event, Event::Data(_)) {
            return;
        }
        self.delivered += 1;
        if self.scenario.measured.contains(&self.now) {
            self.outcome.delivered += 1;
            let gap = self.now - self.last_delivery;
            self.outcome.silence = self.outcome.silence.max(gap);
            self.last_delivery = self.now;
        }
    }

    fn put_to_server(&mut self, frame: Vec<u8>) {
        self.outcome.syncs += u64::from(frame::kind(&frame) == Some(SYNC));
        self.outcome.frames_back += u64::from(!self.scenario.sender.is_client());
        if let Some(time) = self.to_server.carry(frame.len(), self.now) {
            self.put(time, Delivery::ToServer(frame));
        }
    }

    fn put_to_client(&mut self, frame: Vec<u8>) {
        self.outcome.syncs += u64::from(frame::kind(&frame) == Some(SYNC));
        self.outcome.frames_back += u64::from(self.scenario.sender.is_client());
        if let Some(time) = self.to_client.carry(frame.len(), self.now) {
            self.put(time, Delivery::ToClient(frame));
        }
    }

    fn put(&mut self, time: Micros, coming: Delivery) {
        self.order += 1;
        self.coming.push(Reverse((time, self.order, coming)));
    }

    fn finish(mut self) -> Outcome {
        let gap = self.scenario.measured.end - self.last_delivery;
        self.outcome.silence = self.outcome.silence.max(gap);
        self.outcome.timeouts = self.sender().map_or(0, |it| it.timeouts());
        self.outcome
    }
}
