//! An owner that keeps all timers of a connection by the rules of `rules`.

use crate::end::End;
use crate::frame::{self, ACK, DATA_ACK, Numbers, SYNC, SYNC_ACK};
use crate::rules::{
    AckRatio, Bucket, CLOSE_LIMIT, FIRST_ACK_WAIT, LONGEST_ACK_WAIT, LONGEST_PROBE,
    LONGEST_PROBE_WAIT, LONGEST_WAIT, MostInFlight, PROBED_WINDOW, QUESTION_WAIT, REQUEST_LIMIT,
    RESPOND_LIMIT, RoundTrip, SILENCE, SILENCE_LIMIT, Use, distance, is_at_or_after,
};
use dccp::{Connection, Event, Feature, Phase, Place, Timer};
use std::collections::VecDeque;
use std::time::{Duration, Instant};

/// A wait that began at some time.
#[derive(Clone, Copy, Debug)]
struct Alarm {
    since: u64,
    wait: u64,
}

impl Alarm {
    fn due(self) -> u64 {
        self.since + self.wait
    }

    fn again(self, now: u64, longest: u64) -> Alarm {
        Alarm {
            since: now,
            wait: (2 * self.wait).min(longest),
        }
    }
}

/// The timers that double their waits, where they run.
#[derive(Clone, Copy, Debug, Default)]
struct Alarms {
    request: Option<Alarm>,
    ack: Option<Alarm>,
    negotiate: Option<Alarm>,
    close: Option<Alarm>,
    time_wait: Option<Alarm>,
}

/// A question that goes out before a timeout.
#[derive(Clone, Copy, Debug)]
struct Probe {
    number: u64,
    since: u64,
}

/// A connection, and all that its owner keeps of it.
#[derive(Debug)]
pub struct Owner {
    connection: Connection,
    begun: Instant,
    frames: VecDeque<Vec<u8>>,
    events: VecDeque<Event>,
    alarms: Alarms,
    trip: RoundTrip,
    /// The numbers and times of the Requests or Responses.
    asked: Vec<(u64, u64)>,
    timed: Option<(u64, u64)>,
    /// Since when what is in flight waits.
    waits_since: u64,
    greatest: MostInFlight,
    ratio: AckRatio,
    probe: Option<Probe>,
    near: Bucket,
    far: Bucket,
    /// When the phase began, a packet of the peer was taken, and a silent peer was asked.
    phase_since: u64,
    taken: u64,
    questioned: u64,
    phase: Phase,
    timeouts: u64,
}

/// What is read of a connection before a datagram.
struct StateBefore {
    phase: Phase,
    in_flight: u32,
    received: u64,
}

impl Owner {
    /// The owner of a connection that has called nothing yet.
    pub fn new(connection: Connection, now: Instant) -> Owner {
        let phase = connection.phase();
        Owner {
            connection,
            begun: now,
            frames: VecDeque::new(),
            events: VecDeque::new(),
            alarms: Alarms::default(),
            trip: RoundTrip::default(),
            asked: Vec::new(),
            timed: None,
            waits_since: 0,
            greatest: MostInFlight::default(),
            ratio: AckRatio::default(),
            probe: None,
            near: Bucket::new(20),
            far: Bucket::new(1),
            phase_since: 0,
            taken: 0,
            questioned: 0,
            phase,
            timeouts: 0,
        }
    }

    /// The owner of a connection that a Request has made, and which has answered it.
    pub fn accepted(connection: Connection, now: Instant) -> Owner {
        let mut owner = Owner::new(connection, now);
        owner.note_asked(0);
        owner.gather();
        owner.arrange(0);
        owner
    }

    fn time(&self, now: Instant) -> u64 {
        now.saturating_duration_since(self.begun).as_millis() as u64
    }

    /// Keeps the number and the time of a Request or Response.
    fn note_asked(&mut self, time: u64) {
        let sent = self.connection.numbers().greatest_sent;
        if self.asked.len() < 16 && self.asked.last().is_none_or(|(number, _)| *number != sent) {
            self.asked.push((sent, time));
        }
    }

    /// Takes the frames and events of the connection. Returns whether data came, and whether an acknowledgement goes out.
    fn gather(&mut self) -> (bool, bool) {
        let (mut delivers, mut acknowledges) = (false, false);
        while let Some(frame) = self.connection.poll_transmit() {
            acknowledges |= matches!(frame::kind(&frame.bytes), Some(ACK | DATA_ACK));
            self.frames.push_back(frame.bytes);
        }
        while let Some(event) = self.connection.poll_event() {
            delivers |= matches!(event, Event::Data(_));
            self.events.push_back(event);
        }
        (delivers, acknowledges)
    }

    fn is_open(&self) -> bool {
        matches!(self.connection.phase(), Phase::PartOpen | Phase::Open)
    }

    /// Begins the timers that run from now on, and ends those that run no more.
    fn arrange(&mut self, time: u64) {
        let phase = self.connection.phase();
        if phase != self.phase {
            if phase == Phase::Open {
                self.waits_since = time;
            }
            self.phase = phase;
            self.phase_since = time;
            self.taken = time;
        }
        let negotiate = self.negotiate_wait();
        let close = self.trip.close_wait();
        let arrange = |alarm: &mut Option<Alarm>, runs: bool, wait| {
            *alarm = runs.then(|| alarm.unwrap_or(Alarm { since: time, wait }));
        };
        let is_open = self.is_open();
        let is_closing = matches!(phase, Phase::CloseReq | Phase::Closing);
        arrange(&mut self.alarms.request, phase == Phase::Request, 1_000);
        arrange(&mut self.alarms.ack, is_open, FIRST_ACK_WAIT);
        arrange(&mut self.alarms.negotiate, is_open, negotiate);
        arrange(&mut self.alarms.close, is_closing, close);
        arrange(
            &mut self.alarms.time_wait,
            phase == Phase::TimeWait,
            240_000,
        );
        if !is_open {
            self.probe = None;
        }
        let in_flight = self.connection.in_flight();
        self.greatest.see(in_flight, time, self.period());
    }

    fn period(&self) -> u64 {
        self.trip.time().unwrap_or(0).max(200)
    }

    fn negotiate_wait(&self) -> u64 {
        let wait = self.trip.negotiate_wait();
        match self.probe {
            Some(_) => wait.min(LONGEST_PROBE_WAIT),
            None => wait,
        }
    }

    /// Asks for a value of one of its features, and waits for the answer.
    fn prefer(&mut self, feature: Feature, value: u64, now: Instant, time: u64) {
        // This is never refused: the connection is open, and the value is permitted.
        let _ = self.connection.prefer(feature, Place::Here, &[value], now);
        let wait = self.negotiate_wait();
        self.alarms.negotiate = Some(Alarm { since: time, wait });
        self.gather();
    }

    fn own(&mut self, feature: Feature) -> (u64, bool) {
        let held = self.connection.feature(feature, Place::Here);
        (held.value, held.is_stable)
    }

    /// Changes the Ack Ratio, if the rule says so.
    fn judge_ratio(&mut self, now: Instant, time: u64) {
        if !self.is_open() || self.probe.is_some() || self.own(Feature::Ccid).0 != 2 {
            return;
        }
        let (held, is_stable) = self.own(Feature::AckRatio);
        if !is_stable {
            return;
        }
        let window = self.connection.window();
        let width = self
            .connection
            .feature(Feature::SequenceWindow, Place::There);
        let it = Use {
            window,
            used: self.greatest.used(window),
            peer_width: width.value,
        };
        if let Some(value) = self.ratio.wanted(it, held, time, self.period()) {
            self.prefer(Feature::AckRatio, value, now, time);
        }
    }

    /// Reports a timeout to the connection.
    fn tell_timeout(&mut self, now: Instant, time: u64) {
        self.probe = None;
        if self.connection.handle_timer(Timer::Rto, now) {
            self.timeouts += 1;
            self.trip.timeout();
            self.timed = None;
            self.waits_since = time;
            self.judge_ratio(now, time);
        }
        self.gather();
    }

    /// What is in flight has waited too long: a question goes out first, if the window is large.
    fn overdue(&mut self, now: Instant, time: u64) {
        if self.probe.is_some() || self.connection.window() < PROBED_WINDOW {
            self.tell_timeout(now, time);
            return;
        }
        let (held, is_stable) = self.own(Feature::AckRatio);
        let number = distance(0, self.connection.numbers().greatest_sent + 1);
        let since = time;
        self.probe = Some(Probe { number, since });
        if is_stable {
            self.prefer(Feature::AckRatio, held, now, time);
        } else {
            self.connection.handle_timer(Timer::Negotiate, now);
            let wait = self.negotiate_wait();
            self.alarms.negotiate = Some(Alarm { since, wait });
            self.gather();
        }
    }

    /// When the timer rto runs out, or a probe stays without an answer.
    fn timeout_due(&self) -> Option<u64> {
        if self.connection.phase() != Phase::Open || self.connection.in_flight() == 0 {
            return None;
        }
        Some(match self.probe {
            None => self.waits_since + self.trip.timeout_wait(),
            Some(probe) => probe.since + LONGEST_PROBE,
        })
    }

    /// When the connection is given up, or asked for a sign of life.
    fn limit_due(&self) -> Option<u64> {
        match self.connection.phase() {
            Phase::Request => Some(self.phase_since + REQUEST_LIMIT),
            Phase::Respond => Some(self.phase_since + RESPOND_LIMIT),
            Phase::CloseReq | Phase::Closing => Some(self.phase_since + CLOSE_LIMIT),
            Phase::PartOpen | Phase::Open => {
                let question = (self.taken + SILENCE).max(self.questioned + QUESTION_WAIT);
                Some(question.min(self.taken + SILENCE_LIMIT))
            }
            // CLOSED, LISTEN and TIMEWAIT, and what later versions of the crate add.
            _ => None,
        }
    }

    fn over_limit(&mut self, now: Instant, time: u64) {
        if self.is_open() && time < self.taken + SILENCE_LIMIT {
            self.questioned = time;
            let (held, is_stable) = self.own(Feature::AckRatio);
            if is_stable {
                self.prefer(Feature::AckRatio, held, now, time);
            } else {
                self.connection.handle_timer(Timer::Negotiate, now);
            }
        } else {
            // The phase is one in which it may be aborted.
            let _ = self.connection.abort(now);
        }
    }

    /// Whether a datagram would be answered by a Sync (RFC 4340, section 7.5.3) for which no token is left.
    fn is_left_out(&mut self, datagram: &[u8], time: u64) -> bool {
        if self.connection.phase() != Phase::Open {
            return false;
        }
        let own = self.connection.numbers();
        let numbers = frame::numbers(datagram, own.greatest_received, own.greatest_sent);
        let Some(numbers) = numbers else {
            return false;
        };
        if matches!(numbers.kind, SYNC | SYNC_ACK) || self.is_valid(numbers) {
            return false;
        }
        let ahead = distance(own.greatest_received, numbers.own);
        let after = distance(numbers.own, own.greatest_received);
        if ahead.min(after) < 1 << 24 {
            !self.near.take(time)
        } else {
            !self.far.take(time)
        }
    }

    fn is_valid(&mut self, it: Numbers) -> bool {
        let numbers = self.connection.numbers();
        let peers = self
            .connection
            .feature(Feature::SequenceWindow, Place::There)
            .value;
        let own = self.own(Feature::SequenceWindow).0;
        let lowest = distance(peers / 4, numbers.greatest_received + 1);
        let oldest = distance(own, numbers.greatest_sent + 1);
        distance(lowest, it.own) < peers
            && it
                .acknowledged
                .is_none_or(|number| distance(oldest, number) < own)
    }

    /// What follows a datagram that the connection has heard.
    fn heard(&mut self, before: &StateBefore, now: Instant, time: u64) {
        let (delivers, acknowledges) = self.gather();
        let numbers = self.connection.numbers();
        if numbers.greatest_received != before.received {
            self.taken = time;
        }
        self.sample(before.phase, time);
        if self.connection.in_flight() < before.in_flight {
            self.trip.progress();
            self.waits_since = time;
        }
        self.arrange(time);
        if let Some(ack) = &mut self.alarms.ack
            && delivers
            && ack.wait > FIRST_ACK_WAIT
        {
            (ack.since, ack.wait) = (time, FIRST_ACK_WAIT);
        }
        let has_hole = distance(before.received, numbers.greatest_received) > 1
            && is_at_or_after(numbers.greatest_received, before.received);
        if delivers && has_hole && !acknowledges {
            self.connection.handle_timer(Timer::Ack, now);
            self.gather();
        }
        let answered = |it: Probe| is_at_or_after(numbers.greatest_acknowledged, it.number);
        if self.probe.is_some_and(answered) {
            self.probe = None;
            if self.connection.in_flight() > 0 {
                self.tell_timeout(now, time);
            }
        }
        self.judge_ratio(now, time);
        self.arrange(time);
    }

    /// Takes a sample of the round trip, if a packet that was timed is acknowledged.
    fn sample(&mut self, before: Phase, time: u64) {
        let acknowledged = self.connection.numbers().greatest_acknowledged;
        let phase = self.connection.phase();
        if matches!(before, Phase::Request | Phase::Respond) && phase != before {
            let asked = self
                .asked
                .iter()
                .find(|(number, _)| *number == acknowledged);
            if let Some((_, sent)) = asked {
                self.trip.sample(time - sent);
            }
            self.asked.clear();
        } else if phase == Phase::Respond {
            self.note_asked(time);
        }
        if let Some((number, sent)) = self.timed
            && is_at_or_after(acknowledged, number)
        {
            self.timed = None;
            self.trip.sample(time - sent);
        }
    }

    /// The timers that have run out at this time, one after the other.
    fn ring(&mut self, now: Instant, time: u64) {
        let has_run_out = |alarm: Option<Alarm>| alarm.filter(|it| it.due() <= time);
        if let Some(alarm) = has_run_out(self.alarms.request) {
            self.connection.handle_timer(Timer::Request, now);
            self.note_asked(time);
            self.alarms.request = Some(alarm.again(time, LONGEST_WAIT));
        }
        if let Some(alarm) = has_run_out(self.alarms.ack) {
            self.connection.handle_timer(Timer::Ack, now);
            self.alarms.ack = Some(alarm.again(time, LONGEST_ACK_WAIT));
        }
        if let Some(alarm) = has_run_out(self.alarms.negotiate) {
            self.connection.handle_timer(Timer::Negotiate, now);
            let longest = match self.probe {
                Some(_) => LONGEST_PROBE_WAIT,
                None => LONGEST_WAIT,
            };
            self.alarms.negotiate = Some(alarm.again(time, longest));
        }
        if let Some(alarm) = has_run_out(self.alarms.close) {
            self.connection.handle_timer(Timer::Close, now);
            self.alarms.close = Some(alarm.again(time, LONGEST_WAIT));
        }
        if has_run_out(self.alarms.time_wait).is_some() {
            self.connection.handle_timer(Timer::TimeWait, now);
        }
    }
}

impl End for Owner {
    fn open(&mut self, now: Instant) {
        let time = self.time(now);
        self.connection.open(now).expect("it is fresh");
        self.note_asked(time);
        self.gather();
        self.arrange(time);
    }

    fn receive(&mut self, datagram: &[u8], now: Instant) {
        let time = self.time(now);
        if self.is_left_out(datagram, time) {
            return;
        }
        let before = StateBefore {
            phase: self.connection.phase(),
            in_flight: self.connection.in_flight(),
            received: self.connection.numbers().greatest_received,
        };
        self.connection.handle_datagram(datagram, now);
        self.heard(&before, now, time);
    }

    fn send(&mut self, data: &[u8], now: Instant) -> bool {
        let had = self.connection.in_flight();
        if had >= self.connection.window() || self.connection.send(data, now).is_err() {
            return false;
        }
        let time = self.time(now);
        if self.timed.is_none() {
            self.timed = Some((self.connection.numbers().greatest_sent, time));
        }
        if had == 0 {
            self.waits_since = time;
        }
        self.gather();
        self.arrange(time);
        true
    }

    fn close(&mut self, now: Instant) {
        // It may have been closed by the peer.
        let _ = self.connection.close(now);
        self.gather();
        self.arrange(self.time(now));
    }

    fn due(&mut self) -> Option<Instant> {
        let alarms = self.alarms;
        let waits = [
            alarms.request,
            alarms.ack,
            alarms.negotiate,
            alarms.close,
            alarms.time_wait,
        ];
        let first = waits.into_iter().flatten().map(Alarm::due).min();
        let others = [self.timeout_due(), self.limit_due()];
        let first = first
            .into_iter()
            .chain(others.into_iter().flatten())
            .min()?;
        Some(self.begun + Duration::from_millis(first))
    }

    fn tick(&mut self, now: Instant) {
        let time = self.time(now);
        self.ring(now, time);
        if self.timeout_due().is_some_and(|due| due <= time) {
            self.overdue(now, time);
        }
        if self.limit_due().is_some_and(|due| due <= time) {
            self.over_limit(now, time);
        }
        self.gather();
        self.arrange(time);
    }

    fn frame(&mut self) -> Option<Vec<u8>> {
        self.frames.pop_front()
    }

    fn event(&mut self) -> Option<Event> {
        self.events.pop_front()
    }

    fn phase(&mut self) -> Phase {
        self.connection.phase()
    }

    fn window(&mut self) -> u32 {
        self.connection.window()
    }

    fn timeouts(&self) -> u64 {
        self.timeouts
    }
}
