//! One connection of a driver, shared by its owner and the driver's thread.

use super::agenda::Agenda;
use super::options::Options;
use super::system::CAN_LOOK;
use super::wire::Wire;
use super::{End, Error};
use crate::frames::Frames;
use crate::{Connection, Event, Phase, SendError, Statistics};
use std::collections::VecDeque;
use std::iter;
use std::mem;
use std::net::SocketAddr;
use std::sync::{Arc, Condvar, Mutex, MutexGuard, PoisonError};
use std::thread;
use std::time::{Duration, Instant};

/// How long an ended connection is kept for late packets, and a dropped one waits for what is in flight.
const LINGER: Duration = Duration::from_secs(2);

/// How long a peer with a short round trip waits before it repeats its Close, by its timer close; the next wait is twice as long.
const REPEAT: Duration = Duration::from_millis(100);

/// How many Syncs and Resets answer the packets of a connection in a second (RFC 4340, sections 7.5.4 and 8.3.1; the number is own).
const ANSWERS: u32 = 20;

/// The Reset Code of a peer that does not know the connection (RFC 4340, section 5.6).
const NO_CONNECTION: u8 = 3;

/// Data that are sent within this time of others are handed to the system together, by the driver.
const QUICK: Duration = Duration::from_micros(20);

/// How many frames are left to the driver. A thread that sends more hands them over.
const MOST_LEFT: usize = 32;

/// How many packets may wait before a reader is woken although more arrive.
const MUCH: usize = 64;

/// How many of something may be done in each second.
pub(super) struct Limit {
    most: u32,
    done: u32,
    second: Instant,
}

impl Limit {
    pub(super) fn new(most: u32, now: Instant) -> Limit {
        Limit {
            most,
            done: 0,
            second: now,
        }
    }

    /// Whether one more may be done; if so, it counts.
    pub(super) fn may(&mut self, now: Instant) -> bool {
        if self.second + Duration::from_secs(1) <= now {
            (self.second, self.done) = (now, 0);
        }
        self.done = self.done.saturating_add(1);
        self.done <= self.most
    }
}

/// How long a call waits.
#[derive(Clone, Copy)]
pub(super) enum Wait {
    Not,
    Until(Instant),
    Ever,
}

impl Wait {
    pub(super) fn of(wait: Duration) -> Wait {
        Instant::now()
            .checked_add(wait)
            .map_or(Wait::Ever, Wait::Until)
    }
}

/// The data that have arrived and wait to be read.
struct Inbox {
    packets: VecDeque<Vec<u8>>,
    /// How many packets may wait, and how many were dropped because so many did.
    most: usize,
    dropped: u64,
    /// Buffers of packets that were read, for further ones.
    spare: Vec<Vec<u8>>,
}

/// How many buffers of packets are kept.
const MOST_SPARE: usize = 128;

impl Inbox {
    fn new(most: usize) -> Inbox {
        Inbox {
            packets: VecDeque::new(),
            most,
            dropped: 0,
            spare: Vec::new(),
        }
    }

    fn keep(&mut self, data: &[u8]) {
        if self.most <= self.packets.len() {
            self.dropped += 1;
            return;
        }
        let mut room = self.spare.pop().unwrap_or_default();
        room.clear();
        room.extend_from_slice(data);
        self.packets.push_back(room);
    }

    /// The next packet.
    fn take(&mut self) -> Option<Vec<u8>> {
        self.packets.pop_front()
    }

    /// Replaces these data by the next packet, and keeps their buffer.
    fn exchange(&mut self, data: &mut Vec<u8>) -> Option<()> {
        let read = mem::replace(data, self.packets.pop_front()?);
        if self.spare.len() < MOST_SPARE {
            self.spare.push(read);
        }
        Some(())
    }

    /// Keeps the buffers of packets that were read, as many as there is room for.
    fn keep_buffers(&mut self, packets: &mut Vec<Vec<u8>>) {
        let room = MOST_SPARE - self.spare.len();
        self.spare.extend(packets.drain(..).take(room));
    }
}

/// The data that wait to be read, here or in the end.
pub(super) struct WaitingData<'a> {
    inbox: &'a mut Inbox,
    connection: &'a mut Connection,
}

impl WaitingData<'_> {
    /// The next packet.
    pub(super) fn take(&mut self) -> Option<Vec<u8>> {
        self.inbox.take().or_else(|| self.connection.read())
    }

    /// Replaces these data by the next packet.
    pub(super) fn exchange(&mut self, data: &mut Vec<u8>) -> Option<()> {
        self.inbox.exchange(data).or_else(|| {
            *data = self.connection.read()?;
            Some(())
        })
    }

    /// Replaces these by all packets that wait, and keeps their buffers; None if none wait, and then these stay.
    pub(super) fn take_all(&mut self, packets: &mut Vec<Vec<u8>>) -> Option<usize> {
        let first = self.take()?;
        self.inbox.keep_buffers(packets);
        packets.push(first);
        packets.extend(self.inbox.packets.drain(..));
        packets.extend(iter::from_fn(|| self.connection.read()));
        Some(packets.len())
    }
}

struct State {
    connection: Connection,
    inbox: Inbox,
    /// Whether data wait in the end.
    is_holding: bool,
    end: Option<(End, Instant)>,
    /// Whether this end was closing before the last datagrams came.
    was_closing: bool,
    /// When a packet of the peer was taken last, or this end began to wait for one.
    heard: Instant,
    let_go: Option<Instant>,
    patience: Duration,
    idle: Duration,
    answers: Limit,
    answers_left_out: u64,
    /// Its time on the agenda.
    scheduled: Option<Instant>,
    /// When data were sent last.
    sent: Option<Instant>,
    /// Whether frames are left to the driver.
    are_left: bool,
    is_announced: bool,
    readers: u32,
    writers: u32,
}

impl State {
    fn is_open(&self) -> bool {
        matches!(self.connection.phase(), Phase::PartOpen | Phase::Open)
    }

    /// Whether to wake a writer that sleeps: if a quarter of the window is free, so that not every Ack wakes one.
    fn has_room(&self) -> bool {
        let window = self.connection.window();
        window <= 4 * window.saturating_sub(self.connection.in_flight())
    }

    fn hear<'a>(&mut self, datagrams: impl Iterator<Item = &'a [u8]>, now: Instant) {
        let phase = self.connection.phase();
        self.was_closing = matches!(phase, Phase::CloseReq | Phase::Closing);
        let taken = self.connection.taken();
        let (connection, inbox) = (&mut self.connection, &mut self.inbox);
        connection.receive_all(datagrams, now, |data| inbox.keep(data));
        if self.connection.taken() != taken {
            self.heard = now;
        }
    }

    /// Takes the events of the connection.
    fn gather(&mut self, now: Instant) {
        while let Some(event) = self.connection.poll_event() {
            match event {
                Event::Data(data) => self.inbox.keep(&data),
                // They are read from the end, which counts what it drops.
                Event::Waits | Event::Dropped { .. } => {}
                Event::Ended {
                    code: NO_CONNECTION,
                } if !self.was_closing => self.ended(End::Forgotten, now),
                Event::Ended { code } => self.ended(End::Reset { code }, now),
                Event::Anew => self.ended(End::Anew, now),
            }
        }
    }

    /// How many packets wait to be read.
    fn waiting(&mut self) -> usize {
        let held = if self.is_holding {
            self.connection.held()
        } else {
            0
        };
        self.inbox.packets.len() + held
    }

    fn ended(&mut self, end: End, now: Instant) {
        self.end.get_or_insert((end, now));
    }

    /// When a silence is too long, by what the end waits for.
    fn silent_at(&self) -> Instant {
        let wait = if self.is_open() {
            self.idle
        } else {
            self.patience
        };
        self.heard + wait
    }

    fn give_up(&mut self, end: End, now: Instant) {
        // If it is refused, there is nothing to give up.
        let _ = self.connection.abort(now);
        self.ended(end, now);
    }

    fn close(&mut self, now: Instant) {
        if self.connection.close(now).is_ok() {
            self.heard = now;
        }
    }

    /// Does what the state requires: takes events, gives up a silent peer, and closes a dropped connection.
    fn settle(&mut self, now: Instant) {
        self.gather(now);
        if self.end.is_some() {
            return;
        }
        if self.silent_at() <= now {
            self.give_up(End::Silent, now);
        }
        if self.connection.phase() == Phase::Closed {
            // The end gave up by itself.
            self.ended(End::Silent, now);
        }
        let Some(since) = self.let_go else { return };
        match self.connection.phase() {
            Phase::PartOpen | Phase::Open => {
                if self.connection.in_flight() == 0 || since + LINGER <= now {
                    self.close(now);
                }
            }
            Phase::Closed | Phase::Listen | Phase::Request | Phase::Respond => {
                self.give_up(End::Aborted, now);
            }
            Phase::CloseReq | Phase::Closing | Phase::TimeWait => {}
        }
    }

    /// When there is something to do; nothing, once the end has been over for long enough.
    fn alarm(&self) -> Instant {
        let own = match (self.end, self.let_go) {
            (Some((_, at)), _) => at + LINGER,
            (None, Some(since)) if self.is_open() => (since + LINGER).min(self.silent_at()),
            (None, _) => self.silent_at(),
        };
        self.connection.poll_timeout().map_or(own, |it| it.min(own))
    }

    fn is_over(&self, now: Instant) -> bool {
        self.end.is_some_and(|(_, at)| at + LINGER <= now)
    }

    /// Replaces these frames, which were sent, by those that wait, except for answers over the limit.
    fn exchange_frames(&mut self, now: Instant, frames: &mut Frames) {
        self.connection.exchange_frames(frames);
        frames.retain_answers(|| {
            let goes = self.answers.may(now);
            self.answers_left_out += u64::from(!goes);
            goes
        });
    }
}

/// The threads to be woken after a call.
struct WakeList {
    readers: bool,
    writers: bool,
}

/// A connection, its peer, and the wire to it.
pub(super) struct Line {
    peer: SocketAddr,
    wire: Arc<Wire>,
    agenda: Arc<Agenda>,
    state: Mutex<State>,
    /// Held by the thread that hands frames to the system, so that they go out in order.
    order: Mutex<Frames>,
    readable: Condvar,
    writable: Condvar,
}

impl Line {
    pub(super) fn new(
        connection: Connection,
        peer: SocketAddr,
        wire: &Arc<Wire>,
        agenda: &Arc<Agenda>,
        options: &Options,
    ) -> Arc<Line> {
        let now = Instant::now();
        let state = State {
            connection,
            inbox: Inbox::new(options.most_waiting),
            is_holding: options.holding != 0,
            end: None,
            was_closing: false,
            heard: now,
            let_go: None,
            patience: options.patience,
            idle: options.idle,
            answers: Limit::new(ANSWERS, now),
            answers_left_out: 0,
            scheduled: None,
            sent: None,
            are_left: false,
            is_announced: false,
            readers: 0,
            writers: 0,
        };
        Arc::new(Line {
            peer,
            wire: Arc::clone(wire),
            agenda: Arc::clone(agenda),
            state: Mutex::new(state),
            order: Mutex::new(Frames::default()),
            readable: Condvar::new(),
            writable: Condvar::new(),
        })
    }

    pub(super) fn peer(&self) -> SocketAddr {
        self.peer
    }

    pub(super) fn wire(&self) -> &Wire {
        &self.wire
    }

    fn state(&self) -> MutexGuard<'_, State> {
        self.state.lock().unwrap_or_else(PoisonError::into_inner)
    }

    /// Does something with the state, and what follows from it: it wakes those that wait, and sends frames.
    fn with<T>(&self, doing: impl FnOnce(&mut State, Instant) -> T) -> T {
        let (mut state, now) = (self.state(), Instant::now());
        let answer = doing(&mut state, now);
        self.finish(state, now);
        answer
    }

    fn finish(&self, state: MutexGuard<'_, State>, now: Instant) {
        if self.finish_quietly(state, now) {
            self.wake_readers();
        }
    }

    /// The same, but it returns whether readers are to be woken.
    fn finish_quietly(&self, mut state: MutexGuard<'_, State>, now: Instant) -> bool {
        let wakes = self.attend(&mut state, now);
        let has_frames = state.connection.frames() != 0;
        // If no thread hands frames over, these are taken before the state is unlocked.
        let mut order = has_frames.then(|| self.order.try_lock().ok()).flatten();
        if let Some(frames) = &mut order {
            state.exchange_frames(now, frames);
        }
        drop(state);
        if wakes.writers {
            self.writable.notify_all();
        }
        match order {
            Some(frames) => self.hand_over(frames),
            None if has_frames => self.flush(now),
            None => {}
        }
        wakes.readers
    }

    /// Settles the state after a call, plans when it has something to do next, and returns who is to be woken.
    fn attend(&self, state: &mut State, now: Instant) -> WakeList {
        state.settle(now);
        let at = state.alarm();
        if state.scheduled.is_none_or(|planned| at < planned) {
            state.scheduled = Some(at);
            self.agenda.note(at, self.peer);
        }
        let is_over = state.end.is_some();
        WakeList {
            readers: state.readers != 0 && (is_over || state.waiting() != 0),
            writers: state.writers != 0 && (is_over || state.has_room()),
        }
    }

    /// Finishes sending data. In quick succession the frames are left to the driver, which hands over many at once.
    fn finish_sending(&self, mut state: MutexGuard<'_, State>, now: Instant) {
        let last = state.sent.replace(now);
        let is_quick = CAN_LOOK && last.is_some_and(|last| now < last + QUICK);
        if !is_quick {
            self.finish(state, now);
        } else if self.leave(state, now) {
            self.wake_readers();
        }
    }

    /// Leaves frames to the driver, except if they are many, and returns whether readers are to be woken.
    fn leave(&self, mut state: MutexGuard<'_, State>, now: Instant) -> bool {
        if !CAN_LOOK || MOST_LEFT <= state.connection.frames() {
            return self.finish_quietly(state, now);
        }
        let wakes = self.attend(&mut state, now);
        let are_new = state.connection.frames() != 0 && !mem::replace(&mut state.are_left, true);
        drop(state);
        if wakes.writers {
            self.writable.notify_all();
        }
        if are_new {
            self.agenda.leave(self.peer);
        }
        wakes.readers
    }

    /// Hands over the frames that were left to the driver, and returns whether readers are to be woken.
    pub(super) fn hand_over_left(&self) -> bool {
        let (mut state, now) = (self.state(), Instant::now());
        state.are_left = false;
        self.finish_quietly(state, now)
    }

    /// Wakes those that wait for data.
    pub(super) fn wake_readers(&self) {
        self.readable.notify_all();
    }

    fn flush(&self, now: Instant) {
        let mut frames = self.order.lock().unwrap_or_else(PoisonError::into_inner);
        self.state().exchange_frames(now, &mut frames);
        self.hand_over(frames);
    }

    /// Hands over frames. The next ones use the same buffer, which is in the processor's cache.
    fn hand_over(&self, mut frames: MutexGuard<'_, Frames>) {
        self.wire.send(self.peer, &frames);
        if let Ok(mut state) = self.state.try_lock() {
            state.connection.keep_buffer(&mut frames);
        }
    }

    /// Sleeps until another call may have changed what this one waits for.
    fn sleep<'a>(
        &self,
        on: &Condvar,
        state: MutexGuard<'a, State>,
        wait: Wait,
    ) -> Result<MutexGuard<'a, State>, Error> {
        match wait {
            Wait::Not => Err(Error::WouldBlock),
            Wait::Ever => Ok(on.wait(state).unwrap_or_else(PoisonError::into_inner)),
            Wait::Until(deadline) => {
                let left = deadline.saturating_duration_since(Instant::now());
                if left.is_zero() {
                    return Err(Error::TimedOut);
                }
                let (state, _) = on
                    .wait_timeout(state, left)
                    .unwrap_or_else(PoisonError::into_inner);
                Ok(state)
            }
        }
    }

    /// What `take` finds in the data that have arrived, waiting for it. Data from before the end can still be read after it.
    pub(super) fn read<T>(
        &self,
        wait: Wait,
        mut take: impl FnMut(&mut WaitingData<'_>) -> Option<T>,
    ) -> Result<T, Error> {
        let (mut state, mut has_yielded) = (self.state(), matches!(wait, Wait::Not));
        loop {
            let own = &mut *state;
            let mut waiting = WaitingData {
                inbox: &mut own.inbox,
                connection: &mut own.connection,
            };
            if let Some(found) = take(&mut waiting) {
                return Ok(found);
            }
            if let Some((end, _)) = state.end {
                return Err(Error::Ended(end));
            }
            if !has_yielded {
                // Sleeping and waking cost more than letting the driver run first.
                has_yielded = true;
                drop(state);
                thread::yield_now();
                state = self.state();
                continue;
            }
            state.readers += 1;
            let slept = self.sleep(&self.readable, state, wait);
            state = match slept {
                Ok(state) => state,
                Err(fault) => {
                    self.state().readers -= 1;
                    return Err(fault);
                }
            };
            state.readers -= 1;
        }
    }

    /// The result of `doing` once it succeeds or is refused for good, waiting for room, and for the connection to open.
    pub(super) fn write<T>(
        &self,
        wait: Wait,
        mut doing: impl FnMut(&mut dyn FnMut(&[u8]) -> Result<u64, SendError>) -> Result<T, SendError>,
    ) -> Result<T, Error> {
        let mut state = self.state();
        loop {
            let now = Instant::now();
            if let Some((end, _)) = state.end {
                return Err(Error::Ended(end));
            }
            let time = state.connection.time(now);
            let sent = doing(&mut |data| state.connection.send_unseen(data, time));
            state.connection.called(now);
            match sent {
                Ok(done) => {
                    self.finish_sending(state, now);
                    return Ok(done);
                }
                Err(SendError::TooLong) => return Err(Error::TooLong),
                Err(SendError::NotListening) => return Err(Error::NotListening),
                Err(SendError::NotOpen | SendError::NotNegotiated | SendError::WindowFull) => {}
            }
            state = self.wait_for_room(state, wait)?;
        }
    }

    fn wait_for_room<'a>(
        &'a self,
        mut state: MutexGuard<'a, State>,
        wait: Wait,
    ) -> Result<MutexGuard<'a, State>, Error> {
        state.writers += 1;
        match self.sleep(&self.writable, state, wait) {
            Ok(mut state) => {
                state.writers -= 1;
                Ok(state)
            }
            Err(fault) => {
                self.state().writers -= 1;
                Err(fault)
            }
        }
    }

    /// Waits until the connection is open.
    pub(super) fn wait_open(&self, wait: Wait) -> Result<(), Error> {
        let mut state = self.state();
        loop {
            if let Some((end, _)) = state.end {
                return Err(Error::Ended(end));
            }
            if state.is_open() {
                return Ok(());
            }
            state = self.wait_for_room(state, wait)?;
        }
    }

    /// Waits until all data that were sent are reported or lost.
    fn wait_reported(&self, wait: Wait) {
        let mut state = self.state();
        while state.is_open() && state.end.is_none() && state.connection.in_flight() != 0 {
            let Ok(woken) = self.wait_for_room(state, wait) else {
                return;
            };
            state = woken;
        }
    }

    fn wait_ended(&self, wait: Wait) -> Result<End, Error> {
        let mut state = self.state();
        loop {
            if let Some((end, _)) = state.end {
                return Ok(end);
            }
            state = self.wait_for_room(state, wait)?;
        }
    }

    /// If this end answered the peer's Close last, waits while the peer may repeat that Close because the answer was lost: twice. A program
    /// that ends answers nothing more.
    fn wait_repeats(&self, deadline: Option<Instant>) {
        let mut state = self.state();
        let Some((End::Reset { .. }, at)) = state.end else {
            return;
        };
        if state.connection.phase() == Phase::Closed {
            let first = REPEAT.max(2 * state.connection.round_trip().smoothed);
            let past = at + 3 * first + REPEAT;
            drop(state);
            let left = deadline.map_or(past, |it| it.min(past));
            thread::sleep(left.saturating_duration_since(Instant::now()));
        }
    }

    /// Closes once all that was sent is reported or half of the time is over, waits for the end, and stays for what its peer may repeat.
    pub(super) fn close(&self, wait: Duration) -> Result<End, Error> {
        let (whole, deadline) = (Wait::of(wait), Instant::now().checked_add(wait));
        self.wait_reported(Wait::of(wait / 2));
        self.with(State::close);
        let end = self.wait_ended(whole)?;
        self.wait_repeats(deadline);
        Ok(end)
    }

    /// Hears datagrams. What answers them is left to the driver, until there are no more. Returns whether readers are to be woken, which may
    /// wait as long.
    pub(super) fn hear<'a>(&self, datagrams: impl Iterator<Item = &'a [u8]>) -> bool {
        let (mut state, now) = (self.state(), Instant::now());
        state.hear(datagrams, now);
        let is_much = MUCH <= state.waiting();
        let wakes = self.leave(state, now);
        if wakes && is_much {
            self.wake_readers();
        }
        wakes && !is_much
    }

    /// Does what is due, if this is its time on the agenda.
    pub(super) fn fire(&self) {
        let (mut state, now) = (self.state(), Instant::now());
        if state.scheduled.is_none_or(|planned| now < planned) {
            return;
        }
        state.scheduled = None;
        state.connection.handle_timeout(now);
        self.finish(state, now);
    }

    /// Asks for the service, for a client.
    pub(super) fn open(&self) {
        self.with(|state, now| {
            // It is fresh.
            let _ = state.connection.open(now);
        });
    }

    /// Sends the first frame of a server: its answer to the Request.
    pub(super) fn begin(&self) {
        self.with(|_, _| ());
    }

    pub(super) fn abort(&self) {
        self.with(|state, now| state.give_up(End::Aborted, now));
    }

    pub(super) fn fail(&self) {
        self.with(|state, now| state.ended(End::Failed, now));
    }

    /// Nobody reads or writes any more.
    pub(super) fn let_go(&self) {
        self.with(|state, now| state.let_go = Some(now));
    }

    pub(super) fn end(&self) -> Option<End> {
        self.state().end.map(|(end, _)| end)
    }

    /// Since when no owner needs it, because it has ended or has not opened. An open connection is needed.
    pub(super) fn idle_since(&self) -> Option<Instant> {
        let state = self.state();
        let unopened = (!state.is_announced && !state.is_open()).then_some(state.heard);
        state.end.map(|(_, at)| at).or(unopened)
    }

    /// Whether it has opened and not ended.
    pub(super) fn is_open(&self) -> bool {
        let state = self.state();
        state.is_announced && state.end.is_none()
    }

    pub(super) fn is_over(&self) -> bool {
        self.state().is_over(Instant::now())
    }

    /// Whether it is open; true only once.
    pub(super) fn opens(&self) -> bool {
        let mut state = self.state();
        let is_new = !state.is_announced && state.is_open();
        state.is_announced |= is_new;
        is_new
    }

    pub(super) fn statistics(&self) -> Statistics {
        let mut state = self.state();
        let counts = state.connection.statistics();
        Statistics {
            answers_left_out: state.answers_left_out,
            unread_dropped: state.inbox.dropped + counts.unread_dropped,
            ..counts
        }
    }

    /// Makes calls of the connection, such as `prefer` and `feature`.
    pub(super) fn call<T>(&self, doing: impl FnOnce(&mut Connection) -> T) -> T {
        self.with(|state, _| doing(&mut state.connection))
    }
}

#[cfg(test)]
mod tests {
    use super::Limit;
    use std::time::{Duration, Instant};

    #[test]
    fn a_limit_begins_anew_each_second() {
        let begun = Instant::now();
        let mut limit = Limit::new(2, begun);
        let mut may = |after| limit.may(begun + Duration::from_millis(after));
        assert_eq!([may(0), may(10), may(20)], [true, true, false]);
        assert_eq!([may(999), may(1_000), may(1_001)], [false, true, true]);
        assert_eq!([may(1_999), may(2_000)], [false, true]);
    }
}
