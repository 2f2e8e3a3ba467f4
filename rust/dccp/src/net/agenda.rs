//! When each connection has something to do.

use super::wire::Wire;
use std::cmp::Reverse;
use std::collections::BinaryHeap;
use std::mem;
use std::net::SocketAddr;
use std::sync::{Arc, Mutex, MutexGuard, PoisonError};
use std::time::{Duration, Instant};

/// The longest that a driver sleeps if nothing is planned.
const LONGEST: Duration = Duration::from_secs(60);

/// The deadlines of a driver's connections. A deadline that has moved to later keeps its old place, and is checked again then.
pub(super) struct Agenda {
    plan: Mutex<Plan>,
    wire: Arc<Wire>,
}

struct Plan {
    deadlines: BinaryHeap<Reverse<(Instant, SocketAddr)>>,
    /// Connections that leave their frames to the driver.
    left: Vec<SocketAddr>,
    /// Until when the driver sleeps, if it does.
    sleeps_until: Option<Instant>,
}

impl Agenda {
    pub(super) fn new(wire: Arc<Wire>) -> Agenda {
        let plan = Mutex::new(Plan {
            deadlines: BinaryHeap::new(),
            left: Vec::new(),
            sleeps_until: None,
        });
        Agenda { plan, wire }
    }

    fn plan(&self) -> MutexGuard<'_, Plan> {
        self.plan.lock().unwrap_or_else(PoisonError::into_inner)
    }

    /// Notes when a connection has something to do, and wakes a driver that would sleep for longer.
    pub(super) fn note(&self, at: Instant, peer: SocketAddr) {
        let mut plan = self.plan();
        plan.deadlines.push(Reverse((at, peer)));
        if plan.sleeps_until.is_some_and(|until| at < until) {
            plan.sleeps_until = None;
            self.wire.ring();
        }
    }

    /// A connection leaves its frames to the driver, which is woken if it sleeps.
    pub(super) fn leave(&self, peer: SocketAddr) {
        let mut plan = self.plan();
        plan.left.push(peer);
        if plan.sleeps_until.take().is_some() {
            self.wire.ring();
        }
    }

    /// The connections that have left their frames.
    pub(super) fn take_left(&self) -> Vec<SocketAddr> {
        mem::take(&mut self.plan().left)
    }

    /// How long the driver may sleep. Notes that it sleeps.
    pub(super) fn begin_sleep(&self, now: Instant) -> Duration {
        let mut plan = self.plan();
        if !plan.left.is_empty() {
            return Duration::ZERO;
        }
        let first = plan.deadlines.peek().map(|Reverse((at, _))| *at);
        let until = first.map_or(now + LONGEST, |at| at.min(now + LONGEST));
        plan.sleeps_until = Some(until);
        until.saturating_duration_since(now)
    }

    /// Notes that the driver is awake.
    pub(super) fn end_sleep(&self) {
        self.plan().sleeps_until = None;
    }

    /// The next connection whose time has come.
    pub(super) fn next_due(&self, now: Instant) -> Option<SocketAddr> {
        let mut plan = self.plan();
        let Reverse((at, _)) = plan.deadlines.peek()?;
        if now < *at {
            return None;
        }
        plan.deadlines.pop().map(|Reverse((_, peer))| peer)
    }
}
