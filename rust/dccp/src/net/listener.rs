//! A server: it hears on one UDP port, and has a socket for each client.

use super::agenda::Agenda;
use super::driver::{Driver, Reception};
use super::line::Wait;
use super::options::Options;
use super::wire::Wire;
use super::{Error, Socket};
use std::collections::VecDeque;
use std::fmt;
use std::io;
use std::net::{SocketAddr, ToSocketAddrs, UdpSocket};
use std::sync::{Arc, Condvar, Mutex, MutexGuard, PoisonError};
use std::time::{Duration, Instant};

/// Where connections that have opened wait for the listener's owner.
pub(super) struct Door {
    queue: Mutex<Queue>,
    came: Condvar,
}

struct Queue {
    opened: VecDeque<Socket>,
    is_open: bool,
    fault: Option<io::Error>,
}

impl Door {
    pub(super) fn new() -> Door {
        let queue = Queue {
            opened: VecDeque::new(),
            is_open: true,
            fault: None,
        };
        Door {
            queue: Mutex::new(queue),
            came: Condvar::new(),
        }
    }

    fn queue(&self) -> MutexGuard<'_, Queue> {
        self.queue.lock().unwrap_or_else(PoisonError::into_inner)
    }

    pub(super) fn is_open(&self) -> bool {
        self.queue().is_open
    }

    pub(super) fn enter(&self, socket: Socket) {
        let mut queue = self.queue();
        if queue.is_open {
            queue.opened.push_back(socket);
            drop(queue);
            self.came.notify_one();
        } else {
            // Nobody accepts it: it is dropped, without the lock.
            drop(queue);
            drop(socket);
        }
    }

    pub(super) fn fail(&self, fault: io::Error) {
        self.queue().fault = Some(fault);
        self.came.notify_all();
    }

    /// Shuts, and returns the connections that nobody has accepted.
    fn shut(&self) -> VecDeque<Socket> {
        let mut queue = self.queue();
        queue.is_open = false;
        std::mem::take(&mut queue.opened)
    }

    fn next(&self, wait: Wait) -> Result<Socket, Error> {
        let mut queue = self.queue();
        loop {
            if let Some(socket) = queue.opened.pop_front() {
                return Ok(socket);
            }
            if let Some(fault) = &queue.fault {
                return Err(Error::Io(io::Error::new(fault.kind(), fault.to_string())));
            }
            queue = match wait {
                Wait::Not => return Err(Error::WouldBlock),
                Wait::Ever => self
                    .came
                    .wait(queue)
                    .unwrap_or_else(PoisonError::into_inner),
                Wait::Until(deadline) => {
                    let left = deadline.saturating_duration_since(Instant::now());
                    if left.is_zero() {
                        return Err(Error::TimedOut);
                    }
                    let slept = self.came.wait_timeout(queue, left);
                    slept.unwrap_or_else(PoisonError::into_inner).0
                }
            };
        }
    }
}

/// A server of many clients over one UDP port. It accepts a connection once its client has shown that it hears the answers.
///
/// Once it is dropped, no new client is served. Connections that were accepted go on, and as long as there is one, new ones are refused
/// (Reset Code 7: RFC 4340, section 5.6).
pub struct Listener {
    wire: Arc<Wire>,
    door: Arc<Door>,
}

impl fmt::Debug for Listener {
    fn fmt(&self, f: &mut fmt::Formatter<'_>) -> fmt::Result {
        f.debug_struct("Listener").finish_non_exhaustive()
    }
}

impl Listener {
    /// Hears on this address for Requests of these Service Codes (RFC 4340, section 8.1.2). A Request for another is answered by a Reset
    /// with code 8.
    ///
    /// An address such as `0.0.0.0` works if the machine answers a client from the address to which the client sent, as a machine with one
    /// address for each family does.
    pub fn bind(address: impl ToSocketAddrs, services: &[u32]) -> Result<Listener, Error> {
        Options::new().bind(address, services)
    }

    pub(super) fn bind_with(
        options: &Options,
        address: impl ToSocketAddrs,
        services: &[u32],
    ) -> Result<Listener, Error> {
        let wire = Arc::new(Wire::new(UdpSocket::bind(address)?, None)?);
        let agenda = Arc::new(Agenda::new(Arc::clone(&wire)));
        let reception = Reception::new(options, services)?;
        let door = Arc::clone(&reception.door);
        Driver::new(Arc::clone(&wire), agenda, Some(reception)).start("dccp listener")?;
        Ok(Listener { wire, door })
    }

    /// The next connection, waiting for it.
    pub fn accept(&self) -> Result<Socket, Error> {
        self.door.next(Wait::Ever)
    }

    /// The next connection, if one opens in this time; else [`Error::TimedOut`].
    pub fn accept_timeout(&self, wait: Duration) -> Result<Socket, Error> {
        self.door.next(Wait::of(wait))
    }

    /// The next connection, if one has opened; else [`Error::WouldBlock`].
    pub fn try_accept(&self) -> Result<Socket, Error> {
        self.door.next(Wait::Not)
    }

    /// The connections, in the order in which they opened, until the socket fails.
    pub fn incoming(&self) -> impl Iterator<Item = Result<Socket, Error>> + '_ {
        std::iter::repeat_with(|| self.accept())
    }

    /// The address on which it hears.
    pub fn local_addr(&self) -> Result<SocketAddr, Error> {
        Ok(self.wire.local_addr()?)
    }
}

impl Drop for Listener {
    fn drop(&mut self) {
        drop(self.door.shut());
        self.wire.ring();
    }
}
