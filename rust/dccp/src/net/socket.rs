//! A connection as its owner uses it.

use super::agenda::Agenda;
use super::driver::Driver;
use super::line::{Line, Wait};
use super::options::Options;
use super::random::Random;
use super::wire::{Wire, any_address};
use super::{End, Error};
use crate::{Connection, Fate, Feature, Held, Place, PreferError, Statistics};
use std::fmt;
use std::io;
use std::net::{SocketAddr, ToSocketAddrs, UdpSocket};
use std::sync::Arc;
use std::time::{Duration, Instant};

/// A connection that is closed when its last owner is dropped.
struct SocketOwner {
    line: Arc<Line>,
}

impl Drop for SocketOwner {
    fn drop(&mut self) {
        self.line.let_go();
    }
}

/// A connection. Several threads may use it at a time; [`Socket::split`] makes two halves.
///
/// Once it and its halves are dropped, it closes in order in the background, when all that was sent is reported, or after two seconds. A
/// program that ends at once should call [`close`](Socket::close).
pub struct Socket {
    owned: Arc<SocketOwner>,
}

/// What [`Socket::send_batch`] has sent: packets under successive numbers, with no other packet of this end between them.
#[derive(Clone, Copy, Debug, PartialEq, Eq)]
#[non_exhaustive]
pub struct SentBatch {
    /// The sequence number of the first packet, for [`Socket::fate`]; 0 if there was none.
    pub first: u64,
    /// How many packets were sent.
    pub count: usize,
}

impl SentBatch {
    /// Their sequence numbers, in order, each below 2^48 (RFC 4340, section 5.1).
    pub fn numbers(self) -> impl Iterator<Item = u64> {
        (0..self.count as u64).map(move |place| (self.first + place) % (1 << 48))
    }
}

/// The half of a connection that sends. It may be cloned.
#[derive(Clone)]
pub struct Sender {
    owned: Arc<SocketOwner>,
}

/// The half of a connection that receives.
pub struct Receiver {
    owned: Arc<SocketOwner>,
}

/// How a socket and its halves are shown: by the peer.
macro_rules! shows {
    ($($name:ident)+) => {
        $(impl fmt::Debug for $name {
            fn fmt(&self, f: &mut fmt::Formatter<'_>) -> fmt::Result {
                f.debug_struct(stringify!($name))
                    .field("peer", &self.owned.line.peer())
                    .finish_non_exhaustive()
            }
        })+
    };
}

shows! { Socket Sender Receiver }

/// A socket of the system that is connected to one of these addresses.
fn connected(address: impl ToSocketAddrs) -> io::Result<(UdpSocket, SocketAddr)> {
    let mut last = io::Error::from(io::ErrorKind::InvalidInput);
    for peer in address.to_socket_addrs()? {
        let tried = UdpSocket::bind(any_address(peer)).and_then(|it| it.connect(peer).map(|()| it));
        match tried {
            Ok(socket) => return Ok((socket, peer)),
            Err(fault) => last = fault,
        }
    }
    Err(last)
}

impl Socket {
    pub(super) fn of(line: Arc<Line>) -> Socket {
        Socket {
            owned: Arc::new(SocketOwner { line }),
        }
    }

    /// Connects to a server for a Service Code (RFC 4340, section 8.1.2), and waits for its answer, for 30 seconds at most or by
    /// [`Options::patience`]. [`Error::Ended`] means that the server refused, [`Error::TimedOut`] that none answered.
    pub fn connect(address: impl ToSocketAddrs, service: u32) -> Result<Socket, Error> {
        Options::new().connect(address, service)
    }

    pub(super) fn connect_with(
        options: &Options,
        address: impl ToSocketAddrs,
        service: u32,
    ) -> Result<Socket, Error> {
        let (socket, peer) = connected(address)?;
        let own = socket.local_addr()?;
        let config = options.client(own, peer, service, Random::new()?.first_number()?);
        let connection = Connection::new(&config)?;
        let wire = Arc::new(Wire::new(socket, Some(peer))?);
        let agenda = Arc::new(Agenda::new(Arc::clone(&wire)));
        let line = Line::new(connection, peer, &wire, &agenda, options);
        let mut driver = Driver::new(wire, agenda, None);
        driver.add(Arc::clone(&line));
        line.open();
        driver.start("dccp client")?;
        let socket = Socket::of(line);
        let waited = socket.line().wait_open(Wait::of(options.patience));
        if waited.is_err() {
            socket.line().abort();
        }
        match waited {
            Ok(()) => Ok(socket),
            // The end and the call are equally patient.
            Err(Error::Ended(End::Silent)) => Err(Error::TimedOut),
            Err(fault) => Err(fault),
        }
    }

    fn line(&self) -> &Line {
        &self.owned.line
    }

    /// Sends data, waiting for room, and returns the packet's sequence number, for [`Socket::fate`]. On Linux, another thread hands packets
    /// within 20 microseconds of each other to the system together.
    pub fn send(&self, data: &[u8]) -> Result<u64, Error> {
        send(self.line(), data, Wait::Ever)
    }

    /// Sends data, waiting for room for this long at most; then [`Error::TimedOut`].
    pub fn send_timeout(&self, data: &[u8], wait: Duration) -> Result<u64, Error> {
        send(self.line(), data, Wait::of(wait))
    }

    /// Sends data if there is room now, else [`Error::WouldBlock`].
    pub fn try_send(&self, data: &[u8]) -> Result<u64, Error> {
        send(self.line(), data, Wait::Not)
    }

    /// Sends the first of these packets, as many as there is room for, waiting for room for one. Returns how many it sent, and under which
    /// numbers.
    pub fn send_batch<T: AsRef<[u8]>>(&self, packets: &[T]) -> Result<SentBatch, Error> {
        send_batch(self.line(), packets)
    }

    /// The data of the next packet, waiting for one. [`Error::Ended`] once the connection has ended and everything was read.
    pub fn recv(&self) -> Result<Vec<u8>, Error> {
        self.line().read(Wait::Ever, |waiting| waiting.take())
    }

    /// Replaces these data by those of the next packet, waiting for one. Their buffer is used for a later packet, so no memory is taken for
    /// each. [`Error::Ended`] as [`Socket::recv`]; then these data stay.
    pub fn recv_into(&self, data: &mut Vec<u8>) -> Result<(), Error> {
        recv_into(self.line(), data)
    }

    /// The data of the next packet, if one arrives in this time; else [`Error::TimedOut`].
    pub fn recv_timeout(&self, wait: Duration) -> Result<Vec<u8>, Error> {
        self.line().read(Wait::of(wait), |waiting| waiting.take())
    }

    /// The data of the next packet, if one has arrived; else [`Error::WouldBlock`].
    pub fn try_recv(&self) -> Result<Vec<u8>, Error> {
        self.line().read(Wait::Not, |waiting| waiting.take())
    }

    /// Replaces `packets` by the data of all packets that have arrived, waiting for one, and uses their buffers for later ones. Returns how
    /// many there are. If the call fails, `packets` stays.
    pub fn recv_batch(&self, packets: &mut Vec<Vec<u8>>) -> Result<usize, Error> {
        recv_batch(self.line(), packets)
    }

    /// Two halves, for two threads.
    pub fn split(self) -> (Sender, Receiver) {
        let sender = Sender {
            owned: Arc::clone(&self.owned),
        };
        (sender, Receiver { owned: self.owned })
    }

    /// Closes in order, once all that was sent is reported or half of the time is over, and waits for the end. Returns how the connection ended,
    /// or [`Error::TimedOut`], for example if the peer is gone; then closing goes on in the background. If this end answered the peer's Close,
    /// it waits for some 400 ms more, since the peer may repeat its Close, and a program that has ended answers nothing.
    pub fn close(self, wait: Duration) -> Result<End, Error> {
        self.line().close(wait)
    }

    /// Ends the connection at once.
    pub fn abort(self) {
        self.line().abort();
    }

    /// How the connection has ended, if it has.
    pub fn end(&self) -> Option<End> {
        self.line().end()
    }

    /// What was counted, and the window.
    pub fn statistics(&self) -> Statistics {
        self.line().statistics()
    }

    /// What became of the packet with this number, as [`Connection::fate`].
    pub fn fate(&self, number: u64) -> Fate {
        self.line().call(|it| it.fate(number))
    }

    /// The longest data that fit a frame of this many bytes now, as [`Connection::longest_data`].
    pub fn longest_data(&self, most: usize) -> usize {
        self.line().call(|it| it.longest_data(most))
    }

    /// Asks for these values of a feature, as [`Connection::prefer`].
    pub fn prefer(
        &self,
        feature: Feature,
        place: Place,
        values: &[u64],
    ) -> Result<(), PreferError> {
        self.line()
            .call(|it| it.prefer(feature, place, values, Instant::now()))
    }

    /// What this end holds for a feature.
    pub fn feature(&self, feature: Feature, place: Place) -> Held {
        self.line().call(|it| it.feature(feature, place))
    }

    /// The Service Code for which the client of this connection asked (RFC 4340, section 8.1.2).
    pub fn service(&self) -> u32 {
        self.line().call(|it| it.service())
    }

    /// The address of the peer.
    pub fn peer_addr(&self) -> SocketAddr {
        self.line().peer()
    }

    /// The address of the system's socket.
    pub fn local_addr(&self) -> Result<SocketAddr, Error> {
        Ok(self.line().wire().local_addr()?)
    }
}

/// What both halves have of the whole.
macro_rules! shares {
    ($($name:ident)+) => {
        $(impl $name {
            /// As [`Socket::abort`].
            pub fn abort(&self) {
                self.owned.line.abort();
            }

            /// As [`Socket::end`].
            pub fn end(&self) -> Option<End> {
                self.owned.line.end()
            }

            /// As [`Socket::statistics`].
            pub fn statistics(&self) -> Statistics {
                self.owned.line.statistics()
            }

            /// As [`Socket::feature`].
            pub fn feature(&self, feature: Feature, place: Place) -> Held {
                self.owned.line.call(|it| it.feature(feature, place))
            }

            /// As [`Socket::peer_addr`].
            pub fn peer_addr(&self) -> SocketAddr {
                self.owned.line.peer()
            }
        })+
    };
}

shares! { Sender Receiver }

impl Sender {
    /// As [`Socket::send`].
    pub fn send(&self, data: &[u8]) -> Result<u64, Error> {
        send(&self.owned.line, data, Wait::Ever)
    }

    /// As [`Socket::send_timeout`].
    pub fn send_timeout(&self, data: &[u8], wait: Duration) -> Result<u64, Error> {
        send(&self.owned.line, data, Wait::of(wait))
    }

    /// As [`Socket::try_send`].
    pub fn try_send(&self, data: &[u8]) -> Result<u64, Error> {
        send(&self.owned.line, data, Wait::Not)
    }

    /// As [`Socket::send_batch`].
    pub fn send_batch<T: AsRef<[u8]>>(&self, packets: &[T]) -> Result<SentBatch, Error> {
        send_batch(&self.owned.line, packets)
    }

    /// As [`Socket::fate`].
    pub fn fate(&self, number: u64) -> Fate {
        self.owned.line.call(|it| it.fate(number))
    }

    /// As [`Socket::longest_data`].
    pub fn longest_data(&self, most: usize) -> usize {
        self.owned.line.call(|it| it.longest_data(most))
    }

    /// As [`Socket::prefer`].
    pub fn prefer(
        &self,
        feature: Feature,
        place: Place,
        values: &[u64],
    ) -> Result<(), PreferError> {
        let line = &self.owned.line;
        line.call(|it| it.prefer(feature, place, values, Instant::now()))
    }

    /// As [`Socket::close`], while the other half may still read what has arrived.
    pub fn close(&self, wait: Duration) -> Result<End, Error> {
        self.owned.line.close(wait)
    }
}

impl Receiver {
    /// As [`Socket::recv`].
    pub fn recv(&self) -> Result<Vec<u8>, Error> {
        self.owned.line.read(Wait::Ever, |waiting| waiting.take())
    }

    /// As [`Socket::recv_into`].
    pub fn recv_into(&self, data: &mut Vec<u8>) -> Result<(), Error> {
        recv_into(&self.owned.line, data)
    }

    /// As [`Socket::recv_timeout`].
    pub fn recv_timeout(&self, wait: Duration) -> Result<Vec<u8>, Error> {
        self.owned
            .line
            .read(Wait::of(wait), |waiting| waiting.take())
    }

    /// As [`Socket::try_recv`].
    pub fn try_recv(&self) -> Result<Vec<u8>, Error> {
        self.owned.line.read(Wait::Not, |waiting| waiting.take())
    }

    /// As [`Socket::recv_batch`].
    pub fn recv_batch(&self, packets: &mut Vec<Vec<u8>>) -> Result<usize, Error> {
        recv_batch(&self.owned.line, packets)
    }
}

fn send(line: &Line, data: &[u8], wait: Wait) -> Result<u64, Error> {
    line.write(wait, |send| send(data))
}

fn send_batch<T: AsRef<[u8]>>(line: &Line, packets: &[T]) -> Result<SentBatch, Error> {
    line.write(Wait::Ever, |send| {
        let mut sent = SentBatch { first: 0, count: 0 };
        for packet in packets {
            match send(packet.as_ref()) {
                Ok(number) if sent.count == 0 => {
                    sent = SentBatch {
                        first: number,
                        count: 1,
                    }
                }
                Ok(_) => sent.count += 1,
                Err(fault) if sent.count == 0 => return Err(fault),
                // What was sent counts. The next call waits for room, or returns the error.
                Err(_) => break,
            }
        }
        Ok(sent)
    })
}

fn recv_into(line: &Line, data: &mut Vec<u8>) -> Result<(), Error> {
    line.read(Wait::Ever, |waiting| waiting.exchange(data))
}

fn recv_batch(line: &Line, packets: &mut Vec<Vec<u8>>) -> Result<usize, Error> {
    line.read(Wait::Ever, |waiting| waiting.take_all(packets))
}
