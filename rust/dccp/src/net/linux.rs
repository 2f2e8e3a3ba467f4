//! What Linux has for many datagrams at once: recvmmsg, sendmmsg and poll of the C library, as <sys/socket.h> and <poll.h> declare
//! them for 64-bit pointers, and one call for datagrams of one length (UDP_SEGMENT, UDP_GRO of <linux/udp.h>). They are declared here,
//! since cargo asks a registry for any dependency, even an optional one, and this crate builds without a registry. All unsafe code of the
//! sockets is in this file.

use super::wire::{Batch, is_passing};
use crate::frames::{Frames, Run};
use std::array;
use std::ffi::{c_int, c_short, c_uint, c_ulong, c_void};
use std::io::{self, ErrorKind};
use std::net::{IpAddr, Ipv4Addr, Ipv6Addr, SocketAddr, SocketAddrV6, UdpSocket};
use std::ops::Range;
use std::os::fd::AsRawFd;
use std::os::unix::net::UnixDatagram;
use std::ptr;
use std::sync::atomic::{AtomicBool, Ordering};
use std::time::Duration;

const AF_INET: u16 = 2;
const AF_INET6: u16 = 10;
const MSG_DONTWAIT: c_int = 0x40;
const POLLIN: c_short = 1;
const SOL_SOCKET: c_int = 1;
const SO_RCVBUF: c_int = 8;
const SOL_UDP: c_int = 17;
const UDP_SEGMENT: c_int = 103;
const UDP_GRO: c_int = 104;

/// How many messages are heard or sent at once, each of which may be many datagrams of one length.
const MOST: usize = 16;

/// The bytes of a message: the most that UDP allows.
const ROOM: usize = 1 << 16;

/// The bytes of all messages that are heard at once. Unused ones take no memory.
pub(super) const ROOMS: usize = MOST * ROOM;

/// Whether the system returns at once if nothing has come.
pub(super) const CAN_LOOK: bool = true;

/// How many datagrams one message has, and how many bytes without IP headers.
const MOST_SEGMENTS: usize = 62;
const MOST_BYTES: usize = 65_000;

/// The size of the system's receive buffer that is asked for: a whole window of CCID 2, 1,024 packets of some 2,300 bytes each, as the
/// system counts. It gives at most what the machine allows.
static BUFFER: c_int = 1 << 21;
static ON: c_int = 1;

/// sockaddr_in or sockaddr_in6: family, port, and what follows.
#[repr(C, align(4))]
#[derive(Clone, Copy)]
struct Name {
    family: u16,
    port: [u8; 2],
    rest: [u8; 24],
}

#[repr(C)]
struct Piece {
    base: *mut c_void,
    length: usize,
}

#[repr(C)]
struct Header {
    name: *mut Name,
    name_length: c_uint,
    pieces: *mut Piece,
    piece_count: usize,
    control: *mut c_void,
    control_length: usize,
    flags: c_int,
}

/// A control message with one number: of UDP_SEGMENT 16 bits wide, of UDP_GRO 32.
#[repr(C)]
#[derive(Clone, Copy)]
struct Control {
    length: usize,
    level: c_int,
    kind: c_int,
    value: [u8; 8],
}

#[repr(C)]
struct Message {
    header: Header,
    length: c_uint,
}

#[repr(C)]
struct PollEntry {
    descriptor: c_int,
    events: c_short,
    found: c_short,
}

const _: () = assert!(size_of::<Name>() == 28 && size_of::<Message>() == 64);
const _: () = assert!(size_of::<Header>() == 56 && size_of::<PollEntry>() == 8);
const _: () = assert!(size_of::<Control>() == 24);

unsafe extern "C" {
    fn recvmmsg(
        socket: c_int,
        messages: *mut Message,
        count: c_uint,
        flags: c_int,
        timeout: *mut c_void,
    ) -> c_int;
    fn sendmmsg(socket: c_int, messages: *mut Message, count: c_uint, flags: c_int) -> c_int;
    fn poll(watched: *mut PollEntry, count: c_ulong, milliseconds: c_int) -> c_int;
    fn setsockopt(
        socket: c_int,
        level: c_int,
        name: c_int,
        value: *const c_void,
        length: c_uint,
    ) -> c_int;
}

/// A socket of Linux.
pub(super) struct System {
    /// The two ends of a pipe that wakes a driver that sleeps.
    rung: UnixDatagram,
    bell: UnixDatagram,
    /// Whether the last call for datagrams filled its room.
    was_full: AtomicBool,
    /// Whether datagrams of one length go to the system as one message, which ends when it refuses one.
    has_segments: AtomicBool,
}

impl System {
    /// Asks for a buffer that fits, and for many datagrams as one message.
    pub(super) fn new(socket: &UdpSocket) -> io::Result<System> {
        set(socket, SOL_SOCKET, SO_RCVBUF, &BUFFER);
        set(socket, SOL_UDP, UDP_GRO, &ON);
        let (rung, bell) = UnixDatagram::pair()?;
        rung.set_nonblocking(true)?;
        bell.set_nonblocking(true)?;
        let (was_full, has_segments) = (AtomicBool::new(false), AtomicBool::new(true));
        Ok(System {
            rung,
            bell,
            was_full,
            has_segments,
        })
    }

    /// Hears datagrams that have come, or that come in this time; maybe none.
    pub(super) fn receive(
        &self,
        socket: &UdpSocket,
        peer: Option<SocketAddr>,
        batch: &mut Batch,
        wait: Duration,
    ) -> io::Result<()> {
        // If the room was filled, there are probably more.
        if !self.was_full.load(Ordering::Relaxed) && !wait.is_zero() {
            self::wait(socket, &self.bell, wait)?;
        }
        let count = receive(socket, peer, batch)?;
        self.was_full.store(count == MOST, Ordering::Relaxed);
        Ok(())
    }

    /// Sends frames, to this peer if the socket is not connected. A frame that the system does not take is lost.
    pub(super) fn send(&self, socket: &UdpSocket, to: Option<SocketAddr>, frames: &Frames) {
        send_many(socket, &self.has_segments, to, frames);
    }

    /// Wakes a driver that sleeps.
    pub(super) fn ring(&self) {
        // If there is no room, it has been rung.
        let _ = self.rung.send(&[0]);
    }
}

/// Sets an option of a socket. If that is refused, the option stays.
fn set(socket: &UdpSocket, level: c_int, name: c_int, value: &'static c_int) {
    let length = size_of::<c_int>() as c_uint;
    // SAFETY: the value is a c_int, and its length is passed.
    unsafe {
        setsockopt(
            socket.as_raw_fd(),
            level,
            name,
            ptr::from_ref(value).cast(),
            length,
        )
    };
}

/// Waits until a datagram comes, the bell rings, or the time is over.
fn wait(socket: &UdpSocket, bell: &UnixDatagram, wait: Duration) -> io::Result<()> {
    let watched = |descriptor| PollEntry {
        descriptor,
        events: POLLIN,
        found: 0,
    };
    let mut both = [watched(socket.as_raw_fd()), watched(bell.as_raw_fd())];
    // A millisecond more, so that the timer has run out then.
    let milliseconds = c_int::try_from(wait.as_millis() + 1).unwrap_or(c_int::MAX);
    // SAFETY: the array has two entries, and lives longer than the call.
    let found = unsafe { poll(both.as_mut_ptr(), 2, milliseconds) };
    if found < 0 {
        let fault = io::Error::last_os_error();
        return if fault.kind() == ErrorKind::Interrupted {
            Ok(())
        } else {
            Err(fault)
        };
    }
    if both[1].found != 0 {
        while bell.recv(&mut [0; 1]).is_ok() {}
    }
    Ok(())
}

/// Hears messages, without waiting, and returns how many.
fn receive(socket: &UdpSocket, peer: Option<SocketAddr>, batch: &mut Batch) -> io::Result<usize> {
    batch.heard.clear();
    let mut messages = Messages::new();
    let count = messages.receive(socket, &mut batch.rooms)?;
    for place in 0..count {
        // A datagram of another family is no packet of a peer.
        let nobody = SocketAddr::new(IpAddr::V4(Ipv4Addr::UNSPECIFIED), 0);
        let own = || address_of(&messages.names[place]);
        let from = peer.or_else(own).unwrap_or(nobody);
        let first = place * ROOM;
        let past = first + messages.lengths[place].min(ROOM);
        let segment = segment_of(&messages.controls[place]);
        split(batch, from, first..past, segment);
    }
    Ok(count)
}

/// What the system says about messages that were heard at once.
struct Messages {
    names: [Name; MOST],
    controls: [Control; MOST],
    lengths: [usize; MOST],
}

impl Messages {
    fn new() -> Messages {
        Messages {
            names: [NOBODY; MOST],
            controls: [NOTHING; MOST],
            lengths: [0; MOST],
        }
    }

    /// Hears messages into these rooms, without waiting, and returns how many.
    fn receive(&mut self, socket: &UdpSocket, rooms: &mut [u8]) -> io::Result<usize> {
        let mut pieces: [Piece; MOST] = array::from_fn(|place| Piece {
            base: (&raw mut rooms[place * ROOM]).cast(),
            length: ROOM,
        });
        let mut headers: [Message; MOST] = array::from_fn(|place| {
            let name = (&raw mut self.names[place], size_of::<Name>());
            message(
                name,
                (&raw mut pieces[place], 1),
                &raw mut self.controls[place],
            )
        });
        let (first, count) = (headers.as_mut_ptr(), headers.len() as c_uint);
        // SAFETY: there are so many headers. Each points to a name, a control message, and a piece that points to a room of ROOM bytes;
        // all of it lives longer than the call, and nothing else uses it before.
        let count = unsafe {
            recvmmsg(
                socket.as_raw_fd(),
                first,
                count,
                MSG_DONTWAIT,
                ptr::null_mut(),
            )
        };
        let Ok(count) = usize::try_from(count) else {
            let fault = io::Error::last_os_error();
            return if is_passing(&fault) {
                Ok(0)
            } else {
                Err(fault)
            };
        };
        for (length, header) in self.lengths.iter_mut().zip(&headers[..count]) {
            *length = header.length as usize;
        }
        Ok(count)
    }
}

/// The length of the datagrams of a message, if it has several.
fn segment_of(control: &Control) -> Option<usize> {
    let is_told = control.length >= 20 && (control.level, control.kind) == (SOL_UDP, UDP_GRO);
    let bytes = control.value.first_chunk().filter(|_| is_told)?;
    usize::try_from(c_int::from_ne_bytes(*bytes))
        .ok()
        .filter(|it| *it != 0)
}

/// Notes the datagrams of a message.
fn split(batch: &mut Batch, from: SocketAddr, place: Range<usize>, segment: Option<usize>) {
    let length = segment.unwrap_or(place.len()).max(1);
    let mut first = place.start;
    loop {
        let past = (first + length).min(place.end);
        batch.heard.push((from, first..past));
        first = past;
        if place.end <= first {
            return;
        }
    }
}

/// Sends frames as messages of many, while the system takes these. A frame that it does not take is lost.
fn send_many(
    socket: &UdpSocket,
    has_segments: &AtomicBool,
    to: Option<SocketAddr>,
    frames: &Frames,
) {
    let mut left = frames.runs(MOST_SEGMENTS, MOST_BYTES);
    loop {
        if !has_segments.load(Ordering::Relaxed) {
            left.most = 1;
        }
        let mut next = left.clone();
        let runs: [Option<Run<'_>>; MOST] = array::from_fn(|_| next.next());
        let count = runs.iter().flatten().count();
        if count == 0 {
            return;
        }
        let sent = hand_over(socket, to, &runs[..count]);
        if sent == count {
            left = next;
            continue;
        }
        let fault = io::Error::last_os_error();
        left.by_ref().take(sent).for_each(drop);
        let mut after = left.clone();
        let Some(run) = after.next() else { return };
        if fault.kind() == ErrorKind::ConnectionRefused {
            // That of an earlier datagram, which it reported in place of sending.
            hand_over(socket, to, &[Some(run)]);
        } else if 1 < run.count && !is_passing(&fault) {
            // The system, or the way to the peer, does not take such messages: from now on each frame is one.
            has_segments.store(false, Ordering::Relaxed);
            continue;
        }
        left = after;
    }
}

/// Hands runs, at most [`MOST`], to the system, each as a message, and returns how many it took before it refused one.
fn hand_over(socket: &UdpSocket, to: Option<SocketAddr>, runs: &[Option<Run<'_>>]) -> usize {
    let (mut name, name_length) = to.map_or((NOBODY, 0), name_of);
    let name = match to {
        Some(_) => &raw mut name,
        None => ptr::null_mut(),
    };
    let run = |place: usize| runs.get(place).copied().flatten();
    let mut pieces: [Piece; MOST] = array::from_fn(|place| run(place).map_or(NO_PIECE, piece_of));
    let mut controls: [Control; MOST] =
        array::from_fn(|place| run(place).map_or(NOTHING, control_of));
    let mut messages: [Message; MOST] = array::from_fn(|place| {
        let control = if run(place).is_some_and(|it| 1 < it.count) {
            &raw mut controls[place]
        } else {
            ptr::null_mut()
        };
        message((name, name_length), (&raw mut pieces[place], 1), control)
    });
    let (first, count) = (messages.as_mut_ptr(), runs.len() as c_uint);
    // SAFETY: there are so many messages. Each has the name of its peer or none, a control message or none, and a piece that points to the
    // bytes of a run; all of it lives longer than the call.
    let sent = unsafe { sendmmsg(socket.as_raw_fd(), first, count, 0) };
    usize::try_from(sent).unwrap_or(0)
}

/// Where the bytes of a run are. The system only reads what is sent.
fn piece_of(run: Run<'_>) -> Piece {
    Piece {
        base: run.bytes.as_ptr().cast_mut().cast(),
        length: run.bytes.len(),
    }
}

/// The control message with the length of a run's datagrams.
fn control_of(run: Run<'_>) -> Control {
    let mut control = Control {
        length: 18,
        level: SOL_UDP,
        kind: UDP_SEGMENT,
        value: [0; 8],
    };
    control.value[..2].copy_from_slice(&(run.length as u16).to_ne_bytes());
    control
}

/// No control message.
const NOTHING: Control = Control {
    length: 0,
    level: 0,
    kind: 0,
    value: [0; 8],
};

const NO_PIECE: Piece = Piece {
    base: ptr::null_mut(),
    length: 0,
};

const NOBODY: Name = Name {
    family: 0,
    port: [0; 2],
    rest: [0; 24],
};

/// A message of these names, pieces and control messages, passed by pointers and lengths.
fn message(
    name: (*mut Name, usize),
    pieces: (*mut Piece, usize),
    control: *mut Control,
) -> Message {
    let header = Header {
        name: name.0,
        name_length: if name.0.is_null() {
            0
        } else {
            name.1 as c_uint
        },
        pieces: pieces.0,
        piece_count: pieces.1,
        control: control.cast(),
        control_length: if control.is_null() {
            0
        } else {
            size_of::<Control>()
        },
        flags: 0,
    };
    Message { header, length: 0 }
}

/// The address in the system's form, and how many bytes of it count.
fn name_of(address: SocketAddr) -> (Name, usize) {
    let mut rest = [0; 24];
    let port = address.port().to_be_bytes();
    match address {
        SocketAddr::V4(it) => {
            rest[..4].copy_from_slice(&it.ip().octets());
            (
                Name {
                    family: AF_INET,
                    port,
                    rest,
                },
                16,
            )
        }
        SocketAddr::V6(it) => {
            rest[..4].copy_from_slice(&it.flowinfo().to_ne_bytes());
            rest[4..20].copy_from_slice(&it.ip().octets());
            rest[20..].copy_from_slice(&it.scope_id().to_ne_bytes());
            (
                Name {
                    family: AF_INET6,
                    port,
                    rest,
                },
                28,
            )
        }
    }
}

/// The address that has this form, if it is of IPv4 or IPv6.
fn address_of(name: &Name) -> Option<SocketAddr> {
    let port = u16::from_be_bytes(name.port);
    let number = |at: usize| {
        name.rest[at..at + 4]
            .try_into()
            .map(u32::from_ne_bytes)
            .ok()
    };
    match name.family {
        AF_INET => {
            let bytes: [u8; 4] = name.rest[..4].try_into().ok()?;
            Some(SocketAddr::new(Ipv4Addr::from(bytes).into(), port))
        }
        AF_INET6 => {
            let bytes: [u8; 16] = name.rest[4..20].try_into().ok()?;
            let address = Ipv6Addr::from(bytes);
            Some(SocketAddrV6::new(address, port, number(0)?, number(20)?).into())
        }
        _ => None,
    }
}

#[cfg(test)]
mod tests {
    use super::{Batch, Control, SOL_UDP, UDP_GRO, address_of, name_of, segment_of, split};
    use std::net::SocketAddr;

    /// As in <netinet/in.h>: family, port in network order, address.
    #[test]
    fn addresses_are_spelled_as_the_system_does() {
        let v4: SocketAddr = "192.0.2.1:5001".parse().unwrap();
        let (name, length) = name_of(v4);
        assert_eq!((name.family, name.port, length), (2, [0x13, 0x89], 16));
        assert_eq!(name.rest[..4], [192, 0, 2, 1]);
        assert_eq!(address_of(&name), Some(v4));
        let v6: SocketAddr = "[2001:db8::1]:80".parse().unwrap();
        let (name, length) = name_of(v6);
        assert_eq!((name.family, name.port, length), (10, [0, 80], 28));
        assert_eq!((name.rest[4], name.rest[19]), (0x20, 1));
        assert_eq!(address_of(&name), Some(v6));
    }

    /// UDP_GRO gives the length of all datagrams of a message except the last.
    #[test]
    fn a_message_of_many_is_parted() {
        let told = |length, kind| {
            let mut value = [0; 8];
            value[..4].copy_from_slice(&1_000_i32.to_ne_bytes());
            let level = SOL_UDP;
            segment_of(&Control {
                length,
                level,
                kind,
                value,
            })
        };
        assert_eq!(told(20, UDP_GRO), Some(1_000));
        assert_eq!((told(0, UDP_GRO), told(20, UDP_GRO + 1)), (None, None));
        let from: SocketAddr = "192.0.2.1:5001".parse().unwrap();
        let parted = |length: usize, segment| {
            let mut batch = Batch::new();
            split(&mut batch, from, 10..10 + length, segment);
            let places = batch.heard.into_iter().map(|(_, place)| place);
            places.map(|it| (it.start, it.end)).collect::<Vec<_>>()
        };
        assert_eq!(
            parted(2_500, Some(1_000)),
            [(10, 1_010), (1_010, 2_010), (2_010, 2_510)]
        );
        assert_eq!(parted(2_000, Some(1_000)), [(10, 1_010), (1_010, 2_010)]);
        assert_eq!(parted(2_500, None), [(10, 2_510)]);
        assert_eq!(parted(0, None), [(10, 10)]);
    }
}
