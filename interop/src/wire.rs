//! The wire between our end and the kernel's: it carries IP packets over a socket to the machine, loses some, counts, and keeps a capture.

use std::fs::File;
use std::io::{self, BufWriter, Read, Write};
use std::net::{IpAddr, Ipv4Addr, Ipv6Addr};
use std::os::unix::net::UnixStream;
use std::sync::mpsc::{Receiver, RecvTimeoutError, channel};
use std::thread;
use std::time::{Duration, SystemTime, UNIX_EPOCH};

/// The protocol number of DCCP (RFC 4340, section 19).
const DCCP: u8 = 33;
/// LINKTYPE_RAW: a record is an IP packet.
const LINK: u32 = 101;

/// The addresses of our end and of the kernel's.
#[derive(Clone, Copy)]
pub enum Addresses {
    V4,
    V6,
}

impl Addresses {
    pub fn own(self) -> IpAddr {
        match self {
            Addresses::V4 => Ipv4Addr::new(10, 9, 0, 1).into(),
            Addresses::V6 => Ipv6Addr::new(0xfd00, 9, 0, 0, 0, 0, 0, 1).into(),
        }
    }

    pub fn kernel(self) -> IpAddr {
        match self {
            Addresses::V4 => Ipv4Addr::new(10, 9, 0, 2).into(),
            Addresses::V6 => Ipv6Addr::new(0xfd00, 9, 0, 0, 0, 0, 0, 2).into(),
        }
    }
}

/// What the wire is in a case.
#[derive(Clone, Copy)]
pub struct Path {
    pub addresses: Addresses,
    /// Per cent of the packets that are lost, each way.
    pub loss: u64,
    /// Resets of the kernel with this code are lost, too.
    pub lost_reset: Option<u8>,
}

/// An end that sends data.
#[derive(Clone, Copy, Debug, PartialEq, Eq)]
pub enum Speaker {
    Own,
    Kernel,
}

/// A feature whose value is a number, as an option names it (RFC 4340, section 6.4), and that number.
#[derive(Clone, Copy, Debug, PartialEq, Eq)]
pub struct NumberedFeature {
    pub feature: u8,
    pub value: u64,
}

/// The Sequence Window, as options name it.
pub const SEQUENCE_WINDOW: u8 = 3;
/// The Ack Ratio, as options name it.
pub const ACK_RATIO: u8 = 5;
/// The options that ask for a value at one's own place, and that confirm one of the other's (RFC 4340, section 5.8).
const CHANGE_L: u8 = 32;
const CONFIRM_R: u8 = 35;

/// What went over the wire in one direction.
#[derive(Clone, Debug, Default, PartialEq, Eq)]
pub struct WireTotals {
    /// Packets with data, before any was lost.
    pub data: u32,
    /// Packets with data that were lost.
    pub lost_data: u32,
    /// Syncs and SyncAcks, before any was lost.
    pub syncs: u32,
    /// The code of the last Reset.
    pub reset: Option<u8>,
    /// What was asked for by Change L once the connection was open, of Sequence Window and Ack Ratio.
    pub changes: Vec<NumberedFeature>,
    /// What was confirmed by Confirm R then, of the same.
    pub confirms: Vec<NumberedFeature>,
}

/// A generator of random numbers (xorshift; own): what is lost is the same in each run.
struct Dice(u64);

impl Dice {
    fn percent(&mut self) -> u64 {
        self.0 ^= self.0 << 13;
        self.0 ^= self.0 >> 7;
        self.0 ^= self.0 << 17;
        self.0 % 100
    }
}

pub struct Wire {
    to_kernel: UnixStream,
    from_kernel: Receiver<Vec<u8>>,
    capture: Option<BufWriter<File>>,
    path: Path,
    dice: Dice,
    pub sent: WireTotals,
    pub came: WireTotals,
    /// Which end sent the first packet with data, and which the last.
    pub speakers: Option<(Speaker, Speaker)>,
}

impl Wire {
    pub fn over(socket: &std::path::Path) -> io::Result<Wire> {
        let to_kernel = UnixStream::connect(socket)?;
        let mut stream = to_kernel.try_clone()?;
        let (sender, from_kernel) = channel();
        thread::spawn(move || -> io::Result<()> {
            loop {
                let mut length = [0; 2];
                stream.read_exact(&mut length)?;
                let mut packet = vec![0; u16::from_be_bytes(length).into()];
                stream.read_exact(&mut packet)?;
                if sender.send(packet).is_err() {
                    return Ok(());
                }
            }
        });
        Ok(Wire {
            to_kernel,
            from_kernel,
            capture: None,
            path: Path {
                addresses: Addresses::V4,
                loss: 0,
                lost_reset: None,
            },
            dice: Dice(1),
            sent: WireTotals::default(),
            came: WireTotals::default(),
            speakers: None,
        })
    }

    /// Begins a case: what is still under way is let go, and a new capture begun.
    pub fn begin(&mut self, capture: &std::path::Path, path: Path) -> io::Result<()> {
        while self.from_kernel.try_recv().is_ok() {}
        let mut file = BufWriter::new(File::create(capture)?);
        file.write_all(&[0xd4, 0xc3, 0xb2, 0xa1, 2, 0, 4, 0, 0, 0, 0, 0, 0, 0, 0, 0])?;
        file.write_all(&65_535u32.to_le_bytes())?;
        file.write_all(&LINK.to_le_bytes())?;
        self.capture = Some(file);
        (self.path, self.dice) = (path, Dice(0x9e37_79b9_7f4a_7c15));
        (self.sent, self.came, self.speakers) =
            (WireTotals::default(), WireTotals::default(), None);
        Ok(())
    }

    pub fn end(&mut self) -> io::Result<()> {
        self.capture.take().map_or(Ok(()), |mut it| it.flush())
    }

    pub fn addresses(&self) -> Addresses {
        self.path.addresses
    }

    /// Sends a DCCP packet to the kernel, unless it is lost.
    pub fn send(&mut self, packet: &[u8]) -> io::Result<()> {
        let is_lost = self.dice.percent() < self.path.loss;
        self.hear(Speaker::Own, packet, is_lost);
        let datagram = match self.path.addresses {
            Addresses::V4 => in_ipv4(packet),
            Addresses::V6 => in_ipv6(packet),
        };
        self.keep(&datagram)?;
        if is_lost {
            return Ok(());
        }
        let length = u16::try_from(datagram.len()).expect("a frame is short");
        self.to_kernel.write_all(&length.to_be_bytes())?;
        self.to_kernel.write_all(&datagram)
    }

    /// Waits at most so long for a DCCP packet of the kernel that is not lost. None if none came.
    pub fn receive(&mut self, most: Duration) -> io::Result<Option<Vec<u8>>> {
        let datagram = match self.from_kernel.recv_timeout(most) {
            Ok(datagram) => datagram,
            Err(RecvTimeoutError::Timeout) => return Ok(None),
            Err(RecvTimeoutError::Disconnected) => return Err(io::ErrorKind::UnexpectedEof.into()),
        };
        let Some(packet) = dccp_of(&datagram) else {
            return Ok(None);
        };
        let is_cut = reset_code(packet).is_some_and(|code| self.path.lost_reset == Some(code));
        let is_lost = self.dice.percent() < self.path.loss || is_cut;
        let packet = packet.to_vec();
        self.hear(Speaker::Kernel, &packet, is_lost);
        self.keep(&datagram)?;
        Ok((!is_lost).then_some(packet))
    }

    /// Counts a packet of an end.
    fn hear(&mut self, end: Speaker, packet: &[u8], is_lost: bool) {
        let passed = match end {
            Speaker::Own => &mut self.sent,
            Speaker::Kernel => &mut self.came,
        };
        let before = passed.data;
        count(passed, packet, is_lost);
        if before < passed.data {
            let first = self.speakers.map_or(end, |(first, _)| first);
            self.speakers = Some((first, end));
        }
    }

    fn keep(&mut self, datagram: &[u8]) -> io::Result<()> {
        let Some(file) = &mut self.capture else {
            return Ok(());
        };
        let now = SystemTime::now()
            .duration_since(UNIX_EPOCH)
            .unwrap_or_default();
        let length = datagram.len() as u32;
        for it in [now.as_secs() as u32, now.subsec_micros(), length, length] {
            file.write_all(&it.to_le_bytes())?;
        }
        file.write_all(datagram)
    }
}

/// The type of a DCCP packet (RFC 4340, section 5.1).
fn kind(packet: &[u8]) -> Option<u8> {
    packet.get(8).map(|it| it >> 1 & 15)
}

/// The code of a Reset, which follows two numbers of eight bytes (RFC 4340, section 5.6).
fn reset_code(packet: &[u8]) -> Option<u8> {
    (kind(packet) == Some(7)).then(|| packet.get(24).copied())?
}

/// The options of a packet of an open connection: Data, Ack, DataAck, Sync and SyncAck, with numbers of six bytes (RFC 4340, section 5).
fn options(packet: &[u8]) -> &[u8] {
    let head = match kind(packet) {
        Some(2) => 16,
        Some(3 | 4 | 8 | 9) => 24,
        _ => return &[],
    };
    let end = packet.get(4).map_or(0, |it| usize::from(*it) * 4);
    packet.get(head..end).unwrap_or_default()
}

/// What options of this type say of Sequence Window and Ack Ratio.
fn numbered(mut options: &[u8], wanted: u8) -> Vec<NumberedFeature> {
    let mut found = Vec::new();
    while let [kind, rest @ ..] = options {
        // Those below 32 are of one byte.
        let length = match rest {
            _ if *kind < 32 => 1,
            [length, ..] if (2..=options.len()).contains(&(*length).into()) => (*length).into(),
            _ => break,
        };
        if let [kind, _, feature @ (SEQUENCE_WINDOW | ACK_RATIO), value @ ..] = &options[..length]
            && *kind == wanted
        {
            found.push(NumberedFeature {
                feature: *feature,
                value: value.iter().fold(0, |all, it| all << 8 | u64::from(*it)),
            });
        }
        options = &options[length..];
    }
    found
}

fn count(passed: &mut WireTotals, packet: &[u8], is_lost: bool) {
    passed.changes.extend(numbered(options(packet), CHANGE_L));
    passed.confirms.extend(numbered(options(packet), CONFIRM_R));
    match kind(packet) {
        // Data and DataAck.
        Some(2 | 4) => {
            passed.data += 1;
            passed.lost_data += u32::from(is_lost);
        }
        Some(8 | 9) => passed.syncs += 1,
        Some(7) => passed.reset = reset_code(packet),
        _ => {}
    }
}

fn in_ipv4(packet: &[u8]) -> Vec<u8> {
    let length = (20 + packet.len()) as u16;
    let mut bytes = vec![
        0x45, 0, 0, 0, 0, 0, 0x40, 0, 64, DCCP, 0, 0, 10, 9, 0, 1, 10, 9, 0, 2,
    ];
    bytes[2..4].copy_from_slice(&length.to_be_bytes());
    // RFC 1071.
    let sum: u32 = bytes
        .chunks(2)
        .map(|it| u32::from(it[0]) << 8 | u32::from(it[1]))
        .sum();
    let sum = (sum >> 16) + (sum & 0xffff);
    let sum = !((sum >> 16) + sum) as u16;
    bytes[10..12].copy_from_slice(&sum.to_be_bytes());
    bytes.extend_from_slice(packet);
    bytes
}

fn in_ipv6(packet: &[u8]) -> Vec<u8> {
    let (IpAddr::V6(own), IpAddr::V6(kernel)) = (Addresses::V6.own(), Addresses::V6.kernel())
    else {
        unreachable!("both are of IPv6")
    };
    let mut bytes = vec![0x60, 0, 0, 0];
    bytes.extend_from_slice(&(packet.len() as u16).to_be_bytes());
    bytes.extend_from_slice(&[DCCP, 64]);
    bytes.extend_from_slice(&own.octets());
    bytes.extend_from_slice(&kernel.octets());
    bytes.extend_from_slice(packet);
    bytes
}

/// The DCCP packet of an IP packet for our end, if it is one.
fn dccp_of(datagram: &[u8]) -> Option<&[u8]> {
    match datagram.first()? >> 4 {
        4 if datagram.get(9) == Some(&DCCP) => datagram.get(usize::from(datagram[0] & 15) * 4..),
        6 if datagram.get(6) == Some(&DCCP) => datagram.get(40..),
        _ => None,
    }
}
