//! One call of an end by itself: `dccp_send`, and a received Data, DataAck and Ack, beside copying the same bytes once and taking their
//! checksum. A received Data or DataAck has half an Ack in it, which the end sends for every second one; the same `alone` at an end whose
//! peer has asked for an Ack for every 64. And a byte that is no packet, which is what the border of the library takes by itself.

use crate::frames::{ACK, DATA, DATA_ACK, copy, has_options, kind};
use crate::library::{End, NO_FRAME, TIMER_ACK, bytes};
use crate::pair::{CLIENT_ADDRESS, Pair, SERVER_ADDRESS};
use crate::sys::{self, Frame, MOST_FRAME_BYTES};
use std::time::{Duration, Instant};

/// A datagram that was taken and had no data (`DCCP_TOLD_TOOK` of `include/dccp.h`).
const TOOK: u32 = 0;

/// One that was dropped (`DCCP_TOLD_DROPPED`).
const DROPPED: u32 = 2;

/// How many calls are between two looks at the clock. Their frames lie in the nearest cache.
const BATCH: usize = 16;

/// So many rounds let the congestion window grow over a batch.
const WARM: u32 = 64;

const SIZES: [usize; 2] = [64, 1_024];

const BYTES: [u8; 1_024] = [85; 1_024];

/// The number of the feature Ack Ratio (RFC 4340, section 6.4).
const ACK_RATIO: u32 = 5;

const RARE: u64 = 64;

/// What calls of one kind took, and how many of them did what was asked.
#[derive(Clone, Copy, Default)]
struct CallCost {
    time: Duration,
    calls: usize,
    done: usize,
}

impl CallCost {
    /// Times so many calls, of which `doing` says how many did what was asked.
    fn time(&mut self, calls: usize, doing: impl FnOnce() -> usize) {
        let start = Instant::now();
        let done = doing();
        self.time += start.elapsed();
        self.calls += calls;
        self.done += done;
    }

    fn tell(&self, name: &str, size: usize) {
        let CallCost { time, calls, done } = self;
        println!("{name} {size} {} {calls} {done}", time.as_nanos());
    }
}

/// The calls of one kind, and the yardstick for them.
#[derive(Clone, Copy, Default)]
struct CallPair {
    calls: CallCost,
    copies: CallCost,
}

impl CallPair {
    fn tell(&self, name: &str, size: usize) {
        self.calls.tell(name, size);
        self.copies.tell(&format!("copy-{name}"), size);
    }
}

/// What the end sent, and what its peer did. A turn takes a page of 4,096 bytes and 256 more, so the 16 of a batch lie at places spread over a
/// page. To write beside what is read takes longer at some distances, and a batch has the mean over all; and its frames fit the nearest cache.
#[repr(align(256))]
struct Turn {
    sent: Frame,
    back: Frame,
}

/// Hands an end a frame, if there is one. Returns whether it was taken; what it leaves is of no bytes where none was there.
fn took(end: &mut End, frame: &Frame, answer: &mut Frame) -> bool {
    if frame.length == 0 {
        answer.length = 0;
        return false;
    }
    matches!(end.receive(bytes(frame), 0, answer).kind, TOOK | sys::TOLD_DATA)
}

/// A server and its client in OPEN, the frames of a batch, and room for one.
struct Bench {
    end: End,
    peer: End,
    turns: Vec<Turn>,
    room: [u8; MOST_FRAME_BYTES],
}

impl Bench {
    fn new(Pair { client, server, .. }: Pair) -> Bench {
        let turn = || Turn {
            sent: NO_FRAME,
            back: NO_FRAME,
        };
        Bench {
            end: server,
            peer: client,
            turns: (0..BATCH).map(|_| turn()).collect(),
            room: [0; MOST_FRAME_BYTES],
        }
    }

    fn reach_peer(&mut self) {
        for turn in &mut self.turns {
            took(&mut self.peer, &turn.sent, &mut turn.back);
        }
    }

    /// Each acknowledges what it took, so that vectors stay short.
    fn settle(&mut self) {
        let (mut sent, mut back) = (NO_FRAME, NO_FRAME);
        self.end.timer(TIMER_ACK, 0, &mut sent);
        took(&mut self.peer, &sent, &mut back);
        self.peer.timer(TIMER_ACK, 0, &mut back);
        took(&mut self.end, &back, &mut sent);
    }

    /// Times the yardstick over so many frames.
    fn time_copies<'a>(
        frames: impl Iterator<Item = &'a Frame>,
        count: usize,
        room: &mut [u8],
        spent: &mut CallCost,
    ) {
        let frames = frames.filter(|it| it.length > 0);
        spent.time(count, || {
            frames
                .filter(|it| copy(CLIENT_ADDRESS, SERVER_ADDRESS, bytes(it), room))
                .count()
        });
    }

    /// The end sends a batch, which reaches its peer.
    fn send(&mut self, data: &[u8], sent: &mut CallPair) {
        let Bench { end, turns, .. } = self;
        sent.calls.time(BATCH, || {
            turns
                .iter_mut()
                .map(|it| usize::from(end.send(data, 0, &mut it.sent)))
                .sum()
        });
        let count = turns.iter().filter(|it| it.sent.length > 0).count();
        Bench::time_copies(
            self.turns.iter().map(|it| &it.sent),
            count,
            &mut self.room,
            &mut sent.copies,
        );
        self.reach_peer();
    }

    /// What came back is copied, and then the end takes it: packets of this type.
    fn take(&mut self, wanted: u8, both: &mut CallPair) {
        let count = self.count_back(wanted);
        Bench::time_copies(
            self.turns.iter().map(|it| &it.back),
            count,
            &mut self.room,
            &mut both.copies,
        );
        let Bench { end, turns, .. } = self;
        both.calls.time(count, || {
            turns
                .iter_mut()
                .map(|it| usize::from(took(end, &it.back, &mut it.sent)))
                .sum()
        });
    }

    /// How many frames came back, all of this type, with options where that acknowledges.
    fn count_back(&self, wanted: u8) -> usize {
        let back = self.turns.iter().filter(|it| it.back.length > 0);
        let packets = back.map(|it| bytes(&it.back));
        packets
            .inspect(|it| {
                assert!(
                    kind(it) == wanted && (wanted == DATA || has_options(it)),
                    "another packet"
                )
            })
            .count()
    }

    /// A batch of datagrams of one byte, which the end drops.
    fn drop_all(&mut self, drops: &mut CallCost) {
        let Bench { end, turns, .. } = self;
        drops.time(BATCH, || {
            turns
                .iter_mut()
                .map(|it| usize::from(end.receive(&[0], 0, &mut it.sent).kind == DROPPED))
                .sum()
        });
    }

    /// A batch that is sent, and the Acks that come back.
    fn acks(&mut self, data: &[u8], sent: &mut CallPair, acks: &mut CallPair) {
        self.send(data, sent);
        self.take(ACK, acks);
        self.settle();
    }

    /// A batch of Data.
    fn data(&mut self, data: &[u8], both: &mut CallPair) {
        for turn in &mut self.turns {
            self.peer.send(data, 0, &mut turn.back);
        }
        self.take(DATA, both);
        self.reach_peer();
        self.settle();
    }

    /// A batch of DataAcks: the end sends, and its peer sends once it has that.
    fn data_acks(&mut self, data: &[u8], both: &mut CallPair) {
        for turn in &mut self.turns {
            self.end.send(data, 0, &mut turn.sent);
            if took(&mut self.peer, &turn.sent, &mut turn.back) {
                self.peer.send(data, 0, &mut turn.back);
            }
        }
        self.take(DATA_ACK, both);
        self.reach_peer();
        self.settle();
    }
}

/// A pair whose client asks for few Acks.
fn rarely_acknowledging() -> Pair {
    let mut pair = Pair::open();
    let Pair { client, frame, .. } = &mut pair;
    client.prefer(ACK_RATIO, RARE, 0, frame);
    pair.reach_server();
    pair
}

/// What is measured.
#[derive(Default)]
struct Figures {
    drops: CallCost,
    sent: CallPair,
    acks: CallPair,
    data: CallPair,
    data_acks: CallPair,
}

impl Figures {
    /// So many batches of each.
    fn of(bench: &mut Bench, data: &[u8], batches: u32) -> Figures {
        let mut figures = Figures::default();
        for _ in 0..batches {
            bench.drop_all(&mut figures.drops);
            bench.acks(data, &mut figures.sent, &mut figures.acks);
            bench.data(data, &mut figures.data);
            bench.data_acks(data, &mut figures.data_acks);
        }
        figures
    }

    fn tell(&self, size: usize) {
        self.drops.tell("border", size);
        self.sent.tell("send", size);
        self.data.tell("data", size);
        self.data_acks.tell("data-ack", size);
        self.acks.tell("ack", size);
    }
}

/// So many batches of each, once the window has grown.
fn figures(pair: Pair, data: &[u8], batches: u32) -> Figures {
    let mut bench = Bench::new(pair);
    Figures::of(&mut bench, data, WARM);
    Figures::of(&mut bench, data, batches)
}

/// Prints the nanoseconds of each call at 64 and at 1,024 bytes of data, over so many batches of 16 frames, and those of copying the same
/// bytes once and taking their checksum: lines of what it is, the size, the nanoseconds, the calls, and how many did what was asked.
pub fn measure(batches: u32) {
    for size in SIZES {
        let data = &BYTES[..size];
        figures(Pair::open(), data, batches).tell(size);
        let alone = figures(rarely_acknowledging(), data, batches);
        alone.data.tell("data-alone", size);
        alone.data_acks.tell("data-ack-alone", size);
    }
}
