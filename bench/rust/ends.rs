//! An end in OPEN to which many packets of data come: a packet should cost no more for what was received before.

use crate::frames::{copy, put_data, seal};
use crate::library::{End, NO_FRAME};
use crate::pair::{CLIENT_ADDRESS, CLIENT_PORT, Pair, SERVER_ADDRESS, SERVER_PORT, arrive};
use crate::sys::MOST_FRAME_BYTES;
use std::time::{Duration, Instant};

/// How packets come: with every tenth number lost or none, and with the end's newest packet acknowledged by each or by none.
#[derive(Clone, Copy)]
pub struct Order {
    name: &'static str,
    loses: bool,
    acknowledges: bool,
}

const IN_ORDER: Order = Order {
    name: "in-order",
    loses: false,
    acknowledges: true,
};

pub const TENTH_LOST: Order = Order {
    name: "tenth-lost",
    loses: true,
    acknowledges: true,
};

pub const TENTH_LOST_UNHEARD: Order = Order {
    name: "tenth-lost-unheard",
    loses: true,
    acknowledges: false,
};

const ORDERS: [Order; 4] = [
    IN_ORDER,
    TENTH_LOST,
    Order {
        name: "in-order-unheard",
        loses: false,
        acknowledges: false,
    },
    TENTH_LOST_UNHEARD,
];

/// How many packets arrive: the second is sixteen times the first.
const FEW: u32 = 1_000;

const MANY: u32 = 16_000;

const DATA: [u8; 64] = [85; 64];

/// A server's end in OPEN.
pub fn opened() -> End {
    Pair::open().server
}

/// What an end that has taken so many packets would be sent next.
pub fn put_next(end: &mut End, order: Order, taken: u32, packet: &mut Vec<u8>) {
    let view = end.look();
    let step = if order.loses && taken % 9 == 8 { 2 } else { 1 };
    let ack = order.acknowledges.then_some(view.gss);
    put_data(
        (CLIENT_PORT, SERVER_PORT),
        view.gsr + step,
        ack,
        &DATA,
        packet,
    );
    seal(CLIENT_ADDRESS, SERVER_ADDRESS, packet);
}

/// So many packets that arrive. An end takes them while they are made, since they acknowledge its packets.
fn packets(order: Order, count: u32) -> Vec<Vec<u8>> {
    let (mut end, mut answer) = (opened(), NO_FRAME);
    let next = |taken| {
        let mut packet = Vec::new();
        put_next(&mut end, order, taken, &mut packet);
        arrive(&mut end, &packet, 0, &mut answer);
        packet
    };
    (0..count).map(next).collect()
}

/// Hands the packets to a new end. Gives the time and how many data that delivered.
fn time_taking(packets: &[Vec<u8>]) -> (Duration, usize) {
    let (mut end, mut answer) = (opened(), NO_FRAME);
    let start = Instant::now();
    let delivered = packets
        .iter()
        .filter(|it| arrive(&mut end, it, 0, &mut answer))
        .count();
    (start.elapsed(), delivered)
}

/// Copies and sums the packets. Gives the time and how many are sound.
fn time_copying(packets: &[Vec<u8>]) -> (Duration, usize) {
    let mut room = [0; MOST_FRAME_BYTES];
    let start = Instant::now();
    let sound = packets
        .iter()
        .filter(|it| copy(CLIENT_ADDRESS, SERVER_ADDRESS, it, &mut room))
        .count();
    (start.elapsed(), sound)
}

/// Does it with the packets so many times, and prints a line: what it is, how many packets, the nanoseconds and packets of all rounds, and
/// how many packets did what they should.
fn tell(name: &str, doing: fn(&[Vec<u8>]) -> (Duration, usize), packets: &[Vec<u8>], rounds: u32) {
    let (mut time, mut done) = (Duration::ZERO, 0);
    for _ in 0..rounds {
        let (taken, more) = doing(packets);
        (time, done) = (time + taken, done + more);
    }
    let count = packets.len();
    println!(
        "{name} {count} {} {} {done}",
        time.as_nanos(),
        count * rounds as usize
    );
}

/// Prints the nanoseconds of few and of many packets in each order, as many packets of each.
pub fn measure(rounds: u32) {
    for order in ORDERS {
        for (count, rounds) in [(FEW, rounds * (MANY / FEW)), (MANY, rounds)] {
            let packets = packets(order, count);
            tell(order.name, time_taking, &packets, rounds);
            tell("copy", time_copying, &packets, rounds);
        }
    }
}
