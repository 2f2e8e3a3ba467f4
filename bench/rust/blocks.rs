//! Packets at an end, and two ends that send each other data, for a count of what they allocate: as much for no round as for many.

use crate::ends::{TENTH_LOST, TENTH_LOST_UNHEARD, opened, put_next};
use crate::library::NO_FRAME;
use crate::pair::{Pair, arrive};

/// So many packets, and the client acknowledges in the first half of them.
const PHASE: u32 = 4_096;

/// So many rounds, and the client asks for the other CCID.
const SWITCH: u32 = 512;

/// The time that a round takes, in milliseconds.
const TURN: u64 = 100;

/// The number of the feature Congestion Control ID (RFC 4340, section 6.4).
const CCID: u32 = 1;

const DATA: [u8; 64] = [85; 64];

/// Does so many rounds of both, and prints how many data were delivered.
pub fn measure(rounds: u32) {
    println!("delivered {} {}", take(rounds), exchange(rounds));
}

/// Makes so many packets in one place and hands each to an end in OPEN, with every tenth lost. In the second half of each phase the client
/// acknowledges nothing, so that vectors are cut and the floor is pushed.
fn take(rounds: u32) -> usize {
    let (mut end, mut packet, mut answer) = (opened(), Vec::with_capacity(128), NO_FRAME);
    let mut delivers = |round| {
        let acknowledges = round % PHASE < PHASE / 2;
        let order = if acknowledges {
            TENTH_LOST
        } else {
            TENTH_LOST_UNHEARD
        };
        put_next(&mut end, order, round, &mut packet);
        arrive(&mut end, &packet, 0, &mut answer)
    };
    (0..rounds).filter(|it| delivers(*it)).count()
}

/// Two ends send data, with losses, reports, timeouts and changes of the CCID.
fn exchange(rounds: u32) -> u64 {
    let mut pair = Pair::open();
    for round in 0..rounds {
        pair.now += TURN;
        client_sends(&mut pair, round);
        others(&mut pair, round);
        tick(&mut pair);
    }
    assert!(
        pair.delivered >= u64::from(rounds / 2),
        "too few data were delivered"
    );
    pair.delivered
}

/// The client sends, and every tenth time its packet is lost.
fn client_sends(pair: &mut Pair, round: u32) {
    if pair.client.send(&DATA, pair.now, &mut pair.frame) && round % 10 != 9 {
        pair.reach_server();
    }
}

/// Now and then the server sends too, or the client asks for the other CCID.
fn others(pair: &mut Pair, round: u32) {
    if round % 4 == 3 && pair.server.send(&DATA, pair.now, &mut pair.frame) {
        pair.reach_client();
    }
    if round % SWITCH == SWITCH - 1 {
        let ccid = if (round / SWITCH).is_multiple_of(2) {
            248
        } else {
            2
        };
        pair.client.prefer(CCID, ccid, pair.now, &mut pair.frame);
        pair.reach_server();
    }
}

/// The timers of both that have run out.
fn tick(pair: &mut Pair) {
    while pair.client.tick(pair.now, &mut pair.frame) {
        pair.reach_server();
    }
    while pair.server.tick(pair.now, &mut pair.frame) {
        pair.reach_client();
    }
}
