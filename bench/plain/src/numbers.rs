//! Sequence numbers of 48 bits on their circle (RFC 4340, section 7.1).

const MASK: u64 = (1 << 48) - 1;

const HALF: u64 = 1 << 47;

/// The number so many steps ahead.
pub fn ahead(number: u64, steps: u64) -> u64 {
    number.wrapping_add(steps) & MASK
}

/// The number so many steps back.
pub fn back(number: u64, steps: u64) -> u64 {
    number.wrapping_sub(steps) & MASK
}

/// How many steps ahead of `from` the number `to` is.
pub fn distance(from: u64, to: u64) -> u64 {
    to.wrapping_sub(from) & MASK
}

/// Whether `other` lies ahead of `number` by less than half the circle.
pub fn is_before(number: u64, other: u64) -> bool {
    (1..HALF).contains(&distance(number, other))
}

/// The later of two numbers.
pub fn later(one: u64, other: u64) -> u64 {
    if is_before(one, other) { other } else { one }
}

/// Whether a number lies from `low` up to `high`.
pub fn is_within(number: u64, low: u64, high: u64) -> bool {
    distance(low, number) <= distance(low, high)
}

/// The number near a reference whose low 24 bits these are (RFC 4340, section 7.6).
pub fn extended(low: u64, reference: u64) -> u64 {
    const TURN: u64 = 1 << 24;
    let steps = low.wrapping_sub(reference) & (TURN - 1);
    let own_turn = (reference & !(TURN - 1)) | low;
    if own_turn >= reference {
        // Ahead in its own turn: the one a turn before may be nearer.
        if steps > TURN / 2 {
            back(own_turn, TURN)
        } else {
            own_turn
        }
    } else if TURN - steps > TURN / 2 {
        ahead(own_turn, TURN)
    } else {
        own_turn
    }
}
