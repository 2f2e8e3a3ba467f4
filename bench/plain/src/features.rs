//! Features and their negotiation (RFC 4340, section 6), of one end.

use crate::numbers::is_before;
use crate::options::{CHANGE_L, CHANGE_R, CONFIRM_L, CONFIRM_R, Entry, MANDATORY};

pub const CCID: u8 = 1;
pub const SHORT_SEQNOS: u8 = 2;
pub const SEQUENCE_WINDOW: u8 = 3;
pub const ECN_INCAPABLE: u8 = 4;
pub const ACK_RATIO: u8 = 5;
pub const SEND_ACK_VECTOR: u8 = 6;
pub const FEATURES: u8 = 9;

const MOST_VALUES: usize = 8;
const MOST_CHANGES: usize = 64;

/// Where a feature is located.
#[derive(Clone, Copy, Debug, PartialEq, Eq)]
pub enum Place {
    Here,
    There,
}

/// Why a wish is refused.
#[derive(Clone, Copy, Debug, PartialEq, Eq)]
pub enum WishFault {
    BadList,
    NotOurs,
}

/// Where the negotiation of a row is.
#[derive(Clone, Copy, Debug, PartialEq, Eq)]
pub enum Stand {
    Stable,
    Changing,
    Unstable,
}

/// A preference list, or the one value of a feature that is not negotiable.
#[derive(Clone, Copy, Debug, Default)]
pub struct Wish {
    values: [u64; MOST_VALUES],
    count: usize,
}

impl Wish {
    fn of(values: &[u64]) -> Wish {
        let mut wish = Wish::default();
        wish.values[..values.len()].copy_from_slice(values);
        wish.count = values.len();
        wish
    }

    /// Judges the values that are wanted.
    pub fn judged(feature: u8, place: Place, values: &[u64]) -> Result<Wish, WishFault> {
        let is_one = values.len() == 1;
        let are_few = !values.is_empty() && values.len() <= MOST_VALUES;
        let are_distinct = (1..values.len()).all(|at| !values[..at].contains(&values[at]));
        let are_permitted = values
            .iter()
            .all(|value| is_permitted(feature, place, *value));
        if !are_few || !are_distinct || !are_permitted || !is_negotiable(feature) && !is_one {
            return Err(WishFault::BadList);
        }
        if is_negotiable(feature) || place == Place::Here {
            Ok(Wish::of(values))
        } else {
            Err(WishFault::NotOurs)
        }
    }

    fn values(&self) -> &[u64] {
        &self.values[..self.count]
    }
}

/// Whether a list decides, and not its location alone.
pub fn is_negotiable(feature: u8) -> bool {
    !matches!(feature, SEQUENCE_WINDOW | ACK_RATIO)
}

fn is_permitted(feature: u8, place: Place, value: u64) -> bool {
    match (feature, place) {
        (CCID, _) => matches!(value, 2 | 248),
        (SEQUENCE_WINDOW, _) => (32..1 << 46).contains(&value),
        (ECN_INCAPABLE, Place::Here) => value == 1,
        (ACK_RATIO, _) => value <= 65_535,
        (SHORT_SEQNOS | SEND_ACK_VECTOR | ECN_INCAPABLE, _) => value <= 1,
        (8, _) => value <= 15,
        _ => value == 0,
    }
}

fn is_required(feature: u8) -> bool {
    feature <= SEQUENCE_WINDOW
}

fn initial(feature: u8) -> u64 {
    match feature {
        CCID | ACK_RATIO => 2,
        SEQUENCE_WINDOW => 100,
        _ => 0,
    }
}

fn usual(feature: u8, place: Place) -> Wish {
    match (feature, place) {
        (CCID, _) => Wish::of(&[2, 248]),
        (SEQUENCE_WINDOW, _) => Wish::of(&[100]),
        (ECN_INCAPABLE, Place::Here) => Wish::of(&[1]),
        (ECN_INCAPABLE, Place::There) => Wish::of(&[1, 0]),
        (ACK_RATIO, _) => Wish::of(&[2]),
        (SEND_ACK_VECTOR, Place::Here) => Wish::of(&[1, 0]),
        (SEND_ACK_VECTOR, Place::There) => Wish::of(&[1]),
        _ => Wish::of(&[0]),
    }
}

/// How many bytes the value of a feature that is not negotiable has.
fn width(feature: u8) -> usize {
    if feature == SEQUENCE_WINDOW { 6 } else { 2 }
}

/// A feature at a place, as one end has it.
#[derive(Clone, Copy, Debug)]
struct Row {
    value: u64,
    stand: Stand,
    active: Wish,
    pending: Wish,
    is_offered: bool,
    is_mandatory: bool,
    /// The number of the packet with the first Change of the last opening.
    first_sent: Option<u64>,
}

/// The eighteen rows of an end.
#[derive(Clone, Debug)]
pub struct Features {
    rows: [Row; 2 * FEATURES as usize],
    is_server: bool,
    /// The rows that the packet in hand confirms, by bits.
    confirmed: u32,
}

/// The first fault of a packet's options, and whether it is a failure of what Mandatory demands.
#[derive(Clone, Copy, Debug)]
pub struct FeatureFault {
    pub is_mandatory: bool,
}

/// Which of a packet's Changes and Confirms counted already.
#[derive(Clone, Debug, Default)]
pub struct CountedOptions {
    seen: [u64; 8],
    changes: usize,
}

impl CountedOptions {
    /// Whether this Change or Confirm counts, as the first of its feature and letter.
    fn counts(&mut self, kind: u8, feature: u8) -> bool {
        let is_change = matches!(kind, CHANGE_L | CHANGE_R);
        self.changes += usize::from(is_change);
        let is_left = matches!(kind, CHANGE_L | CONFIRM_L);
        let place = usize::from(feature) + if is_left { 256 } else { 0 };
        let bit = 1 << (place % 64);
        let is_first = self.seen[place / 64] & bit == 0;
        self.seen[place / 64] |= bit;
        is_first && (!is_change || self.changes <= MOST_CHANGES)
    }
}

fn index(feature: u8, place: Place) -> usize {
    2 * usize::from(feature - 1) + place as usize
}

impl Features {
    pub fn new(is_server: bool) -> Features {
        let row = |at: usize| {
            let feature = (at / 2 + 1) as u8;
            let place = if at.is_multiple_of(2) {
                Place::Here
            } else {
                Place::There
            };
            let is_offered = matches!(
                (feature, place),
                (ECN_INCAPABLE, Place::Here) | (SEND_ACK_VECTOR, Place::There)
            );
            Row {
                value: initial(feature),
                stand: Stand::Stable,
                active: usual(feature, place),
                pending: Wish::default(),
                is_offered,
                is_mandatory: is_offered,
                first_sent: None,
            }
        };
        Features {
            rows: std::array::from_fn(row),
            is_server,
            confirmed: 0,
        }
    }

    /// Takes all offers away.
    pub fn plain(&mut self) {
        for row in &mut self.rows {
            (row.is_offered, row.is_mandatory) = (false, false);
        }
    }

    /// Wants these values for a feature when the connection begins.
    pub fn set(&mut self, feature: u8, place: Place, wish: Wish) {
        self.rows[index(feature, place)].active = wish;
    }

    /// Asks for a feature when the connection begins.
    pub fn offer(&mut self, feature: u8, place: Place, is_mandatory: bool) {
        let row = &mut self.rows[index(feature, place)];
        (row.is_offered, row.is_mandatory) = (true, is_mandatory);
    }

    pub fn value(&self, feature: u8, place: Place) -> u64 {
        self.rows[index(feature, place)].value
    }

    pub fn stand(&self, feature: u8, place: Place) -> Stand {
        self.rows[index(feature, place)].stand
    }

    /// Begins a packet that is read.
    pub fn begin(&mut self) {
        self.confirmed = 0;
    }

    /// Hears an option of the packet in hand, which acknowledges this number, if any. What answers it goes after `confirms`.
    pub fn hear(
        &mut self,
        entry: &Entry<'_>,
        acknowledged: Option<u64>,
        counted: &mut CountedOptions,
        confirms: &mut Vec<u8>,
    ) -> Result<(), FeatureFault> {
        let (feature, data) = (entry.data[0], &entry.data[1..]);
        if !counted.counts(entry.kind, feature) {
            return Ok(());
        }
        let place = match entry.kind {
            CHANGE_L | CONFIRM_L => Place::There,
            _ => Place::Here,
        };
        match entry.kind {
            CHANGE_L | CHANGE_R => self.hear_change(entry, place, feature, data, confirms),
            _ => self.hear_confirm(place, feature, data, acknowledged),
        }
    }

    fn hear_change(
        &mut self,
        entry: &Entry<'_>,
        place: Place,
        feature: u8,
        data: &[u8],
        confirms: &mut Vec<u8>,
    ) -> Result<(), FeatureFault> {
        let answer = if entry.kind == CHANGE_L {
            CONFIRM_R
        } else {
            CONFIRM_L
        };
        let is_known = (1..=FEATURES).contains(&feature);
        if is_known {
            self.confirmed |= 1 << index(feature, place);
        }
        if !is_known || !is_valid_change(feature, place, data) {
            confirms.extend([answer, 3, feature]);
            let fault = FeatureFault { is_mandatory: true };
            return if entry.is_mandatory {
                Err(fault)
            } else {
                Ok(())
            };
        }
        let is_server = self.is_server;
        let row = &mut self.rows[index(feature, place)];
        if row.stand == Stand::Unstable {
            self.confirmed &= !(1 << index(feature, place));
            return Ok(());
        }
        if !is_negotiable(feature) {
            row.value = data.iter().fold(0, |all, byte| all << 8 | u64::from(*byte));
            confirms.extend([answer, 3 + data.len() as u8, feature]);
            confirms.extend(data);
            return Ok(());
        }
        match reconciled(is_server, row.active.values(), data) {
            Some(value) => row.value = value,
            None if entry.is_mandatory => return Err(FeatureFault { is_mandatory: true }),
            None => {}
        }
        let list = row.active.values();
        confirms.extend([answer, 4 + list.len() as u8, feature, row.value as u8]);
        confirms.extend(list.iter().map(|value| *value as u8));
        Ok(())
    }

    fn hear_confirm(
        &mut self,
        place: Place,
        feature: u8,
        data: &[u8],
        acknowledged: Option<u64>,
    ) -> Result<(), FeatureFault> {
        if !(1..=FEATURES).contains(&feature) {
            return Ok(());
        }
        let is_server = self.is_server;
        let row = &mut self.rows[index(feature, place)];
        let (Stand::Changing, Some(acknowledged), Some(first)) =
            (row.stand, acknowledged, row.first_sent)
        else {
            return Ok(());
        };
        if is_before(acknowledged, first) {
            return Ok(());
        }
        let fault = Err(FeatureFault {
            is_mandatory: false,
        });
        let active = row.active.values();
        let value = match data {
            [] if is_required(feature) => return fault,
            [] => row.value,
            _ if !is_negotiable(feature) => {
                let told = data.iter().fold(0, |all, byte| all << 8 | u64::from(*byte));
                if data.len() != width(feature) || told != active[0] {
                    return fault;
                }
                told
            }
            [value] => {
                let value = u64::from(*value);
                if !active.contains(&value) && value != row.value {
                    return fault;
                }
                value
            }
            [value, list @ ..] => {
                let value = u64::from(*value);
                match reconciled(is_server, active, list) {
                    Some(shared) if shared == value => value,
                    None if value == row.value => value,
                    _ => return fault,
                }
            }
        };
        (row.value, row.stand) = (value, Stand::Stable);
        Ok(())
    }

    /// The rows are asked for that are offered, except for those that the packet in hand confirms, which are offered no more.
    pub fn open_offers(&mut self) {
        for (at, row) in self.rows.iter_mut().enumerate() {
            if row.is_offered && self.confirmed & 1 << at == 0 {
                (row.stand, row.first_sent) = (Stand::Changing, None);
            }
            row.is_offered = false;
        }
    }

    /// Whether a row waits for a Confirm.
    pub fn is_due(&self) -> bool {
        self.rows.iter().any(|row| row.stand != Stand::Stable)
    }

    /// Writes the Changes of all rows that are due, for a packet with this number, except for the rows that it confirms.
    pub fn write_due(&mut self, number: u64, out: &mut Vec<u8>) {
        for at in 0..self.rows.len() {
            if self.rows[at].stand != Stand::Stable && self.confirmed & 1 << at == 0 {
                self.write(at, number, out);
            }
        }
    }

    /// Wants this from now on. Where the row is stable its Change is to go out, with [`Features::write_preferred`].
    pub fn prefer(&mut self, feature: u8, place: Place, wish: Wish) -> bool {
        let row = &mut self.rows[index(feature, place)];
        let is_stable = row.stand == Stand::Stable;
        if is_stable {
            (row.active, row.is_mandatory) = (wish, false);
            (row.stand, row.first_sent) = (Stand::Changing, None);
        } else {
            (row.pending, row.stand) = (wish, Stand::Unstable);
        }
        is_stable
    }

    /// Writes the Change of a row.
    pub fn write_preferred(&mut self, feature: u8, place: Place, number: u64, out: &mut Vec<u8>) {
        self.write(index(feature, place), number, out);
    }

    fn write(&mut self, at: usize, number: u64, out: &mut Vec<u8>) {
        let row = &mut self.rows[at];
        if row.stand == Stand::Unstable {
            (row.active, row.is_mandatory) = (row.pending, false);
            (row.stand, row.first_sent) = (Stand::Changing, Some(number));
        }
        row.first_sent.get_or_insert(number);
        let feature = (at / 2 + 1) as u8;
        if row.is_mandatory {
            out.push(MANDATORY);
        }
        let kind = if at.is_multiple_of(2) {
            CHANGE_L
        } else {
            CHANGE_R
        };
        let values = row.active.values();
        if is_negotiable(feature) {
            out.extend([kind, 3 + values.len() as u8, feature]);
            out.extend(values.iter().map(|value| *value as u8));
        } else {
            let width = width(feature);
            out.extend([kind, 3 + width as u8, feature]);
            out.extend(&values[0].to_be_bytes()[8 - width..]);
        }
    }
}

/// Whether a Change says what it may: a value at least, or just one, by its location, of the exact length and in range.
fn is_valid_change(feature: u8, place: Place, data: &[u8]) -> bool {
    if is_negotiable(feature) {
        return !data.is_empty();
    }
    let value = data
        .iter()
        .fold(0, |all: u64, byte| all << 8 | u64::from(*byte));
    place == Place::There
        && data.len() == width(feature)
        && is_permitted(feature, Place::Here, value)
}

/// The first entry of the server's list that is also in the client's.
fn reconciled(is_server: bool, own: &[u64], peers: &[u8]) -> Option<u64> {
    if is_server {
        own.iter()
            .copied()
            .find(|value| peers.iter().any(|it| u64::from(*it) == *value))
    } else {
        peers
            .iter()
            .map(|value| u64::from(*value))
            .find(|value| own.contains(value))
    }
}
