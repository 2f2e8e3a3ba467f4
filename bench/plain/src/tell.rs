//! The text on events and ends.

use crate::endpoint::{Endpoint, Outcome};
use crate::features::{FEATURES, Place, Stand};
use crate::lines::{LineRefusal, put_hex, put_number};
use crate::world::{EventResult, Side};

pub fn put(text: &str, out: &mut Vec<u8>) {
    out.extend_from_slice(text.as_bytes());
}

/// What became of a packet; `delivered` are its data.
pub fn put_outcome(outcome: &Outcome, frame: &[u8], out: &mut Vec<u8>) {
    match outcome {
        Outcome::Took(None) => put("took", out),
        Outcome::Took(Some(place)) => {
            put("took data ", out);
            put_hex(&frame[place.clone()], out);
        }
        Outcome::Dropped(cause) => put(&format!("dropped {cause:?}"), out),
        Outcome::Synced(number) => {
            put("synced ", out);
            put_number(*number, out);
        }
        Outcome::WasReset(code) => put(&format!("was reset {code}"), out),
        Outcome::SentReset(code, [a, b, c]) => put(&format!("sent reset {code} {a} {b} {c}"), out),
    }
}

pub fn put_given(given: &EventResult, frame: &[u8], out: &mut Vec<u8>) {
    match given {
        EventResult::Called(Ok(())) => put("ok", out),
        EventResult::Called(Err(refusal)) => put(&format!("refused {refusal:?}"), out),
        EventResult::Rang(true) => put("fired", out),
        EventResult::Rang(false) => put("idle", out),
        EventResult::Heard(outcome) => put_outcome(outcome, frame, out),
    }
}

/// The line of a frame that was sent, with its index.
pub fn put_sent(side: Side, index: usize, frame: &[u8], out: &mut Vec<u8>) {
    put("sent ", out);
    out.push(side.letter());
    put_number(index as u64, out);
    out.push(b' ');
    put_hex(frame, out);
    out.push(b'\n');
}

/// The line of an end.
pub fn put_end(side: Side, end: &Endpoint, out: &mut Vec<u8>) {
    let (window, flight) = (end.congestion.window(), end.congestion.in_flight());
    put(
        &format!(
            "end {} {} window {window} flight {flight}",
            side.name(),
            end.phase.name()
        ),
        out,
    );
    let mark = |stand| match stand {
        Stand::Stable => "",
        Stand::Changing => "*",
        Stand::Unstable => "!",
    };
    for feature in 1..=FEATURES {
        let of = |place| {
            (
                end.features.value(feature, place),
                mark(end.features.stand(feature, place)),
            )
        };
        let ((here, own), (there, other)) = (of(Place::Here), of(Place::There));
        put(&format!(" {feature}={here}{own}/{there}{other}"), out);
    }
    out.push(b'\n');
}

/// The line of a refusal.
pub fn put_refused(line: usize, refused: LineRefusal, out: &mut Vec<u8>) {
    put(
        &format!("line {line} column {}: {:?}\n", refused.column, refused.why),
        out,
    );
}
