//! Voice both ways: 160 bytes each 20 ms. A packet without room is dropped, since it would arrive too late. A packet is played 60 ms after
//! it was said, or not at all.
//!
//!     cargo run --example voice -- server ADDRESS:PORT SECONDS, or client ADDRESS:PORT SECONDS
//!
//! The last line says which share of the other's packets was played, and the longest silence. Both use CCID 248, a fixed window of eight
//! packets, each of which is acknowledged: with CCID 2 a few losses halve the window, and voice that waits is late. The ends agree on names for
//! a relay.

use dccp::net::{Error, Options, Socket};
use dccp::{Feature, Place};
use std::time::{Duration, Instant};

const FRAME: Duration = Duration::from_millis(20);
/// How long the first packet waits to be played: later packets may be delayed by this much more.
const JITTER: Duration = Duration::from_millis(60);

/// Speaks and plays this many packets. Returns how many were played, and the longest silence.
fn talk(socket: &Socket, packets: u32) -> (u32, Duration) {
    let (begun, mut first) = (Instant::now(), None);
    let (mut played, mut last, mut silence) = (0, begun, Duration::ZERO);
    for number in 0..packets {
        let mut packet = [0; 160];
        packet[..4].copy_from_slice(&number.to_be_bytes());
        if let Err(Error::Ended(_)) = socket.try_send(&packet) {
            break;
        }
        let next = begun + FRAME * (number + 1);
        while let Ok(data) = socket.recv_timeout(next.saturating_duration_since(Instant::now())) {
            let now = Instant::now();
            let said = FRAME * u32::from_be_bytes(data[..4].try_into().unwrap_or_default());
            let start = *first.get_or_insert(now - said);
            if now <= start + said + JITTER {
                (played, silence, last) = (played + 1, silence.max(now - last), now);
            }
        }
    }
    (played, silence)
}

fn main() -> Result<(), Box<dyn std::error::Error>> {
    let words: Vec<String> = std::env::args().skip(1).collect();
    let [side, address, seconds] = &words[..] else {
        return Err("voice SIDE ADDRESS:PORT SECONDS".into());
    };
    let options = Options::new()
        .names("192.0.2.1:1".parse()?, "192.0.2.2:2".parse()?)
        .offer(Feature::Ccid, Place::Here, &[248])
        .offer(Feature::AckRatio, Place::Here, &[1]);
    let socket = match side.as_str() {
        "server" => options.bind(address, &[42])?.accept()?,
        _ => options.connect(address, 42)?,
    };
    let packets = 50 * seconds.parse::<u32>()?;
    let (played, silence) = talk(&socket, packets);
    let (share, silence) = (100 * played / packets, silence.as_millis());
    println!("{side} played {share} of 100, longest silence {silence} ms");
    // If the other is gone, nobody answers.
    let _ = socket.close(Duration::from_secs(2));
    Ok(())
}
