//! What a packet takes from one end to another in memory, with frames and data that are given, and with frames that are written into a
//! buffer and data that are read in place.
//!
//!     cargo bench --bench calls
//!
//! A line for each says how many nanoseconds of a processor a packet took at both ends, with its half of an Ack, the least of nine measures,
//! and how many blocks of memory.

use dccp::{AcceptOutcome, Config, Connection, MOST_FRAME_BYTES, Phase};
use std::alloc::{GlobalAlloc, Layout, System};
use std::error::Error;
use std::fs;
use std::sync::atomic::{AtomicUsize, Ordering};
use std::time::{Duration, Instant};

/// The system's allocator, which counts.
struct CountingAllocator;

static BLOCKS: AtomicUsize = AtomicUsize::new(0);

// SAFETY: all is done by the system's allocator.
unsafe impl GlobalAlloc for CountingAllocator {
    unsafe fn alloc(&self, layout: Layout) -> *mut u8 {
        BLOCKS.fetch_add(1, Ordering::Relaxed);
        // SAFETY: as the caller has it.
        unsafe { System.alloc(layout) }
    }

    unsafe fn dealloc(&self, at: *mut u8, layout: Layout) {
        // SAFETY: as the caller has it.
        unsafe { System.dealloc(at, layout) }
    }
}

#[global_allocator]
static COUNTING: CountingAllocator = CountingAllocator;

const ROUNDS: usize = 2_000;
/// Packets that go before the other end answers.
const RUN: usize = 4;

/// How many nanoseconds of a processor this thread has had, as Linux counts them.
fn spent() -> Result<u64, Box<dyn Error>> {
    let told = fs::read_to_string("/proc/self/schedstat")?;
    Ok(told.split(' ').next().ok_or("a number")?.parse()?)
}

/// Two ends in OPEN.
fn pair(now: Instant) -> Result<(Connection, Connection), Box<dyn Error>> {
    let (here, there) = ("192.0.2.1:40000".parse()?, "192.0.2.2:5001".parse()?);
    let mut one = Connection::new(&Config::client(here, there, 42, 1_000))?;
    one.open(now)?;
    let request = one.poll_transmit().ok_or("a Request")?;
    let config = Config::server(there, here, 42, 2_000);
    let AcceptOutcome::Connection(other) = Connection::accept(&config, &request.bytes, now)? else {
        return Err("a Request is accepted".into());
    };
    let mut other = *other;
    while one.phase() != Phase::Open || other.phase() != Phase::Open {
        give(&mut other, &mut one, now);
        give(&mut one, &mut other, now);
    }
    Ok((one, other))
}

/// Hands over all frames that wait, each by itself, and answers how many packets of data came.
fn give(from: &mut Connection, to: &mut Connection, now: Instant) -> usize {
    while let Some(frame) = from.poll_transmit() {
        to.handle_datagram(&frame.bytes, now);
    }
    let mut count = 0;
    while to.poll_event().is_some() {
        count += 1;
    }
    count
}

/// The same by a buffer.
fn give_in_place(
    from: &mut Connection,
    to: &mut Connection,
    buffer: &mut [u8],
    now: Instant,
) -> usize {
    let mut count = 0;
    while let Some(run) = from.poll_transmit_into(buffer, RUN) {
        for datagram in buffer[..run.length].chunks(run.segment) {
            count += usize::from(to.receive(datagram, now).is_some());
        }
    }
    count
}

/// How long rounds of packets take, how many came, and how many blocks of memory they took.
fn rounds(data: &[u8], in_place: bool) -> Result<(u64, usize, usize), Box<dyn Error>> {
    let begun = Instant::now();
    let (mut one, mut other) = pair(begun)?;
    let mut buffer = vec![0; RUN * MOST_FRAME_BYTES];
    let (mut count, mut blocks, mut start) = (0, 0, 0);
    for round in 0..ROUNDS + 100 {
        if round == 100 {
            // The window has opened, and rooms are there.
            (count, blocks, start) = (0, BLOCKS.load(Ordering::Relaxed), spent()?);
        }
        // A millisecond a round, so that no timer runs out.
        let now = begun + Duration::from_millis(round as u64);
        for _ in 0..RUN {
            one.send(data, now)?;
        }
        if in_place {
            count += give_in_place(&mut one, &mut other, &mut buffer, now);
            give_in_place(&mut other, &mut one, &mut buffer, now);
        } else {
            count += give(&mut one, &mut other, now);
            give(&mut other, &mut one, now);
        }
    }
    let blocks = BLOCKS.load(Ordering::Relaxed) - blocks;
    Ok((spent()? - start, count, blocks))
}

fn main() -> Result<(), Box<dyn Error>> {
    for length in [64, 1_024] {
        for (name, in_place) in [("given", false), ("in place", true)] {
            let measures = (0..9).map(|_| rounds(&vec![85; length], in_place));
            let measures = measures.collect::<Result<Vec<_>, _>>()?;
            let least = measures.iter().min().ok_or("a measure")?;
            println!(
                "{name:8} {length:5} bytes: {:6.0} ns a packet, {:.2} blocks of memory",
                least.0 as f64 / least.1 as f64,
                least.2 as f64 / least.1 as f64
            );
        }
    }
    Ok(())
}
