//! Packets of 1,024 bytes over UDP on this machine, from one thread to another: over plain datagrams that are answered as often, over
//! sockets of `dccp::net` one by one, and in batches.
//!
//!     cargo bench --bench sockets
//!
//! Each way is taken nine times by turns, and its best time counts. A line each says how many packets a second came, the ratio to plain
//! datagrams, and on Linux how much of a processor a packet took, both ends together. Then what 10,000 packets a second take of one, in bursts of
//! 100: at each end, which is what a program pays that has one, and at both together, which are in one process here. The same of plain datagrams.

use dccp::MOST_DATA_BYTES;
use dccp::net::{Listener, Options, Socket};
use std::collections::HashMap;
use std::error::Error;
use std::ffi::OsString;
use std::fs;
use std::io;
use std::net::UdpSocket;
use std::thread;
use std::time::{Duration, Instant};

const PACKETS: u32 = 40_000;
const BATCH: usize = 64;
const ROUNDS: u32 = 9;
/// As many plain datagrams are in flight, and every second one is answered: as an Ack Ratio of 2 has it.
const IN_FLIGHT: u32 = 128;
const PATIENCE: Duration = Duration::from_secs(1);
/// How long 10,000 packets a second are sent, and how many of them at once.
const SECONDS: u32 = 10;
const BURST: usize = 100;
/// The threads of the receiver: the library's, and the one that reads.
const LISTENER: &str = "dccp listener";
const READER: &str = "reader";

type Answer<T> = Result<T, Box<dyn Error + Send + Sync>>;

/// Packets that came, a second.
fn rate(came: u32, took: Duration) -> f64 {
    f64::from(came) / took.as_secs_f64()
}

fn answer_every_second(socket: &UdpSocket) -> io::Result<u32> {
    let (mut room, mut came) = ([0; 2_048], 0);
    while let Ok(length) = socket.recv(&mut room) {
        came += u32::from(length == MOST_DATA_BYTES);
        if length != MOST_DATA_BYTES {
            break;
        }
        if came % 2 == 0 {
            socket.send(&room[..1])?;
        }
    }
    Ok(came)
}

/// Two sockets of the system that are connected to each other.
fn plain_pair() -> io::Result<(UdpSocket, UdpSocket)> {
    let (here, there) = (
        UdpSocket::bind("127.0.0.1:0")?,
        UdpSocket::bind("127.0.0.1:0")?,
    );
    here.connect(there.local_addr()?)?;
    there.connect(here.local_addr()?)?;
    here.set_read_timeout(Some(PATIENCE))?;
    there.set_read_timeout(Some(PATIENCE))?;
    Ok((here, there))
}

fn plain() -> Answer<f64> {
    let (here, there) = plain_pair()?;
    let begun = Instant::now();
    let receiver = thread::spawn(move || answer_every_second(&there));
    let (packet, mut room, mut answered) = ([7; MOST_DATA_BYTES], [0; 16], 0);
    for sent in 0..PACKETS {
        while IN_FLIGHT <= sent - answered {
            here.recv(&mut room)?;
            answered += 2;
        }
        here.send(&packet)?;
    }
    here.send(&[0])?;
    let came = receiver.join().map_err(|_| "the receiver panicked")??;
    Ok(rate(came, begun.elapsed()))
}

/// A client and a server's end of a connection.
fn pair() -> Answer<(Socket, Socket)> {
    let listener = Listener::bind("127.0.0.1:0", &[42])?;
    let client = Options::new().connect(listener.local_addr()?, 42)?;
    client.send(b"first")?;
    let server = listener.accept()?;
    server.recv()?;
    Ok((client, server))
}

/// Packets a second that come where a client sends so, and a server takes so what comes.
fn between(
    send: impl FnOnce(&Socket) -> Answer<()>,
    mut take: impl FnMut(&Socket) -> Answer<u32> + Send + 'static,
) -> Answer<f64> {
    let (client, server) = pair()?;
    let begun = Instant::now();
    let receiver = thread::spawn(move || {
        let (mut came, mut last) = (0, begun);
        while let Ok(more) = take(&server) {
            (came, last) = (came + more, Instant::now());
        }
        (came, last)
    });
    send(&client)?;
    client.close(Duration::from_secs(10))?;
    let (came, last) = receiver.join().map_err(|_| "the receiver panicked")?;
    Ok(rate(came, last - begun))
}

fn one_by_one() -> Answer<f64> {
    let packet = [7; MOST_DATA_BYTES];
    between(
        move |client| Ok((0..PACKETS).try_for_each(|_| client.send(&packet).map(drop))?),
        |server| Ok(server.recv().map(|_| 1)?),
    )
}

fn in_batches() -> Answer<f64> {
    let mut found = Vec::new();
    between(
        |client| {
            let packets = [[7; MOST_DATA_BYTES]; BATCH];
            let mut left = PACKETS as usize;
            while left != 0 {
                left -= client.send_batch(&packets[..left.min(BATCH)])?.count;
            }
            Ok(())
        },
        move |server| Ok(server.recv_batch(&mut found)? as u32),
    )
}

/// The seconds of processor in a file `stat` of /proc: at 100 ticks a second, as Linux counts them.
fn seconds(stat: &str) -> Option<f64> {
    let fields: Vec<&str> = stat.rsplit_once(')')?.1.split_whitespace().collect();
    let ticks = fields.get(11..13)?.iter().map(|it| it.parse::<f64>());
    Some(ticks.sum::<Result<f64, _>>().ok()? / 100.0)
}

/// The seconds of processor that this process has taken.
fn processor() -> Option<f64> {
    seconds(&fs::read_to_string("/proc/self/stat").ok()?)
}

/// The seconds of processor that each thread of this process has taken, with its name, by its number.
fn threads() -> HashMap<OsString, (String, f64)> {
    let found = fs::read_dir("/proc/self/task")
        .into_iter()
        .flatten()
        .flatten();
    let each = found.filter_map(|it| {
        let stat = fs::read_to_string(it.path().join("stat")).ok()?;
        let name = stat.split_once('(')?.1.rsplit_once(')')?.0;
        Some((it.file_name(), (name.to_owned(), seconds(&stat)?)))
    });
    each.collect()
}

/// What the threads of this process take of a processor while a hundred packets are sent each ten milliseconds: those of the sender, and those of
/// the receiver. These are the packets of so many seconds, even where the machine was late.
fn shares_of(mut burst: impl FnMut() -> Answer<()>) -> Answer<[f64; 2]> {
    let (begun, before) = (Instant::now(), threads());
    for turn in 1..=100 * SECONDS {
        burst()?;
        let next = begun + Duration::from_millis(10) * turn;
        thread::sleep(next.saturating_duration_since(Instant::now()));
    }
    let mut shares = [0.0; 2];
    for (number, (name, after)) in threads() {
        let began = before.get(&number).map_or(0.0, |it| it.1);
        let is_receiver = [LISTENER, READER].contains(&name.as_str());
        shares[usize::from(is_receiver)] += 100.0 * (after - began) / f64::from(SECONDS);
    }
    Ok(shares)
}

fn reader() -> thread::Builder {
    thread::Builder::new().name(READER.into())
}

fn plain_at_ten_thousand() -> Answer<[f64; 2]> {
    let (here, there) = plain_pair()?;
    let receiver = reader().spawn(move || answer_every_second(&there))?;
    here.set_nonblocking(true)?;
    let (packet, mut room) = ([7; MOST_DATA_BYTES], [0; 16]);
    let shares = shares_of(|| {
        for _ in 0..BURST {
            here.send(&packet)?;
        }
        while here.recv(&mut room).is_ok() {}
        Ok(())
    })?;
    here.send(&[0])?;
    receiver.join().map_err(|_| "the receiver panicked")??;
    Ok(shares)
}

fn at_ten_thousand() -> Answer<[f64; 2]> {
    let (client, server) = pair()?;
    let receiver = reader().spawn(move || {
        let mut found = Vec::new();
        while server.recv_batch(&mut found).is_ok() {}
    })?;
    let packets = [[7; MOST_DATA_BYTES]; BURST];
    let shares = shares_of(|| {
        let mut sent = 0;
        while sent < packets.len() {
            sent += client.send_batch(&packets[sent..])?.count;
        }
        Ok(())
    })?;
    client.close(Duration::from_secs(10))?;
    receiver.join().map_err(|_| "the receiver panicked")?;
    Ok(shares)
}

fn main() -> Answer<()> {
    let ways = [
        ("plain datagrams", plain as fn() -> Answer<f64>),
        ("sockets", one_by_one),
        ("sockets in batches", in_batches),
    ];
    let (mut best, mut took) = ([0_f64; 3], [0_f64; 3]);
    for _ in 0..ROUNDS {
        for (place, (_, way)) in ways.iter().enumerate() {
            let before = processor().unwrap_or(0.0);
            best[place] = best[place].max(way()?);
            took[place] += processor().unwrap_or(0.0) - before;
        }
    }
    for (place, (name, _)) in ways.iter().enumerate() {
        let ratio = best[place] / best[0];
        let microseconds = took[place] * 1e6 / f64::from(ROUNDS * PACKETS);
        println!(
            "{name}: {:.0} packets a second, {ratio:.2} of plain; {microseconds:.2} µs of a processor a packet",
            best[place]
        );
    }
    if processor().is_none() {
        return Ok(());
    }
    for (name, way) in [
        (
            "plain datagrams",
            plain_at_ten_thousand as fn() -> Answer<[f64; 2]>,
        ),
        ("packets", at_ten_thousand),
    ] {
        let [sender, receiver] = way()?;
        let both = sender + receiver;
        println!(
            "10,000 {name} a second: the sender {sender:.1} % of a processor, the receiver {receiver:.1}, both together {both:.1}"
        );
    }
    Ok(())
}
