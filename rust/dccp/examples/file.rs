//! A file over packets that may be lost: the sender numbers its blocks, and sends lost ones again. The first block says how many bytes the
//! others have, since a connection may end in order before all was sent. The ends agree on names for a relay.
//!
//!     cargo run --example file -- receive ADDRESS:PORT FILE, or send ADDRESS:PORT FILE

use dccp::Fate;
use dccp::net::{Error, Options, Socket};
use std::collections::{BTreeMap, VecDeque};
use std::time::Duration;
use std::{fs, iter, thread};

/// A packet is the number of a block, and the block.
const BLOCK: usize = 1_020;

/// How many packets wait at the receiver, which drops more and reports that.
const HELD: usize = 256;

fn send(socket: Socket, content: &[u8]) -> Result<(), Error> {
    let length = (content.len() as u64).to_be_bytes();
    let blocks = iter::once(&length[..]).chain(content.chunks(BLOCK));
    let mut waiting: VecDeque<(u32, &[u8])> = (0..).zip(blocks).collect();
    let mut under_way = VecDeque::new();
    while !(waiting.is_empty() && under_way.is_empty()) {
        if let Some(it) = waiting.pop_front() {
            let packet = [&it.0.to_be_bytes(), it.1].concat();
            under_way.push_back((socket.send(&packet)?, it));
        } else {
            thread::sleep(Duration::from_millis(5));
        }
        // The fate of the oldest is known first. A packet that was lost or dropped, or whose fate is unknown, is sent again.
        while let Some(&(number, it)) = under_way.front() {
            match socket.fate(number) {
                Fate::InFlight => break,
                Fate::Delivered => {}
                _ => waiting.push_back(it),
            }
            under_way.pop_front();
        }
    }
    let _ = socket.close(Duration::from_secs(2)); // if the receiver is gone, nobody answers
    Ok(())
}

/// The file, if all of it has come; None if the connection has ended before.
fn receive(socket: &Socket) -> Option<Vec<u8>> {
    let mut blocks = BTreeMap::new();
    while let Ok(packet) = socket.recv() {
        if let Some((number, block)) = packet.split_first_chunk() {
            blocks.insert(u32::from_be_bytes(*number), block.to_vec());
        }
    }
    let length = u64::from_be_bytes(blocks.remove(&0)?.try_into().ok()?);
    let content: Vec<u8> = blocks.into_values().flatten().collect();
    (content.len() as u64 == length).then_some(content)
}

fn main() -> Result<(), Box<dyn std::error::Error>> {
    let words: Vec<String> = std::env::args().skip(1).collect();
    let [side, address, file] = &words[..] else {
        return Err("file SIDE ADDRESS:PORT FILE".into());
    };
    let options = Options::new().names("192.0.2.1:1".parse()?, "192.0.2.2:2".parse()?);
    match side.as_str() {
        "receive" => {
            let socket = options.holding(HELD).bind(address, &[42])?.accept()?;
            fs::write(file, receive(&socket).ok_or("the file is not whole")?)?;
        }
        _ => send(options.connect(address, 42)?, &fs::read(file)?)?,
    }
    Ok(())
}
