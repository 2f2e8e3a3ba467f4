//! The shortest client: it sends a word to `server`, and prints the answer.
//!
//!     cargo run --example client -- 127.0.0.1:5001

use dccp::net::{Error, Socket};
use std::time::Duration;

fn main() -> Result<(), Error> {
    let address = std::env::args().nth(1).expect("client ADDRESS:PORT");
    let socket = Socket::connect(&address, 42)?;
    socket.send(b"hello")?;
    println!("{}", String::from_utf8_lossy(&socket.recv()?));
    socket.close(Duration::from_secs(5)).map(drop)
}
