//! The shortest server: it sends back what each client sends, with a thread for each.
//!
//!     cargo run --example server -- 127.0.0.1:5001

use dccp::net::{Error, Listener};
use std::thread;

fn main() -> Result<(), Error> {
    let address = std::env::args().nth(1).expect("server ADDRESS:PORT");
    for socket in Listener::bind(&address, &[42])?.incoming() {
        let socket = socket?;
        thread::spawn(move || {
            while let Ok(data) = socket.recv() {
                let _ = socket.send(&data); // if the connection has ended, the next `recv` fails
            }
        });
    }
    Ok(())
}
