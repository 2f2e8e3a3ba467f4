//! Sockets: connections over the system's UDP, with clock, random first numbers, timers, limits and the loop inside.
//!
//! [`Socket::connect`] connects to a server, and [`Listener::bind`] makes one; each connection is a [`Socket`]. One thread in the
//! background hears for a listener and all its connections, and one for a client. Both use [`Connection`](crate::Connection), which has
//! neither socket nor clock, and is for programs with their own loop.
//!
//! ```
//! use dccp::net::{Listener, Socket};
//! use std::{error::Error, thread, time::Duration};
//!
//! fn main() -> Result<(), Box<dyn Error>> {
//!     let listener = Listener::bind("127.0.0.1:0", &[42])?;
//!     let address = listener.local_addr()?;
//!     let server = thread::spawn(move || -> Result<u64, dccp::net::Error> {
//!         let socket = listener.accept()?;
//!         let question = socket.recv()?;
//!         socket.send(&question)
//!     });
//!     let socket = Socket::connect(address, 42)?;
//!     socket.send(b"hello")?;
//!     assert_eq!(socket.recv_timeout(Duration::from_secs(10))?, b"hello");
//!     server.join().unwrap()?;
//!     Ok(())
//! }
//! ```
//!
//! Data are packets: each arrives once and whole, or not at all, and not always in order. A packet has at most
//! [`MOST_DATA_BYTES`](crate::MOST_DATA_BYTES) bytes. The window limits how many may be under way; [`Socket::send`] waits for room, and
//! [`Socket::try_send`] does not.
//!
//! Packets are kept until they are read, [`Options::most_waiting`] at most; more are dropped, and counted. At most 20 Syncs and Resets a
//! second answer the packets of a connection, and 100 those of strangers.

#[cfg_attr(has_batches, path = "linux.rs")]
#[cfg_attr(not(has_batches), path = "portable.rs")]
mod system;

mod agenda;
mod driver;
mod error;
mod line;
mod listener;
mod options;
mod random;
mod socket;
mod wire;

pub use error::{End, Error};
pub use listener::Listener;
pub use options::Options;
pub use socket::{Receiver, Sender, SentBatch, Socket};
