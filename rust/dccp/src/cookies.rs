//! The keys of Init Cookies.

use crate::sys;
use std::time::Instant;

/// The keys of the Init Cookies of a server with an end for each peer (RFC 4340, section 8.1.4), for [`Connection::greet`] and
/// [`Connection::recall`]. A [`Listener`](crate::Listener) has its own.
///
/// [`Connection::greet`]: crate::Connection::greet
/// [`Connection::recall`]: crate::Connection::recall
#[derive(Clone, Debug)]
pub struct CookieKeys {
    pair: sys::KeyPair,
    begun: Instant,
}

impl CookieKeys {
    /// From a first key: 32 random bytes that nobody else knows.
    pub fn new(key: [u8; 32], now: Instant) -> CookieKeys {
        let key = sys::Key { bytes: key };
        let pair = sys::KeyPair {
            key,
            before: key,
            since: 0,
        };
        CookieKeys { pair, begun: now }
    }

    /// Sets a new key, which should happen each hour or so. Cookies of the earlier key stay good for their two minutes.
    ///
    /// ```
    /// use dccp::{Config, Connection, CookieKeys};
    /// use std::time::{Duration, Instant};
    ///
    /// let (here, there) = ("192.0.2.1:40000".parse()?, "192.0.2.2:5001".parse()?);
    /// let (config, now) = (Config::server(there, here, 42, 2_000), Instant::now());
    /// // A real server draws its keys.
    /// let mut keys = CookieKeys::new([7; 32], now);
    /// let mut client = Connection::new(&Config::client(here, there, 42, 1_000))?;
    /// client.open(now)?;
    /// let request = client.poll_transmit().ok_or("a Request")?;
    /// let response = Connection::greet(&config, &keys, &request.bytes, now)?.ok_or("a Response")?;
    /// client.handle_datagram(&response.bytes, now);
    /// let ack = client.poll_transmit().ok_or("an Ack")?;
    /// let later = now + Duration::from_secs(1);
    /// keys.change([8; 32], later);
    /// assert!(Connection::recall(&config, &keys, &ack.bytes, later)?.is_some());
    /// // A key that was changed twice is forgotten.
    /// keys.change([9; 32], later);
    /// assert!(Connection::recall(&config, &keys, &ack.bytes, later)?.is_none());
    /// # Ok::<(), Box<dyn std::error::Error>>(())
    /// ```
    pub fn change(&mut self, key: [u8; 32], now: Instant) {
        self.pair = sys::KeyPair {
            key: sys::Key { bytes: key },
            before: self.pair.key,
            since: self.time(now),
        };
    }

    pub(crate) fn pair(&self) -> &sys::KeyPair {
        &self.pair
    }

    /// The time in milliseconds, as cookies count it.
    pub(crate) fn time(&self, now: Instant) -> u64 {
        now.saturating_duration_since(self.begun).as_millis() as u64
    }
}
