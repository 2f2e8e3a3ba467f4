//! Numbers that nobody can guess.

use std::fs::File;
use std::io::{self, Read};

/// Numbers for first packets (RFC 4340, section 7.2), from the system.
pub(super) struct Random {
    source: File,
}

impl Random {
    pub(super) fn new() -> io::Result<Random> {
        let source = File::open("/dev/urandom")?;
        Ok(Random { source })
    }

    /// 32 bytes.
    pub(super) fn key(&mut self) -> io::Result<[u8; 32]> {
        let mut key = [0; 32];
        self.source.read_exact(&mut key)?;
        Ok(key)
    }

    /// A number below 2^48.
    pub(super) fn first_number(&mut self) -> io::Result<u64> {
        let mut bytes = [0; 8];
        self.source.read_exact(&mut bytes)?;
        Ok(u64::from_ne_bytes(bytes) >> 16)
    }
}
