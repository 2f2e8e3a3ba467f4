//! What the kernel's side does: words go to the machine, and the lines of its helper come back.

use std::collections::HashMap;
use std::io::{self, BufRead, BufReader, Write};
use std::os::unix::net::UnixStream;
use std::path::Path;
use std::sync::mpsc::{Receiver, channel};
use std::thread;
use std::time::{Duration, Instant};

pub struct Kernel {
    words: UnixStream,
    lines: Receiver<String>,
}

/// What the helper has counted.
#[derive(Clone, Debug, Default, PartialEq, Eq)]
pub struct KernelCounts {
    pub sent: u32,
    pub received: u32,
    pub repeated: u32,
    pub strange: u32,
    /// How the connection ended at its side: "closed", "own", "fault", "time", or why there was none.
    pub end: String,
    /// The number of the system's fault, or 0.
    pub errno: u32,
}

impl Kernel {
    /// Waits for the machine.
    pub fn over(socket: &Path) -> io::Result<Kernel> {
        let words = UnixStream::connect(socket)?;
        let stream = words.try_clone()?;
        let (sender, lines) = channel();
        thread::spawn(move || {
            for line in BufReader::new(stream).lines().map_while(Result::ok) {
                if sender.send(line).is_err() {
                    return;
                }
            }
        });
        let kernel = Kernel { words, lines };
        kernel.line_with("ready", Duration::from_secs(600))?;
        Ok(kernel)
    }

    /// Waits for the next line that begins so.
    fn line_with(&self, front: &str, most: Duration) -> io::Result<String> {
        let end = Instant::now() + most;
        loop {
            let left = end.saturating_duration_since(Instant::now());
            let line = self.lines.recv_timeout(left).map_err(|_| {
                io::Error::new(
                    io::ErrorKind::TimedOut,
                    format!("the machine does not say {front}"),
                )
            })?;
            if line.starts_with(front) {
                return Ok(line);
            }
        }
    }

    /// Starts the helper with these words.
    pub fn start(&mut self, words: &str) -> io::Result<()> {
        while self.lines.try_recv().is_ok() {}
        writeln!(self.words, "/peer {words}")
    }

    pub fn wait_for_listening(&self) -> io::Result<()> {
        self.line_with("listening", Duration::from_secs(20))
            .map(drop)
    }

    /// What the helper has told by now, if it is done.
    pub fn told(&self) -> Option<KernelCounts> {
        self.lines
            .try_iter()
            .find_map(|line| KernelCounts::of(&line))
    }

    /// Waits until the helper is done.
    pub fn wait(&self, told: Option<KernelCounts>, most: Duration) -> io::Result<KernelCounts> {
        let end = Instant::now() + most;
        let mut told = told;
        while told.is_none() {
            let left = end.saturating_duration_since(Instant::now());
            let line = self
                .lines
                .recv_timeout(left)
                .map_err(|_| io::Error::new(io::ErrorKind::TimedOut, "the helper does not end"))?;
            told = KernelCounts::of(&line);
        }
        self.line_with("done", Duration::from_secs(10))?;
        Ok(told.unwrap_or_default())
    }
}

impl KernelCounts {
    fn of(line: &str) -> Option<KernelCounts> {
        let (first, rest) = line.split_once(' ')?;
        match first {
            "refused" | "fault" => Some(KernelCounts {
                end: rest.to_string(),
                ..KernelCounts::default()
            }),
            "counts" => {
                let words: Vec<&str> = rest.split_whitespace().collect();
                let pairs: HashMap<&str, &str> = words.chunks(2).map(|it| (it[0], it[1])).collect();
                let number = |name| pairs.get(name).and_then(|it| it.parse().ok()).unwrap_or(0);
                Some(KernelCounts {
                    sent: number("sent"),
                    received: number("received"),
                    repeated: number("repeated"),
                    strange: number("strange"),
                    end: pairs.get("end").unwrap_or(&"").to_string(),
                    errno: number("errno"),
                })
            }
            _ => None,
        }
    }
}
