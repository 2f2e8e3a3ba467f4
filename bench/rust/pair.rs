//! A client and a server of the usual configuration, as the ends of a schedule of `dccp run` begin.

use crate::library::{End, NO_FRAME, bytes};
use crate::sys::{self, Frame, Settings};

pub const CLIENT_ADDRESS: [u8; 4] = [10, 0, 0, 1];

pub const SERVER_ADDRESS: [u8; 4] = [10, 0, 0, 2];

pub const CLIENT_PORT: u16 = 40_000;

pub const SERVER_PORT: u16 = 5_001;

pub const SERVICE: u32 = 42;

/// The phase OPEN of `include/dccp.h`.
const OPEN: u32 = 5;

/// What a server for the peer at this address is made from.
pub fn server_settings(peer: [u8; 4]) -> Settings {
    Settings {
        size: size_of::<Settings>(),
        own_address: padded(SERVER_ADDRESS),
        peer_address: padded(peer),
        first_number: 2_000,
        service: SERVICE,
        own_port: SERVER_PORT,
        peer_port: CLIENT_PORT,
        is_server: true,
        is_v6: false,
        is_plain: false,
        without_wide_window: true,
        without_round_trip: true,
        without_soon_acks: true,
        without_ack_ratio: true,
        without_probes: true,
        without_limits: true,
        without_giving_up: true,
        without_heed: true,
        most_held: 0,
    }
}

fn client_settings() -> Settings {
    Settings {
        size: size_of::<Settings>(),
        own_address: padded(CLIENT_ADDRESS),
        peer_address: padded(SERVER_ADDRESS),
        first_number: 1_000,
        service: SERVICE,
        own_port: CLIENT_PORT,
        peer_port: SERVER_PORT,
        is_server: false,
        is_v6: false,
        is_plain: false,
        without_wide_window: true,
        without_round_trip: true,
        without_soon_acks: true,
        without_ack_ratio: true,
        without_probes: true,
        without_limits: true,
        without_giving_up: true,
        without_heed: true,
        most_held: 0,
    }
}

fn padded(address: [u8; 4]) -> [u8; 16] {
    let mut bytes = [0; 16];
    bytes[..4].copy_from_slice(&address);
    bytes
}

/// Hands an end a frame; returns whether it delivered data.
pub fn arrive(end: &mut End, frame: &[u8], now: u64, answer: &mut Frame) -> bool {
    end.receive(frame, now, answer).kind == sys::TOLD_DATA
}

/// Two ends, and the frame that is under way between them.
pub struct Pair {
    pub client: End,
    pub server: End,
    pub frame: Box<Frame>,
    /// The time of all calls, in milliseconds.
    pub now: u64,
    /// How many data either has delivered.
    pub delivered: u64,
}

impl Pair {
    /// A pair in OPEN.
    pub fn open() -> Pair {
        let mut pair = Pair {
            client: End::new(&client_settings()),
            server: End::new(&server_settings(CLIENT_ADDRESS)),
            frame: Box::new(NO_FRAME),
            now: 0,
            delivered: 0,
        };
        pair.client.open(pair.now, &mut pair.frame);
        pair.reach_server();
        for end in [&mut pair.client, &mut pair.server] {
            assert_eq!(end.look().phase, OPEN, "the ends are not in OPEN");
        }
        pair
    }

    /// The client's frame arrives, if there is one; then the server's answer, and so on, until neither has anything to say.
    pub fn reach_server(&mut self) {
        self.deliver(true);
    }

    /// The same of the server's frame.
    pub fn reach_client(&mut self) {
        self.deliver(false);
    }

    fn deliver(&mut self, mut to_server: bool) {
        while self.frame.length > 0 {
            let end = if to_server {
                &mut self.server
            } else {
                &mut self.client
            };
            let mut answer = NO_FRAME;
            self.delivered += u64::from(arrive(end, bytes(&self.frame), self.now, &mut answer));
            *self.frame = answer;
            to_server = !to_server;
        }
    }
}
