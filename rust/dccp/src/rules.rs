//! The rules by which a listener makes room, gives connections up and answers strangers.

use crate::sys;
use std::time::Duration;

/// When a server answers the Request of a peer without a connection by an Init Cookie, and keeps nothing. The packet that returns the
/// cookie opens the connection (RFC 4340, section 8.1.4). Each Request has one such answer, which is not among the answers to strangers.
#[derive(Clone, Copy, Debug, PartialEq, Eq)]
#[non_exhaustive]
pub enum Cookies {
    /// Never.
    Never = 0,
    /// If more connections are half open than places are free.
    InACrowd = 1,
    /// Always.
    Always = 2,
}

/// The rules by which a [`Listener`](crate::Listener) makes room, gives connections up and answers strangers; None is for ever, or without a
/// limit. The default is that of a new listener.
#[derive(Clone, Copy, Debug, PartialEq, Eq)]
#[non_exhaustive]
pub struct FlowRules {
    /// How long a connection may be in RESPOND: four minutes (RFC 4340, section 8.1.3).
    pub respond: Option<Duration>,
    /// The same in a crowd, where more connections are in RESPOND than places are free: ten seconds (own).
    pub crowded: Option<Duration>,
    /// How long one may be in CLOSEREQ and in CLOSING: 64 seconds (own).
    pub closing: Option<Duration>,
    /// How long one in OPEN may take no packet: two minutes (own).
    pub idle: Option<Duration>,
    /// Whether a Request at a full table ends the connection longest in TIMEWAIT, or else the one longest in RESPOND over its time.
    pub makes_room: bool,
    /// Whether a peer that begins anew from its port ends its old connection.
    pub ends_old_flows: bool,
    /// How many answers a second go to all peers without a connection together: 100 (own); 65,534 at most.
    pub answers_to_strangers: Option<u16>,
    /// How many of them are Resets to packets that belong to no connection (RFC 4340, section 8.1.3): 8 (own); 65,534 at most.
    pub resets_to_strangers: Option<u16>,
    /// When cookies are used: in a crowd, once [`Listener::rekey`](crate::Listener::rekey) has given a key.
    pub cookies: Cookies,
}

impl Default for FlowRules {
    fn default() -> FlowRules {
        FlowRules {
            respond: Some(Duration::from_secs(240)),
            crowded: Some(Duration::from_secs(10)),
            closing: Some(Duration::from_secs(64)),
            idle: Some(Duration::from_secs(120)),
            makes_room: true,
            ends_old_flows: true,
            answers_to_strangers: Some(100),
            resets_to_strangers: Some(8),
            cookies: Cookies::InACrowd,
        }
    }
}

impl FlowRules {
    /// No rule: everything is left to the owner.
    pub fn none() -> FlowRules {
        FlowRules {
            respond: None,
            crowded: None,
            closing: None,
            idle: None,
            makes_room: false,
            ends_old_flows: false,
            answers_to_strangers: None,
            resets_to_strangers: None,
            cookies: Cookies::Never,
        }
    }

    pub(crate) fn for_c(self) -> sys::FlowRules {
        sys::FlowRules {
            size: size_of::<sys::FlowRules>(),
            respond: wait(self.respond),
            crowded: wait(self.crowded),
            closing: wait(self.closing),
            idle: wait(self.idle),
            answers: self.answers_to_strangers.unwrap_or(sys::UNLIMITED),
            resets: self.resets_to_strangers.unwrap_or(sys::UNLIMITED),
            makes_room: self.makes_room,
            ends_old_flows: self.ends_old_flows,
            cookies: self.cookies as u8,
        }
    }
}

/// In milliseconds; a wait that is too long for them is for ever.
fn wait(given: Option<Duration>) -> u64 {
    given.map_or(sys::NEVER, |it| {
        u64::try_from(it.as_millis()).unwrap_or(sys::NEVER)
    })
}
