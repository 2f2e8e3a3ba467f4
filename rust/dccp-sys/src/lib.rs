//! The declarations of the library for C, as in `include/dccp.h`, which says what each function does and requires of its caller. A quick
//! check of the repository compares both. `build.rs` links the library; use the crate `dccp`.

use std::ffi::c_void;

#[repr(C)]
pub struct End {
    pub opaque: *mut c_void,
    pub is_made: bool,
}

#[repr(C)]
pub struct ListenerHandle {
    pub opaque: *mut c_void,
    pub is_made: bool,
}

#[repr(C)]
#[derive(Clone, Copy, Default)]
pub struct PeerAddress {
    pub address: [u8; 4],
    pub port: u16,
}

#[repr(C)]
#[derive(Clone, Copy)]
pub struct Key {
    pub bytes: [u8; 32],
}

/// The keys of Init Cookies: `before` has written those from before `since`.
#[repr(C)]
#[derive(Clone, Copy, Debug)]
pub struct KeyPair {
    pub key: Key,
    pub before: Key,
    pub since: u64,
}

/// The last Sync of a server's end.
#[repr(C)]
#[derive(Clone, Copy, Debug, Default)]
pub struct LastSync {
    pub number: u64,
    pub is_there: bool,
}

impl std::fmt::Debug for Key {
    fn fmt(&self, f: &mut std::fmt::Formatter<'_>) -> std::fmt::Result {
        // It is secret.
        f.debug_struct("Key").finish_non_exhaustive()
    }
}

#[repr(C)]
#[derive(Clone, Debug)]
pub struct Settings {
    pub size: usize,
    pub own_address: [u8; 16],
    pub peer_address: [u8; 16],
    pub first_number: u64,
    pub service: u32,
    pub own_port: u16,
    pub peer_port: u16,
    pub is_server: bool,
    pub is_v6: bool,
    pub is_plain: bool,
    pub without_wide_window: bool,
    pub without_round_trip: bool,
    pub without_soon_acks: bool,
    pub without_ack_ratio: bool,
    pub without_probes: bool,
    pub without_limits: bool,
    pub without_giving_up: bool,
    pub without_heed: bool,
    pub most_held: usize,
}

#[repr(C)]
#[derive(Clone, Copy, Debug)]
pub struct Wish {
    pub values: [u64; 8],
    pub count: usize,
    pub feature: u32,
    pub at_peer: bool,
    pub is_offered: bool,
    pub is_mandatory: bool,
}

#[repr(C)]
pub struct Frame {
    pub length: usize,
    pub number: u64,
    pub bytes: [u8; MOST_FRAME_BYTES],
}

#[repr(C)]
pub struct ReadData {
    pub length: usize,
    pub number: u64,
    pub bytes: [u8; 2032],
}

#[repr(C)]
#[derive(Default)]
pub struct Told {
    pub kind: u32,
    pub cause: u32,
    pub first: usize,
    pub past: usize,
    pub number: u64,
    pub code: u8,
    pub detail: [u8; 3],
}

#[repr(C)]
#[derive(Clone, Copy, Debug)]
pub struct View {
    pub size: usize,
    pub iss: u64,
    pub gss: u64,
    pub gar: u64,
    pub isr: u64,
    pub gsr: u64,
    pub marked: u64,
    pub phase: u32,
    pub window: u32,
    pub in_flight: u32,
    pub service: u32,
}

#[repr(C)]
pub struct RoundTripView {
    pub size: usize,
    pub timeout: u64,
    pub smoothed: u32,
    pub variance: u32,
}

#[repr(C)]
#[derive(Default)]
pub struct FeatureState {
    pub value: u64,
    pub stand: u32,
}

#[repr(C)]
pub struct FlowRules {
    pub size: usize,
    pub respond: u64,
    pub crowded: u64,
    pub closing: u64,
    pub idle: u64,
    pub answers: u16,
    pub resets: u16,
    pub makes_room: bool,
    pub ends_old_flows: bool,
    pub cookies: u8,
}

#[repr(C)]
pub struct FlowLife {
    pub size: usize,
    pub since: u64,
    pub taken: u64,
    pub user: u64,
}

#[repr(C)]
pub struct EventView {
    pub size: usize,
    pub user: u64,
    pub first: usize,
    pub past: usize,
    pub kind: u32,
    pub cause: u32,
    pub peer: PeerAddress,
    pub code: u8,
}

impl Default for EventView {
    fn default() -> EventView {
        EventView {
            size: size_of::<EventView>(),
            user: 0,
            first: 0,
            past: 0,
            kind: 0,
            cause: 0,
            peer: PeerAddress::default(),
            code: 0,
        }
    }
}

/// A struct that begins with its size, and has nothing else in it yet.
macro_rules! empty {
    ($($name:ident { $($field:ident)* })+) => {
        $(impl Default for $name {
            fn default() -> $name {
                $name { size: size_of::<$name>(), $($field: 0),* }
            }
        })+
    };
}

empty! {
    View { iss gss gar isr gsr marked phase window in_flight service }
    RoundTripView { timeout smoothed variance }
    FlowLife { since taken user }
}

pub const MOST_FRAME_BYTES: usize = 2044;
pub const MOST_DATA_BYTES: usize = 1024;
pub const MOST_READ_BYTES: usize = 2_032;
pub const NEVER: u64 = u64::MAX;
pub const UNLIMITED: u16 = u16::MAX;

pub const DONE: u32 = 0;
pub const NO_MEMORY: u32 = 2;
pub const NOT_FRESH: u32 = 3;
pub const NOT_OPEN: u32 = 4;
pub const TOO_LONG: u32 = 5;
pub const NOT_NEGOTIATED: u32 = 6;
pub const WINDOW_FULL: u32 = 7;
pub const BAD_LIST: u32 = 8;
pub const NOT_OURS: u32 = 9;
pub const NOT_LIVE: u32 = 10;
pub const NOTHING_DUE: u32 = 12;
pub const NO_CONNECTION: u32 = 13;
pub const BUSY: u32 = 14;
pub const NO_FLOW: u32 = 15;
pub const NO_NUMBER: u32 = 17;
pub const NO_SUCH_LISTENER: u32 = 18;
pub const GAVE_UP: u32 = 19;
pub const OTHER_SIZE: u32 = 20;
pub const REFUSED: u32 = 21;
pub const NOT_LISTENING: u32 = 23;

pub const WAY_PLAIN: u32 = 0;
pub const WAY_GREETED: u32 = 1;
pub const WAY_UNANSWERED: u32 = 2;
pub const WAY_REOPENED: u32 = 3;
pub const WAY_UNOPENED: u32 = 4;
pub const EVENT_OPENED: u32 = 0;
pub const EVENT_DATA: u32 = 1;
pub const EVENT_ROOM: u32 = 2;
pub const EVENT_ENDED: u32 = 3;
pub const EVENT_WAITS: u32 = 4;
pub const EVENT_DROPPED: u32 = 5;

pub const BY_PEER: u32 = 0;
pub const BY_OWN: u32 = 1;
pub const BY_SILENT: u32 = 2;
pub const BY_EVICTED: u32 = 3;
pub const BY_FAULT: u32 = 4;
pub const BY_ANEW: u32 = 5;

pub const FATE_UNKNOWN: u32 = 0;
pub const FATE_IN_FLIGHT: u32 = 1;
pub const FATE_DELIVERED: u32 = 2;
pub const FATE_LOST: u32 = 3;
pub const FATE_DROPPED: u32 = 4;

pub const TOLD_TOOK: u32 = 0;
pub const TOLD_DATA: u32 = 1;
pub const TOLD_DROPPED: u32 = 2;
pub const TOLD_SYNCED: u32 = 3;
pub const TOLD_WAS_RESET: u32 = 4;
pub const TOLD_SENT_RESET: u32 = 5;
pub const TOLD_WAITS: u32 = 6;
pub const TOLD_NOT_KEPT: u32 = 7;

pub const CAUSE_LIMIT: u32 = 12;

const _: () = assert!(size_of::<End>() == 16 && std::mem::offset_of!(End, is_made) == 8);
const _: () = assert!(size_of::<ListenerHandle>() == 16);
const _: () = assert!(std::mem::offset_of!(ListenerHandle, is_made) == 8);

unsafe extern "C" {
    pub fn dccp_make(
        end: *mut End,
        settings: *const Settings,
        wishes: *const Wish,
        wishes_count: usize,
    ) -> u32;
    pub fn dccp_accept(
        end: *mut End,
        settings: *const Settings,
        wishes: *const Wish,
        wishes_count: usize,
        datagram: *const u8,
        datagram_count: usize,
        now: u64,
        frame: *mut Frame,
        told: *mut Told,
    ) -> u32;
    pub fn dccp_free(end: *mut End);
    pub fn dccp_open(end: *mut End, now: u64, frame: *mut Frame) -> u32;
    pub fn dccp_send(
        end: *mut End,
        payload: *const u8,
        payload_count: usize,
        now: u64,
        frame: *mut Frame,
    ) -> u32;
    pub fn dccp_close(end: *mut End, now: u64, frame: *mut Frame) -> u32;
    pub fn dccp_abort(end: *mut End, now: u64, frame: *mut Frame) -> u32;
    pub fn dccp_prefer(
        end: *mut End,
        feature: u32,
        at_peer: bool,
        values: *const u64,
        values_count: usize,
        now: u64,
        frame: *mut Frame,
    ) -> u32;
    pub fn dccp_tick(end: *mut End, now: u64, frame: *mut Frame) -> u32;
    pub fn dccp_until_first(end: *mut End, now: u64) -> u64;
    pub fn dccp_timer(end: *mut End, timer: u32, now: u64, frame: *mut Frame) -> u32;
    pub fn dccp_receive(
        end: *mut End,
        datagram: *const u8,
        datagram_count: usize,
        now: u64,
        frame: *mut Frame,
        told: *mut Told,
    ) -> u32;
    pub fn dccp_read(end: *mut End, data: *mut ReadData) -> u32;
    pub fn dccp_stop_reading(end: *mut End) -> u32;
    pub fn dccp_held(end: *mut End) -> usize;
    pub fn dccp_look(end: *mut End, view: *mut View) -> u32;
    pub fn dccp_refuse(
        settings: *const Settings,
        datagram: *const u8,
        datagram_count: usize,
        code: u8,
        frame: *mut Frame,
    ) -> u32;
    pub fn dccp_fate_of(end: *mut End, number: u64) -> u32;
    pub fn dccp_longest_data(end: *mut End, most: usize) -> usize;
    pub fn dccp_look_path(end: *mut End, trip: *mut RoundTripView) -> u32;
    pub fn dccp_feature(
        end: *mut End,
        feature: u32,
        at_peer: bool,
        state: *mut FeatureState,
    ) -> u32;
    pub fn dccp_begins_anew(
        last: *mut LastSync,
        datagram: *const u8,
        datagram_count: usize,
        told: *const Told,
        frame: *const Frame,
    ) -> bool;
    pub fn dccp_greet(
        settings: *const Settings,
        wishes: *const Wish,
        wishes_count: usize,
        keys: *const KeyPair,
        datagram: *const u8,
        datagram_count: usize,
        now: u64,
        frame: *mut Frame,
    ) -> u32;
    pub fn dccp_recall(
        settings: *const Settings,
        keys: *const KeyPair,
        datagram: *const u8,
        datagram_count: usize,
        now: u64,
        request: *mut Frame,
    ) -> u32;
    pub fn dccp_listener_make(
        listener: *mut ListenerHandle,
        settings: *const Settings,
        services: *const u32,
        services_count: usize,
        wishes: *const Wish,
        wishes_count: usize,
        most: u16,
    ) -> u32;
    pub fn dccp_listener_free(listener: *mut ListenerHandle);
    pub fn dccp_listener_arrive(
        listener: *mut ListenerHandle,
        peer: *const PeerAddress,
        first_number: u64,
        datagram: *const u8,
        datagram_count: usize,
        now: u64,
        frame: *mut Frame,
        told: *mut Told,
    ) -> u32;
    pub fn dccp_listener_event(listener: *mut ListenerHandle, event: *mut EventView) -> u32;
    pub fn dccp_listener_read(
        listener: *mut ListenerHandle,
        peer: *const PeerAddress,
        data: *mut ReadData,
    ) -> u32;
    pub fn dccp_listener_stop_reading(
        listener: *mut ListenerHandle,
        peer: *const PeerAddress,
    ) -> u32;
    pub fn dccp_listener_held(listener: *mut ListenerHandle, peer: *const PeerAddress) -> usize;
    pub fn dccp_listener_set_user(
        listener: *mut ListenerHandle,
        peer: *const PeerAddress,
        user: u64,
    ) -> u32;
    pub fn dccp_listener_asks(
        listener: *mut ListenerHandle,
        peer: *const PeerAddress,
        datagram: *const u8,
        datagram_count: usize,
        service: *mut u32,
    ) -> u32;
    pub fn dccp_listener_refuse(
        listener: *mut ListenerHandle,
        peer: *const PeerAddress,
        datagram: *const u8,
        datagram_count: usize,
        code: u8,
        now: u64,
        frame: *mut Frame,
    ) -> u32;
    pub fn dccp_listener_name(
        listener: *const Settings,
        path: *const Settings,
        turn: u16,
        peer: *mut PeerAddress,
    ) -> u32;
    pub fn dccp_listener_number(
        listener: *const Settings,
        key: *const Key,
        peer: *const PeerAddress,
        now: u64,
        number: *mut u64,
    ) -> u32;
    pub fn dccp_listener_shut(listener: *mut ListenerHandle, is_shut: bool) -> u32;
    pub fn dccp_listener_send(
        listener: *mut ListenerHandle,
        peer: *const PeerAddress,
        payload: *const u8,
        payload_count: usize,
        now: u64,
        frame: *mut Frame,
    ) -> u32;
    pub fn dccp_listener_close(
        listener: *mut ListenerHandle,
        peer: *const PeerAddress,
        now: u64,
        frame: *mut Frame,
    ) -> u32;
    pub fn dccp_listener_abort(
        listener: *mut ListenerHandle,
        peer: *const PeerAddress,
        now: u64,
        frame: *mut Frame,
    ) -> u32;
    pub fn dccp_listener_prefer(
        listener: *mut ListenerHandle,
        peer: *const PeerAddress,
        feature: u32,
        at_peer: bool,
        values: *const u64,
        values_count: usize,
        now: u64,
        frame: *mut Frame,
    ) -> u32;
    pub fn dccp_listener_feature(
        listener: *mut ListenerHandle,
        peer: *const PeerAddress,
        feature: u32,
        at_peer: bool,
        state: *mut FeatureState,
    ) -> u32;
    pub fn dccp_listener_timer(
        listener: *mut ListenerHandle,
        peer: *const PeerAddress,
        timer: u32,
        now: u64,
        frame: *mut Frame,
    ) -> u32;
    pub fn dccp_listener_tick(
        listener: *mut ListenerHandle,
        now: u64,
        peer: *mut PeerAddress,
        frame: *mut Frame,
    ) -> u32;
    pub fn dccp_listener_until_first(listener: *mut ListenerHandle, now: u64) -> u64;
    pub fn dccp_listener_look(
        listener: *mut ListenerHandle,
        peer: *const PeerAddress,
        view: *mut View,
    ) -> u32;
    pub fn dccp_listener_look_path(
        listener: *mut ListenerHandle,
        peer: *const PeerAddress,
        trip: *mut RoundTripView,
    ) -> u32;
    pub fn dccp_listener_fate_of(
        listener: *mut ListenerHandle,
        peer: *const PeerAddress,
        number: u64,
    ) -> u32;
    pub fn dccp_listener_longest_data(
        listener: *mut ListenerHandle,
        peer: *const PeerAddress,
        most: usize,
    ) -> usize;
    pub fn dccp_listener_first_peer(listener: *mut ListenerHandle, peer: *mut PeerAddress) -> u32;
    pub fn dccp_listener_next_peer(listener: *mut ListenerHandle, peer: *mut PeerAddress) -> u32;
    pub fn dccp_listener_forget(
        listener: *mut ListenerHandle,
        peer: *const PeerAddress,
        now: u64,
    ) -> u32;
    pub fn dccp_listener_rules(listener: *mut ListenerHandle, rules: *const FlowRules) -> u32;
    pub fn dccp_listener_rekey(listener: *mut ListenerHandle, key: *const Key, now: u64) -> u32;
    pub fn dccp_listener_way(listener: *mut ListenerHandle) -> u32;
    pub fn dccp_listener_flows(listener: *mut ListenerHandle) -> u16;
    pub fn dccp_listener_life(
        listener: *mut ListenerHandle,
        peer: *const PeerAddress,
        life: *mut FlowLife,
    ) -> u32;
}
