//! A listener of the library for C. The reasons for its unsafe code are those of `src/end.rs`.

use crate::end::read_by;
use crate::origins::{Origins, Paths};
use crate::{Fate, sys};
use std::fmt;
use std::net::{Ipv4Addr, SocketAddr, SocketAddrV4};
use std::ptr;

/// A listener with its flows, or none yet.
pub struct Flows {
    handle: sys::ListenerHandle,
    frame: Box<sys::Frame>,
    origins: Origins,
}

// SAFETY: as for an end: no state is shared, and the crate dccp_c proves `Send` of what a handle holds.
unsafe impl Send for Flows {}

impl fmt::Debug for Flows {
    fn fmt(&self, f: &mut fmt::Formatter<'_>) -> fmt::Result {
        f.debug_struct("Flows").finish_non_exhaustive()
    }
}

impl Drop for Flows {
    fn drop(&mut self) {
        // SAFETY: the handle is this listener's alone, and nothing uses it afterwards.
        unsafe { sys::dccp_listener_free(&mut self.handle) }
    }
}

/// How many names are kept for peers that may have no flow any more.
const MOST_NAMES: usize = 2_048;

fn address_of(name: SocketAddrV4) -> sys::PeerAddress {
    sys::PeerAddress {
        address: name.ip().octets(),
        port: name.port(),
    }
}

fn name_of(address: &sys::PeerAddress) -> SocketAddrV4 {
    SocketAddrV4::new(Ipv4Addr::from(address.address), address.port)
}

impl Flows {
    /// No listener, but a place for one.
    pub fn none(paths: Paths) -> Flows {
        let handle = sys::ListenerHandle {
            opaque: ptr::null_mut(),
            is_made: false,
        };
        let frame = Box::new(sys::Frame {
            length: 0,
            number: 0,
            bytes: [0; sys::MOST_FRAME_BYTES],
        });
        Flows {
            handle,
            frame,
            origins: Origins::new(paths),
        }
    }

    /// The name of a peer; if it has none, one that no flow has.
    fn address(&self, peer: SocketAddr) -> sys::PeerAddress {
        self.origins.known(peer).map(address_of).unwrap_or_default()
    }

    /// Whether a peer of this name has a flow, or data of it wait.
    fn stands(&mut self, name: SocketAddrV4) -> bool {
        let (peer, mut view) = (address_of(name), sys::View::default());
        // SAFETY: as the head of this module says.
        let status = unsafe { sys::dccp_listener_look(&mut self.handle, &peer, &mut view) };
        // SAFETY: as the head of this module says.
        status == sys::DONE || unsafe { sys::dccp_listener_held(&mut self.handle, &peer) } != 0
    }

    /// The name of a peer, which has one from now on, if the listener has an address for it.
    fn named(&mut self, peer: SocketAddr) -> sys::PeerAddress {
        if self.origins.count() >= MOST_NAMES {
            for name in self.origins.names() {
                if !self.stands(name) {
                    self.origins.release(name);
                }
            }
        }
        self.origins.name(peer).map(address_of).unwrap_or_default()
    }

    fn origin(&self, address: &sys::PeerAddress) -> SocketAddr {
        self.origins.origin(name_of(address))
    }

    /// Makes a listener, and returns the status; if that is not `DONE`, there is no listener.
    pub fn make(&mut self, services: &[u32], wishes: &[sys::Wish], most: u16) -> u32 {
        let (service, services_count) = (services.as_ptr(), services.len());
        let (wish, count) = (wishes.as_ptr(), wishes.len());
        let (it, settings) = (&mut self.handle, self.origins.listener());
        // SAFETY: as the head of this module says.
        unsafe { sys::dccp_listener_make(it, settings, service, services_count, wish, count, most) }
    }

    /// The next event of the last call.
    pub fn event(&mut self) -> Option<(SocketAddr, sys::EventView)> {
        let mut event = sys::EventView::default();
        // SAFETY: as the head of this module says.
        let status = unsafe { sys::dccp_listener_event(&mut self.handle, &mut event) };
        (status == sys::DONE).then(|| (self.origin(&event.peer), event))
    }

    /// The data of a peer that have waited longest.
    pub fn read(&mut self, peer: SocketAddr) -> Option<Vec<u8>> {
        let peer = self.address(peer);
        read_by(|data| {
            // SAFETY: as the head of this module says.
            unsafe { sys::dccp_listener_read(&mut self.handle, &peer, data) }
        })
    }

    /// Drops a peer's data from now on, and returns the status.
    pub fn stop_reading(&mut self, peer: SocketAddr) -> u32 {
        let peer = self.address(peer);
        // SAFETY: as the head of this module says.
        unsafe { sys::dccp_listener_stop_reading(&mut self.handle, &peer) }
    }

    /// How many packets' data of a peer wait.
    pub fn held(&mut self, peer: SocketAddr) -> usize {
        let peer = self.address(peer);
        // SAFETY: as the head of this module says.
        unsafe { sys::dccp_listener_held(&mut self.handle, &peer) }
    }

    pub fn set_user(&mut self, peer: SocketAddr, user: u64) -> u32 {
        let peer = self.address(peer);
        // SAFETY: as the head of this module says.
        unsafe { sys::dccp_listener_set_user(&mut self.handle, &peer, user) }
    }

    /// The Service Code of the flow that a datagram would open, if it would open one.
    pub fn asks(&mut self, peer: SocketAddr, datagram: &[u8]) -> Option<u32> {
        let (peer, mut service) = (self.named(peer), 0);
        let (bytes, length) = (datagram.as_ptr(), datagram.len());
        // SAFETY: as the head of this module says.
        let status = unsafe {
            sys::dccp_listener_asks(&mut self.handle, &peer, bytes, length, &mut service)
        };
        (status == sys::DONE).then_some(service)
    }

    /// Refuses a datagram that would open a flow, and returns the status and the frame.
    pub fn refuse(
        &mut self,
        peer: SocketAddr,
        datagram: &[u8],
        code: u8,
        now: u64,
    ) -> (u32, &[u8]) {
        let peer = self.named(peer);
        let (bytes, length) = (datagram.as_ptr(), datagram.len());
        // SAFETY: as the head of this module says.
        self.call(|it, frame| unsafe {
            sys::dccp_listener_refuse(it, &peer, bytes, length, code, now, frame)
        })
    }

    /// The first number of a flow of this peer that begins now, drawn from a key.
    pub fn keyed_number(&mut self, peer: SocketAddr, key: &sys::Key, now: u64) -> u64 {
        let (peer, mut number) = (self.named(peer), 0);
        // SAFETY: as the head of this module says. The settings are of the library's size.
        unsafe { sys::dccp_listener_number(self.origins.listener(), key, &peer, now, &mut number) };
        number
    }

    /// Takes no new flows from now on, or takes them again.
    pub fn shut(&mut self, is_shut: bool) {
        // SAFETY: as the head of this module says. There is a listener, and nothing else is refused.
        unsafe { sys::dccp_listener_shut(&mut self.handle, is_shut) };
    }

    /// Fires a timer of a peer's flow.
    pub fn timer(&mut self, peer: SocketAddr, timer: u32, now: u64) -> (u32, &[u8]) {
        let peer = self.address(peer);
        // SAFETY: as the head of this module says.
        self.call(|it, frame| unsafe { sys::dccp_listener_timer(it, &peer, timer, now, frame) })
    }

    /// Makes a call, and returns its status and the frame that it leaves, which may have no bytes.
    fn call(
        &mut self,
        doing: impl FnOnce(&mut sys::ListenerHandle, &mut sys::Frame) -> u32,
    ) -> (u32, &[u8]) {
        let status = doing(&mut self.handle, &mut self.frame);
        (status, &self.frame.bytes[..self.frame.length])
    }

    /// Takes a datagram. If the status is `DONE`, its outcome is valid.
    pub fn arrive(
        &mut self,
        peer: SocketAddr,
        first_number: u64,
        datagram: &[u8],
        now: u64,
    ) -> (u32, &[u8], sys::Told) {
        let (peer, mut told) = (self.named(peer), sys::Told::default());
        let (status, frame) = self.call(|it, frame| {
            let (bytes, length) = (datagram.as_ptr(), datagram.len());
            // SAFETY: as the head of this module says.
            unsafe {
                sys::dccp_listener_arrive(
                    it,
                    &peer,
                    first_number,
                    bytes,
                    length,
                    now,
                    frame,
                    &mut told,
                )
            }
        });
        (status, frame, told)
    }

    pub fn send(&mut self, peer: SocketAddr, data: &[u8], now: u64) -> (u32, &[u8]) {
        let peer = self.address(peer);
        // SAFETY: as the head of this module says.
        self.call(|it, frame| unsafe {
            sys::dccp_listener_send(it, &peer, data.as_ptr(), data.len(), now, frame)
        })
    }

    pub fn close(&mut self, peer: SocketAddr, now: u64) -> (u32, &[u8]) {
        let peer = self.address(peer);
        // SAFETY: as the head of this module says.
        self.call(|it, frame| unsafe { sys::dccp_listener_close(it, &peer, now, frame) })
    }

    pub fn abort(&mut self, peer: SocketAddr, now: u64) -> (u32, &[u8]) {
        let peer = self.address(peer);
        // SAFETY: as the head of this module says.
        self.call(|it, frame| unsafe { sys::dccp_listener_abort(it, &peer, now, frame) })
    }

    pub fn prefer(
        &mut self,
        peer: SocketAddr,
        feature: u32,
        at_peer: bool,
        values: &[u64],
        now: u64,
    ) -> (u32, &[u8]) {
        let peer = self.address(peer);
        // SAFETY: as the head of this module says.
        self.call(|it, frame| unsafe {
            let (first, count) = (values.as_ptr(), values.len());
            sys::dccp_listener_prefer(it, &peer, feature, at_peer, first, count, now, frame)
        })
    }

    /// What the end of a peer holds for a feature, if it has one.
    pub fn feature(
        &mut self,
        peer: SocketAddr,
        feature: u32,
        at_peer: bool,
    ) -> Option<sys::FeatureState> {
        let (peer, mut state) = (self.address(peer), sys::FeatureState::default());
        // SAFETY: as the head of this module says.
        let status = unsafe {
            sys::dccp_listener_feature(&mut self.handle, &peer, feature, at_peer, &mut state)
        };
        (status == sys::DONE).then_some(state)
    }

    /// Does what is due first at a flow (`DONE`), or gives a flow up (`GAVE_UP`), and returns its peer.
    pub fn tick(&mut self, now: u64) -> (u32, SocketAddr, &[u8]) {
        let mut peer = sys::PeerAddress::default();
        // SAFETY: as the head of this module says.
        let status =
            unsafe { sys::dccp_listener_tick(&mut self.handle, now, &mut peer, &mut *self.frame) };
        let origin = self.origin(&peer);
        (status, origin, &self.frame.bytes[..self.frame.length])
    }

    /// How many milliseconds it is until something is due, or None if nothing will be.
    pub fn until_first(&mut self, now: u64) -> Option<u64> {
        // SAFETY: as the head of this module says.
        let left = unsafe { sys::dccp_listener_until_first(&mut self.handle, now) };
        (left != sys::NEVER).then_some(left)
    }

    /// The end of a peer, if it has one.
    pub fn look(&mut self, peer: SocketAddr) -> Option<sys::View> {
        let (peer, mut view) = (self.address(peer), sys::View::default());
        // SAFETY: as the head of this module says.
        let status = unsafe { sys::dccp_listener_look(&mut self.handle, &peer, &mut view) };
        (status == sys::DONE).then_some(view)
    }

    /// The number of the frame that the last call has left; 0 if it left none.
    pub fn number(&self) -> u64 {
        self.frame.number
    }

    pub fn fate(&mut self, peer: SocketAddr, number: u64) -> Fate {
        let peer = self.address(peer);
        // SAFETY: as the head of this module says.
        Fate::of(unsafe { sys::dccp_listener_fate_of(&mut self.handle, &peer, number) })
    }

    pub fn longest_data(&mut self, peer: SocketAddr, most: usize) -> usize {
        let peer = self.address(peer);
        // SAFETY: as the head of this module says.
        unsafe { sys::dccp_listener_longest_data(&mut self.handle, &peer, most) }
    }

    /// What was measured of the path to a peer, if it has a flow.
    pub fn round_trip(&mut self, peer: SocketAddr) -> Option<sys::RoundTripView> {
        let (peer, mut trip) = (self.address(peer), sys::RoundTripView::default());
        // SAFETY: as the head of this module says.
        let status = unsafe { sys::dccp_listener_look_path(&mut self.handle, &peer, &mut trip) };
        (status == sys::DONE).then_some(trip)
    }

    /// The peers that have a flow, in the order of their names.
    pub fn peers(&mut self) -> Vec<SocketAddr> {
        let mut peer = sys::PeerAddress::default();
        // SAFETY: as the head of this module says.
        let mut status = unsafe { sys::dccp_listener_first_peer(&mut self.handle, &mut peer) };
        let mut peers = Vec::new();
        while status == sys::DONE {
            peers.push(self.origin(&peer));
            // SAFETY: as the head of this module says.
            status = unsafe { sys::dccp_listener_next_peer(&mut self.handle, &mut peer) };
        }
        peers
    }

    pub fn forget(&mut self, peer: SocketAddr, now: u64) -> u32 {
        let peer = self.address(peer);
        // SAFETY: as the head of this module says.
        unsafe { sys::dccp_listener_forget(&mut self.handle, &peer, now) }
    }

    /// The listener follows these rules from now on.
    pub fn rules(&mut self, rules: &sys::FlowRules) -> u32 {
        // SAFETY: as the head of this module says.
        unsafe { sys::dccp_listener_rules(&mut self.handle, rules) }
    }

    /// Sets the key of Init Cookies.
    pub fn rekey(&mut self, key: &sys::Key, now: u64) {
        // SAFETY: as the head of this module says. There is a listener, and nothing else is refused.
        unsafe { sys::dccp_listener_rekey(&mut self.handle, key, now) };
    }

    /// How the last datagram was treated.
    pub fn way(&mut self) -> u32 {
        // SAFETY: as the head of this module says.
        unsafe { sys::dccp_listener_way(&mut self.handle) }
    }

    /// How many flows there are.
    pub fn count(&mut self) -> u16 {
        // SAFETY: as the head of this module says.
        unsafe { sys::dccp_listener_flows(&mut self.handle) }
    }

    /// What is known of a peer's flow besides its end, if it has one.
    pub fn life(&mut self, peer: SocketAddr) -> Option<sys::FlowLife> {
        let (peer, mut life) = (self.address(peer), sys::FlowLife::default());
        // SAFETY: as the head of this module says.
        let status = unsafe { sys::dccp_listener_life(&mut self.handle, &peer, &mut life) };
        (status == sys::DONE).then_some(life)
    }
}
