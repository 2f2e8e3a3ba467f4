//! An end of the library for C. All unsafe code of this crate is here and, of a listener, in `src/flows.rs`.
//!
//! `include/dccp.h` says what the library requires of its caller, and each call here keeps to that. Every pointer is that
//! of a reference, so it is not null, points to a value of its type and overlaps no other. A slice gives its pointer and
//! length. `bool`s are Rust's. `&mut self` gives the handle to one call at a time. The library requires nothing of values,
//! and what a call then does is proved (`docs/LIBRARY.md`).

use crate::{Fate, sys};
use std::fmt;
use std::ptr;

/// One end, or none yet. It takes its memory when it is made, and gives it back when it is dropped.
pub struct End {
    handle: sys::End,
    frame: Box<sys::Frame>,
}

// SAFETY: the library has no thread, and no state except what a handle owns, which another thread may use: the crate
// dccp_c proves `Send` of it. It is not `Sync`, since its readers take the end out of the handle and put it back.
unsafe impl Send for End {}

impl fmt::Debug for End {
    fn fmt(&self, f: &mut fmt::Formatter<'_>) -> fmt::Result {
        f.debug_struct("End").finish_non_exhaustive()
    }
}

impl Drop for End {
    fn drop(&mut self) {
        // SAFETY: the handle is this end's alone, as the head of this module says, and nothing uses it afterwards.
        unsafe { sys::dccp_free(&mut self.handle) }
    }
}

/// The data that a call of the library reads, if it reads any.
pub fn read_by(call: impl FnOnce(&mut sys::ReadData) -> u32) -> Option<Vec<u8>> {
    let mut data = sys::ReadData {
        length: 0,
        number: 0,
        bytes: [0; sys::MOST_READ_BYTES],
    };
    (call(&mut data) == sys::DONE).then(|| data.bytes[..data.length].to_vec())
}

impl End {
    /// No end, but the place for one.
    pub fn none() -> End {
        let handle = sys::End {
            opaque: ptr::null_mut(),
            is_made: false,
        };
        let frame = Box::new(sys::Frame {
            length: 0,
            number: 0,
            bytes: [0; sys::MOST_FRAME_BYTES],
        });
        End { handle, frame }
    }

    /// Makes an end, and returns the status; if that is not `DONE`, there is no end.
    pub fn make(&mut self, settings: &sys::Settings, wishes: &[sys::Wish]) -> u32 {
        // SAFETY: as the head of this module says.
        unsafe { sys::dccp_make(&mut self.handle, settings, wishes.as_ptr(), wishes.len()) }
    }

    /// Makes a server's end from a datagram, whose outcome is valid if the status is `DONE` or `NO_CONNECTION`.
    pub fn accept(
        &mut self,
        settings: &sys::Settings,
        wishes: &[sys::Wish],
        datagram: &[u8],
        now: u64,
    ) -> (u32, &[u8], sys::Told) {
        let mut told = sys::Told::default();
        let (status, frame) = self.call(|end, frame| {
            let (wish, count) = (wishes.as_ptr(), wishes.len());
            let (bytes, length) = (datagram.as_ptr(), datagram.len());
            // SAFETY: as the head of this module says.
            unsafe {
                sys::dccp_accept(
                    end, settings, wish, count, bytes, length, now, frame, &mut told,
                )
            }
        });
        (status, frame, told)
    }

    /// Turns a datagram away with this code, without an end, and returns the status and the frame.
    pub fn refuse(&mut self, settings: &sys::Settings, datagram: &[u8], code: u8) -> (u32, &[u8]) {
        self.call(|_, frame| {
            let (bytes, length) = (datagram.as_ptr(), datagram.len());
            // SAFETY: as the head of this module says.
            unsafe { sys::dccp_refuse(settings, bytes, length, code, frame) }
        })
    }

    /// Answers a Request with an Init Cookie, without an end, and returns the status and the frame.
    pub fn greet(
        &mut self,
        settings: &sys::Settings,
        wishes: &[sys::Wish],
        keys: &sys::KeyPair,
        datagram: &[u8],
        now: u64,
    ) -> (u32, &[u8]) {
        self.call(|_, frame| {
            let (wish, count) = (wishes.as_ptr(), wishes.len());
            let (bytes, length) = (datagram.as_ptr(), datagram.len());
            // SAFETY: as the head of this module says.
            unsafe { sys::dccp_greet(settings, wish, count, keys, bytes, length, now, frame) }
        })
    }

    /// The Request for which a datagram's Init Cookie was given; the frame has its number too.
    pub fn recall(
        &mut self,
        settings: &sys::Settings,
        keys: &sys::KeyPair,
        datagram: &[u8],
        now: u64,
    ) -> (u32, &[u8]) {
        self.call(|_, frame| {
            let (bytes, length) = (datagram.as_ptr(), datagram.len());
            // SAFETY: as the head of this module says.
            unsafe { sys::dccp_recall(settings, keys, bytes, length, now, frame) }
        })
    }

    /// Whether the peer of a server's end begins anew, by what the end has made of its datagram.
    pub fn begins_anew(&self, last: &mut sys::LastSync, told: &sys::Told, datagram: &[u8]) -> bool {
        let (bytes, length) = (datagram.as_ptr(), datagram.len());
        // SAFETY: as the head of this module says.
        unsafe { sys::dccp_begins_anew(last, bytes, length, told, &*self.frame) }
    }

    /// The frame that the last call has left, which may have no bytes.
    pub fn frame(&self) -> &[u8] {
        &self.frame.bytes[..self.frame.length]
    }

    /// The number of the frame that the last call has left; 0 if it left none.
    pub fn number(&self) -> u64 {
        self.frame.number
    }

    pub fn fate(&mut self, number: u64) -> Fate {
        // SAFETY: as the head of this module says.
        Fate::of(unsafe { sys::dccp_fate_of(&mut self.handle, number) })
    }

    pub fn longest_data(&mut self, most: usize) -> usize {
        // SAFETY: as the head of this module says.
        unsafe { sys::dccp_longest_data(&mut self.handle, most) }
    }

    /// Makes a call, and returns its status and the frame that it leaves, which may have no bytes.
    fn call(&mut self, doing: impl FnOnce(&mut sys::End, &mut sys::Frame) -> u32) -> (u32, &[u8]) {
        let status = doing(&mut self.handle, &mut self.frame);
        (status, self.frame())
    }

    pub fn open(&mut self, now: u64) -> (u32, &[u8]) {
        // SAFETY: as the head of this module says.
        self.call(|end, frame| unsafe { sys::dccp_open(end, now, frame) })
    }

    pub fn send(&mut self, data: &[u8], now: u64) -> (u32, &[u8]) {
        // SAFETY: as the head of this module says.
        self.call(|end, frame| unsafe {
            sys::dccp_send(end, data.as_ptr(), data.len(), now, frame)
        })
    }

    pub fn close(&mut self, now: u64) -> (u32, &[u8]) {
        // SAFETY: as the head of this module says.
        self.call(|end, frame| unsafe { sys::dccp_close(end, now, frame) })
    }

    pub fn abort(&mut self, now: u64) -> (u32, &[u8]) {
        // SAFETY: as the head of this module says.
        self.call(|end, frame| unsafe { sys::dccp_abort(end, now, frame) })
    }

    pub fn prefer(
        &mut self,
        feature: u32,
        at_peer: bool,
        values: &[u64],
        now: u64,
    ) -> (u32, &[u8]) {
        self.call(|end, frame| {
            let (value, count) = (values.as_ptr(), values.len());
            // SAFETY: as the head of this module says.
            unsafe { sys::dccp_prefer(end, feature, at_peer, value, count, now, frame) }
        })
    }

    /// Fires the first timer that has run out; the status is `DONE` if one has.
    pub fn tick(&mut self, now: u64) -> (u32, &[u8]) {
        // SAFETY: as the head of this module says.
        self.call(|end, frame| unsafe { sys::dccp_tick(end, now, frame) })
    }

    /// Fires this timer, which has run out; the status is `DONE` if it had something to do.
    pub fn timer(&mut self, timer: u32, now: u64) -> (u32, &[u8]) {
        // SAFETY: as the head of this module says.
        self.call(|end, frame| unsafe { sys::dccp_timer(end, timer, now, frame) })
    }

    /// How many milliseconds it is until a timer runs out, or None if none runs.
    pub fn until_first(&mut self, now: u64) -> Option<u64> {
        // SAFETY: as the head of this module says.
        let left = unsafe { sys::dccp_until_first(&mut self.handle, now) };
        (left != sys::NEVER).then_some(left)
    }

    /// Takes a datagram. If the status is `DONE`, its outcome is valid.
    pub fn receive(&mut self, datagram: &[u8], now: u64) -> (u32, &[u8], sys::Told) {
        let mut told = sys::Told::default();
        let (status, frame) = self.call(|end, frame| {
            let (bytes, length) = (datagram.as_ptr(), datagram.len());
            // SAFETY: as the head of this module says.
            unsafe { sys::dccp_receive(end, bytes, length, now, frame, &mut told) }
        });
        (status, frame, told)
    }

    /// Takes the data that have waited longest, if any wait.
    pub fn read(&mut self) -> Option<Vec<u8>> {
        read_by(|data| {
            // SAFETY: as the head of this module says.
            unsafe { sys::dccp_read(&mut self.handle, data) }
        })
    }

    /// Drops data from now on; false if data do not wait at this end.
    pub fn stop_reading(&mut self) -> bool {
        // SAFETY: as the head of this module says.
        unsafe { sys::dccp_stop_reading(&mut self.handle) == sys::DONE }
    }

    /// How many packets' data wait.
    pub fn held(&mut self) -> usize {
        // SAFETY: as the head of this module says.
        unsafe { sys::dccp_held(&mut self.handle) }
    }

    pub fn look(&mut self) -> sys::View {
        let mut view = sys::View::default();
        // SAFETY: as the head of this module says. Of an end that is made the status is `DONE`.
        unsafe { sys::dccp_look(&mut self.handle, &mut view) };
        view
    }

    pub fn round_trip(&mut self) -> sys::RoundTripView {
        let mut trip = sys::RoundTripView::default();
        // SAFETY: as the head of this module says. Of an end that is made the status is `DONE`.
        unsafe { sys::dccp_look_path(&mut self.handle, &mut trip) };
        trip
    }

    pub fn feature(&mut self, feature: u32, at_peer: bool) -> sys::FeatureState {
        let mut state = sys::FeatureState::default();
        // SAFETY: as the head of this module says. Of an end that is made, and a feature that is one, the status is `DONE`.
        unsafe { sys::dccp_feature(&mut self.handle, feature, at_peer, &mut state) };
        state
    }
}
