//! An end of the library, whose calls leave their frame where the caller says. Unlike the end of the crate for Rust it queues nothing, and takes
//! no memory itself. All unsafe code of this program is here.
//!
//! What the library asks of its caller holds of each call as in `rust/dccp/src/end.rs`: pointers are those of references, a slice gives its
//! own pointer and length, and `&mut self` gives the handle to one call at a time.

use crate::sys::{self, Frame, Settings, Told, View};
use std::ptr;

/// The timer Ack of `include/dccp.h`.
pub const TIMER_ACK: u32 = 1;

/// A frame of no bytes.
pub const NO_FRAME: Frame = Frame {
    length: 0,
    bytes: [0; sys::MOST_FRAME_BYTES],
    number: 0,
};

/// The bytes that a call has left.
pub fn bytes(frame: &Frame) -> &[u8] {
    &frame.bytes[..frame.length]
}

/// An end, which is freed where it is dropped.
pub struct End(sys::End);

impl Drop for End {
    fn drop(&mut self) {
        // SAFETY: the handle is this end's alone, and nothing uses it afterwards.
        unsafe { sys::dccp_free(&mut self.0) }
    }
}

impl End {
    /// Makes an end with the usual wishes.
    pub fn new(settings: &Settings) -> End {
        let mut end = End(sys::End {
            opaque: ptr::null_mut(),
            is_made: false,
        });
        let wishes: &[sys::Wish] = &[];
        // SAFETY: as the head of this module says.
        let status = unsafe { sys::dccp_make(&mut end.0, settings, wishes.as_ptr(), 0) };
        assert_eq!(status, sys::DONE, "no end is made");
        end
    }

    /// Opens the connection.
    pub fn open(&mut self, now: u64, frame: &mut Frame) {
        // SAFETY: as the head of this module says.
        let status = unsafe { sys::dccp_open(&mut self.0, now, frame) };
        assert_eq!(status, sys::DONE, "the end is not opened");
    }

    /// Returns whether the data were sent.
    pub fn send(&mut self, data: &[u8], now: u64, frame: &mut Frame) -> bool {
        let (payload, count) = (data.as_ptr(), data.len());
        // SAFETY: as the head of this module says.
        unsafe { sys::dccp_send(&mut self.0, payload, count, now, frame) == sys::DONE }
    }

    /// What became of a datagram.
    pub fn receive(&mut self, datagram: &[u8], now: u64, frame: &mut Frame) -> Told {
        let mut told = Told::default();
        let (at, count) = (datagram.as_ptr(), datagram.len());
        // SAFETY: as the head of this module says.
        unsafe { sys::dccp_receive(&mut self.0, at, count, now, frame, &mut told) };
        told
    }

    /// Fires this timer of the end, whether or not it has something to do.
    pub fn timer(&mut self, timer: u32, now: u64, frame: &mut Frame) {
        // SAFETY: as the head of this module says.
        unsafe { sys::dccp_timer(&mut self.0, timer, now, frame) };
    }

    /// Fires the first timer that has run out, if one has.
    pub fn tick(&mut self, now: u64, frame: &mut Frame) -> bool {
        // SAFETY: as the head of this module says.
        unsafe { sys::dccp_tick(&mut self.0, now, frame) == sys::DONE }
    }

    /// Wishes a value for one of its features.
    pub fn prefer(&mut self, feature: u32, value: u64, now: u64, frame: &mut Frame) {
        // SAFETY: as the head of this module says.
        let status =
            unsafe { sys::dccp_prefer(&mut self.0, feature, false, &value, 1, now, frame) };
        assert_eq!(status, sys::DONE, "the value is not wished");
    }

    /// What may be read of the end.
    pub fn look(&mut self) -> View {
        let mut view = View::default();
        // SAFETY: as the head of this module says.
        unsafe { sys::dccp_look(&mut self.0, &mut view) };
        view
    }
}
