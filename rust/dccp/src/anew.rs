//! How a server's end learns that its client begins anew from the same port.

use crate::end::End;
use crate::sys;

/// The last Sync of a server's end, and whether it was refused: then the end hears nothing more, and the client's next Request is for
/// another (own).
#[derive(Debug, Default)]
pub(crate) struct LastSync {
    kept: sys::LastSync,
    was_refused: bool,
}

impl LastSync {
    /// The end has received a datagram. Whether it refuses the last Sync, or an earlier one did.
    pub(crate) fn is_refused(&mut self, end: &End, told: &sys::Told, datagram: &[u8]) -> bool {
        self.was_refused |= end.begins_anew(&mut self.kept, told, datagram);
        self.was_refused
    }

    pub(crate) fn was_refused(&self) -> bool {
        self.was_refused
    }
}
