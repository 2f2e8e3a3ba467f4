//! One end of a connection (RFC 4340, section 8).

use crate::buffer::Buffer;
use crate::congestion::Congestion;
use crate::features::{
    ACK_RATIO, CCID, CountedOptions, Features, Place, SEND_ACK_VECTOR, SEQUENCE_WINDOW,
    SHORT_SEQNOS, Stand, Wish, WishFault,
};
use crate::marks::{Marked, Marks};
use crate::numbers::{ahead, back, distance, is_before, is_within, later};
use crate::options::{ACK_VECTOR, CHANGE_L, CONFIRM_R, List, MARKED_VECTOR, Next, is_understood};
use crate::packet::{Addresses, Cause, Draft, Kind, MOST_DATA, Packet, check, seal};
use std::ops::Range;

/// Windows wider than this have long numbers.
const WIDEST_SHORT: u64 = 4_194_304;

#[derive(Clone, Copy, Debug, PartialEq, Eq)]
pub enum Phase {
    Closed,
    Listen,
    Request,
    Respond,
    PartOpen,
    Open,
    CloseReq,
    Closing,
    TimeWait,
}

impl Phase {
    pub fn name(self) -> &'static str {
        match self {
            Phase::Closed => "CLOSED",
            Phase::Listen => "LISTEN",
            Phase::Request => "REQUEST",
            Phase::Respond => "RESPOND",
            Phase::PartOpen => "PARTOPEN",
            Phase::Open => "OPEN",
            Phase::CloseReq => "CLOSEREQ",
            Phase::Closing => "CLOSING",
            Phase::TimeWait => "TIMEWAIT",
        }
    }
}

#[derive(Clone, Copy, Debug, PartialEq, Eq)]
pub enum Timer {
    Request,
    Ack,
    Negotiate,
    Rto,
    Close,
    TimeWait,
}

/// Why a call is refused.
#[derive(Clone, Copy, Debug, PartialEq, Eq)]
pub enum Refusal {
    NotFresh,
    NotOpen,
    TooLong,
    NotNegotiated,
    WindowFull,
    BadList,
    NotOurs,
    NotLive,
}

/// What became of a packet.
#[derive(Clone, Debug, PartialEq, Eq)]
pub enum Outcome {
    /// It was taken, and delivers these bytes of the frame, if any.
    Took(Option<Range<usize>>),
    Dropped(Cause),
    Synced(u64),
    WasReset(u8),
    SentReset(u8, [u8; 3]),
}

/// One end, and the frame that its last call has left: no bytes if there is none.
#[derive(Clone, Debug)]
pub struct Endpoint {
    pub phase: Phase,
    pub features: Features,
    pub congestion: Congestion,
    pub frame: Vec<u8>,
    is_server: bool,
    has_two_vectors: bool,
    ports: (u16, u16),
    to_peer: Addresses,
    from_peer: Addresses,
    service: u32,
    is_fresh: bool,
    first_sent: u64,
    sent: u64,
    acknowledged: u64,
    first_received: u64,
    received: u64,
    opened: u64,
    marks: Marks,
    is_owed: bool,
    /// How many data packets were delivered since the last Ack or DataAck.
    unacknowledged: u64,
    /// The number of the packet that was taken last.
    heard: u64,
    /// What the options of the next packet are made of; kept for their memory.
    confirms: Vec<u8>,
    options: Vec<u8>,
    /// Whether the packet in hand has an Ack Vector.
    has_report: bool,
}

/// The addresses, ports and Service Code of an end.
#[derive(Clone, Copy, Debug)]
pub struct Flow {
    pub own: [u8; 4],
    pub peer: [u8; 4],
    pub ports: (u16, u16),
    pub service: u32,
}

impl Endpoint {
    pub fn new(
        is_server: bool,
        flow: Flow,
        first: u64,
        features: Features,
        has_two_vectors: bool,
    ) -> Endpoint {
        Endpoint {
            phase: if is_server {
                Phase::Listen
            } else {
                Phase::Closed
            },
            congestion: Congestion::new(features.value(CCID, Place::Here)),
            features,
            frame: Vec::new(),
            is_server,
            has_two_vectors,
            ports: flow.ports,
            to_peer: Addresses::new(&flow.own, &flow.peer),
            from_peer: Addresses::new(&flow.peer, &flow.own),
            service: flow.service,
            is_fresh: !is_server,
            first_sent: first,
            sent: back(first, 1),
            acknowledged: first,
            first_received: 0,
            received: 0,
            opened: 0,
            marks: Marks::new(0),
            is_owed: false,
            unacknowledged: 0,
            heard: 0,
            confirms: Vec::new(),
            options: Vec::new(),
            has_report: false,
        }
    }

    // Sending.

    /// Whether a packet of these numbers may have them short: of a Data, an Ack or a DataAck without Changes and Confirms.
    fn sends_short(&self) -> bool {
        self.phase == Phase::Open
            && self.features.value(SHORT_SEQNOS, Place::Here) == 1
            && self.features.stand(SHORT_SEQNOS, Place::Here) == Stand::Stable
            && self.features.value(SEQUENCE_WINDOW, Place::Here) <= WIDEST_SHORT
            && self.features.value(SEQUENCE_WINDOW, Place::There) <= WIDEST_SHORT
    }

    /// Leaves a packet of this type with the next number and the options in hand, which acknowledges `acknowledged`.
    fn leave(
        &mut self,
        kind: Kind,
        acknowledged: u64,
        is_long: bool,
        reset: (u8, [u8; 3]),
        data: &[u8],
    ) {
        self.sent = ahead(self.sent, 1);
        self.write(kind, self.sent, acknowledged, is_long, reset, data);
    }

    fn write(
        &mut self,
        kind: Kind,
        number: u64,
        acknowledged: u64,
        is_long: bool,
        reset: (u8, [u8; 3]),
        data: &[u8],
    ) {
        let draft = Draft {
            kind,
            is_long,
            number,
            acknowledged,
            service: self.service,
            code: reset.0,
            details: reset.1,
            options: &self.options,
            data,
        };
        draft.write(self.ports, self.to_peer, &mut self.frame);
    }

    fn send_plain(&mut self, kind: Kind, acknowledged: u64) {
        self.options.clear();
        self.leave(kind, acknowledged, true, (0, [0; 3]), &[]);
    }

    fn send_reset(&mut self, code: u8, details: [u8; 3]) {
        self.options.clear();
        self.leave(Kind::Reset, self.received, true, (code, details), &[]);
    }

    /// Leaves a packet of this type with the Confirms in hand.
    fn send_confirming(&mut self, kind: Kind, acknowledged: u64) {
        self.options.clear();
        self.options.extend_from_slice(&self.confirms);
        self.leave(kind, acknowledged, true, (0, [0; 3]), &[]);
    }

    /// Begins the options of an Ack or DataAck with its Ack Vector.
    fn begin_vector(&mut self) {
        self.options.clear();
        if self.features.value(SEND_ACK_VECTOR, Place::Here) == 1 {
            let number = ahead(self.sent, 1);
            self.marks.write(
                number,
                self.received,
                self.has_two_vectors,
                &mut self.options,
            );
        }
    }

    fn end_vector(&mut self, kind: Kind, is_bare: bool, data: &[u8]) {
        (self.is_owed, self.unacknowledged) = (false, 0);
        let is_long = !is_bare || !self.sends_short();
        self.leave(kind, self.received, is_long, (0, [0; 3]), data);
    }

    /// Leaves an Ack with the Confirms in hand.
    fn send_ack(&mut self) {
        self.begin_vector();
        self.options.extend_from_slice(&self.confirms);
        self.end_vector(Kind::Ack, self.confirms.is_empty(), &[]);
    }

    fn send_request(&mut self) {
        self.options.clear();
        let number = ahead(self.sent, 1);
        self.features.begin();
        self.features.write_due(number, &mut self.options);
        self.leave(Kind::Request, 0, true, (0, [0; 3]), &[]);
    }

    fn send_response(&mut self) {
        self.options.clear();
        self.options.extend_from_slice(&self.confirms);
        let number = ahead(self.sent, 1);
        self.features.write_due(number, &mut self.options);
        self.leave(Kind::Response, self.received, true, (0, [0; 3]), &[]);
    }

    // Calls.

    pub fn open(&mut self) -> Result<(), Refusal> {
        self.frame.clear();
        if !self.is_fresh {
            return Err(Refusal::NotFresh);
        }
        self.is_fresh = false;
        self.phase = Phase::Request;
        self.features.begin();
        self.features.open_offers();
        self.send_request();
        Ok(())
    }

    pub fn send(&mut self, data: &[u8]) -> Result<(), Refusal> {
        self.frame.clear();
        if self.phase != Phase::Open {
            return Err(Refusal::NotOpen);
        }
        if data.len() > MOST_DATA {
            return Err(Refusal::TooLong);
        }
        let has_vectors = self.features.value(SEND_ACK_VECTOR, Place::There) == 1;
        if self.features.value(CCID, Place::Here) == 2 && !has_vectors {
            return Err(Refusal::NotNegotiated);
        }
        if self.congestion.in_flight() >= self.congestion.window() {
            return Err(Refusal::WindowFull);
        }
        if self.is_owed {
            self.begin_vector();
            self.end_vector(Kind::DataAck, true, data);
        } else {
            self.options.clear();
            self.leave(Kind::Data, 0, !self.sends_short(), (0, [0; 3]), data);
        }
        self.congestion.sent(self.sent);
        Ok(())
    }

    pub fn prefer(&mut self, feature: u8, place: Place, values: &[u64]) -> Result<(), Refusal> {
        self.frame.clear();
        if !matches!(self.phase, Phase::PartOpen | Phase::Open) {
            return Err(Refusal::NotOpen);
        }
        let wish = Wish::judged(feature, place, values).map_err(|fault| match fault {
            WishFault::BadList => Refusal::BadList,
            WishFault::NotOurs => Refusal::NotOurs,
        })?;
        if self.features.prefer(feature, place, wish) {
            self.begin_vector();
            let number = ahead(self.sent, 1);
            self.features
                .write_preferred(feature, place, number, &mut self.options);
            self.end_vector(Kind::Ack, false, &[]);
        }
        Ok(())
    }

    pub fn close(&mut self) -> Result<(), Refusal> {
        self.frame.clear();
        if !matches!(self.phase, Phase::PartOpen | Phase::Open) {
            return Err(Refusal::NotOpen);
        }
        self.phase = if self.is_server {
            Phase::CloseReq
        } else {
            Phase::Closing
        };
        self.send_closing();
        Ok(())
    }

    fn send_closing(&mut self) {
        let kind = if self.phase == Phase::CloseReq {
            Kind::CloseReq
        } else {
            Kind::Close
        };
        self.send_plain(kind, self.received);
    }

    pub fn abort(&mut self) -> Result<(), Refusal> {
        self.frame.clear();
        match self.phase {
            Phase::Closed | Phase::Listen | Phase::TimeWait => return Err(Refusal::NotLive),
            Phase::Request => {}
            Phase::Respond | Phase::PartOpen | Phase::Open | Phase::CloseReq | Phase::Closing => {
                self.send_reset(2, [0; 3]);
            }
        }
        self.phase = Phase::Closed;
        Ok(())
    }

    /// A timer runs out; returns whether it had something to do.
    pub fn timer(&mut self, timer: Timer) -> bool {
        self.frame.clear();
        let is_open = matches!(self.phase, Phase::PartOpen | Phase::Open);
        match timer {
            Timer::Request if self.phase == Phase::Request => self.send_request(),
            Timer::Ack if is_open => {
                self.confirms.clear();
                self.send_ack();
            }
            Timer::Negotiate if is_open && self.features.is_due() => {
                self.begin_vector();
                let number = ahead(self.sent, 1);
                self.features.begin();
                self.features.write_due(number, &mut self.options);
                self.end_vector(Kind::Ack, false, &[]);
            }
            Timer::Rto if self.phase == Phase::Open && self.congestion.in_flight() > 0 => {
                self.congestion.timeout()
            }
            Timer::Close if matches!(self.phase, Phase::CloseReq | Phase::Closing) => {
                self.send_closing()
            }
            Timer::TimeWait if self.phase == Phase::TimeWait => self.phase = Phase::Closed,
            Timer::Request
            | Timer::Ack
            | Timer::Negotiate
            | Timer::Rto
            | Timer::Close
            | Timer::TimeWait => return false,
        }
        true
    }

    /// The number of the packet that was taken last.
    pub fn heard_number(&self) -> u64 {
        self.heard
    }

    /// Adds what a buffer reports to the frame that was left, if it is an Ack or DataAck.
    pub fn tell_buffer(&mut self, buffer: &Buffer) {
        let is_told = Packet::read(&self.frame, self.frame.len())
            .is_ok_and(|packet| matches!(packet.kind, Kind::Ack | Kind::DataAck));
        if !is_told {
            return;
        }
        let header = 4 * usize::from(self.frame[4]);
        let options = buffer.options(self.received, header);
        self.frame[4] += (options.len() / 4) as u8;
        self.frame.splice(header..header, options);
        seal(self.to_peer, &mut self.frame);
    }

    // Receiving.

    pub fn receive(&mut self, bytes: &[u8]) -> Outcome {
        self.frame.clear();
        let mut packet = match Packet::read(bytes, bytes.len()) {
            Ok(packet) => packet,
            Err(cause) => return Outcome::Dropped(cause),
        };
        if let Err(cause) = check(self.from_peer, bytes) {
            return Outcome::Dropped(cause);
        }
        let ports = [bytes[0], bytes[1], bytes[2], bytes[3]];
        let ([a, b], [c, d]) = (self.ports.1.to_be_bytes(), self.ports.0.to_be_bytes());
        if ports != [a, b, c, d] {
            return Outcome::Dropped(Cause::OtherFlow);
        }
        if !packet.is_long {
            let is_early = matches!(
                self.phase,
                Phase::Closed | Phase::Listen | Phase::Request | Phase::TimeWait
            );
            if is_early || self.features.value(SHORT_SEQNOS, Place::There) != 1 {
                return Outcome::Dropped(Cause::ShortOff);
            }
            packet.extend(self.received, self.sent);
        }
        let offset = bytes.len() - packet.data.len();
        match self.phase {
            Phase::Closed | Phase::TimeWait => self.refuse(&packet, 3),
            Phase::Listen if packet.kind == Kind::Request && packet.service == self.service => {
                self.take_first(&packet, offset)
            }
            Phase::Listen if packet.kind == Kind::Request => self.refuse(&packet, 8),
            Phase::Listen => self.refuse(&packet, 3),
            Phase::Request => self.receive_in_request(&packet, offset),
            Phase::Respond | Phase::PartOpen | Phase::Open | Phase::CloseReq | Phase::Closing => {
                self.judge(&packet, offset)
            }
        }
    }

    /// There is no connection, or another service: a Reset that changes nothing.
    fn refuse(&mut self, packet: &Packet<'_>, code: u8) -> Outcome {
        if packet.kind == Kind::Reset {
            return Outcome::Dropped(Cause::StrayReset);
        }
        let number = if packet.kind.has_acknowledgement() {
            ahead(packet.acknowledged, 1)
        } else {
            0
        };
        self.options.clear();
        self.write(
            Kind::Reset,
            number,
            packet.number,
            true,
            (code, [0; 3]),
            &[],
        );
        Outcome::SentReset(code, [0; 3])
    }

    /// The Request that opens, or the Response that answers the Request.
    fn take_first(&mut self, packet: &Packet<'_>, offset: usize) -> Outcome {
        self.first_received = packet.number;
        self.received = packet.number;
        self.opened = packet.number;
        self.marks = Marks::new(packet.number);
        self.take(packet, offset, true)
    }

    fn receive_in_request(&mut self, packet: &Packet<'_>, offset: usize) -> Outcome {
        let is_ours = packet.kind.has_acknowledgement()
            && is_within(packet.acknowledged, self.lowest_acknowledged(), self.sent);
        match packet.kind {
            Kind::Response if is_ours => {
                self.acknowledged = later(self.acknowledged, packet.acknowledged);
                self.take_first(packet, offset)
            }
            Kind::Reset if is_ours => {
                self.phase = Phase::TimeWait;
                Outcome::WasReset(packet.code)
            }
            Kind::Reset => Outcome::Dropped(Cause::StrayReset),
            _ => {
                let details = [packet.kind as u8, 0, 0];
                self.options.clear();
                self.leave(Kind::Reset, packet.number, true, (4, details), &[]);
                Outcome::SentReset(4, details)
            }
        }
    }

    fn lowest_acknowledged(&self) -> u64 {
        let width = self.features.value(SEQUENCE_WINDOW, Place::Here);
        later(back(ahead(self.sent, 1), width), self.first_sent)
    }

    /// Whether the numbers of a packet are valid (section 7.5.3).
    fn is_valid(&self, packet: &Packet<'_>) -> bool {
        let width = self.features.value(SEQUENCE_WINDOW, Place::There);
        let low = later(
            back(ahead(self.received, 1), width / 4),
            self.first_received,
        );
        let high = ahead(self.received, (3 * width).div_ceil(4));
        let is_number = match packet.kind {
            Kind::CloseReq | Kind::Close | Kind::Reset => {
                packet.number != self.received && is_within(packet.number, self.received, high)
            }
            Kind::Sync | Kind::SyncAck => {
                !is_before(packet.number, low) && distance(low, packet.number) < 1 << 47
            }
            _ => is_within(packet.number, low, high),
        };
        let oldest = match packet.kind {
            Kind::Request | Kind::Data => return is_number,
            Kind::CloseReq | Kind::Close | Kind::Reset => self.acknowledged,
            _ => self.lowest_acknowledged(),
        };
        is_number && is_within(packet.acknowledged, oldest, self.sent)
    }

    fn is_unexpected(&self, packet: &Packet<'_>) -> bool {
        match packet.kind {
            Kind::CloseReq if self.is_server => true,
            Kind::Response if self.is_server => true,
            Kind::Request if !self.is_server => true,
            Kind::Request | Kind::Response => {
                let has_opened =
                    matches!(self.phase, Phase::Open | Phase::CloseReq | Phase::Closing);
                has_opened && !is_before(packet.number, self.opened)
            }
            Kind::Data => self.phase == Phase::Respond,
            _ => false,
        }
    }

    fn sync(&mut self, number: u64) -> Outcome {
        self.send_plain(Kind::Sync, number);
        Outcome::Synced(number)
    }

    fn judge(&mut self, packet: &Packet<'_>, offset: usize) -> Outcome {
        if !self.is_valid(packet) {
            return match packet.kind {
                Kind::Sync | Kind::SyncAck => Outcome::Dropped(Cause::BadSync),
                Kind::Reset => self.sync(self.received),
                _ => self.sync(packet.number),
            };
        }
        if packet.kind == Kind::Reset {
            self.phase = Phase::TimeWait;
            return Outcome::WasReset(packet.code);
        }
        let is_newest = is_before(self.received, packet.number);
        self.received = later(self.received, packet.number);
        if packet.kind.has_acknowledgement() && packet.kind != Kind::Sync {
            self.acknowledged = later(self.acknowledged, packet.acknowledged);
        }
        if self.is_unexpected(packet) {
            return self.sync(packet.number);
        }
        self.take(packet, offset, is_newest)
    }

    /// Steps 8 to 16 of a packet that is valid and expected.
    fn take(&mut self, packet: &Packet<'_>, offset: usize, is_newest: bool) -> Outcome {
        let ccid = self.features.value(CCID, Place::Here);
        self.confirms.clear();
        self.has_report = false;
        self.features.begin();
        let counts = is_newest && self.heeds(packet.kind);
        if let Some((code, details)) = self.hear_options(packet, counts) {
            return self.shut(code, details);
        }
        if packet.kind.has_acknowledgement() && packet.kind != Kind::Sync && self.has_report {
            let ratio = self.features.value(ACK_RATIO, Place::Here);
            self.congestion
                .report(packet.acknowledged, vectors(packet), ratio);
        }
        let is = self.features.value(CCID, Place::Here);
        if is != ccid {
            self.congestion = Congestion::new(is);
        }
        self.heard = packet.number;
        let is_new = self.marks.mark(packet.number) == Marked::New;
        if matches!(packet.kind, Kind::Ack | Kind::DataAck) {
            self.marks.acknowledge(packet.acknowledged);
        }
        self.is_owed = true;
        let before = self.phase;
        self.phase = self.phase_after(packet.kind);
        if self.phase == Phase::Open && before != Phase::Open {
            self.opened = packet.number;
        }
        let has_data = matches!(packet.kind, Kind::Data | Kind::DataAck);
        let delivers = has_data && self.phase == Phase::Open && is_new;
        self.unacknowledged += u64::from(delivers);
        if self.reply(packet, before) {
            return Outcome::SentReset(1, [0; 3]);
        }
        Outcome::Took(delivers.then(|| offset..offset + packet.data.len()))
    }

    /// A fault of the options, or another service.
    fn shut(&mut self, code: u8, details: [u8; 3]) -> Outcome {
        self.phase = Phase::Closed;
        self.send_reset(code, details);
        Outcome::SentReset(code, details)
    }

    /// Whether Changes and Confirms of a newest packet count, by phase and type.
    fn heeds(&self, kind: Kind) -> bool {
        let is_speaking = matches!(
            kind,
            Kind::Request | Kind::Response | Kind::Ack | Kind::DataAck | Kind::Sync | Kind::SyncAck
        );
        match self.phase {
            Phase::Listen | Phase::Request | Phase::Respond | Phase::PartOpen | Phase::Open => {
                is_speaking
            }
            Phase::Closed | Phase::CloseReq | Phase::Closing | Phase::TimeWait => false,
        }
    }

    /// Reads the options in order, up to the first fault, which leaves the features as they were, as another service does. Gives the
    /// code and the data of the Reset that answers it.
    fn hear_options(&mut self, packet: &Packet<'_>, counts: bool) -> Option<(u8, [u8; 3])> {
        let acknowledged = packet
            .kind
            .has_acknowledgement()
            .then_some(packet.acknowledged);
        let mut counted = CountedOptions::default();
        let mut before = None;
        let mut fault = None;
        for item in List::of(packet.kind, packet.options) {
            let Next::Entry(entry) = item else {
                fault = Some((5, [1, 0, 0]));
                break;
            };
            let at = |place: usize| entry.data.get(place).copied().unwrap_or(0);
            if !is_understood(entry.kind, entry.data.len()) {
                if entry.is_mandatory {
                    fault = Some((6, [entry.kind, at(0), at(1)]));
                    break;
                }
                continue;
            }
            match entry.kind {
                CHANGE_L..=CONFIRM_R if counts => {
                    before.get_or_insert_with(|| self.features.clone());
                    let heard =
                        self.features
                            .hear(&entry, acknowledged, &mut counted, &mut self.confirms);
                    if let Err(it) = heard {
                        let code = if it.is_mandatory { 6 } else { 5 };
                        fault = Some((code, [entry.kind, at(0), at(1)]));
                        break;
                    }
                }
                ACK_VECTOR | MARKED_VECTOR => self.has_report = true,
                _ => {}
            }
        }
        let is_other = packet.kind == Kind::Response && packet.service != self.service;
        let fault = fault.or(is_other.then_some((8, [0; 3])));
        if fault.is_some()
            && let Some(before) = before
        {
            self.features = before;
        }
        fault
    }

    fn phase_after(&self, kind: Kind) -> Phase {
        match (self.phase, kind) {
            (Phase::Listen, _) => Phase::Respond,
            (Phase::Request, _) => Phase::PartOpen,
            (Phase::Respond, Kind::Ack | Kind::DataAck | Kind::SyncAck | Kind::Sync) => Phase::Open,
            (Phase::PartOpen, Kind::Data | Kind::Ack | Kind::DataAck | Kind::SyncAck) => {
                Phase::Open
            }
            (Phase::PartOpen | Phase::Open, Kind::CloseReq) => Phase::Closing,
            (_, Kind::Close) => Phase::Closed,
            (phase, _) => phase,
        }
    }

    /// The reply that is due. Returns whether the packet was a Close, which a Reset answers.
    fn reply(&mut self, packet: &Packet<'_>, before: Phase) -> bool {
        match (before, packet.kind) {
            (_, Kind::Close) => {
                self.send_reset(1, [0; 3]);
                return true;
            }
            (Phase::Listen, _) => {
                self.features.open_offers();
                self.send_response();
            }
            (Phase::Respond, Kind::Request) => self.send_response(),
            (Phase::Request, _) => self.send_ack(),
            (Phase::PartOpen, Kind::Response) => self.send_ack(),
            (Phase::Respond, Kind::Ack | Kind::DataAck | Kind::SyncAck) => self.send_ack(),
            (_, Kind::Sync) => self.send_confirming(Kind::SyncAck, packet.number),
            (Phase::PartOpen | Phase::Open, Kind::CloseReq) => self.send_closing(),
            _ if !self.confirms.is_empty() => self.send_ack(),
            _ => {
                let ratio = self.features.value(ACK_RATIO, Place::There);
                if self.phase == Phase::Open && ratio > 0 && self.unacknowledged >= ratio {
                    self.send_ack();
                }
            }
        }
        false
    }
}

/// The bytes of a packet's Ack Vectors, one after the other.
fn vectors<'a>(packet: &Packet<'a>) -> impl Iterator<Item = u8> + use<'a> {
    let entries = List::of(packet.kind, packet.options).filter_map(|item| match item {
        Next::Entry(entry) if matches!(entry.kind, ACK_VECTOR | MARKED_VECTOR) => Some(entry.data),
        Next::Entry(_) | Next::MandatoryFault => None,
    });
    entries.flatten().copied()
}
