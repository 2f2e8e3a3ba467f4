//! Options (RFC 4340, section 5.8), and Ack Vectors (section 11.4).

use crate::packet::Kind;

pub const MANDATORY: u8 = 1;
pub const CHANGE_L: u8 = 32;
pub const CONFIRM_L: u8 = 33;
pub const CHANGE_R: u8 = 34;
pub const CONFIRM_R: u8 = 35;
pub const ACK_VECTOR: u8 = 38;
pub const MARKED_VECTOR: u8 = 39;

/// An option of a list.
#[derive(Clone, Copy, Debug)]
pub struct Entry<'a> {
    pub kind: u8,
    pub data: &'a [u8],
    pub is_mandatory: bool,
}

/// What a list has next.
#[derive(Clone, Copy, Debug)]
pub enum Next<'a> {
    Entry(Entry<'a>),
    /// Mandatory is there twice or before nothing.
    MandatoryFault,
}

/// The options of an area, one after the other, without Padding.
#[derive(Clone, Debug)]
pub struct List<'a> {
    area: &'a [u8],
    is_data: bool,
    has_ended: bool,
}

impl<'a> List<'a> {
    pub fn of(kind: Kind, area: &'a [u8]) -> List<'a> {
        List {
            area,
            is_data: kind == Kind::Data,
            has_ended: false,
        }
    }
}

/// Whether a Data packet's option says nothing there.
fn is_passed_over(kind: u8) -> bool {
    matches!(kind, MANDATORY | 32..=36 | 38..=40 | 43)
}

impl<'a> Iterator for List<'a> {
    type Item = Next<'a>;

    fn next(&mut self) -> Option<Next<'a>> {
        let mut is_mandatory = false;
        while !self.has_ended {
            let Some((&kind, rest)) = self.area.split_first() else {
                break;
            };
            let data = if kind < 32 {
                self.area = rest;
                &rest[..0]
            } else {
                let Some(&length) = rest.first() else { break };
                let length = usize::from(length);
                if length < 2 || length > self.area.len() {
                    break;
                }
                let data = &self.area[2..length];
                self.area = &self.area[length..];
                data
            };
            if kind == 0 || self.is_data && is_passed_over(kind) {
                is_mandatory = false;
            } else if kind != MANDATORY {
                return Some(Next::Entry(Entry {
                    kind,
                    data,
                    is_mandatory,
                }));
            } else if is_mandatory {
                self.has_ended = true;
                return Some(Next::MandatoryFault);
            } else {
                is_mandatory = true;
            }
        }
        self.has_ended = true;
        is_mandatory.then_some(Next::MandatoryFault)
    }
}

/// Whether an end knows what an option means.
pub fn is_understood(kind: u8, data: usize) -> bool {
    match kind {
        0..=2 => true,
        32..=35 => data >= 1,
        37 => (1..=6).contains(&data),
        38..=40 => true,
        41 | 44 => data == 4,
        42 => matches!(data, 4 | 6 | 8),
        43 => matches!(data, 2 | 4),
        _ => false,
    }
}
