//! What became of the packets of data that were sent.

use crate::names::Fate;
use std::collections::VecDeque;

/// The numbers of the packets of data that are in flight, in the order in which they were sent.
#[derive(Debug, Default)]
pub(crate) struct InFlight {
    numbers: VecDeque<u64>,
    kept: Vec<u64>,
}

impl InFlight {
    pub(crate) fn is_empty(&self) -> bool {
        self.numbers.is_empty()
    }

    pub(crate) fn note(&mut self, number: u64) {
        self.numbers.push_back(number);
    }

    /// Removes those that are not in flight any more, mostly the oldest, until this many are left, and returns how many of them are
    /// lost. After a timeout nothing is known about any of them: then all are lost.
    pub(crate) fn settle(&mut self, left: u32, mut fate_of: impl FnMut(u64) -> Fate) -> u64 {
        let mut lost = 0;
        while (left as usize) < self.numbers.len() + self.kept.len() {
            let Some(number) = self.numbers.pop_front() else {
                break;
            };
            match fate_of(number) {
                Fate::InFlight => self.kept.push(number),
                Fate::Delivered | Fate::Dropped(_) => {}
                Fate::Lost | Fate::Unknown => lost += 1,
            }
        }
        while let Some(number) = self.kept.pop() {
            self.numbers.push_front(number);
        }
        lost
    }
}

#[cfg(test)]
mod tests {
    use super::InFlight;
    use crate::names::Fate;

    /// Of seven packets the third and fourth are still on their way, the second and the last are lost, and the others arrived.
    #[test]
    fn packets_leave_once_their_fate_is_known() {
        let mut flight = InFlight::default();
        (1..=7).for_each(|it| flight.note(it));
        let fate = |number| match number {
            3 | 4 => Fate::InFlight,
            2 | 7 => Fate::Lost,
            _ => Fate::Delivered,
        };
        assert_eq!(flight.settle(5, fate), 1);
        assert_eq!(flight.numbers, [3, 4, 5, 6, 7]);
        assert_eq!(flight.settle(2, fate), 1);
        assert_eq!(flight.numbers, [3, 4]);
        assert_eq!(flight.settle(2, |_| unreachable!("none has left")), 0);
        assert_eq!(flight.settle(0, |_| Fate::Unknown), 2);
    }
}
