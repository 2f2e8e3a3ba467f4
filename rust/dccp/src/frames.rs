//! Frames that wait for the peer.

use crate::Transmit;
use std::mem;

/// Frames one after another in a buffer, in the order in which they go out. So the system can take many of them as one piece.
#[derive(Debug, Default)]
pub(crate) struct Frames {
    bytes: Vec<u8>,
    extents: Vec<Extent>,
    /// How many of the first have gone out, and where the next begins.
    gone: usize,
    begin: usize,
}

/// What a frame takes of the buffer.
#[derive(Clone, Copy, Debug)]
struct Extent {
    length: usize,
    is_answer: bool,
}

/// The most bytes of an empty buffer that is kept: one that has been longer is given back.
const MOST_KEPT: usize = 1 << 17;

impl Frames {
    pub(crate) fn len(&self) -> usize {
        self.extents.len() - self.gone
    }

    pub(crate) fn is_empty(&self) -> bool {
        self.len() == 0
    }

    pub(crate) fn push(&mut self, frame: &[u8], is_answer: bool) {
        if self.extents.len() < 2 * self.gone {
            self.close_up();
        }
        self.bytes.extend_from_slice(frame);
        self.extents.push(Extent {
            length: frame.len(),
            is_answer,
        });
    }

    /// Removes what has gone out from the buffer.
    fn close_up(&mut self) {
        self.bytes.drain(..mem::take(&mut self.begin));
        self.extents.drain(..mem::take(&mut self.gone));
    }

    /// The next frame, and whether it answers a packet.
    pub(crate) fn first(&self) -> Option<(&[u8], bool)> {
        let extent = self.extents.get(self.gone)?;
        let bytes = &self.bytes[self.begin..self.begin + extent.length];
        Some((bytes, extent.is_answer))
    }

    /// The first so many frames have gone out.
    pub(crate) fn remove(&mut self, count: usize) {
        let gone = &self.extents[self.gone..][..count.min(self.len())];
        self.begin += gone.iter().map(|it| it.length).sum::<usize>();
        self.gone += gone.len();
        if self.is_empty() {
            self.clear();
        }
    }

    /// Takes the next frame.
    pub(crate) fn take_first(&mut self) -> Option<Transmit> {
        let (bytes, is_answer) = self.first()?;
        let bytes = bytes.to_vec();
        self.remove(1);
        Some(Transmit { bytes, is_answer })
    }

    pub(crate) fn clear(&mut self) {
        (self.gone, self.begin) = (0, 0);
        self.extents.clear();
        self.bytes.clear();
        self.bytes.shrink_to(MOST_KEPT);
    }

    /// Removes the answers for which this is false.
    pub(crate) fn retain_answers(&mut self, mut goes: impl FnMut() -> bool) {
        if !self.extents[self.gone..].iter().any(|it| it.is_answer) {
            return;
        }
        let all = mem::take(self);
        for run in all.runs(1, usize::MAX) {
            if !run.is_answer || goes() {
                self.push(run.bytes, run.is_answer);
            }
        }
    }

    /// Takes the longer of two buffers that have no frames any more, so that the next frames use the one that was used last.
    pub(crate) fn keep_buffer(&mut self, other: &mut Frames) {
        if self.is_empty() && self.bytes.capacity() < other.bytes.capacity() {
            other.clear();
            mem::swap(self, other);
        }
    }

    /// All frames as runs, of at most so many frames and so many bytes each, but of one frame at least.
    pub(crate) fn runs(&self, most: usize, most_bytes: usize) -> Runs<'_> {
        Runs {
            bytes: &self.bytes[self.begin..],
            extents: &self.extents[self.gone..],
            most,
            most_bytes,
        }
    }
}

/// Successive frames of one length, except that the last may be shorter. An answer is a run by itself.
#[derive(Clone, Copy)]
pub(crate) struct Run<'a> {
    pub(crate) bytes: &'a [u8],
    /// The length of each except the last.
    pub(crate) length: usize,
    pub(crate) count: usize,
    pub(crate) is_answer: bool,
}

/// The runs of successive frames.
#[derive(Clone)]
pub(crate) struct Runs<'a> {
    bytes: &'a [u8],
    extents: &'a [Extent],
    /// The most frames of the next ones.
    pub(crate) most: usize,
    most_bytes: usize,
}

impl<'a> Iterator for Runs<'a> {
    type Item = Run<'a>;

    fn next(&mut self) -> Option<Run<'a>> {
        let (first, others) = self.extents.split_first()?;
        let (mut past, mut count) = (first.length, 1);
        for extent in others.iter().take(self.most.saturating_sub(1)) {
            let is_other = first.is_answer || extent.is_answer || first.length < extent.length;
            if is_other || self.most_bytes < past + extent.length {
                break;
            }
            (past, count) = (past + extent.length, count + 1);
            if extent.length < first.length {
                break;
            }
        }
        let (bytes, rest) = self.bytes.split_at(past);
        (self.bytes, self.extents) = (rest, &self.extents[count..]);
        Some(Run {
            bytes,
            length: first.length,
            count,
            is_answer: first.is_answer,
        })
    }
}

#[cfg(test)]
mod tests {
    use super::Frames;

    /// Those that have gone out leave room, and none is lost or changes its place.
    #[test]
    fn frames_go_out_in_order() {
        let (mut frames, mut next) = (Frames::default(), 0);
        for number in 0..100_u8 {
            frames.push(&[number; 3], number % 2 == 0);
            if number % 3 != 0 {
                let first = frames.take_first().unwrap();
                assert_eq!(
                    (first.bytes, first.is_answer),
                    (vec![next; 3], next % 2 == 0)
                );
                next += 1;
            }
        }
        assert_eq!((next, frames.len()), (66, 34));
        assert_eq!(frames.bytes.len(), 3 * frames.extents.len());
        assert!(frames.extents.len() < 2 * 34 + 2);
        let next = frames.runs(62, 100).next().unwrap();
        assert_eq!(
            (next.bytes, next.count, next.is_answer),
            (&[66; 3][..], 1, true)
        );
        frames.remove(1);
        assert_eq!(frames.first(), Some((&[67; 3][..], false)));
        frames.clear();
        assert_eq!((frames.len(), frames.take_first()), (0, None));
    }

    #[test]
    fn answers_may_be_left_out() {
        let mut frames = Frames::default();
        (0..6).for_each(|it| frames.push(&[it], it % 2 == 1));
        let mut left = 2;
        frames.retain_answers(|| {
            left -= 1;
            0 <= left
        });
        let left: Vec<u8> = frames.runs(1, 1).flat_map(|it| it.bytes).copied().collect();
        assert_eq!(left, [0, 1, 2, 3, 4]);
    }

    fn runs(lengths: &[usize], most: usize) -> Vec<usize> {
        let mut frames = Frames::default();
        lengths
            .iter()
            .for_each(|it| frames.push(&vec![7; *it], false));
        let runs = frames.runs(most, 65_000);
        assert_eq!(
            runs.clone().map(|it| it.bytes.len()).sum::<usize>(),
            lengths.iter().sum()
        );
        runs.map(|it| it.count).collect()
    }

    /// UDP_SEGMENT cuts a message into pieces of one length; the last may be shorter.
    #[test]
    fn a_run_has_one_length_and_a_shorter_end() {
        assert_eq!(runs(&[9, 9, 9], 62), [3]);
        assert_eq!(runs(&[9, 9, 4, 9], 62), [3, 1]);
        assert_eq!(runs(&[4, 9, 9], 62), [1, 2]);
        assert_eq!(runs(&[9, 9, 9, 9, 9], 2), [2, 2, 1]);
        assert_eq!(runs(&[9, 9, 9], 1), [1, 1, 1]);
        // No more bytes than an IP datagram has: 65,000 hold 62 of 1,040 bytes, and 31 of 2,044.
        assert_eq!(runs(&[1_040; 70], 62), [62, 8]);
        assert_eq!(runs(&[2_044; 40], 62), [31, 9]);
        assert_eq!(runs(&[], 62), []);
    }
}
