//! Lent bytes between guard bytes that no call may touch.

use crate::random::Random;

const GUARD: usize = 48;

pub struct Frame {
    before: Vec<u8>,
    buffer: Vec<u8>,
    start: usize,
    end: usize,
}

impl Frame {
    /// These bytes between random ones, at a place of any remainder by 16.
    pub fn around(bytes: &[u8], random: &mut Random) -> Frame {
        let start = GUARD + random.below(16);
        let mut before = random.bytes(start);
        before.extend_from_slice(bytes);
        before.extend(random.bytes(GUARD));
        Frame { buffer: before.clone(), before, start, end: start + bytes.len() }
    }

    pub fn lent(&mut self) -> &mut [u8] {
        &mut self.buffer[self.start..self.end]
    }

    /// The lent bytes as they were made.
    pub fn original(&self) -> &[u8] {
        &self.before[self.start..self.end]
    }

    /// Says where all bytes differ from what they were made as, and makes them so again.
    pub fn restore(&mut self) -> Option<String> {
        if self.buffer == self.before {
            return None;
        }
        let right = self.original().to_vec();
        self.restore_from(&right)
    }

    /// Says where the lent bytes differ from these, or the guards from what they were, and restores all.
    pub fn restore_from(&mut self, right: &[u8]) -> Option<String> {
        let found = self.difference(right);
        self.buffer.copy_from_slice(&self.before);
        found
    }

    fn difference(&self, right: &[u8]) -> Option<String> {
        if self.buffer[self.start..self.end] != *right {
            let place = right.iter().zip(&self.buffer[self.start..]).position(|(x, y)| x != y)?;
            let byte = self.buffer[self.start + place];
            return Some(format!("byte {place} is {byte:02X} in exports, {:02X} in second", right[place]));
        }
        let outside = (0..self.start).chain(self.end..self.buffer.len());
        let place = outside.into_iter().find(|i| self.buffer[*i] != self.before[*i])?;
        let place = place as isize - self.start as isize;
        Some(format!("byte {place}, outside the {} lent ones, is overwritten", right.len()))
    }
}
