//! A map of 1,560 sectors: those that are data where the directory has four tracks.

use crate::geometry::MAP_BITS;
use std::ops::Range;

pub const MAP_BYTES: usize = 195;

const WORDS: usize = MAP_BYTES.div_ceil(8);

/// The 195 map bytes as words, low byte first. So map bit b is bit b mod 64 of word b div 64.
/// The bits of the last word above the map stay clear.
#[derive(Clone, Copy, Debug, PartialEq, Eq)]
pub struct Map {
    words: [u64; WORDS],
}

impl Map {
    pub const CLEAR: Map = Map { words: [0; WORDS] };

    pub fn from_bytes(bytes: &[u8; MAP_BYTES]) -> Map {
        let (whole, rest) = bytes.as_chunks();
        let mut map = Map::CLEAR;
        for (word, bytes) in map.words.iter_mut().zip(whole) {
            *word = u64::from_le_bytes(*bytes);
        }
        let mut last = [0; 8];
        last[..rest.len()].copy_from_slice(rest);
        map.words[whole.len()] = u64::from_le_bytes(last);
        map
    }

    pub fn to_bytes(self) -> [u8; MAP_BYTES] {
        let mut padded = [0; WORDS * 8];
        for (bytes, word) in padded.as_chunks_mut().0.iter_mut().zip(self.words) {
            *bytes = word.to_le_bytes();
        }
        let mut bytes = [0; MAP_BYTES];
        bytes.copy_from_slice(&padded[..MAP_BYTES]);
        bytes
    }

    /// How many bits are set.
    pub fn count(&self) -> usize {
        self.words.iter().map(|word| word.count_ones() as usize).sum()
    }

    pub fn has(&self, bit: usize) -> bool {
        self.words[bit / 64] >> (bit % 64) & 1 == 1
    }

    /// Sets every bit of a range.
    pub fn set_all(&mut self, bits: Range<usize>) {
        bits.for_each(|bit| self.set(bit));
    }

    pub fn set(&mut self, bit: usize) {
        self.words[bit / 64] |= 1 << (bit % 64);
    }

    /// Clears a bit and tells whether it was set.
    pub fn take(&mut self, bit: usize) -> bool {
        let had = self.has(bit);
        self.words[bit / 64] &= !(1 << (bit % 64));
        had
    }

    /// Whether the two maps share a bit.
    pub fn overlaps(&self, other: &Map) -> bool {
        self.words.iter().zip(&other.words).fold(0, |shared, (a, b)| shared | (a & b)) != 0
    }

    /// Sets every bit that the other map has set.
    pub fn join(&mut self, other: &Map) {
        for (mine, theirs) in self.words.iter_mut().zip(&other.words) {
            *mine |= theirs;
        }
    }

    /// This map without the bits that the other has set.
    pub fn without(&self, other: &Map) -> Map {
        let mut rest = *self;
        for (mine, theirs) in rest.words.iter_mut().zip(&other.words) {
            *mine &= !theirs;
        }
        rest
    }

    /// The lowest bit that is set.
    pub fn lowest(&self) -> Option<usize> {
        let (index, word) = self.words.iter().enumerate().find(|(_, word)| **word != 0)?;
        Some(index * 64 + word.trailing_zeros() as usize)
    }

    /// The clear bits of the map, rising.
    pub fn clear_bits(&self) -> impl Iterator<Item = usize> {
        self.words
            .iter()
            .enumerate()
            .flat_map(|(index, word)| {
                let mut clear = !word;
                std::iter::from_fn(move || {
                    let lowest = (clear != 0).then(|| clear.trailing_zeros() as usize)?;
                    clear &= clear - 1;
                    Some(index * 64 + lowest)
                })
            })
            .take_while(|bit| *bit < MAP_BITS)
    }
}

#[cfg(test)]
mod tests {
    use super::*;

    #[test]
    fn a_bit_stands_where_the_paper_says() {
        for bit in 0..MAP_BITS {
            let mut bytes = [0; MAP_BYTES];
            bytes[bit / 8] = 1 << (bit % 8);
            let mut map = Map::from_bytes(&bytes);
            assert!(map.has(bit));
            assert_eq!((map.count(), map.lowest()), (1, Some(bit)));
            assert_eq!(map.to_bytes(), bytes);
            assert!(map.take(bit));
            assert!(!map.take(bit));
            assert_eq!((map, map.lowest()), (Map::CLEAR, None));
            map.set(bit);
            assert_eq!(map.to_bytes(), bytes);
        }
    }

    #[test]
    fn clear_bits_are_those_not_set() {
        let mut map = Map::CLEAR;
        assert!(map.clear_bits().eq(0..MAP_BITS));
        for bit in (0..MAP_BITS).filter(|bit| bit % 3 != 1) {
            map.set(bit);
        }
        assert!(map.clear_bits().eq((0..MAP_BITS).filter(|bit| bit % 3 == 1)));
        assert_eq!(map.count() + map.clear_bits().count(), MAP_BITS);
        assert_eq!(Map::from_bytes(&[255; MAP_BYTES]).clear_bits().next(), None);
    }

    #[test]
    fn joining_and_meeting() {
        let (mut low, mut high) = (Map::CLEAR, Map::CLEAR);
        low.set_all(0..800);
        high.set_all(800..MAP_BITS);
        assert!(!low.overlaps(&high));
        low.join(&high);
        assert_eq!(low, Map::from_bytes(&[255; MAP_BYTES]));
        assert!(low.overlaps(&high));
        assert_eq!(low.without(&high).count(), 800);
        assert_eq!(low.without(&low), Map::CLEAR);
    }
}
