//! The image as one list of bits: word w is its bits 16 w to 16 w + 15, the least significant first.

#[derive(Clone, Default)]
pub struct Image {
    bits: Vec<bool>,
}

impl Image {
    /// Takes the words given, and nothing of what was there before.
    pub fn fill(&mut self, words: impl Iterator<Item = u16>) {
        self.bits.clear();
        for word in words {
            self.bits.extend((0..16).map(|k| word >> k & 1 == 1));
        }
    }

    pub fn words(&self) -> usize {
        self.bits.len() / 16
    }

    pub fn bit(&self, address: usize) -> bool {
        self.bits.get(address).copied().unwrap_or(false)
    }

    pub fn set_bit(&mut self, address: usize, value: bool) {
        if let Some(bit) = self.bits.get_mut(address) {
            *bit = value;
        }
    }

    /// Its words, in order.
    pub fn content(&self) -> impl Iterator<Item = u16> + '_ {
        let word = |bits: &[bool]| (0..16).fold(0, |word, k| word | u16::from(bits[k]) << k);
        self.bits.chunks_exact(16).map(word)
    }

    pub fn word(&self, place: usize) -> u16 {
        (0..16).fold(0, |word, k| word | u16::from(self.bit(place * 16 + k)) << k)
    }

    pub fn set_word(&mut self, place: usize, value: u16) {
        for k in 0..16 {
            self.set_bit(place * 16 + k, value >> k & 1 == 1);
        }
    }

    /// The places of the words in which two images differ, ascending.
    pub fn differing<'a>(&'a self, other: &'a Image) -> impl Iterator<Item = usize> + 'a {
        let pairs = self.bits.chunks(16).zip(other.bits.chunks(16));
        pairs
            .enumerate()
            .filter(|(_, (a, b))| a != b)
            .map(|(place, _)| place)
    }

    pub fn copy_from(&mut self, other: &Image) {
        self.bits.clone_from(&other.bits);
    }
}

#[cfg(test)]
mod tests {
    use super::*;

    /// Document 01, "Both sides of each edge", the three entries on bits marked P.
    #[test]
    fn bits_and_words_overlap() {
        let mut image = Image::default();
        image.fill((0..0x100).map(|_| 0));
        image.set_word(1, 1000);
        assert_eq!([24, 25, 26].map(|k| image.bit(k)), [true, true, false]);
        image.set_bit(24, false);
        assert_eq!(image.word(1), 744);
        image.set_bit(0x0E91, true);
        assert_eq!(image.word(0x00E9), 2);
        let words = (0..image.words()).map(|place| image.word(place));
        assert!(image.content().eq(words));
    }
}
