//! Runs of words and bits of the image, as bytes and from them.

/// Words travel high byte first.
pub fn pack_words(words: &[u16], bytes: &mut [u8]) {
    for (bytes, word) in bytes.chunks_exact_mut(2).zip(words) {
        bytes.copy_from_slice(&word.to_be_bytes());
    }
}

pub fn store_words(words: &mut [u16], bytes: &[u8]) {
    for (word, bytes) in words.iter_mut().zip(bytes.chunks_exact(2)) {
        *word = u16::from_be_bytes([bytes[0], bytes[1]]);
    }
}

/// As many bits as the bytes have, from bit `first` on; those past the image's end are 0.
pub fn pack_bits(image: &[u16], first: usize, bytes: &mut [u8]) {
    let (words, shift) = (&image[first / 16..], first % 16);
    let whole = bytes.len() / 2;
    let mut pairs = bytes.chunks_exact_mut(2);
    for (i, pair) in pairs.by_ref().enumerate() {
        pair.copy_from_slice(&sixteen_bits(words, i, shift).to_le_bytes());
    }
    if let [last] = pairs.into_remainder() {
        *last = sixteen_bits(words, whole, shift) as u8;
    }
}

/// From bit `shift` of word i on: they lie in this word and the next.
fn sixteen_bits(words: &[u16], i: usize, shift: usize) -> u16 {
    let next = words.get(i + 1).copied().unwrap_or(0);
    ((u32::from(next) << 16 | u32::from(words[i])) >> shift) as u16
}

/// The first `count` bits of the bytes, from bit `first` on.
pub fn store_bits(image: &mut [u16], first: usize, count: usize, bytes: &[u8]) {
    let (words, shift) = (&mut image[first / 16..], first % 16);
    let (whole, rest) = (count / 16, count % 16);
    for (i, pair) in bytes.chunks_exact(2).take(whole).enumerate() {
        store_sixteen_bits(
            words,
            i,
            shift,
            u16::MAX,
            u16::from_le_bytes([pair[0], pair[1]]),
        );
    }
    if rest > 0 {
        let byte = |at| bytes.get(at).copied().unwrap_or(0);
        let bits = u16::from_le_bytes([byte(2 * whole), byte(2 * whole + 1)]);
        store_sixteen_bits(words, whole, shift, (1 << rest) - 1, bits);
    }
}

/// Those that the mask has, from bit `shift` of word i on.
fn store_sixteen_bits(words: &mut [u16], i: usize, shift: usize, mask: u16, bits: u16) {
    let (mask, bits) = (u32::from(mask) << shift, u32::from(bits) << shift);
    merge(&mut words[i], mask as u16, bits as u16);
    if mask >> 16 != 0 {
        merge(&mut words[i + 1], (mask >> 16) as u16, (bits >> 16) as u16);
    }
}

fn merge(word: &mut u16, mask: u16, bits: u16) {
    *word = *word & !mask | bits & mask;
}

pub fn store_bit(image: &mut [u16], at: usize, on: bool) {
    let bit = 1 << (at % 16);
    if on {
        image[at / 16] |= bit;
    } else {
        image[at / 16] &= !bit;
    }
}
