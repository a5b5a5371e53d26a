//! The digest of `crates/recording`: a word is xored in, the sum multiplied by 2^40 + 435, and the
//! upper half xored onto the lower.

pub struct Digest(pub u64);

impl Digest {
    pub fn new() -> Self {
        Self(0xcbf2_9ce4_8422_2325)
    }

    pub fn word(&mut self, word: u64) {
        let product = (self.0 ^ word).wrapping_mul((1 << 40) + 435);
        self.0 = product ^ (product >> 32);
    }

    pub fn words(&mut self, words: &[u64]) {
        words.iter().for_each(|&word| self.word(word));
    }

    pub fn bytes(&mut self, bytes: &[u8]) {
        bytes.iter().for_each(|&byte| self.word(u64::from(byte)));
    }
}
