//! The entries on words that no build makes, in buffers of all lengths.

use underhill_mem_port::raw::registrar as raw;
use underhill_mem_port::raw::registrar::Lent;
use underhill_mem_port::raw::registrar::Reply;
use underhill_mem_port::raw::registrar::STATE_WORDS;

/// SplitMix64.
struct Random(u64);

impl Random {
    fn next(&mut self) -> u64 {
        self.0 = self.0.wrapping_add(0x9E37_79B9_7F4A_7C15);
        let z = (self.0 ^ (self.0 >> 30)).wrapping_mul(0xBF58_476D_1CE4_E5B9);
        let z = (z ^ (z >> 27)).wrapping_mul(0x94D0_49BB_1331_11EB);
        z ^ (z >> 31)
    }

    fn below(&mut self, end: u64) -> u64 {
        self.next() % end
    }

    /// A word: any, or a telling one.
    fn word(&mut self) -> u64 {
        match self.below(6) {
            0 => self.next(),
            1 => self.below(3),
            2 => 1 << self.below(64),
            3 => self.below(64) * 32_768,
            4 => u64::MAX - self.below(5000),
            _ => self.next() >> self.below(64),
        }
    }
}

const GUARD: u64 = 0x5A5A_0FF0_1234_4321;

/// A buffer with a word before it and one behind it.
fn guarded(words: impl Iterator<Item = u64>) -> Vec<u64> {
    [GUARD].into_iter().chain(words).chain([GUARD]).collect()
}

fn inner(buffer: &mut [u64]) -> &mut [u64] {
    let end = buffer.len() - 1;
    &mut buffer[1..end]
}

fn is_whole(buffer: &[u64]) -> bool {
    buffer.first() == Some(&GUARD) && buffer.last() == Some(&GUARD)
}

/// What is lent to a call, guarded.
#[derive(Clone, PartialEq)]
struct Buffers {
    state: Vec<u64>,
    registered: Vec<u64>,
    failed: Vec<u64>,
}

impl Buffers {
    fn any(random: &mut Random) -> Self {
        let words = match random.below(8) {
            0 => random.below(120),
            _ => STATE_WORDS as u64,
        };
        let mut state = guarded((0..words).map(|_| random.word()));
        if words == STATE_WORDS as u64 {
            bound(random, inner(&mut state));
        }
        let len = random.below(4);
        let registered = guarded((0..len).map(|_| random.word()));
        let failed_len = match random.below(8) {
            0 => random.below(4),
            _ => len,
        };
        Self {
            state,
            registered,
            failed: guarded((0..failed_len).map(|_| random.word())),
        }
    }

    fn lent(&mut self) -> Lent<'_> {
        Lent {
            state: inner(&mut self.state),
            registered: inner(&mut self.registered),
            failed: inner(&mut self.failed),
        }
    }

    fn are_whole(&self) -> bool {
        is_whole(&self.state) && is_whole(&self.registered) && is_whole(&self.failed)
    }
}

/// Chunks under way and entries that no build leaves, most of them near the small bitmaps that are
/// lent, so that more than 4 is met.
fn bound(random: &mut Random, state: &mut [u64]) {
    state[2] = random.below(300);
    state[3] = random.below(300);
    for word in &mut state[12..] {
        *word = random.below(40) * 32_768;
    }
    if random.below(2) == 0 {
        // What fits small bitmaps, so that more than 4 is met.
        state[10] = 1 << (12 + random.below(8));
        state[11] = random.below(4);
    }
}

#[test]
fn any_words_in_any_lengths_are_answered() {
    let mut random = Random(7);
    for round in 0..50_000 {
        let mut buffers = Buffers::any(&mut random);
        let before = buffers.clone();
        let (a, b) = (random.word(), random.word());
        let ram: Vec<u64> = (0..random.below(100)).map(|_| random.word()).collect();
        let lent = buffers.lent();
        let reply = match round % 5 {
            0 => raw::build(&ram, a, b, lent),
            1 => raw::register(lent, a, b),
            2 => raw::register_all_aligned(lent, a, b),
            3 => raw::answer_done(lent),
            _ => raw::answer_failed(lent),
        };
        assert!(buffers.are_whole());
        let known = [0, 1, 2, 4, 8, 9, 19, 21, 22, 23];
        assert!(known.contains(&reply.number), "{reply:?}");
        if !matches!(reply.number, 0 | 22 | 23) {
            let plain = Reply {
                number: reply.number,
                ..Reply::default()
            };
            assert_eq!(reply, plain);
            assert!(buffers == before, "a refusal changes nothing");
        }
    }
}

#[test]
fn the_words_of_a_bitmap() {
    assert_eq!(raw::map_words(0, 4096), 0);
    assert_eq!(raw::map_words(1, 4096), 1);
    assert_eq!(raw::map_words(64 * 4096, 4096), 1);
    assert_eq!(raw::map_words(64 * 4096 + 1, 4096), 2);
    assert_eq!(raw::map_words(u64::MAX, 1), 1 << 58);
    assert_eq!(raw::map_words(5, 0), 0);
}
