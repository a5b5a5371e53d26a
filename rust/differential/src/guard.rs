//! Buffers with something known on both sides, so that a write beside them is seen.

/// Kept on both sides of every buffer.
const GUARD: usize = 8;
pub const GUARD_BYTE: u8 = 0x5A;
pub const GUARD_WORD: u64 = 0x5A0F_F012_3443_215A;

pub fn guarded<T: Copy>(inner: &[T], guard: T) -> Vec<T> {
    [&[guard; GUARD], inner, &[guard; GUARD]].concat()
}

/// The buffer between its guards, if they are whole.
pub fn unguarded<T: Copy + PartialEq>(buffer: &[T], guard: T) -> Option<Vec<T>> {
    let (front, rest) = buffer.split_at(GUARD);
    let (inner, back) = rest.split_at(rest.len() - GUARD);
    let whole = front.iter().chain(back).all(|item| *item == guard);
    whole.then(|| inner.to_vec())
}

pub fn inner<T>(buffer: &mut [T]) -> &mut [T] {
    let end = buffer.len() - GUARD;
    &mut buffer[GUARD..end]
}

/// Where two buffers first differ, as the first has it.
pub fn first_unlike<T: PartialEq + std::fmt::Debug>(a: &[T], b: &[T]) -> String {
    match a.iter().zip(b).position(|(a, b)| a != b) {
        Some(place) => format!("[{place}]={:?}", a[place]),
        None => format!(" has {}", a.len()),
    }
}
