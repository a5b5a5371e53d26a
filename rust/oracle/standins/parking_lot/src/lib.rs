//! Stand-in: the standard library's mutex, without poisoning (a panic while it is held leaves it
//! free, as parking_lot has it).

use std::fmt;
use std::ops::Deref;
use std::ops::DerefMut;
use std::sync::PoisonError;

#[derive(Default)]
pub struct Mutex<T>(std::sync::Mutex<T>);

pub struct MutexGuard<'a, T>(std::sync::MutexGuard<'a, T>);

impl<T> Mutex<T> {
    pub const fn new(value: T) -> Self {
        Self(std::sync::Mutex::new(value))
    }

    pub fn lock(&self) -> MutexGuard<'_, T> {
        MutexGuard(self.0.lock().unwrap_or_else(PoisonError::into_inner))
    }
}

impl<T: fmt::Debug> fmt::Debug for Mutex<T> {
    fn fmt(&self, f: &mut fmt::Formatter<'_>) -> fmt::Result {
        f.debug_tuple("Mutex").field(&*self.lock()).finish()
    }
}

impl<T> Deref for MutexGuard<'_, T> {
    type Target = T;

    fn deref(&self) -> &T {
        &self.0
    }
}

impl<T> DerefMut for MutexGuard<'_, T> {
    fn deref_mut(&mut self) -> &mut T {
        &mut self.0
    }
}

#[cfg(test)]
mod tests {
    use super::Mutex;
    use std::panic::AssertUnwindSafe;
    use std::panic::catch_unwind;

    #[test]
    fn a_panic_leaves_it_free() {
        let mutex = Mutex::new(1);
        let held = catch_unwind(AssertUnwindSafe(|| {
            let mut value = mutex.lock();
            *value = 2;
            std::panic::resume_unwind(Box::new(()));
        }));
        assert!(held.is_err());
        assert_eq!(*mutex.lock(), 2);
    }
}
