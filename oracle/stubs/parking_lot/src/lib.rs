//! Stand-in for `parking_lot`: a mutex whose `lock` yields the guard itself.

use std::sync::{Mutex as StdMutex, MutexGuard};

#[derive(Default)]
pub struct Mutex<T>(StdMutex<T>);

impl<T> Mutex<T> {
    pub const fn new(value: T) -> Self {
        Self(StdMutex::new(value))
    }

    /// Only one thread runs, so a held lock is a fault of the caller.
    pub fn lock(&self) -> MutexGuard<'_, T> {
        self.0.try_lock().expect("the lock is free")
    }
}
