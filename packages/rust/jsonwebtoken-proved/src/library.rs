//! The library: its calls for C, and safe functions over them. All that is unsafe is here.
#![deny(unsafe_op_in_unsafe_fn)]

pub mod calls;
mod declared;
pub mod handle;
pub mod keys;

use std::sync::{Mutex, MutexGuard, PoisonError};

/// Locks a value, also after a panic of a thread that had it.
pub fn lock<T>(value: &Mutex<T>) -> MutexGuard<'_, T> {
    value.lock().unwrap_or_else(PoisonError::into_inner)
}
