//! Keys that the library has read.

use super::calls::{Of, checked, overwrite, text, text_of, written};
use super::declared;
pub use super::declared::Source;
use super::handle::Handle;
use super::lock;
use crate::status;
use std::fmt;
use std::sync::{Arc, Mutex};

/// A key, or a key set, which the library has read. Any number of threads may use it.
pub struct Keys {
    handle: Mutex<Handle>,
    skipped: Arc<[SkippedKey]>,
}

/// The bytes of a key, which may be a secret: they are overwritten when they are dropped.
#[derive(Clone)]
pub struct KeyBytes(pub Vec<u8>);

impl Drop for KeyBytes {
    fn drop(&mut self) {
        overwrite(&mut self.0);
    }
}

/// A key of a set that the library does not use, as if it were not in the set (RFC 7517 section 5).
///
/// `Display` writes a line for a log, such as `key 2 of the set is skipped: ..`, without the key.
#[derive(Clone, Debug, PartialEq, Eq)]
#[non_exhaustive]
pub struct SkippedKey {
    /// The place of the key in the set, from 0 on.
    pub place: usize,
    status: u32,
}

impl SkippedKey {
    /// Returns why the key is skipped, for a log.
    #[must_use]
    pub fn reason(&self) -> String {
        text_of(Of::Status, self.status).unwrap_or_default()
    }
}

impl fmt::Display for SkippedKey {
    fn fmt(&self, f: &mut fmt::Formatter<'_>) -> fmt::Result {
        write!(f, "key {} of the set is skipped: {}", self.place, self.reason())
    }
}

/// Returns each reason once: the line of the first skipped key with this reason, and the number of the others.
pub fn reasons(skipped: &[SkippedKey]) -> String {
    let mut counted: Vec<(&SkippedKey, usize)> = Vec::new();
    for key in skipped {
        match counted.iter_mut().find(|it| it.0.status == key.status) {
            Some((_, others)) => *others += 1,
            None => counted.push((key, 0)),
        }
    }
    let line = |(key, others): (&SkippedKey, usize)| {
        if others == 0 { key.to_string() } else { format!("{key} (and {others} more)") }
    };
    counted.into_iter().map(line).collect::<Vec<_>>().join("; ")
}

impl Keys {
    /// Reads a key or a key set.
    pub fn new(source: Source, bytes: &[u8]) -> Result<Keys, u32> {
        let (mut handle, mut items, mut kept) = (Handle::none(), 0, 0);
        // SAFETY: the slice has this length, and the handle holds nothing
        checked(unsafe {
            let (bytes, len) = (bytes.as_ptr(), bytes.len());
            declared::jwt_keys_add(handle.at(), source as u32, bytes, len, &mut items, &mut kept)
        })?;
        let mut keys = Keys { handle: Mutex::new(handle), skipped: Arc::from([]) };
        if kept < items {
            let skipped = |place| SkippedKey { place, status: keys.info(place).status };
            keys.skipped = (0..items).map(skipped).filter(|it| it.status != status::OK).collect();
        }
        Ok(keys)
    }

    /// Returns what a key can do; all zeros, if none is at this place.
    fn info(&self, place: usize) -> declared::KeyInfo {
        let mut info = declared::KeyInfo::default();
        // SAFETY: no other call has this handle
        unsafe { declared::jwt_keys_info(lock(&self.handle).at(), place, &mut info) };
        info
    }

    /// Returns the keys that are skipped.
    pub fn skipped(&self) -> &Arc<[SkippedKey]> {
        &self.skipped
    }

    /// Returns the algorithms that verify with the first key, as bits of their numbers.
    pub fn verifies(&self) -> u32 {
        self.info(0).verifies
    }

    /// Returns whether a token can be verified with the keys. Of a set only keys with a `kid` count, since no token can name another.
    pub fn are_usable(&self) -> bool {
        self.info(declared::ALL).verifies != 0
    }

    /// Returns the JSON Web Key of the first key.
    pub fn text(&self) -> Result<KeyBytes, u32> {
        let mut handle = lock(&self.handle);
        // SAFETY: no other call has this handle, and the buffer has this size
        let text =
            written(4096, |buffer, size, len| unsafe { declared::jwt_keys_text(handle.at(), 0, buffer, size, len) });
        text.map(KeyBytes)
    }

    /// Returns the thumbprint of the first key, also if it is skipped.
    pub fn thumbprint(&self, bits: u32) -> Result<String, u32> {
        let mut handle = lock(&self.handle);
        // SAFETY: no other call has this handle, and the buffer has this size
        text(96, |buffer, size, len| unsafe { declared::jwt_thumbprint(handle.at(), 0, bits, buffer, size, len) })
    }

    /// Returns the token of a header and a payload, signed byte for byte with the one key, a secret.
    pub fn sign(&self, header: &[u8], payload: &[u8]) -> Result<String, u32> {
        let mut handle = lock(&self.handle);
        // SAFETY: no other call has this handle, each pointer has the length of its slice, and the buffer overlaps none
        text(2 * (header.len() + payload.len()) + 96, |buffer, size, len| unsafe {
            let (payload, payload_len) = (payload.as_ptr(), payload.len());
            declared::jwt_sign(handle.at(), header.as_ptr(), header.len(), payload, payload_len, buffer, size, len)
        })
    }

    /// Returns the verifier of the keys and options, for tokens of at most `max_token_len` bytes, with at most `max_prepared` bytes of
    /// prepared keys. 0 selects the library's limits.
    pub fn verifier(&self, options: &str, max_token_len: usize, max_prepared: usize) -> Result<Handle, u32> {
        let mut made = Handle::none();
        // SAFETY: no other call has this handle, the slice has this length, and the other handle holds nothing
        checked(unsafe {
            let (options, len) = (options.as_ptr(), options.len());
            declared::jwt_verifier_new(lock(&self.handle).at(), options, len, max_token_len, max_prepared, made.at())
        })?;
        Ok(made)
    }
}
