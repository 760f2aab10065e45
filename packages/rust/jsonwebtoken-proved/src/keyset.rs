//! A key set that rotates, and is fetched again and again.

use crate::errors::{Cause, Error, ErrorKind, Result};
use crate::library::keys::{Keys, SkippedKey, Source};
use crate::library::lock;
use crate::validation::{self, argument};
use crate::verifier::Answer;
use crate::{Refusal, Validation, Verifier};
use serde::de::DeserializeOwned;
use std::error::Error as StdError;
use std::fmt;
use std::io::Read;
use std::panic::{AssertUnwindSafe, catch_unwind};
use std::sync::{Arc, Condvar, Mutex, MutexGuard, PoisonError};
use std::thread;
use std::time::{Duration, Instant};

/// Any error.
type Boxed = Box<dyn StdError + Send + Sync>;
/// What is called with the skipped keys of a set.
type Report = Arc<dyn Fn(&[SkippedKey]) + Send + Sync>;

/// How many bytes a set may have.
const LARGEST: u64 = 1 << 20;
/// How many bytes of prepared keys a verifier keeps, such as 64 keys on P-256. A key server can send thousands of keys, and preparing them
/// all takes seconds.
const PREPARED: usize = 1 << 20;
/// How many verifiers of a set are kept.
const MOST: usize = 16;

/// When a [`KeySet`] is fetched, and how many calls wait for it. No time may be 0.
#[derive(Clone, Copy, Debug, PartialEq, Eq)]
pub struct Rotation {
    /// The time from one fetch in the background to the next one: 5 minutes at first. After a fetch that failed it is at most `refetch`.
    pub refresh: Duration,
    /// The least time from a fetch for an unknown `kid` to the next one: 10 seconds at first.
    pub refetch: Duration,
    /// How long a call waits for a fetch: 10 seconds at first.
    pub timeout: Duration,
    /// How many calls, and closures of [`KeySet::when_fetched`], wait for a fetch at the same time: 16 at first. Each one beyond is
    /// answered at once, with [`ErrorKind::Fetching`].
    pub waiters: usize,
}

impl Default for Rotation {
    fn default() -> Rotation {
        Rotation {
            refresh: Duration::from_secs(300),
            refetch: Duration::from_secs(10),
            timeout: Duration::from_secs(10),
            waiters: 16,
        }
    }
}

impl Rotation {
    fn check(&self) -> Result<()> {
        if [self.refresh, self.refetch, self.timeout].contains(&Duration::ZERO) {
            return Err(argument("refresh, refetch and timeout must be longer than 0"));
        }
        Ok(())
    }
}

/// A JSON Web Key Set (RFC 7517 section 5) that a closure fetches, again and again as its keys rotate: in the background, and for a token
/// whose `kid` the set does not have. If a fetch fails, or gives no usable set, the last one that was usable stays. Any number of threads
/// may use it.
///
/// A separate thread calls the closure, never twice at once, until the set is dropped.
pub struct KeySet {
    shared: Arc<Shared>,
}

struct Shared {
    rotation: Rotation,
    state: Mutex<State>,
    changed: Condvar,
}

#[derive(Default)]
struct State {
    current: Option<Arc<Fetched>>,
    /// Why the last fetch gave no usable set.
    failure: Option<Error>,
    /// When the current fetch began.
    begun: Option<Instant>,
    /// Whether the current fetch is for an unknown `kid`.
    is_for_kid: bool,
    /// When the last fetch for an unknown `kid` was over.
    refetched: Option<Instant>,
    /// How many calls wait for the fetch.
    waiting: usize,
    /// What is called at its end.
    told: Vec<Box<dyn FnOnce() + Send>>,
    /// What is called with the skipped keys of each set.
    report: Option<Report>,
    is_closed: bool,
}

impl State {
    fn has_room(&self, waiters: usize) -> bool {
        self.waiting + self.told.len() < waiters
    }
}

/// A set that is usable.
struct Fetched {
    text: Arc<str>,
    keys: Keys,
    verifiers: Mutex<Verifiers>,
}

/// The verifiers of the last conditions, or the errors of making them.
type Verifiers = Vec<(Validation, Result<Arc<Verifier>>)>;

impl Fetched {
    /// Returns the verifier of these conditions, which the first call makes. No other call waits for that.
    fn verifier(&self, validation: &Validation) -> Result<Arc<Verifier>> {
        let known = |it: &Verifiers| it.iter().find(|it| it.0 == *validation).map(|it| it.1.clone());
        if let Some(known) = known(&lock(&self.verifiers)) {
            return known;
        }
        let made = Verifier::made(&self.keys, validation, 0, PREPARED).map(Arc::new);
        if matches!(&made, Err(error) if *error.kind() == ErrorKind::OutOfMemory) {
            return made;
        }
        let mut verifiers = lock(&self.verifiers);
        if let Some(known) = known(&verifiers) {
            return known;
        }
        if verifiers.len() == MOST {
            drop(verifiers.remove(0));
        }
        verifiers.push((validation.clone(), made.clone()));
        made
    }

    /// Makes the verifiers that calls by the set before will ask for, so that none of them waits.
    fn prepare(&self, before: &Fetched) {
        let conditions: Vec<_> = lock(&before.verifiers).iter().map(|it| it.0.clone()).collect();
        for it in &conditions {
            drop(self.verifier(it));
        }
    }

    /// Calls what is called with the skipped keys, if there are any.
    fn report(&self, report: &Report) {
        if !self.keys.skipped().is_empty() {
            // a panic of it is no reason to fetch no more
            drop(catch_unwind(AssertUnwindSafe(|| report(self.keys.skipped()))));
        }
    }
}

impl KeySet {
    /// Returns the set that a closure fetches, once it gave a usable one. Of what it reads at most 1 MiB is taken.
    ///
    /// # Errors
    ///
    /// If the closure fails, or takes longer than the timeout, or the text has more than 1 MiB, this is [`ErrorKind::Fetch`]. If the text
    /// is not a key set, or no key with a `kid` verifies tokens, this is [`ErrorKind::UnusableKey`], whose text lists the reasons. A time
    /// of 0 is [`ErrorKind::InvalidArgument`].
    pub fn new<R: Read, E: Into<Box<dyn StdError + Send + Sync>>>(
        fetch: impl FnMut() -> std::result::Result<R, E> + Send + 'static,
        rotation: Rotation,
    ) -> Result<KeySet> {
        rotation.check()?;
        let asked = State { begun: Some(Instant::now()), ..State::default() };
        let shared = Arc::new(Shared { rotation, state: Mutex::new(asked), changed: Condvar::new() });
        // dropping it ends the thread
        let set = KeySet { shared: Arc::clone(&shared) };
        let spawned = thread::Builder::new().name("jwtproved".to_string()).spawn(move || keep(&shared, fetch));
        spawned.map_err(failed)?;
        let state = set.shared.wait(lock(&set.shared.state));
        match (&state.current, &state.failure) {
            (Some(_), _) => {}
            (None, Some(error)) => return Err(error.clone()),
            (None, None) => return Err(failed("it took longer than the timeout")),
        }
        drop(state);
        Ok(set)
    }

    /// Verifies a token like [`Verifier::decode_json`], by the key of the set that it names. The first call with a `Validation` makes a
    /// verifier, which prepares at most 1 MiB of keys, such as 64 on P-256. The set keeps the last 16 verifiers, and its own thread makes
    /// them for the next set, before that set is used.
    ///
    /// If the set has no key of the token's `kid`, or none that serves an algorithm, a later set decides: the call waits for it in its own
    /// thread, for the timeout at most. In an async service call [`KeySet::try_decode_json`], or call this in a thread for blocking calls.
    ///
    /// # Errors
    ///
    /// Returns the errors of [`Verifier::from_jwk_set`] and of [`Verifier::decode_json`]. A `kid` that no set has is [`ErrorKind::NoKey`];
    /// if the last fetch failed, so that the key can't be looked for, it is [`ErrorKind::Fetch`], and if a fetch is still under way after
    /// the timeout, or as many calls as are allowed wait for it already, [`ErrorKind::Fetching`].
    pub fn decode_json(&self, token: impl AsRef<[u8]>, validation: &Validation, now: u64) -> Answer<String> {
        self.decoded(token.as_ref(), validation, now, self.shared.rotation.waiters)
    }

    /// Verifies a token like [`KeySet::decode_json`], but never waits: a token whose key the set lacks is answered at once, and the fetch
    /// that may bring the key goes on, so that a later call has it.
    ///
    /// # Errors
    ///
    /// Returns the errors of [`KeySet::decode_json`]; while the set is fetched, a `kid` that it lacks is [`ErrorKind::Fetching`].
    pub fn try_decode_json(&self, token: impl AsRef<[u8]>, validation: &Validation, now: u64) -> Answer<String> {
        self.decoded(token.as_ref(), validation, now, 0)
    }

    /// Verifies a token at the time of the system's clock, like [`KeySet::decode_json`], and returns its claims.
    ///
    /// # Errors
    ///
    /// Returns the errors of [`KeySet::decode_json`]. Claims that do not match the type are [`ErrorKind::Json`]; a clock before 1970-01-01
    /// 00:00:00 UTC is [`ErrorKind::ClockBeforeEpoch`].
    pub fn decode<T: DeserializeOwned>(&self, token: impl AsRef<[u8]>, validation: &Validation) -> Answer<T> {
        self.decode_json(token, validation, validation::now()?)?.typed()
    }

    /// Verifies a token like [`KeySet::decode`], but never waits, like [`KeySet::try_decode_json`].
    ///
    /// # Errors
    ///
    /// Returns the errors of [`KeySet::decode`] and [`KeySet::try_decode_json`].
    pub fn try_decode<T: DeserializeOwned>(&self, token: impl AsRef<[u8]>, validation: &Validation) -> Answer<T> {
        self.try_decode_json(token, validation, validation::now()?)?.typed()
    }

    /// Calls a closure at the end of the fetch that is under way, in the thread of the set; or now, if none is under way. Then
    /// [`KeySet::try_decode`] knows what was fetched. The closure must return soon, as one that wakes a task does. If the set is dropped
    /// before, it may be dropped without a call.
    ///
    /// # Errors
    ///
    /// If as many as are allowed wait already, this is [`ErrorKind::Fetching`], and the closure is not called.
    pub fn when_fetched(&self, then: impl FnOnce() + Send + 'static) -> Result<()> {
        let mut state = lock(&self.shared.state);
        if state.begun.is_none() {
            drop(state);
            then();
        } else if state.has_room(self.shared.rotation.waiters) {
            state.told.push(Box::new(then));
        } else {
            return Err(ErrorKind::Fetching.into());
        }
        Ok(())
    }

    /// Logs skipped keys: calls a closure with the skipped keys of the current set, and, in the thread of the set, with the skipped keys of
    /// each later set. A set without skipped keys causes no call. A later closure replaces an earlier one.
    ///
    /// ```no_run
    /// # use jsonwebtoken_proved::KeySet;
    /// # fn log(keys: &KeySet) {
    /// keys.when_skipped(|skipped| skipped.iter().for_each(|it| eprintln!("{it}")));
    /// # }
    /// ```
    pub fn when_skipped(&self, report: impl Fn(&[SkippedKey]) + Send + Sync + 'static) {
        let report: Report = Arc::new(report);
        let mut state = lock(&self.shared.state);
        state.report = Some(Arc::clone(&report));
        let current = state.current.clone();
        drop(state);
        if let Some(fetched) = current {
            fetched.report(&report);
        }
    }

    fn decoded(&self, token: &[u8], validation: &Validation, now: u64, waiters: usize) -> Answer<String> {
        let decode = |set: &Fetched| set.verifier(validation)?.decode_json(token, now);
        let seen = self.fetched();
        match decode(&seen) {
            Err(refusal) if lacks_key(&refusal) => match self.after(&seen, waiters)? {
                Some(later) => decode(&later),
                None => Err(refusal),
            },
            answer => answer,
        }
    }

    /// Returns the text of the set as it is now, with the secrets that it may have.
    #[must_use]
    pub fn current(&self) -> Arc<str> {
        Arc::clone(&self.fetched().text)
    }

    /// Returns the verifier of the set as it is now, and of these conditions.
    pub(crate) fn verifier(&self, validation: &Validation) -> Result<Arc<Verifier>> {
        self.fetched().verifier(validation)
    }

    fn fetched(&self) -> Arc<Fetched> {
        let current = lock(&self.shared.state).current.clone();
        current.expect("a set that was made has been fetched")
    }

    /// Returns why the last fetch gave no usable set, or `None` if it did.
    #[must_use]
    pub fn last_error(&self) -> Option<Error> {
        lock(&self.shared.state).failure.clone()
    }

    /// Returns the set after one that lacks the key of a token, if there is another. If it is time to fetch one, at most `waiters` calls
    /// wait for it. An outage is an error.
    fn after(&self, seen: &Arc<Fetched>, waiters: usize) -> Result<Option<Arc<Fetched>>> {
        let other = |state: &State| state.current.clone().filter(|it| !Arc::ptr_eq(it, seen));
        let mut state = lock(&self.shared.state);
        if other(&state).is_none() && self.shared.ask(&mut state) {
            let begun = state.begun;
            if state.has_room(waiters) {
                state.waiting += 1;
                state = self.shared.wait(state);
                state.waiting -= 1;
            }
            if state.begun == begun {
                return Err(ErrorKind::Fetching.into());
            }
        }
        match (other(&state), &state.failure) {
            (None, Some(why)) => Err(outage(why)),
            (found, _) => Ok(found),
        }
    }
}

impl Drop for KeySet {
    fn drop(&mut self) {
        lock(&self.shared.state).is_closed = true;
        self.shared.changed.notify_all();
    }
}

impl fmt::Debug for KeySet {
    fn fmt(&self, f: &mut fmt::Formatter<'_>) -> fmt::Result {
        f.debug_struct("KeySet").field("rotation", &self.shared.rotation).finish_non_exhaustive()
    }
}

impl Shared {
    /// Asks for a fetch, unless one is under way. Returns whether there is one to wait for.
    fn ask(&self, state: &mut State) -> bool {
        if state.begun.is_none() {
            if state.refetched.map_or(false, |it| it.elapsed() < self.rotation.refetch) {
                return false;
            }
            state.begun = Some(Instant::now());
            self.changed.notify_all();
        }
        state.is_for_kid = true;
        true
    }

    /// Waits for the end of the fetch that is under way, if any, but no longer than until the timeout after its begin.
    fn wait<'a>(&self, state: MutexGuard<'a, State>) -> MutexGuard<'a, State> {
        let begun = state.begun;
        let left = self.rotation.timeout.saturating_sub(begun.map_or(Duration::ZERO, |it| it.elapsed()));
        let waited = self.changed.wait_timeout_while(state, left, |it| it.begun.is_some() && it.begun == begun);
        waited.unwrap_or_else(PoisonError::into_inner).0
    }

    /// Waits until it is time to fetch. Returns whether the set is still used.
    fn wait_for_work(&self) -> bool {
        let state = lock(&self.state);
        let Rotation { refresh, refetch, .. } = self.rotation;
        let pause = if state.failure.is_some() { refresh.min(refetch) } else { refresh };
        let waited = self.changed.wait_timeout_while(state, pause, |it| it.begun.is_none() && !it.is_closed);
        let mut state = waited.unwrap_or_else(PoisonError::into_inner).0;
        state.begun = state.begun.or_else(|| Some(Instant::now()));
        !state.is_closed
    }

    fn end(&self, found: Result<Arc<Fetched>>) {
        let mut state = lock(&self.state);
        let mut reported = None;
        match found {
            Ok(fetched) => {
                let is_new = state.current.as_ref().map_or(true, |it| !Arc::ptr_eq(it, &fetched));
                reported = state.report.clone().filter(|_| is_new).map(|it| (it, Arc::clone(&fetched)));
                state.current = Some(fetched);
                state.failure = None;
            }
            Err(error) => state.failure = Some(error),
        }
        if std::mem::take(&mut state.is_for_kid) {
            state.refetched = Some(Instant::now());
        }
        state.begun = None;
        let told = std::mem::take(&mut state.told);
        self.changed.notify_all();
        drop(state);
        for then in told {
            // a panic of one is no reason to fetch no more
            drop(catch_unwind(AssertUnwindSafe(then)));
        }
        if let Some((report, fetched)) = reported {
            fetched.report(&report);
        }
    }
}

/// Fetches the set when it is time to, until it is dropped.
fn keep<R: Read, E: Into<Boxed>>(shared: &Shared, mut fetch: impl FnMut() -> std::result::Result<R, E>) {
    while shared.wait_for_work() {
        let found = catch_unwind(AssertUnwindSafe(|| text_of(&mut fetch)));
        let text = found.unwrap_or_else(|_| Err(failed("the closure panicked")));
        // it is freed after the end, without the lock
        let before = lock(&shared.state).current.clone();
        shared.end(text.and_then(|it| usable(&it, before.as_ref())));
    }
}

fn text_of<R: Read, E: Into<Boxed>>(fetch: &mut impl FnMut() -> std::result::Result<R, E>) -> Result<String> {
    let mut text = Vec::new();
    let reader = fetch().map_err(failed)?;
    reader.take(LARGEST + 1).read_to_end(&mut text).map_err(failed)?;
    if text.len() as u64 > LARGEST {
        return Err(failed(format!("it has more than {LARGEST} bytes")));
    }
    String::from_utf8(text).map_err(failed)
}

fn failed(why: impl Into<Boxed>) -> Error {
    ErrorKind::Fetch(Cause::new(why)).into()
}

/// Returns the error of a token whose key can't be looked for.
fn outage(why: &Error) -> Error {
    match why.kind() {
        ErrorKind::Fetch(_) => why.clone(),
        _ => failed(why.clone()),
    }
}

/// Returns a set, if one of its keys with a `kid` verifies tokens. That is the set before, with its verifiers, if the text is the same.
fn usable(text: &str, before: Option<&Arc<Fetched>>) -> Result<Arc<Fetched>> {
    if let Some(same) = before.filter(|it| *it.text == *text) {
        return Ok(Arc::clone(same));
    }
    let keys = Keys::new(Source::Set, text.as_bytes()).map_err(Error::from_set_status)?;
    if !keys.are_usable() {
        return Err(Error::no_usable_key(keys.skipped()));
    }
    let found = Fetched { text: Arc::from(text), keys, verifiers: Mutex::default() };
    if let Some(before) = before {
        found.prepare(before);
    }
    Ok(Arc::new(found))
}

/// Returns whether a token is refused since the set has no key for it, and a later one may have it.
fn lacks_key(refusal: &Refusal) -> bool {
    match refusal.error.kind() {
        ErrorKind::NoKey => refusal.has_kid,
        // without a test, it is the verifier that could not be made
        ErrorKind::UnusableKey(_) => refusal.test == 0,
        _ => false,
    }
}
