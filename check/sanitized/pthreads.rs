//! `Mutex`, `Condvar` and `RwLock` of `std::sync`, over those of the C library, for `check/sanitize`.
//!
//! The thread sanitizer sees the calls of the C library. It does not see how a lock of std sleeps and wakes, in
//! code that was compiled without it, and would take what that lock guards for unguarded. Nothing here is ever
//! poisoned. No lock is moved while a thread has it.
use std::cell::UnsafeCell;
use std::ffi::c_int;
use std::fmt;
use std::marker::PhantomData;
use std::ops::{Deref, DerefMut};
use std::panic::Location;
use std::ptr::NonNull;
use std::sync::atomic::{AtomicU64, Ordering};
use std::sync::{LockResult, TryLockError, TryLockResult};
use std::time::{Duration, SystemTime, UNIX_EPOCH};

/// Room for any of these locks of glibc, whose static initialisers are zeros.
#[derive(Default)]
#[repr(C, align(16))]
struct Raw(UnsafeCell<[u64; 8]>);

impl Raw {
    const fn new() -> Raw {
        Raw(UnsafeCell::new([0; 8]))
    }

    fn get(&self) -> *mut Raw {
        self.0.get().cast()
    }
}

// SAFETY: threads call the C library with its address, which is made for that.
unsafe impl Send for Raw {}
// SAFETY: the same.
unsafe impl Sync for Raw {}

#[repr(C)]
struct Timespec {
    seconds: i64,
    nanoseconds: i64,
}

#[rustfmt::skip]
unsafe extern "C" {
    fn pthread_mutex_lock(mutex: *mut Raw) -> c_int;
    fn pthread_mutex_trylock(mutex: *mut Raw) -> c_int;
    fn pthread_mutex_unlock(mutex: *mut Raw) -> c_int;
    fn pthread_mutex_destroy(mutex: *mut Raw) -> c_int;
    fn pthread_cond_wait(condition: *mut Raw, mutex: *mut Raw) -> c_int;
    fn pthread_cond_timedwait(condition: *mut Raw, mutex: *mut Raw, end: *const Timespec) -> c_int;
    fn pthread_cond_signal(condition: *mut Raw) -> c_int;
    fn pthread_cond_broadcast(condition: *mut Raw) -> c_int;
    fn pthread_cond_destroy(condition: *mut Raw) -> c_int;
    fn pthread_rwlock_rdlock(lock: *mut Raw) -> c_int;
    fn pthread_rwlock_wrlock(lock: *mut Raw) -> c_int;
    fn pthread_rwlock_unlock(lock: *mut Raw) -> c_int;
    fn pthread_rwlock_destroy(lock: *mut Raw) -> c_int;
}

const EBUSY: c_int = 16;
const ETIMEDOUT: c_int = 110;
/// No wait is longer.
const LONGEST: Duration = Duration::from_secs(1 << 30);

#[track_caller]
fn done(status: c_int) {
    assert_eq!(status, 0, "a call of the C library");
}

/// How often threads waited for a latch of a page.
pub static LATCH_WAITS: AtomicU64 = AtomicU64::new(0);

#[derive(Default)]
pub struct Mutex<T> {
    raw: Raw,
    value: UnsafeCell<T>,
}

// SAFETY: one thread at a time has the value.
unsafe impl<T: Send> Send for Mutex<T> {}
// SAFETY: the same.
unsafe impl<T: Send> Sync for Mutex<T> {}

#[must_use = "the mutex is unlocked when this is dropped"]
pub struct MutexGuard<'a, T>(&'a Mutex<T>, PhantomData<NonNull<T>>);

// SAFETY: it lends what the mutex has.
unsafe impl<T: Sync> Sync for MutexGuard<'_, T> {}

impl<T> Mutex<T> {
    pub const fn new(value: T) -> Mutex<T> {
        Mutex {
            raw: Raw::new(),
            value: UnsafeCell::new(value),
        }
    }

    pub fn lock(&self) -> LockResult<MutexGuard<'_, T>> {
        // SAFETY: it is a mutex.
        done(unsafe { pthread_mutex_lock(self.raw.get()) });
        Ok(MutexGuard(self, PhantomData))
    }

    pub fn try_lock(&self) -> TryLockResult<MutexGuard<'_, T>> {
        // SAFETY: it is a mutex.
        match unsafe { pthread_mutex_trylock(self.raw.get()) } {
            EBUSY => Err(TryLockError::WouldBlock),
            status => {
                done(status);
                Ok(MutexGuard(self, PhantomData))
            }
        }
    }
}

impl<T> Drop for Mutex<T> {
    fn drop(&mut self) {
        // SAFETY: it is a mutex that no thread has.
        done(unsafe { pthread_mutex_destroy(self.raw.get()) });
    }
}

impl<T> fmt::Debug for Mutex<T> {
    fn fmt(&self, f: &mut fmt::Formatter<'_>) -> fmt::Result {
        f.debug_struct("Mutex").finish_non_exhaustive()
    }
}

impl<T> Drop for MutexGuard<'_, T> {
    fn drop(&mut self) {
        // SAFETY: this thread has the mutex.
        done(unsafe { pthread_mutex_unlock(self.0.raw.get()) });
    }
}

impl<T> Deref for MutexGuard<'_, T> {
    type Target = T;

    fn deref(&self) -> &T {
        // SAFETY: this thread has the mutex.
        unsafe { &*self.0.value.get() }
    }
}

impl<T> DerefMut for MutexGuard<'_, T> {
    fn deref_mut(&mut self) -> &mut T {
        // SAFETY: this thread has the mutex.
        unsafe { &mut *self.0.value.get() }
    }
}

/// Whether a wait ended by its time.
#[derive(Clone, Copy, Debug)]
pub struct WaitTimeoutResult(bool);

impl WaitTimeoutResult {
    pub fn timed_out(&self) -> bool {
        self.0
    }
}

#[derive(Default)]
pub struct Condvar(Raw);

type Waited<'a, T> = LockResult<(MutexGuard<'a, T>, WaitTimeoutResult)>;

impl Condvar {
    pub const fn new() -> Condvar {
        Condvar(Raw::new())
    }

    #[track_caller]
    pub fn wait<'a, T>(&self, guard: MutexGuard<'a, T>) -> LockResult<MutexGuard<'a, T>> {
        if Location::caller().file().ends_with("latch.rs") {
            LATCH_WAITS.fetch_add(1, Ordering::Relaxed);
        }
        // SAFETY: it is a condition, and this thread has the mutex.
        done(unsafe { pthread_cond_wait(self.0.get(), guard.0.raw.get()) });
        Ok(guard)
    }

    pub fn wait_timeout<'a, T>(&self, guard: MutexGuard<'a, T>, most: Duration) -> Waited<'a, T> {
        let now = SystemTime::now().duration_since(UNIX_EPOCH);
        let end = now.expect("a time after 1970") + most.min(LONGEST);
        let end = Timespec {
            seconds: end.as_secs() as i64,
            nanoseconds: end.subsec_nanos().into(),
        };
        // SAFETY: it is a condition, and this thread has the mutex.
        match unsafe { pthread_cond_timedwait(self.0.get(), guard.0.raw.get(), &end) } {
            ETIMEDOUT => Ok((guard, WaitTimeoutResult(true))),
            status => {
                done(status);
                Ok((guard, WaitTimeoutResult(false)))
            }
        }
    }

    pub fn wait_timeout_while<'a, T>(
        &self,
        mut guard: MutexGuard<'a, T>,
        most: Duration,
        mut waits: impl FnMut(&mut T) -> bool,
    ) -> Waited<'a, T> {
        while waits(&mut guard) {
            let (locked, end) = self.wait_timeout(guard, most)?;
            guard = locked;
            if end.timed_out() {
                return Ok((guard, end));
            }
        }
        Ok((guard, WaitTimeoutResult(false)))
    }

    pub fn notify_one(&self) {
        // SAFETY: it is a condition.
        done(unsafe { pthread_cond_signal(self.0.get()) });
    }

    pub fn notify_all(&self) {
        // SAFETY: it is a condition.
        done(unsafe { pthread_cond_broadcast(self.0.get()) });
    }
}

impl Drop for Condvar {
    fn drop(&mut self) {
        // SAFETY: it is a condition for which no thread waits.
        done(unsafe { pthread_cond_destroy(self.0.get()) });
    }
}

impl fmt::Debug for Condvar {
    fn fmt(&self, f: &mut fmt::Formatter<'_>) -> fmt::Result {
        f.debug_struct("Condvar").finish_non_exhaustive()
    }
}

/// Guards no value: no stress program has one in it.
#[derive(Default)]
pub struct RwLock<T> {
    raw: Raw,
    kind: PhantomData<T>,
}

#[must_use = "the lock is free when this is dropped"]
pub struct RwLockGuard<'a>(&'a Raw, PhantomData<NonNull<()>>);

impl RwLock<()> {
    pub fn read(&self) -> LockResult<RwLockGuard<'_>> {
        // SAFETY: it is such a lock.
        done(unsafe { pthread_rwlock_rdlock(self.raw.get()) });
        Ok(RwLockGuard(&self.raw, PhantomData))
    }

    pub fn write(&self) -> LockResult<RwLockGuard<'_>> {
        // SAFETY: it is such a lock.
        done(unsafe { pthread_rwlock_wrlock(self.raw.get()) });
        Ok(RwLockGuard(&self.raw, PhantomData))
    }
}

impl<T> Drop for RwLock<T> {
    fn drop(&mut self) {
        // SAFETY: it is such a lock, which no thread has.
        done(unsafe { pthread_rwlock_destroy(self.raw.get()) });
    }
}

impl Drop for RwLockGuard<'_> {
    fn drop(&mut self) {
        // SAFETY: this thread has the lock.
        done(unsafe { pthread_rwlock_unlock(self.0.get()) });
    }
}
