//! What is told of what goes on in a pager: functions of the engine.
use crate::abi::*;
use crate::device::told;
use crate::fault::Refusal;
use hojzmated::{Error, Observer, PagerError, Wait};
use std::ops::Range;
use std::ptr::NonNull;
use std::time::Duration;

/// A copy of the engine's table. What is null there is not called.
struct Functions(hz_observer);

// SAFETY: the header says that several threads may be in the functions at once. The pointer is the
// engine's: it is only passed on.
unsafe impl Send for Functions {}
// SAFETY: as above.
unsafe impl Sync for Functions {}

/// Memory with such a copy, which is given back as this is dropped.
pub struct Own(NonNull<[Functions]>);

// SAFETY: it owns what may be sent and shared.
unsafe impl Send for Own {}
// SAFETY: as above.
unsafe impl Sync for Own {}

impl Own {
    pub fn new(table: hz_observer) -> Result<Own, Refusal> {
        let mut place = Vec::new();
        let room = place.try_reserve_exact(1);
        room.map_err(|_| Error::OutOfMemory)?;
        place.push(Functions(table));
        Ok(Own(NonNull::from(Box::leak(place.into_boxed_slice()))))
    }

    /// # Safety
    /// It is not used once this is dropped.
    pub unsafe fn lent(&self) -> &'static dyn Observer {
        // SAFETY: there is one, until this is dropped.
        unsafe { &*self.0.as_ptr().cast::<Functions>() }
    }
}

impl Drop for Own {
    fn drop(&mut self) {
        // SAFETY: it is the memory of `new`, and nobody has it any more.
        drop(unsafe { Box::from_raw(self.0.as_ptr()) });
    }
}

fn nanoseconds(time: Duration) -> u64 {
    u64::try_from(time.as_nanos()).unwrap_or(u64::MAX)
}

/// What was waited for, and the page or the LSN.
fn number_of(wait: Wait) -> (i32, u64) {
    match wait {
        Wait::Page(page) => (HZ_WAIT_PAGE, page),
        Wait::Latch(page) => (HZ_WAIT_LATCH, page),
        Wait::Frame(page) => (HZ_WAIT_FRAME, page),
        Wait::Pins(page) => (HZ_WAIT_PINS, page),
        Wait::Log(lsn) => (HZ_WAIT_LOG, lsn),
        Wait::Sync => (HZ_WAIT_SYNC, 0),
        _ => (0, 0),
    }
}

impl Observer for Functions {
    fn read(&self, pages: Range<u64>, time: Duration) {
        let (first, count) = (pages.start, pages.end - pages.start);
        if let Some(read) = self.0.read {
            // SAFETY: as the header says, here and below.
            told(|| unsafe { read(self.0.own, first, count, nanoseconds(time)) });
        }
    }

    fn write_out(&self, pages: Range<u64>, time: Duration) {
        let (first, count) = (pages.start, pages.end - pages.start);
        if let Some(write_out) = self.0.write_out {
            // SAFETY: as above.
            told(|| unsafe { write_out(self.0.own, first, count, nanoseconds(time)) });
        }
    }

    fn log(&self, lsn: u64, time: Duration) {
        if let Some(log) = self.0.log {
            // SAFETY: as above.
            told(|| unsafe { log(self.0.own, lsn, nanoseconds(time)) });
        }
    }

    fn sync(&self, time: Duration) {
        if let Some(sync) = self.0.sync {
            // SAFETY: as above.
            told(|| unsafe { sync(self.0.own, nanoseconds(time)) });
        }
    }

    fn evict(&self, page: u64) {
        if let Some(evict) = self.0.evict {
            // SAFETY: as above.
            told(|| unsafe { evict(self.0.own, page) });
        }
    }

    fn wait(&self, wait: Wait, time: Duration) {
        let (what, of) = number_of(wait);
        if let Some(wait) = self.0.wait {
            // SAFETY: as above.
            told(|| unsafe { wait(self.0.own, what, of, nanoseconds(time)) });
        }
    }

    fn fault(&self, fault: &PagerError, time: Duration) {
        if let Some(tell) = self.0.fault {
            let fault = hz_pager_fault::from(fault);
            // SAFETY: as above. The fault is there as long as the call.
            told(|| unsafe { tell(self.0.own, &fault, nanoseconds(time)) });
        }
    }
}
