//! Which functions of the engine a thread is in: a call of the pager from there must not wait for
//! what that function is to do.
use std::cell::Cell;
use std::ptr;

/// What a pager has the engine do.
#[derive(Clone, Copy, PartialEq, Eq)]
pub(super) enum Work {
    /// Read so many pages side by side, from this one on.
    Read(u64, u64),
    /// Write them out.
    Write(u64, u64),
    /// Make the log durable up to this LSN.
    Log(u64),
    Sync,
    /// Be told what goes on.
    Tell,
}

impl Work {
    /// Whether it is to read this page, or to write it out.
    pub(super) fn has_page(self, page: u64) -> bool {
        match self {
            Work::Read(first, count) | Work::Write(first, count) => {
                page >= first && page - first < count
            }
            Work::Log(_) | Work::Sync | Work::Tell => false,
        }
    }
}

/// A function of the engine that is under way, on the stack of the thread that called it.
struct Within {
    pager: u64,
    work: Work,
    outer: *const Within,
}

thread_local! {
    static INNERMOST: Cell<*const Within> = const { Cell::new(ptr::null()) };
}

/// On its drop the function has ended, also by a panic.
struct Ends(*const Within);

impl Drop for Ends {
    fn drop(&mut self) {
        INNERMOST.set(self.0);
    }
}

/// Calls a function of the engine for a pager with this number.
pub(super) fn call<T>(pager: u64, work: Work, function: impl FnOnce() -> T) -> T {
    let outer = INNERMOST.get();
    let within = Within { pager, work, outer };
    INNERMOST.set(&raw const within);
    let _ends = Ends(outer);
    function()
}

/// Whether this thread is in a function of the engine that a pager called for such work.
pub(super) fn is_within(pager: u64, is_meant: impl Fn(Work) -> bool) -> bool {
    let mut at = INNERMOST.get();
    // SAFETY: each is in a call of `call` on this thread's stack, which has not ended: at its end the
    // list begins with the next one.
    while let Some(within) = unsafe { at.as_ref() } {
        if within.pager == pager && is_meant(within.work) {
            return true;
        }
        at = within.outer;
    }
    false
}
