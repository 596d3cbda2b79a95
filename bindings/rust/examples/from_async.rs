//! Tasks of an async runtime that share a pager: what may wait is done by threads that may.
//!
//! There is no runtime here, so that the example wants no other crate: `block_on` runs a task, and `unblock`
//! is what `spawn_blocking` of tokio is, or `unblock` of smol.
use hojzmated::{OwnedPin, Pager, PagerConfig, PagerError};
use std::error::Error;
use std::future::{Future, poll_fn};
use std::pin::pin;
use std::sync::{Arc, Mutex, PoisonError};
use std::task::{Context, Poll, Wake, Waker};
use std::thread::{self, Thread};
use zeros::Zeros;

#[path = "bench/zeros.rs"]
mod zeros;

type Shared = Arc<Pager<Zeros>>;

/// The first byte of a page.
async fn first_byte(pager: &Shared, number: u64) -> Result<u8, PagerError> {
    if let Some(page) = pager.read_resident(number) {
        return Ok(page[0]); // it was in a frame, and nothing waited
    }
    let pager = pager.clone();
    unblock(move || Ok(pager.read(number)?[0])).await // a thread reads it, and looks at it
}

/// Adds to the first byte of a page, and tells what it is then.
async fn add(pager: &Shared, number: u64, more: u8) -> Result<u8, PagerError> {
    let pager = pager.clone();
    unblock(move || {
        let mut page = pager.write(number)?; // the latch is taken and let go here
        let sum = page[0] + more;
        page.put(0, &[sum], 0)?;
        Ok(sum)
    })
    .await
}

/// Has a page stay in its frame, as long as what this gives is there.
async fn keep(pager: &Shared, number: u64) -> Result<OwnedPin<Zeros>, PagerError> {
    let pager = pager.clone();
    unblock(move || pager.pin_owned(number)).await
}

async fn work(pager: &Shared) -> Result<(), PagerError> {
    let root = keep(pager, 1).await?; // it goes from a thread to this task
    let before = first_byte(pager, 1).await?;
    let after = add(pager, 1, 5).await?; // the pin is kept over this
    let now = root.try_read().map(|page| page[0]); // None where another task has the page alone
    println!("page {}: {before}, then {after}, now {now:?}", root.page());
    println!("page 2: {}", first_byte(pager, 2).await?);
    Ok(())
}

/// Does work in a thread of its own, as `spawn_blocking` does. Who waits for that holds up no thread.
async fn unblock<T: Send + 'static>(work: impl FnOnce() -> T + Send + 'static) -> T {
    let shared = Arc::new(Mutex::new((None, None::<Waker>)));
    let told = shared.clone();
    thread::spawn(move || {
        let result = work();
        let mut told = told.lock().unwrap_or_else(PoisonError::into_inner);
        told.0 = Some(result);
        told.1.take().map(Waker::wake)
    });
    poll_fn(move |context| {
        let mut shared = shared.lock().unwrap_or_else(PoisonError::into_inner);
        let Some(result) = shared.0.take() else {
            shared.1 = Some(context.waker().clone());
            return Poll::Pending;
        };
        Poll::Ready(result)
    })
    .await
}

/// Runs a task to its end.
fn block_on<T>(task: impl Future<Output = T>) -> T {
    struct Unpark(Thread);
    impl Wake for Unpark {
        fn wake(self: Arc<Self>) {
            self.0.unpark();
        }
    }
    let waker = Waker::from(Arc::new(Unpark(thread::current())));
    let mut task = pin!(task);
    loop {
        match task.as_mut().poll(&mut Context::from_waker(&waker)) {
            Poll::Ready(told) => return told,
            Poll::Pending => thread::park(),
        }
    }
}

/// That a task may go from thread to thread, as between those of a runtime.
fn sent<T: Send>(task: T) -> T {
    task
}

fn main() -> Result<(), Box<dyn Error>> {
    let pager = Arc::new(Pager::new(&PagerConfig::new(100, 4096, 8), Zeros)?);
    block_on(sent(work(&pager)))?;
    let pager = Arc::into_inner(pager).ok_or("a task has the pager still")?;
    pager.close()?;
    Ok(())
}
