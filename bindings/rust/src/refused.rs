//! Programs that the compiler has to refuse. Nobody sees this but `cargo test --doc`. Each is the
//! first one here with some lines added, and nightly compilers compare its error too.
//!
//! ```
//! # use hojzmated::core::{Config, Fixed, Pool};
//! # fn main() -> hojzmated::Result<()> {
//! let pool = Pool::new(&Config::new(8, 16, 2))?;
//! let Fixed::Load { ticket, .. } = pool.fix(0, 3, &mut [0; 16])? else { return Ok(()) };
//! let page = pool.end_read(ticket, &[7; 16])?;
//! let bytes = page.bytes()?;
//! assert_eq!(bytes[0], 7);
//! # Ok(())
//! # }
//! ```
//!
//! The guard goes while its page is lent:
//!
//! ```compile_fail,E0505
//! # use hojzmated::core::{Config, Fixed, Pool};
//! # fn main() -> hojzmated::Result<()> {
//! # let pool = Pool::new(&Config::new(8, 16, 2))?;
//! # let Fixed::Load { ticket, .. } = pool.fix(0, 3, &mut [0; 16])? else { return Ok(()) };
//! # let page = pool.end_read(ticket, &[7; 16])?;
//! let bytes = page.bytes()?;
//! drop(page);
//! assert_eq!(bytes[0], 7);
//! # Ok(())
//! # }
//! ```
//!
//! It becomes a pass:
//!
//! ```compile_fail,E0505
//! # use hojzmated::core::{Config, Fixed, Pool};
//! # fn main() -> hojzmated::Result<()> {
//! # let pool = Pool::new(&Config::new(8, 16, 2))?;
//! # let Fixed::Load { ticket, .. } = pool.fix(0, 3, &mut [0; 16])? else { return Ok(()) };
//! # let page = pool.end_read(ticket, &[7; 16])?;
//! let bytes = page.bytes()?;
//! let pass = page.into_pass();
//! assert_eq!(bytes[0], 7);
//! # Ok(())
//! # }
//! ```
//!
//! It ends before what it lent, which goes out of the block:
//!
//! ```compile_fail,E0597
//! # use hojzmated::core::{Config, Fixed, Pool};
//! # fn main() -> hojzmated::Result<()> {
//! # let pool = Pool::new(&Config::new(8, 16, 2))?;
//! # let Fixed::Load { ticket, .. } = pool.fix(0, 3, &mut [0; 16])? else { return Ok(()) };
//! # let page = pool.end_read(ticket, &[7; 16])?;
//! let mut _bytes = None;
//! {
//!     let inner = pool.guard(page.into_pass());
//!     _bytes = Some(inner.bytes()?);
//! }
//! # Ok(())
//! # }
//! ```
//!
//! A function gives what it lent, without the guard:
//!
//! ```compile_fail,E0515
//! # use hojzmated::core::{Config, Fixed, Pool};
//! # fn main() -> hojzmated::Result<()> {
//! # let pool = Pool::new(&Config::new(8, 16, 2))?;
//! # let Fixed::Load { ticket, .. } = pool.fix(0, 3, &mut [0; 16])? else { return Ok(()) };
//! # let page = pool.end_read(ticket, &[7; 16])?;
//! fn bytes_of(page: hojzmated::core::PageGuard<'_>) -> hojzmated::core::PageBytes<'_> {
//!     page.bytes().unwrap()
//! }
//! # Ok(())
//! # }
//! ```
//!
//! The slice is used when the look is over:
//!
//! ```compile_fail,E0505
//! # use hojzmated::core::{Config, Fixed, Pool};
//! # fn main() -> hojzmated::Result<()> {
//! # let pool = Pool::new(&Config::new(8, 16, 2))?;
//! # let Fixed::Load { ticket, .. } = pool.fix(0, 3, &mut [0; 16])? else { return Ok(()) };
//! # let page = pool.end_read(ticket, &[7; 16])?;
//! let bytes = page.bytes()?;
//! let slice = &bytes[..];
//! drop(bytes);
//! assert_eq!(slice[0], 7);
//! # Ok(())
//! # }
//! ```
//!
//! The same, with no name for the look:
//!
//! ```compile_fail,E0716
//! # use hojzmated::core::{Config, Fixed, Pool};
//! # fn main() -> hojzmated::Result<()> {
//! # let pool = Pool::new(&Config::new(8, 16, 2))?;
//! # let Fixed::Load { ticket, .. } = pool.fix(0, 3, &mut [0; 16])? else { return Ok(()) };
//! # let page = pool.end_read(ticket, &[7; 16])?;
//! let slice: &[u8] = page.bytes()?.as_ref();
//! assert_eq!(slice[0], 7);
//! # Ok(())
//! # }
//! ```
//!
//! What is lent is written to:
//!
//! ```compile_fail,E0594
//! # use hojzmated::core::{Config, Fixed, Pool};
//! # fn main() -> hojzmated::Result<()> {
//! # let pool = Pool::new(&Config::new(8, 16, 2))?;
//! # let Fixed::Load { ticket, .. } = pool.fix(0, 3, &mut [0; 16])? else { return Ok(()) };
//! # let page = pool.end_read(ticket, &[7; 16])?;
//! let mut bytes = page.bytes()?;
//! bytes[0] = 8;
//! # Ok(())
//! # }
//! ```
//!
//! The pool goes:
//!
//! ```compile_fail,E0505
//! # use hojzmated::core::{Config, Fixed, Pool};
//! # fn main() -> hojzmated::Result<()> {
//! # let pool = Pool::new(&Config::new(8, 16, 2))?;
//! # let Fixed::Load { ticket, .. } = pool.fix(0, 3, &mut [0; 16])? else { return Ok(()) };
//! # let page = pool.end_read(ticket, &[7; 16])?;
//! let pass = page.into_pass();
//! let bytes = pool.bytes(&pass)?;
//! drop(pool);
//! assert_eq!(bytes[0], 7);
//! # Ok(())
//! # }
//! ```
//!
//! It moves to another thread:
//!
//! ```compile_fail,E0505
//! # use hojzmated::core::{Config, Fixed, Pool};
//! # fn main() -> hojzmated::Result<()> {
//! # let pool = Pool::new(&Config::new(8, 16, 2))?;
//! # let Fixed::Load { ticket, .. } = pool.fix(0, 3, &mut [0; 16])? else { return Ok(()) };
//! # let page = pool.end_read(ticket, &[7; 16])?;
//! let pass = page.into_pass();
//! let bytes = pool.bytes(&pass)?;
//! std::thread::spawn(move || pool.totals());
//! assert_eq!(bytes[0], 7);
//! # Ok(())
//! # }
//! ```
//!
//! The mutex opens:
//!
//! ```compile_fail,E0505
//! # use hojzmated::core::{Config, Fixed, Pool};
//! # fn main() -> hojzmated::Result<()> {
//! # let pool = Pool::new(&Config::new(8, 16, 2))?;
//! # let Fixed::Load { ticket, .. } = pool.fix(0, 3, &mut [0; 16])? else { return Ok(()) };
//! # let page = pool.end_read(ticket, &[7; 16])?;
//! let pass = page.into_pass();
//! let mutex = std::sync::Mutex::new(pool);
//! let pool = mutex.lock().unwrap();
//! let bytes = pool.bytes(&pass)?;
//! drop(pool);
//! assert_eq!(bytes[0], 7);
//! # Ok(())
//! # }
//! ```
//!
//! A pass is given back while its page is lent:
//!
//! ```compile_fail,E0505
//! # use hojzmated::core::{Config, Fixed, Pool};
//! # fn main() -> hojzmated::Result<()> {
//! # let pool = Pool::new(&Config::new(8, 16, 2))?;
//! # let Fixed::Load { ticket, .. } = pool.fix(0, 3, &mut [0; 16])? else { return Ok(()) };
//! # let mut pass = pool.end_read(ticket, &[7; 16])?.into_pass();
//! let bytes = pool.bytes(&pass)?;
//! pool.unfix(pass)?;
//! assert_eq!(bytes[0], 7);
//! # Ok(())
//! # }
//! ```
//!
//! It goes into a guard:
//!
//! ```compile_fail,E0505
//! # use hojzmated::core::{Config, Fixed, Pool};
//! # fn main() -> hojzmated::Result<()> {
//! # let pool = Pool::new(&Config::new(8, 16, 2))?;
//! # let Fixed::Load { ticket, .. } = pool.fix(0, 3, &mut [0; 16])? else { return Ok(()) };
//! # let mut pass = pool.end_read(ticket, &[7; 16])?.into_pass();
//! let bytes = pool.bytes(&pass)?;
//! let page = pool.guard(pass);
//! assert_eq!(bytes[0], 7);
//! # Ok(())
//! # }
//! ```
//!
//! It makes way for another pass:
//!
//! ```compile_fail,E0506
//! # use hojzmated::core::{Config, Fixed, Pool};
//! # fn main() -> hojzmated::Result<()> {
//! # let pool = Pool::new(&Config::new(8, 16, 2))?;
//! # let Fixed::Load { ticket, .. } = pool.fix(0, 3, &mut [0; 16])? else { return Ok(()) };
//! # let mut pass = pool.end_read(ticket, &[7; 16])?.into_pass();
//! let other = pool.fix(0, 3, &mut [0; 16])?;
//! let Fixed::Hit(other) = other else { return Ok(()) };
//! let bytes = pool.bytes(&pass)?;
//! pass = other.into_pass();
//! assert_eq!(bytes[0], 7);
//! # Ok(())
//! # }
//! ```
//!
//! A pass is used twice:
//!
//! ```compile_fail,E0382
//! # use hojzmated::core::{Config, Fixed, Pool};
//! # fn main() -> hojzmated::Result<()> {
//! # let pool = Pool::new(&Config::new(8, 16, 2))?;
//! # let Fixed::Load { ticket, .. } = pool.fix(0, 3, &mut [0; 16])? else { return Ok(()) };
//! # let mut pass = pool.end_read(ticket, &[7; 16])?.into_pass();
//! pool.unfix(pass)?;
//! pool.bytes(&pass)?;
//! # Ok(())
//! # }
//! ```
//!
//! The look goes to another thread, or is used by one, which would count it there:
//!
//! ```compile_fail,E0277
//! # use hojzmated::core::{Config, Fixed, Pool};
//! # fn main() -> hojzmated::Result<()> {
//! # let pool = Pool::new(&Config::new(8, 16, 2))?;
//! # let Fixed::Load { ticket, .. } = pool.fix(0, 3, &mut [0; 16])? else { return Ok(()) };
//! # let page = pool.end_read(ticket, &[7; 16])?;
//! fn is_send<T: Send>() {}
//! is_send::<hojzmated::core::PageBytes<'static>>();
//! # Ok(())
//! # }
//! ```
//!
//! ```compile_fail,E0277
//! # use hojzmated::core::{Config, Fixed, Pool};
//! # fn main() -> hojzmated::Result<()> {
//! # let pool = Pool::new(&Config::new(8, 16, 2))?;
//! # let Fixed::Load { ticket, .. } = pool.fix(0, 3, &mut [0; 16])? else { return Ok(()) };
//! # let page = pool.end_read(ticket, &[7; 16])?;
//! fn is_sync<T: Sync>() {}
//! is_sync::<hojzmated::core::PageBytes<'static>>();
//! # Ok(())
//! # }
//! ```
//!
//! # Guards of a pager
//!
//! ```
//! # use hojzmated::{PageIo, PagerError, PagerConfig, Pager};
//! # fn work<F: PageIo>(io: F) -> Result<(), PagerError> {
//! let pager = Pager::new(&PagerConfig::new(8, 16, 2), io)?;
//! let pin = pager.pin(3)?;
//! let mut page = pin.write();
//! page.put(0, &[1], 1)?;
//! assert_eq!(page.bytes()[0], 1);
//! # Ok(())
//! # }
//! ```
//!
//! The pin goes while its page is under a latch:
//!
//! ```compile_fail,E0505
//! # use hojzmated::{PageIo, PagerError, PagerConfig, Pager};
//! # fn work<F: PageIo>(io: F) -> Result<(), PagerError> {
//! # let pager = Pager::new(&PagerConfig::new(8, 16, 2), io)?;
//! let pin = pager.pin(3)?;
//! let page = pin.read();
//! drop(pin);
//! assert_eq!(page[0], 1);
//! # Ok(())
//! # }
//! ```
//!
//! The latch goes while somebody looks:
//!
//! ```compile_fail,E0505
//! # use hojzmated::{PageIo, PagerError, PagerConfig, Pager};
//! # fn work<F: PageIo>(io: F) -> Result<(), PagerError> {
//! # let pager = Pager::new(&PagerConfig::new(8, 16, 2), io)?;
//! let page = pager.read(3)?;
//! let bytes = &page[..4];
//! drop(page);
//! assert_eq!(bytes[0], 1);
//! # Ok(())
//! # }
//! ```
//!
//! A write comes while somebody looks:
//!
//! ```compile_fail,E0502
//! # use hojzmated::{PageIo, PagerError, PagerConfig, Pager};
//! # fn work<F: PageIo>(io: F) -> Result<(), PagerError> {
//! # let pager = Pager::new(&PagerConfig::new(8, 16, 2), io)?;
//! let mut page = pager.write(3)?;
//! let bytes = page.bytes();
//! page.put(0, &[1], 1)?;
//! assert_eq!(bytes[0], 1);
//! # Ok(())
//! # }
//! ```
//!
//! The bytes that are put are those of the page itself:
//!
//! ```compile_fail,E0502
//! # use hojzmated::{PageIo, PagerError, PagerConfig, Pager};
//! # fn work<F: PageIo>(io: F) -> Result<(), PagerError> {
//! # let pager = Pager::new(&PagerConfig::new(8, 16, 2), io)?;
//! let mut page = pager.write(3)?;
//! page.put(0, &page.bytes()[8..], 1)?;
//! # Ok(())
//! # }
//! ```
//!
//! The pager goes while a page is pinned:
//!
//! ```compile_fail,E0505
//! # use hojzmated::{PageIo, PagerError, PagerConfig, Pager};
//! # fn work<F: PageIo>(io: F) -> Result<(), PagerError> {
//! # let pager = Pager::new(&PagerConfig::new(8, 16, 2), io)?;
//! let page = pager.read(3)?;
//! drop(pager);
//! assert_eq!(page[0], 1);
//! # Ok(())
//! # }
//! ```
//!
//! A guard goes to another thread, where it would let go the latch:
//!
//! ```compile_fail,E0277
//! fn is_send<T: Send>() {}
//! is_send::<hojzmated::PageRef<'static>>();
//! ```
//!
//! ```compile_fail,E0277
//! fn is_send<T: Send>() {}
//! is_send::<hojzmated::PageMut<'static>>();
//! ```
//!
//! ```compile_fail,E0277
//! fn is_send<T: Send>() {}
//! is_send::<hojzmated::OwnedRef<()>>();
//! ```
//!
//! ```compile_fail,E0277
//! fn is_send<T: Send>() {}
//! is_send::<hojzmated::OwnedMut<()>>();
//! ```
//!
//! A pin may, and all threads may look by one guard:
//!
//! ```
//! fn is_send<T: Send>() {}
//! fn is_sync<T: Sync>() {}
//! is_send::<hojzmated::PagePin<'static>>();
//! is_send::<hojzmated::OwnedPin<()>>();
//! is_sync::<hojzmated::PageRef<'static>>();
//! is_send::<hojzmated::Pager<()>>();
//! is_sync::<hojzmated::Pager<()>>();
//! ```
