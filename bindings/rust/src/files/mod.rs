//! Page files of the system: a device that is ready, and what an engine's own log adds to it.
mod device;
mod error;
mod lock;
mod options;
mod pages;
mod slots;
mod sum;

pub use device::{Device, Log, NoLog, WithLog};
pub use error::OpenError;
pub use options::FileOptions;
pub use pages::FilePages;
pub use slots::Layout;
