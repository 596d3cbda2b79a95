//! Structs of C whose sizes the caller tells, as those of later versions are longer. What the caller's has
//! not is zeros here, and what this library's has not has to be zeros there.
use crate::abi::{HZ_BAD_SETTINGS, HZ_NULL, hz_io, hz_observer, hz_pager_config};
use crate::fault::{Refusal, refusal};
use std::mem::MaybeUninit;
use std::ptr;

// SAFETY: see there; a function that is null is None.
unsafe impl Begins for hz_observer {
    const FIRST: usize = 72;
}

/// Above that it is no size.
const MOST: usize = 4096;

/// A struct that begins with its size in bytes.
///
/// # Safety
/// Its first field is that size, and zeros are a value of it. It has no bytes between its fields or after them: a
/// later field that came to lie there would not change the size.
pub unsafe trait Begins {
    /// The size in the first version that had it.
    const FIRST: usize;
}

// SAFETY: see there.
unsafe impl Begins for hz_pager_config {
    const FIRST: usize = 72;
}

// SAFETY: see there; a callback that is null is None.
unsafe impl Begins for hz_io {
    const FIRST: usize = 48;
}

/// Returns a struct of the caller's, as long as it is here.
///
/// # Errors
/// [`HZ_NULL`]; [`HZ_BAD_SETTINGS`] where its size is none of a version, or a field is set that only later
/// ones have.
///
/// # Safety
/// The pointer is null, or leads to so many bytes as the size there says.
pub unsafe fn given<T: Begins>(pointer: *const T) -> Result<T, Refusal> {
    if pointer.is_null() {
        return Err(refusal(HZ_NULL));
    }
    // SAFETY: it begins with its size.
    let size = unsafe { pointer.cast::<usize>().read() };
    if !(T::FIRST..=MOST).contains(&size) || size % align_of::<T>() != 0 {
        return Err(refusal(HZ_BAD_SETTINGS));
    }
    let own = size_of::<T>();
    let bytes = pointer.cast::<u8>();
    // SAFETY: there are so many bytes.
    let mut beyond = (own..size).map(|at| unsafe { bytes.add(at).read() });
    if beyond.any(|byte| byte != 0) {
        return Err(refusal(HZ_BAD_SETTINGS));
    }
    let mut here = MaybeUninit::<T>::zeroed();
    // SAFETY: both have so many bytes, and zeros are a value.
    unsafe {
        ptr::copy_nonoverlapping(bytes, here.as_mut_ptr().cast(), size.min(own));
        Ok(here.assume_init())
    }
}

/// Writes a result to a place of so many bytes: what of it has room there, and zeros after it.
///
/// # Safety
/// It may be written to. The value has no bytes between its fields.
pub unsafe fn put<T>(place: *mut T, size: usize, value: &T) {
    let own = size_of::<T>();
    let bytes = place.cast::<u8>();
    // SAFETY: there are so many bytes.
    unsafe {
        ptr::copy_nonoverlapping(ptr::from_ref(value).cast(), bytes, size.min(own));
        if size > own {
            ptr::write_bytes(bytes.add(own), 0, size - own);
        }
    }
}
