//! Bytes that nobody is to find later: the key in memory.
//!
//! The key is in memory from a start to the cut that ends it: in the collector's state, and while a call runs in copies of
//! the state on the stack. Both are overwritten when a collector is dropped (`Collector`); what a key's file had in it, and the
//! key as a number of bytes, as soon as the start has handed it over (`Secret`).

use std::io;
use std::ops::{Deref, DerefMut};
use std::sync::atomic::{Ordering, compiler_fence};

/// So much of the stack is overwritten: twice what the header says a call takes, for the frames around it.
const STACK: usize = 2 * 131_072;

/// Bytes that are overwritten when they are dropped.
pub struct Secret<const N: usize>([u8; N]);

impl<const N: usize> Secret<N> {
    /// All 0.
    pub fn zero() -> Secret<N> {
        Secret([0; N])
    }
}

impl<const N: usize> Deref for Secret<N> {
    type Target = [u8; N];

    fn deref(&self) -> &[u8; N] {
        &self.0
    }
}

impl<const N: usize> DerefMut for Secret<N> {
    fn deref_mut(&mut self) -> &mut [u8; N] {
        &mut self.0
    }
}

impl<const N: usize> Drop for Secret<N> {
    fn drop(&mut self) {
        wipe(&mut self.0);
    }
}

/// Overwrites bytes, also where the compiler sees that nobody reads them again.
pub fn wipe(bytes: &mut [u8]) {
    for byte in bytes {
        // SAFETY: a reference to a byte.
        unsafe { std::ptr::write_volatile(byte, 0) };
    }
    compiler_fence(Ordering::SeqCst);
}

/// Overwrites the stack below the caller, where calls that are over have left their copies.
#[inline(never)]
pub fn wipe_stack() {
    let mut below = [0xff; STACK];
    wipe(std::hint::black_box(&mut below));
}

/// From here on the system writes no image of this program's memory to a disk when it dies, and shows its memory to no other
/// program of the same user.
pub fn no_dumps() -> io::Result<()> {
    let none = libc::rlimit { rlim_cur: 0, rlim_max: 0 };
    // SAFETY: the struct is read alone; the other call takes numbers.
    let (limit, dumps) =
        unsafe { (libc::setrlimit(libc::RLIMIT_CORE, &none), libc::prctl(libc::PR_SET_DUMPABLE, 0, 0, 0, 0)) };
    if limit == 0 && dumps == 0 { Ok(()) } else { Err(io::Error::last_os_error()) }
}

#[cfg(test)]
mod tests {
    use super::*;

    #[test]
    fn dropped_bytes_are_overwritten() {
        let mut place = std::mem::MaybeUninit::<Secret<16>>::uninit();
        place.write(Secret([7; 16]));
        let at = place.as_ptr().cast::<u8>();
        // SAFETY: it was written; afterwards only its bytes are looked at, in memory that is still there.
        let left: Vec<u8> = unsafe {
            place.assume_init_drop();
            (0..16).map(|i| std::ptr::read_volatile(at.add(i))).collect()
        };
        assert_eq!(left, [0; 16]);
    }

    #[test]
    fn no_image_is_written() {
        no_dumps().expect("allowed");
        let mut limit = libc::rlimit { rlim_cur: 1, rlim_max: 1 };
        // SAFETY: the struct is filled in; the other call takes numbers.
        let dumps = unsafe {
            libc::getrlimit(libc::RLIMIT_CORE, &mut limit);
            libc::prctl(libc::PR_GET_DUMPABLE, 0, 0, 0, 0)
        };
        assert_eq!((limit.rlim_cur, limit.rlim_max, dumps), (0, 0, 0));
    }
}
