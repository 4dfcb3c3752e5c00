//! A signal that ends the program while the library is called: what was at work is described.

use std::sync::atomic::{AtomicPtr, Ordering};
use std::{process, ptr};

/// What can be at work when a signal comes.
pub trait Work {
    /// The call, with all that it was given.
    fn described(&self) -> String;
}

/// The work to describe; its type is that of the handler.
static AT_WORK: AtomicPtr<()> = AtomicPtr::new(ptr::null_mut());

extern "C" {
    fn signal(number: i32, handler: extern "C" fn(i32)) -> usize;
    fn _exit(status: i32) -> !;
}

/// SIGILL, SIGABRT, SIGBUS, SIGFPE, SIGSEGV
const FATAL: [i32; 5] = [4, 6, 7, 8, 11];

/// From here on, a call that ends the program by a signal is described. The library holds no lock and no heap that
/// describing would need.
pub fn watch<W: Work>(work: &mut W) {
    AT_WORK.store((work as *mut W).cast(), Ordering::SeqCst);
    for number in FATAL {
        unsafe { signal(number, describe_work::<W>) };
    }
}

extern "C" fn describe_work<W: Work>(number: i32) {
    match unsafe { AT_WORK.swap(ptr::null_mut(), Ordering::SeqCst).cast::<W>().as_ref() } {
        Some(work) => println!("{}library: signal {number}", work.described()),
        None => process::abort(),
    }
    unsafe { _exit(1) }
}
