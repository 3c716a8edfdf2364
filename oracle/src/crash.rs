//! What the program says when the tested code is stopped by a signal, or runs on for too long.

use crate::comparison::Case;
use std::fmt::{self, Write};
use std::sync::atomic::{AtomicPtr, AtomicU64, AtomicUsize, Ordering};

extern "C" {
    fn signal(number: i32, handler: usize) -> usize;
    fn write(file: i32, bytes: *const u8, length: usize) -> isize;
    fn _exit(status: i32) -> !;
    fn alarm(seconds: u32) -> u32;
}

static CASE: AtomicPtr<Case> = AtomicPtr::new(std::ptr::null_mut());
static NUMBER: AtomicU64 = AtomicU64::new(0);
static OPERATION: AtomicUsize = AtomicUsize::new(0);

/// Standard error, without an allocation.
struct Direct;

impl Write for Direct {
    fn write_str(&mut self, text: &str) -> fmt::Result {
        // SAFETY: the bytes of the text.
        unsafe { write(2, text.as_ptr(), text.len()) };
        Ok(())
    }
}

extern "C" fn stopped(number: i32) {
    let case = CASE.load(Ordering::SeqCst);
    let operation = OPERATION.load(Ordering::SeqCst);
    let _ = writeln!(
        Direct,
        "STOPPED by signal {number} in case {}, operation {operation}",
        NUMBER.load(Ordering::SeqCst)
    );
    // SAFETY: the case outlives the calls made for it.
    if let Some(case) = unsafe { case.as_ref() } {
        if let Some(operation) = case.operations.get(operation) {
            let _ = writeln!(Direct, "{:?}", operation.call);
            let _ = writeln!(Direct, "with {:02X?}", operation.data);
        }
        let _ = writeln!(Direct, "frame of {} greys", case.frame.len());
        let _ = writeln!(Direct, "sheet {:02X?}", case.sheet);
    }
    // SAFETY: ends the program.
    unsafe { _exit(1) }
}

/// Says which case a signal stopped: SIGILL, SIGABRT, SIGBUS, SIGFPE, SIGSEGV, SIGALRM.
pub fn report_signals() {
    for number in [4, 6, 7, 8, 11, 14] {
        // SAFETY: the handler only writes and ends.
        unsafe { signal(number, stopped as *const () as usize) };
    }
}

/// Notes the number of the case that is run next, which has a minute to end.
pub fn note_number(number: u64) {
    NUMBER.store(number, Ordering::SeqCst);
    // SAFETY: sets the clock of this program.
    unsafe { alarm(60) };
}

/// Notes the case and the operation that is run next.
pub fn note(case: &Case, operation: usize) {
    CASE.store(std::ptr::from_ref(case).cast_mut(), Ordering::SeqCst);
    OPERATION.store(operation, Ordering::SeqCst);
}
