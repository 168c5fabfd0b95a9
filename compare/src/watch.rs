//! The input of the call that is running, so that a crash or an endless loop is reported with it.

use crate::input::Input;
use std::ptr::null_mut;
use std::sync::atomic::{AtomicPtr, AtomicU64, Ordering::SeqCst};
use std::time::Duration;

/// No call on any file should take this long.
const SECONDS: u64 = 120;

static RUNNING: AtomicPtr<()> = AtomicPtr::new(null_mut());
static STARTED: AtomicU64 = AtomicU64::new(0);

extern "C" {
    fn signal(number: i32, handler: usize) -> usize;
    fn _exit(status: i32) -> !;
}

fn report(what: &str) -> ! {
    let input = RUNNING.load(SeqCst) as *const Input;
    if input.is_null() {
        eprintln!("outside of the calls: {what}");
    } else {
        // SAFETY: set only while `during` borrows the input, and the call has not returned.
        println!("FAILED: the call {what}\nrepeat with: --replay {}", unsafe { &*input });
    }
    unsafe { _exit(1) }
}

extern "C" fn crashed(number: i32) {
    report(&format!("crashes (signal {number})"))
}

/// Watches for illegal instructions, aborts, bus errors, divisions by zero, segmentation faults and endless calls.
pub fn start() {
    for number in [4, 6, 7, 8, 11] {
        unsafe { signal(number, crashed as extern "C" fn(i32) as usize) };
    }
    std::thread::spawn(|| loop {
        let started = STARTED.load(SeqCst);
        std::thread::sleep(Duration::from_secs(SECONDS));
        if STARTED.load(SeqCst) == started && !RUNNING.load(SeqCst).is_null() {
            report("does not return");
        }
    });
}

pub fn during<T>(input: &Input, call: impl FnOnce() -> T) -> T {
    STARTED.fetch_add(1, SeqCst);
    RUNNING.store(input as *const Input as *mut (), SeqCst);
    let result = call();
    RUNNING.store(null_mut(), SeqCst);
    result
}
