//! How much stack the calls use. Before a call the memory below the stack pointer is painted; afterwards it shows how far down the
//! call wrote. The register is that of x86-64, for which the library is built.

use std::arch::asm;
use std::cell::RefCell;
use std::collections::BTreeMap;
use std::thread;

/// Bytes that are painted, in words; no call may use more.
const PAINTED: usize = 1 << 20;
const WORD: usize = size_of::<u64>();
const PAINT: u64 = 0x5ac3_5ac3_5ac3_5ac3;

/// The most that each call was seen to use, in bytes.
pub type Most = BTreeMap<&'static str, usize>;

thread_local! {
    /// Nothing is measured while there is none.
    static METER: RefCell<Option<Most>> = const { RefCell::new(None) };
}

/// Measures every metered call while it runs, on a thread whose stack has room for the paint.
pub fn measure<T: Send>(run: impl FnOnce() -> T + Send) -> (T, Most) {
    thread::scope(|scope| {
        let metered_run = || {
            METER.set(Some(Most::new()));
            let answer = run();
            (answer, METER.take().unwrap_or_default())
        };
        let thread = thread::Builder::new().stack_size(8 * PAINTED);
        let thread = thread.spawn_scoped(scope, metered_run);
        let thread = thread.expect("a thread can be started");
        thread.join().expect("the thread ends")
    })
}

/// Makes a call, and measures it where that is wanted.
pub fn metered<T>(name: &'static str, call: impl FnOnce() -> T) -> T {
    if METER.with_borrow(|meter| meter.is_none()) {
        return call();
    }
    let top = stack_pointer();
    paint(top);
    let answer = from_its_own_frame(call);
    let used = top - lowest_written(top);
    METER.with_borrow_mut(|meter| {
        let most = meter.as_mut().expect("as above").entry(name).or_default();
        *most = used.max(*most);
    });
    answer
}

/// A function around the call, whose frame is measured too: arguments that go by the stack stand in it.
#[inline(never)]
fn from_its_own_frame<T>(call: impl FnOnce() -> T) -> T {
    call()
}

#[inline(always)]
fn stack_pointer() -> usize {
    let pointer;
    // SAFETY: reads a register.
    unsafe { asm!("mov {}, rsp", out(reg) pointer, options(nomem, nostack, preserves_flags)) };
    pointer
}

// Both below are inlined and call nothing, so that nothing else writes below the stack pointer.

#[inline(always)]
fn paint(top: usize) {
    for at in (top - PAINTED..top).step_by(WORD) {
        // SAFETY: the thread's stack has room below, and nothing is kept there.
        unsafe { (at as *mut u64).write_volatile(PAINT) };
    }
}

#[inline(always)]
fn lowest_written(top: usize) -> usize {
    let mut at = top - PAINTED;
    // SAFETY: as above.
    while at < top && unsafe { (at as *const u64).read_volatile() } == PAINT {
        at += WORD;
    }
    at
}
