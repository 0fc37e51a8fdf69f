//! A thread with room for the deepest terms: 2,048 rows, each the only child of the one before.

use std::cell::Cell;

/// Far more than 2,048 levels of the deepest recursion need; only touched pages are ever taken.
const DEEP_STACK: usize = 64 << 20;

thread_local! {
    static IS_DEEP: Cell<bool> = const { Cell::new(false) };
}

/// Does the work where terms of any legal depth can be walked and dropped. Work that is already on such a thread is
/// done in place, so that a driver pays for one thread and not for one a call.
pub fn on_deep_stack<R: Send>(work: impl FnOnce() -> R + Send) -> R {
    if IS_DEEP.with(Cell::get) {
        return work();
    }
    std::thread::scope(|scope| {
        let marked = || {
            IS_DEEP.with(|deep| deep.set(true));
            work()
        };
        let thread = std::thread::Builder::new().stack_size(DEEP_STACK).spawn_scoped(scope, marked);
        match thread.expect("a thread can be started").join() {
            Ok(result) => result,
            Err(panic) => std::panic::resume_unwind(panic),
        }
    })
}
