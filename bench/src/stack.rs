//! How much stack a call uses. It is made on a thread whose stack is memory of our own, painted with one byte; the lowest
//! byte that has changed when the call returns tells how far down it went.

use std::ffi::{c_int, c_ulong, c_void};
use std::ptr::null_mut;

const STACK_BYTES: usize = 8 << 20;
const PAINT: u8 = 0xA5;
/// Stacks begin at such addresses.
const PAGE: usize = 4096;

/// Room for the C library's thread attributes, which are 56 or 64 bytes.
#[repr(C, align(16))]
struct Attributes([u8; 256]);

extern "C" {
    fn pthread_attr_init(attributes: *mut Attributes) -> c_int;
    fn pthread_attr_setstack(attributes: *mut Attributes, lowest: *mut c_void, size: usize) -> c_int;
    fn pthread_attr_destroy(attributes: *mut Attributes) -> c_int;
    fn pthread_create(
        thread: *mut c_ulong,
        attributes: *const Attributes,
        start: extern "C" fn(*mut c_void) -> *mut c_void,
        given: *mut c_void,
    ) -> c_int;
    fn pthread_join(thread: c_ulong, result: *mut *mut c_void) -> c_int;
}

/// What the thread is given, and what it finds.
struct Task<'a> {
    call: &'a mut (dyn FnMut() + Send),
    lowest: *const u8,
    used: usize,
}

/// The bytes of stack that a call uses. It must not panic.
pub fn used_by(mut call: impl FnMut() + Send) -> usize {
    let mut memory = vec![PAINT; STACK_BYTES + PAGE];
    let lowest = memory.as_mut_ptr().wrapping_add(memory.as_ptr().align_offset(PAGE));
    let mut task = Task { call: &mut call, lowest, used: 0 };
    let mut attributes = Attributes([0; 256]);
    let mut thread = 0;
    // SAFETY: the declarations are those of POSIX threads. The stack lies within `memory`, begins at a page and is used
    // by nobody else; it and the task outlive the thread, which has ended when the join returns.
    unsafe {
        assert_eq!(pthread_attr_init(&mut attributes), 0);
        assert_eq!(pthread_attr_setstack(&mut attributes, lowest.cast(), STACK_BYTES), 0);
        assert_eq!(pthread_create(&mut thread, &attributes, measure, (&raw mut task).cast()), 0);
        assert_eq!(pthread_join(thread, null_mut()), 0);
        assert_eq!(pthread_attr_destroy(&mut attributes), 0);
    }
    assert!(task.used < STACK_BYTES / 2, "a call went through the painted stack");
    task.used
}

extern "C" fn measure(given: *mut c_void) -> *mut c_void {
    // SAFETY: this is the task that `used_by` lends to this thread alone.
    let task = unsafe { &mut *given.cast::<Task>() };
    let mark = 0u8;
    let start = std::hint::black_box(&raw const mark);
    (task.call)();
    // SAFETY: the bytes from `lowest` to the mark are this thread's stack, within memory that stays allocated; none of
    // them is in use now but those of this function and of what it calls, far above the first that has changed.
    let unchanged = (0..STACK_BYTES).take_while(|&at| unsafe { task.lowest.add(at).read_volatile() } == PAINT).count();
    task.used = (start as usize).saturating_sub(task.lowest as usize + unchanged);
    null_mut()
}
