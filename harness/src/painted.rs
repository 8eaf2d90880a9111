//! How deep a call goes: it runs on a stack full of paint, and what paint is left shows how much of it was written to.

use std::alloc::{alloc, dealloc, Layout};
use std::ffi::c_void;
use std::ptr::{addr_of, null_mut};
use std::slice;

/// Four times what a call may need, so that a call which needs more is seen and does no harm.
const STACK: usize = 1024 * 1024;
const PAINT: u8 = 0xa5;

/// Larger than the C library's own.
#[repr(C, align(16))]
struct Attributes([u8; 128]);

extern "C" {
    fn pthread_attr_init(attributes: *mut Attributes) -> i32;
    fn pthread_attr_setstack(attributes: *mut Attributes, stack: *mut c_void, len: usize) -> i32;
    fn pthread_create(
        thread: *mut usize,
        attributes: *const Attributes,
        start: extern "C" fn(*mut c_void) -> *mut c_void,
        errand: *mut c_void,
    ) -> i32;
    fn pthread_join(thread: usize, result: *mut *mut c_void) -> i32;
}

/// A call, and where the stack was when it began.
struct Errand<'a> {
    call: &'a mut dyn FnMut(),
    began: usize,
}

extern "C" fn start(errand: *mut c_void) -> *mut c_void {
    // Safety: `on_stack` passes an errand and waits for the thread's end.
    let errand = unsafe { &mut *errand.cast::<Errand>() };
    let here = 0u8;
    errand.began = addr_of!(here) as usize;
    (errand.call)();
    null_mut()
}

/// The bytes of stack from where the call begins down to the lowest one it writes to.
pub fn depth_of(mut call: impl FnMut()) -> usize {
    let layout = Layout::from_size_align(STACK, 4096).expect("a layout");
    // Safety: the stack is the thread's alone until the thread has ended, and is looked at only then.
    unsafe {
        let stack = alloc(layout);
        assert!(!stack.is_null(), "no memory");
        stack.write_bytes(PAINT, STACK);
        let began = on_stack(stack, &mut call);
        let untouched = slice::from_raw_parts(stack, STACK).iter().take_while(|&&b| b == PAINT).count();
        let lowest = stack as usize + untouched;
        dealloc(stack, layout);
        began - lowest
    }
}

/// Runs the call in a thread with this stack; where the stack was when it began.
unsafe fn on_stack(stack: *mut u8, call: &mut dyn FnMut()) -> usize {
    let mut errand = Errand { call, began: 0 };
    let mut attributes = Attributes([0; 128]);
    let mut thread = 0;
    assert_eq!(pthread_attr_init(&mut attributes), 0);
    assert_eq!(pthread_attr_setstack(&mut attributes, stack.cast(), STACK), 0);
    let passed: *mut Errand = &mut errand;
    assert_eq!(pthread_create(&mut thread, &attributes, start, passed.cast()), 0);
    assert_eq!(pthread_join(thread, null_mut()), 0);
    errand.began
}
