//! How much stack a call uses: it runs in a thread on lent memory full of a pattern, and what it leaves of that is
//! looked at afterwards.

use std::alloc::{alloc, dealloc, Layout};
use std::ffi::c_void;
use std::hint::black_box;
use std::slice;

/// The bytes that are lent as a stack, how they are aligned, and the pattern in them.
const BYTES: usize = 1 << 20;
const ALIGNMENT: usize = 4_096;
const PATTERN: u8 = 0xA5;

/// At least as large as the attributes of a thread in the C library.
#[repr(C, align(16))]
struct Attributes([u8; 128]);

type Start = extern "C" fn(*mut c_void) -> *mut c_void;

extern "C" {
    fn pthread_attr_init(attributes: *mut Attributes) -> i32;
    fn pthread_attr_setstack(attributes: *mut Attributes, stack: *mut c_void, bytes: usize) -> i32;
    fn pthread_attr_destroy(attributes: *mut Attributes) -> i32;
    fn pthread_create(thread: *mut usize, attributes: *const Attributes, start: Start, call: *mut c_void) -> i32;
    fn pthread_join(thread: usize, result: *mut *mut c_void) -> i32;
}

/// A call, and where the stack stood when it was made.
struct Made<F> {
    call: F,
    top: usize,
}

extern "C" fn start<F: FnMut()>(made: *mut c_void) -> *mut c_void {
    let made = unsafe { &mut *made.cast::<Made<F>>() };
    let here = 0u8;
    made.top = black_box(&raw const here) as usize;
    make(&mut made.call);
    std::ptr::null_mut()
}

/// The call in a frame of its own, below where the stack stood.
#[inline(never)]
fn make(call: &mut impl FnMut()) {
    call();
}

/// The bytes of stack that a call uses: from where the stack stands when it is made down to the lowest byte altered. At
/// the least it is what a thread's end uses.
pub fn used<F: FnMut()>(call: F) -> usize {
    let layout = Layout::from_size_align(BYTES, ALIGNMENT).unwrap();
    let mut attributes = Attributes([0; 128]);
    let mut made = Made { call, top: 0 };
    let mut thread = 0;
    unsafe {
        let stack = alloc(layout);
        stack.write_bytes(PATTERN, BYTES);
        assert_eq!(pthread_attr_init(&mut attributes), 0);
        assert_eq!(pthread_attr_setstack(&mut attributes, stack.cast(), BYTES), 0);
        assert_eq!(pthread_create(&mut thread, &attributes, start::<F>, (&raw mut made).cast()), 0);
        assert_eq!(pthread_join(thread, std::ptr::null_mut()), 0);
        pthread_attr_destroy(&mut attributes);
        let left = slice::from_raw_parts(stack, BYTES).iter().take_while(|byte| **byte == PATTERN).count();
        dealloc(stack, layout);
        made.top - (stack as usize + left)
    }
}
