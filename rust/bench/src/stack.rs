//! How deep a call's stack goes: the call runs in a thread whose stack was painted, and the paint that is left is counted.

use std::ffi::c_void;
use std::ptr;

const BYTES: usize = 4 << 20;
const PAINT: u8 = 0xA5;

#[repr(C, align(4096))]
struct Page([u8; 4096]);

/// Room for the C library's own attributes, which take 56 bytes on this target.
#[repr(C, align(16))]
struct Attributes([u8; 128]);

#[rustfmt::skip]
unsafe extern "C" {
    fn pthread_attr_init(attributes: *mut Attributes) -> i32;
    fn pthread_attr_destroy(attributes: *mut Attributes) -> i32;
    fn pthread_attr_setstack(attributes: *mut Attributes, stack: *mut c_void, bytes: usize) -> i32;
    fn pthread_create(
        thread: *mut usize, attributes: *const Attributes,
        start: extern "C" fn(*mut c_void) -> *mut c_void, argument: *mut c_void,
    ) -> i32;
    fn pthread_join(thread: usize, result: *mut *mut c_void) -> i32;
}

extern "C" fn run(call: *mut c_void) -> *mut c_void {
    // SAFETY: `touched` hands over a pointer to its own parameter, and waits for the thread.
    let call = unsafe { &mut *call.cast::<&mut dyn FnMut()>() };
    call();
    ptr::null_mut()
}

/// The bytes of the painted stack that a thread touched, its own bookkeeping included.
fn touched(mut call: &mut dyn FnMut()) -> usize {
    let mut pages: Vec<Page> = Vec::with_capacity(BYTES / 4096);
    pages.resize_with(BYTES / 4096, || Page([PAINT; 4096]));
    let mut attributes = Attributes([0; 128]);
    let mut thread = 0;
    // SAFETY: the stack is a live, page-aligned buffer that nothing else uses until the thread has ended.
    unsafe {
        let mut done = pthread_attr_init(&mut attributes);
        done |= pthread_attr_setstack(&mut attributes, pages.as_mut_ptr().cast(), BYTES);
        let argument = ptr::from_mut(&mut call).cast();
        done |= pthread_create(&mut thread, &attributes, run, argument);
        assert_eq!(done, 0, "a thread on a painted stack");
        pthread_join(thread, ptr::null_mut());
        pthread_attr_destroy(&mut attributes);
    }
    let left = pages.iter().flat_map(|page| page.0.iter());
    BYTES - left.take_while(|byte| **byte == PAINT).count()
}

/// The bytes of stack that a call takes, beyond a thread that does nothing.
pub fn depth(mut call: impl FnMut()) -> usize {
    let with = touched(&mut call);
    let without = touched(&mut || ());
    with.saturating_sub(without)
}
