//! How much stack a call takes. It is made on a thread whose stack is memory of ours, painted beforehand; the deepest
//! byte that changed shows how far it went. This is the one module beside the clock that calls the C library.

use std::ffi::c_void;
use std::ptr;

const PAGE: usize = 4096;
const PAGES: usize = 256;
const PAINT: u8 = 0xa5;

/// Aligned as the C library may ask of a stack.
#[repr(C, align(4096))]
#[derive(Clone)]
struct Page([u8; PAGE]);

/// `pthread_attr_t`, which is 56 bytes on x86-64.
#[repr(C)]
struct Attributes([u64; 7]);

extern "C" {
    fn pthread_attr_init(attributes: &mut Attributes) -> i32;
    fn pthread_attr_setstack(attributes: &mut Attributes, low: *mut c_void, size: usize) -> i32;
    fn pthread_attr_destroy(attributes: &mut Attributes) -> i32;
    fn pthread_create(
        thread: &mut usize,
        attributes: &Attributes,
        start: extern "C" fn(*mut c_void) -> *mut c_void,
        argument: *mut c_void,
    ) -> i32;
    fn pthread_join(thread: usize, answer: *mut *mut c_void) -> i32;
}

/// What the thread is to do, and where its stack was when it began.
struct Call<'a> {
    work: &'a mut (dyn FnMut() + Send),
    top: usize,
}

extern "C" fn start(call: *mut c_void) -> *mut c_void {
    // SAFETY: `on_stack` hands its own Call over and leaves it alone until this thread has ended.
    let call = unsafe { &mut *call.cast::<Call>() };
    let here = 0_u8;
    call.top = ptr::from_ref(&here).addr();
    (call.work)();
    ptr::null_mut()
}

/// Makes the call on a thread with this stack, and waits for its end.
fn on_stack(stack: &mut [Page], call: &mut Call) {
    let mut attributes = Attributes([0; 7]);
    let mut thread = 0;
    let low = stack.as_mut_ptr().cast();
    let argument = ptr::from_mut(call).cast();
    // SAFETY: the attributes are as large as the C library's, and initialised before they are used. Stack and call
    // are borrowed here until the thread has been joined, and only the thread uses them meanwhile. What the call does
    // may be done on another thread: it is Send.
    unsafe {
        assert_eq!(pthread_attr_init(&mut attributes), 0);
        let size = size_of_val(stack);
        assert_eq!(pthread_attr_setstack(&mut attributes, low, size), 0);
        assert_eq!(pthread_create(&mut thread, &attributes, start, argument), 0);
        assert_eq!(pthread_join(thread, ptr::null_mut()), 0);
        assert_eq!(pthread_attr_destroy(&mut attributes), 0);
    }
}

/// The bytes of stack that a call takes, from its caller's frame down to the deepest that it writes.
pub fn depth(work: &mut (dyn FnMut() + Send)) -> usize {
    let mut stack = vec![Page([PAINT; PAGE]); PAGES];
    let mut call = Call { work, top: 0 };
    on_stack(&mut stack, &mut call);
    let bytes = stack.iter().flat_map(|page| page.0.iter());
    let untouched = bytes.take_while(|byte| **byte == PAINT).count();
    call.top - (stack.as_ptr().addr() + untouched)
}
