//! How much stack something takes: it is run in a thread whose stack has been
//! painted, and what is no longer painted was used.

use std::{
    alloc::{Layout, alloc, dealloc},
    ffi::{c_int, c_void},
    ptr, slice,
};

/// Bytes of the thread's stack.
const SIZE: usize = 1 << 20;
const PAINT: u8 = 0xc3;

/// Room for the attributes of a thread, with some to spare.
#[repr(C, align(16))]
struct Attributes([u8; 128]);

unsafe extern "C" {
    fn pthread_attr_init(attributes: *mut Attributes) -> c_int;
    fn pthread_attr_setstack(attributes: *mut Attributes, start: *mut c_void, size: usize)
    -> c_int;
    fn pthread_create(
        thread: *mut usize,
        attributes: *const Attributes,
        start: extern "C" fn(*mut c_void) -> *mut c_void,
        argument: *mut c_void,
    ) -> c_int;
    fn pthread_join(thread: usize, answer: *mut *mut c_void) -> c_int;
}

struct Work<'a> {
    run: &'a mut dyn FnMut(),
    /// An address of the frame that calls it.
    top: usize,
}

extern "C" fn start(argument: *mut c_void) -> *mut c_void {
    // SAFETY: `used` hands over its own value and waits for this thread.
    let work = unsafe { &mut *argument.cast::<Work<'_>>() };
    let here = 0u8;
    work.top = ptr::from_ref(&here) as usize;
    (work.run)();
    ptr::null_mut()
}

/// Bytes of stack below the caller's frame. The thread's own end takes some
/// too: nothing that takes less can be told from it.
pub fn used(run: &mut dyn FnMut()) -> usize {
    let layout = Layout::from_size_align(SIZE, 4096).expect("a layout");
    let mut work = Work { run, top: 0 };
    let mut attributes = Attributes([0; 128]);
    let mut thread = 0;
    // SAFETY: the stack outlives the thread, which is joined here; it is read
    // only after that.
    unsafe {
        let stack = alloc(layout);
        assert!(!stack.is_null());
        stack.write_bytes(PAINT, SIZE);
        assert_eq!(pthread_attr_init(&mut attributes), 0);
        assert_eq!(
            pthread_attr_setstack(&mut attributes, stack.cast(), SIZE),
            0
        );
        let argument = ptr::from_mut(&mut work).cast();
        assert_eq!(pthread_create(&mut thread, &attributes, start, argument), 0);
        assert_eq!(pthread_join(thread, ptr::null_mut()), 0);
        let painted = slice::from_raw_parts(stack, SIZE)
            .iter()
            .take_while(|byte| **byte == PAINT)
            .count();
        let lowest = stack as usize + painted;
        dealloc(stack, layout);
        work.top.saturating_sub(lowest)
    }
}

#[cfg(test)]
mod tests {
    use super::*;
    use std::hint::black_box;

    /// An array of a known size is seen.
    #[test]
    fn array_is_seen() {
        let nothing = used(&mut || {});
        let array = used(&mut || {
            let array = [1u8; 50_000];
            black_box(&array);
        });
        assert!(nothing < 20_000, "{nothing}");
        assert!((50_000..70_000).contains(&array), "{array}");
    }
}
