//! How much stack a call needs: it runs on a thread whose stack was painted
//! before, and what no longer shows the paint was used.

use std::ffi::{c_int, c_void};
use std::ptr;

/// The painted stack, far more than is looked for.
const SIZE: usize = 16 << 20;
const PAGE: usize = 4096;
const PAINT: u8 = 0xa5;

/// As large as any C library's thread attributes.
#[repr(C, align(16))]
struct Attributes([u8; 128]);

type Start = extern "C" fn(*mut c_void) -> *mut c_void;

extern "C" {
    fn pthread_attr_init(attributes: *mut Attributes) -> c_int;
    fn pthread_attr_setstack(attributes: *mut Attributes, low: *mut c_void, size: usize) -> c_int;
    fn pthread_attr_destroy(attributes: *mut Attributes) -> c_int;
    fn pthread_create(
        thread: *mut usize,
        attributes: *const Attributes,
        start: Start,
        argument: *mut c_void,
    ) -> c_int;
    fn pthread_join(thread: usize, answer: *mut *mut c_void) -> c_int;
}

/// Bytes of stack that the work needs beyond those of a thread without work.
pub fn used_by(work: &mut dyn FnMut()) -> Result<usize, String> {
    let idle = touched_by(&mut || {})?;
    Ok(touched_by(work)?.saturating_sub(idle))
}

fn touched_by(work: &mut dyn FnMut()) -> Result<usize, String> {
    let mut memory = vec![PAINT; SIZE + PAGE];
    let start = memory.as_mut_ptr();
    // SAFETY: the first whole page of the vector lies within it.
    let low = unsafe { start.add(start.align_offset(PAGE)) };
    run_on(low, work)?;
    // SAFETY: the thread has ended, and the vector still holds SIZE bytes from
    // here on.
    let shows_paint = |place: &usize| unsafe { low.add(*place).read() } == PAINT;
    let kept = (0..SIZE).take_while(shows_paint).count();
    match kept {
        ..PAGE => Err(format!("a call needs more than {SIZE} bytes of stack")),
        _ => Ok(SIZE - kept),
    }
}

/// Runs the work on a thread of its own with this stack, to its end.
fn run_on(low: *mut u8, mut work: &mut dyn FnMut()) -> Result<(), String> {
    extern "C" fn start(work: *mut c_void) -> *mut c_void {
        // SAFETY: `run_on` hands over such a place, and waits.
        let work = unsafe { &mut *work.cast::<&mut dyn FnMut()>() };
        work();
        ptr::null_mut()
    }
    let work: *mut &mut dyn FnMut() = &mut work;
    let mut attributes = Attributes([0; 128]);
    let mut thread = 0;
    // SAFETY: the C library that std is linked with has these functions; the
    // stack outlives the thread, which is waited for, and so does the work.
    let failed = unsafe {
        let mut failed = pthread_attr_init(&mut attributes)
            | pthread_attr_setstack(&mut attributes, low.cast(), SIZE)
            | pthread_create(&mut thread, &attributes, start, work.cast());
        if failed == 0 {
            failed = pthread_join(thread, ptr::null_mut());
        }
        pthread_attr_destroy(&mut attributes);
        failed
    };
    match failed {
        0 => Ok(()),
        _ => Err("no thread with a stack of its own can be had".to_owned()),
    }
}

#[cfg(test)]
mod tests {
    use super::*;
    use std::hint::black_box;

    #[test]
    fn what_is_used_is_told() {
        let mut small = || {
            black_box(&mut [1u8; 1_000]);
        };
        let mut large = || {
            black_box(&mut [1u8; 200_000]);
        };
        let small = used_by(&mut small).unwrap();
        let large = used_by(&mut large).unwrap();
        assert!(small < 20_000, "{small}");
        assert!((200_000..500_000).contains(&(large + 1_000)), "{large}");
    }
}
