//! How deep a call goes into its stack.

use std::hint::black_box;
use std::thread;

const STACK: usize = 4 << 20;
const PAINTED: usize = 1 << 20;
const PATTERN: u8 = 0xa5;

/// The bytes from the caller's frame to the deepest one that the call wrote. It
/// runs in a thread of its own, whose stack was painted below the caller before.
/// What it needs when first called is made by a call before.
pub fn peak(call: impl Fn() + Sync) -> usize {
    thread::scope(|scope| {
        let thread = thread::Builder::new().stack_size(STACK);
        let measured = thread.spawn_scoped(scope, || {
            call();
            depth(&call)
        });
        measured.expect("a thread").join().expect("no panic")
    })
}

#[inline(never)]
fn depth(call: &dyn Fn()) -> usize {
    let here = 0_u8;
    let top = black_box(&here) as *const u8 as usize;
    let bottom = paint();
    call();
    // The painted bytes lie between bottom and this frame, in this thread's stack.
    let untouched = (bottom..top)
        .take_while(|&address| unsafe { (address as *const u8).read_volatile() } == PATTERN)
        .count();
    assert!(untouched > 0, "deeper than what was painted");
    top - bottom - untouched
}

/// Fills its frame, and answers where that begins.
#[inline(never)]
fn paint() -> usize {
    let mut frame = [PATTERN; PAINTED];
    black_box(&mut frame).as_ptr() as usize
}
