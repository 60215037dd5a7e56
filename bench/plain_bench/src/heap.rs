//! One heap for both decoders, which counts what they hold where that is asked for. A block counts with the size that malloc gave it.

use std::alloc::{GlobalAlloc, Layout};
use std::ffi::c_void;
use std::sync::atomic::{AtomicBool, AtomicIsize, Ordering::Relaxed};

unsafe extern "C" {
    fn malloc(size: usize) -> *mut c_void;
    fn realloc(block: *mut c_void, size: usize) -> *mut c_void;
    fn free(block: *mut c_void);
    fn malloc_usable_size(block: *mut c_void) -> usize;
    fn aligned_alloc(align: usize, size: usize) -> *mut c_void;
}

static IS_COUNTING: AtomicBool = AtomicBool::new(false);
static HELD: AtomicIsize = AtomicIsize::new(0);
static PEAK: AtomicIsize = AtomicIsize::new(0);

/// Bytes above what was held when counting began.
#[derive(Clone, Copy, Debug, Default)]
pub struct Held {
    pub now: isize,
    pub peak: isize,
}

pub fn begin_counting() {
    HELD.store(0, Relaxed);
    PEAK.store(0, Relaxed);
    IS_COUNTING.store(true, Relaxed);
}

pub fn held() -> Held {
    Held {
        now: HELD.load(Relaxed),
        peak: PEAK.load(Relaxed),
    }
}

pub fn end_counting() {
    IS_COUNTING.store(false, Relaxed);
}

#[cold]
fn count(change: isize) {
    let held = HELD.fetch_add(change, Relaxed) + change;
    PEAK.fetch_max(held, Relaxed);
}

/// A block is there.
#[inline]
unsafe fn came(block: *mut c_void) -> *mut c_void {
    if IS_COUNTING.load(Relaxed) && !block.is_null() {
        count(unsafe { malloc_usable_size(block) } as isize);
    }
    block
}

#[inline]
unsafe fn resized(block: *mut c_void, size: usize) -> *mut c_void {
    if !IS_COUNTING.load(Relaxed) {
        return unsafe { realloc(block, size) };
    }
    let before = unsafe { malloc_usable_size(block) } as isize;
    let after = unsafe { realloc(block, size) };
    if !after.is_null() {
        count(unsafe { malloc_usable_size(after) } as isize - before);
    }
    after
}

#[inline]
unsafe fn given_back(block: *mut c_void) {
    if IS_COUNTING.load(Relaxed) {
        count(-(unsafe { malloc_usable_size(block) } as isize));
    }
    unsafe { free(block) }
}

/// The heap of the plain decoder, and of this program.
pub struct Heap;

/// What malloc aligns each block to.
const ALIGN: usize = 16;

// SAFETY: each call is the C library's of the same meaning, whose blocks are aligned to `ALIGN`, or to more where it is asked.
unsafe impl GlobalAlloc for Heap {
    unsafe fn alloc(&self, layout: Layout) -> *mut u8 {
        let block = if layout.align() <= ALIGN {
            unsafe { malloc(layout.size()) }
        } else {
            unsafe {
                aligned_alloc(
                    layout.align(),
                    layout.size().next_multiple_of(layout.align()),
                )
            }
        };
        unsafe { came(block).cast() }
    }

    unsafe fn dealloc(&self, block: *mut u8, _: Layout) {
        unsafe { given_back(block.cast()) }
    }

    unsafe fn realloc(&self, block: *mut u8, layout: Layout, size: usize) -> *mut u8 {
        if layout.align() <= ALIGN {
            return unsafe { resized(block.cast(), size).cast() };
        }
        let other = unsafe { self.alloc(Layout::from_size_align_unchecked(size, layout.align())) };
        if !other.is_null() {
            unsafe { std::ptr::copy_nonoverlapping(block, other, layout.size().min(size)) };
            unsafe { self.dealloc(block, layout) };
        }
        other
    }
}

/// What the proved decoder's heap answers: whether there is memory, and where; a place without memory where there is none.
#[repr(C)]
pub struct Answer {
    is_there: usize,
    block: *mut c_void,
}

impl Answer {
    fn new(block: *mut c_void) -> Answer {
        if block.is_null() {
            let block = std::ptr::dangling_mut::<u128>().cast();
            return Answer { is_there: 0, block };
        }
        Answer { is_there: 1, block }
    }
}

#[unsafe(no_mangle)]
unsafe extern "C" fn rattle_alloc(size: usize, align: usize) -> Answer {
    Answer::new(unsafe { came(malloc(if size == 0 { align } else { size })) })
}

#[unsafe(no_mangle)]
unsafe extern "C" fn rattle_realloc(
    block: *mut c_void,
    _: usize,
    size: usize,
    align: usize,
) -> Answer {
    Answer::new(unsafe { resized(block, if size == 0 { align } else { size }) })
}

#[unsafe(no_mangle)]
unsafe extern "C" fn rattle_dealloc(block: *mut c_void) {
    unsafe { given_back(block) }
}
