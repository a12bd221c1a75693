//! The heap of the proved code: three functions that it calls, over the C library's.

use std::ffi::c_void;

unsafe extern "C" {
    fn malloc(size: usize) -> *mut c_void;
    fn realloc(at: *mut c_void, size: usize) -> *mut c_void;
    fn free(at: *mut c_void);
}

/// Whether there is memory, and where.
#[repr(C)]
struct Tried {
    ok: bool,
    at: *mut c_void,
}

/// An address for what takes no memory.
static NOTHING: u64 = 0;

fn tried(at: *mut c_void) -> Tried {
    if at.is_null() {
        return Tried {
            ok: false,
            at: (&raw const NOTHING).cast_mut().cast(),
        };
    }
    Tried { ok: true, at }
}

/// New memory of `size` bytes; `align` is 16 at most, which `malloc` grants. A size of 0 asks for `align` bytes.
#[unsafe(no_mangle)]
unsafe extern "C" fn rattle_alloc(size: usize, align: usize) -> Tried {
    // SAFETY: any size may be asked for.
    tried(unsafe { malloc(if size == 0 { align } else { size }) })
}

/// The block at `at` with `size` bytes; where there is no memory it is as it was.
#[unsafe(no_mangle)]
unsafe extern "C" fn rattle_realloc(
    at: *mut c_void,
    _kept: usize,
    size: usize,
    align: usize,
) -> Tried {
    // SAFETY: the caller has the block from here.
    tried(unsafe { realloc(at, if size == 0 { align } else { size }) })
}

/// Gives a block back.
#[unsafe(no_mangle)]
unsafe extern "C" fn rattle_dealloc(at: *mut c_void) {
    // SAFETY: the caller has the block from here, and gives it up.
    unsafe { free(at) }
}
