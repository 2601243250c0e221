//! Allocates with the functions that the program passes (`stunp_set_memory`), or else with the
//! three functions that the program defines (`include/stunp_endpoint.h`), or else with malloc.
//!
//! The library refers to the three functions weakly, so a program can be linked without them. If
//! the program defines them, they are found whether it is linked before or after the library, and
//! with the shared library too. If it defines only some of the three, every allocation fails,
//! because nobody would notice that its functions are not called if the library used malloc
//! instead.
//!
//! The allocator is chosen once, before the first block, so that each block is freed by the
//! allocator that it came from.
//!
//! Without an operating system there is no malloc, and the program must define the three functions.

use alloc::alloc::{GlobalAlloc, Layout};
use core::ffi::c_void;
use core::mem;
use core::ptr;
use core::sync::atomic::{AtomicPtr, AtomicU8, Ordering};

#[repr(C)]
struct Allocation {
    is_ok: bool,
    at: *mut c_void,
}

impl Allocation {
    fn pointer(self) -> *mut u8 {
        if self.is_ok {
            self.at.cast()
        } else {
            ptr::null_mut()
        }
    }
}

/// The functions of the program, each of which may be missing.
#[repr(C)]
struct Functions {
    alloc: Option<unsafe extern "C" fn(usize, usize) -> Allocation>,
    realloc: Option<unsafe extern "C" fn(*mut c_void, usize, usize, usize) -> Allocation>,
    dealloc: Option<unsafe extern "C" fn(*mut c_void)>,
}

// Rust cannot make weak references, so the assembler makes the table. The linker or the loader
// writes the address of each function into it, or null.
#[cfg(target_pointer_width = "64")]
macro_rules! word {
    ($name:literal) => {
        concat!(".8byte ", $name)
    };
}
#[cfg(target_pointer_width = "32")]
macro_rules! word {
    ($name:literal) => {
        concat!(".4byte ", $name)
    };
}
#[cfg(all(unix, not(target_vendor = "apple")))]
core::arch::global_asm!(
    ".pushsection .data.rel.ro.functions_of_program,\"aw\",%progbits",
    ".weak rattle_alloc",
    ".weak rattle_realloc",
    ".weak rattle_dealloc",
    ".balign 8",
    ".globl functions_of_program",
    ".hidden functions_of_program",
    "functions_of_program:",
    word!("rattle_alloc"),
    word!("rattle_realloc"),
    word!("rattle_dealloc"),
    ".popsection",
);

#[cfg(all(unix, not(target_vendor = "apple")))]
unsafe extern "C" {
    static functions_of_program: Functions;
}

// Without an operating system the three functions are referred to like any other function.
#[cfg(target_os = "none")]
unsafe extern "C" {
    fn rattle_alloc(length: usize, alignment: usize) -> Allocation;
    fn rattle_realloc(at: *mut c_void, kept: usize, length: usize, alignment: usize) -> Allocation;
    fn rattle_dealloc(at: *mut c_void);
}

#[cfg(target_os = "none")]
#[allow(non_upper_case_globals)]
static functions_of_program: Functions = Functions {
    alloc: Some(rattle_alloc),
    realloc: Some(rattle_realloc),
    dealloc: Some(rattle_dealloc),
};

// Other systems have no weak references of this form, so the library uses malloc there.
#[cfg(not(any(all(unix, not(target_vendor = "apple")), target_os = "none")))]
#[allow(non_upper_case_globals)]
static functions_of_program: Functions = Functions {
    alloc: None,
    realloc: None,
    dealloc: None,
};

#[cfg(not(target_os = "none"))]
unsafe extern "C" {
    fn malloc(length: usize) -> *mut c_void;
    fn realloc(at: *mut c_void, length: usize) -> *mut c_void;
    fn free(at: *mut c_void);
}

#[cfg(target_os = "none")]
mod no_malloc {
    //! Takes the place of malloc on systems where the program always has the three functions.

    use core::ffi::c_void;
    use core::ptr::null_mut;

    pub unsafe fn malloc(_length: usize) -> *mut c_void {
        null_mut()
    }

    pub unsafe fn realloc(_at: *mut c_void, _length: usize) -> *mut c_void {
        null_mut()
    }

    pub unsafe fn free(_at: *mut c_void) {}
}
#[cfg(target_os = "none")]
use no_malloc::{free, malloc, realloc};

/// The alignment that malloc guarantees. The library asks for an alignment of at most 16, which is
/// more than malloc guarantees on some 32-bit targets.
const MALLOC_ALIGNMENT: usize = 2 * size_of::<usize>();

/// Allocates a block from the C library.
unsafe fn of_malloc(layout: Layout) -> *mut u8 {
    #[cfg(all(unix, target_pointer_width = "32"))]
    if layout.align() > MALLOC_ALIGNMENT {
        unsafe extern "C" {
            fn aligned_alloc(alignment: usize, length: usize) -> *mut c_void;
        }
        let length = layout.pad_to_align().size();
        // SAFETY: the length is a multiple of the alignment, which is a power of two.
        return unsafe { aligned_alloc(layout.align(), length) }.cast();
    }
    if layout.align() > MALLOC_ALIGNMENT {
        return ptr::null_mut();
    }
    // SAFETY: the length is not 0.
    unsafe { malloc(layout.size()) }.cast()
}

/// Changes the length of a block, which may move.
unsafe fn again_of_malloc(at: *mut u8, layout: Layout, length: usize) -> *mut u8 {
    if layout.align() <= MALLOC_ALIGNMENT {
        // SAFETY: the block came from malloc, and the length is not 0.
        return unsafe { realloc(at.cast(), length) }.cast();
    }
    let Ok(wanted) = Layout::from_size_align(length, layout.align()) else {
        return ptr::null_mut();
    };
    // SAFETY: the block came from malloc. The blocks are long enough and do not overlap.
    unsafe {
        let to = of_malloc(wanted);
        if !to.is_null() {
            ptr::copy_nonoverlapping(at, to, layout.size().min(length));
            free(at.cast());
        }
        to
    }
}

/// Nothing has been allocated, and no functions were passed.
const UNDECIDED: u8 = 0;
/// The three functions of the program.
const OF_PROGRAM: u8 = 1;
/// malloc.
const OF_LIBC: u8 = 2;
/// The functions that were passed.
const PASSED: u8 = 3;
/// No allocator, because the program has only some of the three functions.
const NOTHING: u8 = 4;

/// The allocator that was chosen.
static CHOSEN: AtomicU8 = AtomicU8::new(UNDECIDED);

/// The functions that were passed, in the order of `stunp_set_memory`.
static ALLOCATE: AtomicPtr<c_void> = AtomicPtr::new(ptr::null_mut());
static RESIZE: AtomicPtr<c_void> = AtomicPtr::new(ptr::null_mut());
static RELEASE: AtomicPtr<c_void> = AtomicPtr::new(ptr::null_mut());

type Allocate = unsafe extern "C" fn(usize) -> *mut c_void;
type Resize = unsafe extern "C" fn(*mut c_void, usize) -> *mut c_void;
type Release = unsafe extern "C" fn(*mut c_void);

/// The alignment that the functions which are passed must guarantee.
const PASSED_ALIGNMENT: usize = 16;

/// Sets the functions that allocate, in place of malloc, realloc and free. Returns 0, or an error
/// code of `include/stunp.h`: STUNP_BAD_ARGUMENT if a function is null, STUNP_ALREADY_IN_PROGRESS
/// if the allocator has been chosen already.
#[unsafe(no_mangle)]
pub extern "C" fn stunp_set_memory(
    allocate: Option<Allocate>,
    resize: Option<Resize>,
    release: Option<Release>,
) -> i64 {
    let (Some(allocate), Some(resize), Some(release)) = (allocate, resize, release) else {
        return -7;
    };
    if CHOSEN.load(Ordering::Acquire) != UNDECIDED {
        return -20;
    }
    ALLOCATE.store(allocate as *mut c_void, Ordering::Relaxed);
    RESIZE.store(resize as *mut c_void, Ordering::Relaxed);
    RELEASE.store(release as *mut c_void, Ordering::Relaxed);
    CHOSEN.store(PASSED, Ordering::Release);
    0
}

/// The functions of the program, each of which may be missing.
#[allow(unused_unsafe)]
fn functions() -> &'static Functions {
    // SAFETY: nothing writes to the table after the program has started.
    unsafe { &functions_of_program }
}

/// Returns the allocator, which is chosen when the first block is allocated. Threads that call this
/// at the same time get the same result.
fn chosen() -> u8 {
    let chosen = CHOSEN.load(Ordering::Acquire);
    if chosen != UNDECIDED {
        return chosen;
    }
    let Functions {
        alloc,
        realloc,
        dealloc,
    } = functions();
    let found = match (alloc, realloc, dealloc) {
        (Some(_), Some(_), Some(_)) => OF_PROGRAM,
        (None, None, None) => OF_LIBC,
        _ => NOTHING,
    };
    CHOSEN.store(found, Ordering::Release);
    found
}

/// Returns a block that the passed functions have allocated, if it is aligned. Otherwise frees the
/// block and returns null.
unsafe fn aligned(at: *mut c_void) -> *mut u8 {
    if at.addr() % PASSED_ALIGNMENT == 0 {
        return at.cast();
    }
    // SAFETY: the block came from these functions, and nothing uses it.
    unsafe { free_of_passed(at) };
    ptr::null_mut()
}

unsafe fn alloc_of_passed(layout: Layout) -> *mut u8 {
    // SAFETY: `stunp_set_memory` stored a function of this type. The length is not 0.
    unsafe {
        let allocate: Allocate = mem::transmute(ALLOCATE.load(Ordering::Relaxed));
        aligned(allocate(layout.size()))
    }
}

/// Changes the length of a block, which may move.
unsafe fn realloc_of_passed(at: *mut u8, layout: Layout, length: usize) -> *mut u8 {
    let Ok(wanted) = Layout::from_size_align(length, layout.align()) else {
        return ptr::null_mut();
    };
    // SAFETY: `stunp_set_memory` stored a function of this type. The block came from these
    // functions, and the length is not 0. Two blocks do not overlap.
    unsafe {
        let resize: Resize = mem::transmute(RESIZE.load(Ordering::Relaxed));
        if layout.align() <= MALLOC_ALIGNMENT {
            return resize(at.cast(), length).cast();
        }
        let to = alloc_of_passed(wanted);
        if !to.is_null() {
            ptr::copy_nonoverlapping(at, to, layout.size().min(length));
            free_of_passed(at.cast());
        }
        to
    }
}

unsafe fn free_of_passed(at: *mut c_void) {
    // SAFETY: `stunp_set_memory` stored a function of this type, and the block came from these
    // functions.
    unsafe {
        let release: Release = mem::transmute(RELEASE.load(Ordering::Relaxed));
        release(at);
    }
}

struct Memory;

// SAFETY: a block has the length and the alignment that were requested, until it is freed. The
// headers require this of the program's functions, and malloc guarantees it. Each block is freed by
// the allocator that it came from, because `chosen` returns the same allocator from the first block
// on. No requested layout has a length of 0.
unsafe impl GlobalAlloc for Memory {
    unsafe fn alloc(&self, layout: Layout) -> *mut u8 {
        match (chosen(), functions().alloc) {
            // SAFETY: as above.
            (OF_PROGRAM, Some(alloc)) => unsafe { alloc(layout.size(), layout.align()) }.pointer(),
            // SAFETY: as above.
            (OF_LIBC, _) => unsafe { of_malloc(layout) },
            // SAFETY: as above.
            (PASSED, _) => unsafe { alloc_of_passed(layout) },
            _ => ptr::null_mut(),
        }
    }

    unsafe fn realloc(&self, at: *mut u8, layout: Layout, length: usize) -> *mut u8 {
        let kept = layout.size().min(length);
        match (chosen(), functions().realloc) {
            // SAFETY: the block came from `alloc` or from this function.
            (OF_PROGRAM, Some(again)) => {
                unsafe { again(at.cast(), kept, length, layout.align()) }.pointer()
            }
            // SAFETY: as above.
            (OF_LIBC, _) => unsafe { again_of_malloc(at, layout, length) },
            // SAFETY: as above.
            (PASSED, _) => unsafe { realloc_of_passed(at, layout, length) },
            _ => ptr::null_mut(),
        }
    }

    unsafe fn dealloc(&self, at: *mut u8, _layout: Layout) {
        match (chosen(), functions().dealloc) {
            // SAFETY: the block came from `alloc` or from `realloc`.
            (OF_PROGRAM, Some(dealloc)) => unsafe { dealloc(at.cast()) },
            // SAFETY: as above.
            (PASSED, _) => unsafe { free_of_passed(at.cast()) },
            // SAFETY: as above.
            _ => unsafe { free(at.cast()) },
        }
    }
}

#[global_allocator]
static MEMORY: Memory = Memory;
