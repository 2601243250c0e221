//! Aborts the program where Rust would panic. The sources are proved not to panic.

use core::panic::PanicInfo;

unsafe extern "C" {
    fn abort() -> !;
}

#[panic_handler]
fn on_panic(_: &PanicInfo<'_>) -> ! {
    // SAFETY: the C library has `abort`, or a program without a C library defines it.
    unsafe { abort() }
}

/// The function that unwinding would call. Nothing unwinds, but the `core` of some targets refers
/// to it.
#[unsafe(no_mangle)]
extern "C" fn rust_eh_personality() {}
