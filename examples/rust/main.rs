//! Builds a signed Binding request, and prints which signature of it is valid, through the archive
//! that C links too.
use std::process::ExitCode;

// As include/stunp.h declares them: a slice crosses as a pointer and a length.
#[link(name = "stun_c", kind = "static")]
unsafe extern "C" {
    fn stunp_verify(message: *const u8, length: usize, key: *const u8, key_length: usize) -> i64;
    fn stunp_build_signed(
        algorithm: u32,
        id: *const u8,
        id_length: usize,
        username: *const u8,
        username_length: usize,
        key: *const u8,
        key_length: usize,
        out: *mut u8,
        out_length: usize,
    ) -> i64;
}

/// Calls `stunp_verify`: the number of the algorithm whose signature is valid, or of the error.
fn verify(message: &[u8], key: &[u8]) -> i64 {
    // SAFETY: each pointer is that of a slice, with its length, borrowed for the call.
    unsafe { stunp_verify(message.as_ptr(), message.len(), key.as_ptr(), key.len()) }
}

/// Calls `stunp_build_signed`: the length of the request in the buffer, or the number of the error.
#[rustfmt::skip]
fn build(algorithm: u32, id: &[u8; 12], name: &str, key: &[u8], buffer: &mut [u8]) -> i64 {
    // SAFETY: as above, and `buffer` is borrowed mutably, so that it overlaps none of the others.
    unsafe {
        stunp_build_signed(
            algorithm, id.as_ptr(), id.len(), name.as_ptr(), name.len(), key.as_ptr(), key.len(),
            buffer.as_mut_ptr(), buffer.len(),
        )
    }
}

fn main() -> ExitCode {
    let (mut buffer, key) = ([0; 576], b"VOkJxbRl1RmTxUk/WvJxBt");
    for algorithm in [1, 2] {
        // A program takes its IDs from a random source (RFC 8489, section 5).
        let length = build(algorithm, b"an id apiece", "evtj:h6vY", key, &mut buffer);
        let answer = usize::try_from(length).map_or(length, |end| verify(&buffer[..end], key));
        println!("{answer}");
        if answer != i64::from(algorithm) {
            return ExitCode::FAILURE;
        }
    }
    ExitCode::SUCCESS
}
