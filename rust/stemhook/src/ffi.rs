//! The exported calls of the static library: the one place with `unsafe`.

/// Calls declared as the header `include/stemhook.h` has them.
mod exported {
    unsafe extern "C" {
        pub fn stemhook_check(job: *const u8, length: usize) -> u64;

        pub fn stemhook_offer(
            job: *const u8,
            length: usize,
            reading: u32,
            request: u32,
            offer: u32,
            out: *mut u8,
            out_length: usize,
        ) -> u32;
    }
}

/// The check call: the position times 256, plus the refusal; 0 for an accepted job.
pub fn check(job: &[u8]) -> u64 {
    // SAFETY: pointer and length are those of one slice, which the call only
    // reads, within its length and before it returns.
    unsafe { exported::stemhook_check(job.as_ptr(), job.len()) }
}

/// The offer call: 0 and the 40 bytes written, 1 past the list, or a refusal.
pub fn offer(job: &[u8], reading: u32, request: u32, offer: u32, out: &mut [u8]) -> u32 {
    // SAFETY: each pointer and length are those of one slice. The call reads
    // the first and writes the second, within their lengths and before it
    // returns; the second is lent for writing, so the two do not overlap. Any
    // numbers are accepted.
    unsafe {
        exported::stemhook_offer(
            job.as_ptr(),
            job.len(),
            reading,
            request,
            offer,
            out.as_mut_ptr(),
            out.len(),
        )
    }
}
