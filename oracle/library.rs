//! Our library, through its C interface.

unsafe extern "C" {
    fn statement_read(
        bytes: *const u8,
        bytes_len: usize,
        records: *mut u64,
        records_len: usize,
        outcome: *mut u64,
        outcome_len: usize,
    ) -> u64;

    fn statement_steps(
        bytes: *const u8,
        bytes_len: usize,
        queries: *mut u64,
        queries_len: usize,
        separators: *mut u64,
        separators_len: usize,
        outcome: *mut u64,
        outcome_len: usize,
    ) -> u64;

    fn statement_fill(
        bytes: *const u8,
        bytes_len: usize,
        queries: *mut u64,
        queries_len: usize,
        separators: *mut u64,
        separators_len: usize,
        outcome: *mut u64,
        outcome_len: usize,
    ) -> u64;

    fn statement_count(bytes: *const u8, bytes_len: usize, outcome: *mut u64, outcome_len: usize) -> u64;

    fn statement_field(bytes: *const u8, bytes_len: usize, k: usize, field: usize) -> u64;

    fn statement_offset(bytes: *const u8, bytes_len: usize) -> u64;

    fn statement_part(
        bytes: *const u8,
        bytes_len: usize,
        start: usize,
        end: usize,
        out: *mut u8,
        out_len: usize,
        outcome: *mut u64,
        outcome_len: usize,
    ) -> u64;
}

/// Reads the bytes query by query, lending these words for the records. Answers how many queries were given.
pub fn read(bytes: &[u8], records: &mut [u64], outcome: &mut [u64]) -> u64 {
    // SAFETY: each pointer and length are those of one slice, lent for the call.
    unsafe {
        statement_read(
            bytes.as_ptr(),
            bytes.len(),
            records.as_mut_ptr(),
            records.len(),
            outcome.as_mut_ptr(),
            outcome.len(),
        )
    }
}

/// The same, with the separators too.
pub fn steps(bytes: &[u8], queries: &mut [u64], separators: &mut [u64], outcome: &mut [u64]) -> u64 {
    // SAFETY: as above.
    unsafe {
        statement_steps(
            bytes.as_ptr(),
            bytes.len(),
            queries.as_mut_ptr(),
            queries.len(),
            separators.as_mut_ptr(),
            separators.len(),
            outcome.as_mut_ptr(),
            outcome.len(),
        )
    }
}

/// Reads the bytes as a whole, lending these words. Answers how many queries there are, and 0 at a refusal.
pub fn fill(bytes: &[u8], queries: &mut [u64], separators: &mut [u64], outcome: &mut [u64]) -> u64 {
    // SAFETY: as above.
    unsafe {
        statement_fill(
            bytes.as_ptr(),
            bytes.len(),
            queries.as_mut_ptr(),
            queries.len(),
            separators.as_mut_ptr(),
            separators.len(),
            outcome.as_mut_ptr(),
            outcome.len(),
        )
    }
}

/// How many queries there are, and 0 at a refusal.
pub fn count(bytes: &[u8], outcome: &mut [u64]) -> u64 {
    // SAFETY: as above.
    unsafe { statement_count(bytes.as_ptr(), bytes.len(), outcome.as_mut_ptr(), outcome.len()) }
}

/// One word of query k.
pub fn field(bytes: &[u8], k: usize, field: usize) -> u64 {
    // SAFETY: as above.
    unsafe { statement_field(bytes.as_ptr(), bytes.len(), k, field) }
}

/// How many bytes the trim drops in front.
pub fn offset(bytes: &[u8]) -> u64 {
    // SAFETY: as above.
    unsafe { statement_offset(bytes.as_ptr(), bytes.len()) }
}

/// The bytes between two places, copied as far as there is room. Answers how many they are, and 0 at a refusal.
pub fn part(bytes: &[u8], start: usize, end: usize, out: &mut [u8], outcome: &mut [u64]) -> u64 {
    // SAFETY: as above.
    unsafe {
        statement_part(
            bytes.as_ptr(),
            bytes.len(),
            start,
            end,
            out.as_mut_ptr(),
            out.len(),
            outcome.as_mut_ptr(),
            outcome.len(),
        )
    }
}
