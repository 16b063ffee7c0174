//! The six functions of the proved library as its C interface has them
//! (`host/policybook.h`): buffers are lent, and the answer is one number. The tool and
//! the differential test (`differential/`) call the library here.

mod foreign {
    extern "C" {
        pub fn policybook_build(policy: *const u8, policy_len: usize, book: *mut u8, book_len: usize) -> u64;
        #[allow(clippy::too_many_arguments)]
        pub fn policybook_verdict(
            book: *const u8,
            book_len: usize,
            conflict: *mut u8,
            conflict_len: usize,
            missing: *mut u8,
            missing_len: usize,
            blocked: *mut u8,
            blocked_len: usize,
        ) -> u64;
        pub fn policybook_compare(
            first: *const u8,
            first_len: usize,
            second: *const u8,
            second_len: usize,
            history: *mut u8,
            history_len: usize,
        ) -> u64;
        pub fn policybook_page(book: *const u8, book_len: usize, page: *mut u8, page_len: usize) -> u64;
        pub fn policybook_way(
            book: *const u8,
            book_len: usize,
            request: usize,
            outcome: usize,
            history: *mut u8,
            history_len: usize,
        ) -> u64;
        pub fn policybook_same_bytes(first: *const u8, first_len: usize, second: *const u8, second_len: usize) -> u64;
    }
}

/// The answer of build on a policy; the book is written to the buffer.
pub fn build(policy: &[u8], book: &mut [u8]) -> u64 {
    // SAFETY: each pointer is valid for its length, and a `&mut` overlaps with nothing else.
    unsafe { foreign::policybook_build(policy.as_ptr(), policy.len(), book.as_mut_ptr(), book.len()) }
}

/// The answer of verdict on a book; the histories are written to the buffers.
pub fn verdict(book: &[u8], conflict: &mut [u8], missing: &mut [u8], blocked: &mut [u8]) -> u64 {
    // SAFETY: as for build.
    unsafe {
        foreign::policybook_verdict(
            book.as_ptr(),
            book.len(),
            conflict.as_mut_ptr(),
            conflict.len(),
            missing.as_mut_ptr(),
            missing.len(),
            blocked.as_mut_ptr(),
            blocked.len(),
        )
    }
}

/// The answer of compare on two books; the history is written to the buffer.
pub fn compare(first: &[u8], second: &[u8], history: &mut [u8]) -> u64 {
    // SAFETY: as for build.
    unsafe {
        foreign::policybook_compare(
            first.as_ptr(),
            first.len(),
            second.as_ptr(),
            second.len(),
            history.as_mut_ptr(),
            history.len(),
        )
    }
}

/// The answer of page on a book; the page is written to the buffer.
pub fn page(book: &[u8], page: &mut [u8]) -> u64 {
    // SAFETY: as for build.
    unsafe { foreign::policybook_page(book.as_ptr(), book.len(), page.as_mut_ptr(), page.len()) }
}

/// The answer of way on a book, a request and an outcome; the history is written to the buffer.
pub fn way(book: &[u8], request: usize, outcome: usize, history: &mut [u8]) -> u64 {
    // SAFETY: as for build.
    unsafe { foreign::policybook_way(book.as_ptr(), book.len(), request, outcome, history.as_mut_ptr(), history.len()) }
}

/// The answer of same_bytes on two byte strings, which may overlap.
pub fn same_bytes(first: &[u8], second: &[u8]) -> u64 {
    // SAFETY: each pointer is valid for its length, and nothing is written.
    unsafe { foreign::policybook_same_bytes(first.as_ptr(), first.len(), second.as_ptr(), second.len()) }
}
