//! Memory given back stays with the process, as in a program that surveys again
//! and again: else, by where things happen to lie, the system takes it and lends
//! it anew in every call, and a peer pays for that.

/// As the C library numbers what can be set.
const TRIM_THRESHOLD: i32 = -1;
const MMAP_THRESHOLD: i32 = -3;

/// More bytes than any peer takes, and the most that can be set.
const KEPT: i32 = 1 << 25;

extern "C" {
    fn mallopt(what: i32, bytes: i32) -> i32;
}

pub fn keep() {
    for what in [TRIM_THRESHOLD, MMAP_THRESHOLD] {
        // The call only changes numbers of the allocator's own.
        let status = unsafe { mallopt(what, KEPT) };
        assert_eq!(status, 1, "the allocator can be told to keep memory");
    }
}
