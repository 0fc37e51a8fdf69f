//! The library's entries on lent bytes of any length, giving its numbers as they are. For those who keep records in
//! memory of their own; everything else in this crate is made of these. Each call into the library stands here.

/// What a load or a reply gives: 0 and 0 if it is accepted, else the refusal and its place.
#[repr(C)]
#[derive(Clone, Copy, Debug, PartialEq, Eq)]
pub struct Verdict {
    /// 0, or the refusal's number.
    pub refusal: u32,
    /// The row, counted from 0, where the refusal names one, else 0.
    pub place: u32,
}

/// What a run gives. A refused run gives its refusal and three zeros.
#[repr(C)]
#[derive(Clone, Copy, Debug, PartialEq, Eq)]
pub struct RunAnswer {
    /// 0 if it ran, or the refusal's number.
    pub refusal: u32,
    /// The answer's number.
    pub answer: u32,
    /// The number of the call that was sent, or 0.
    pub sent: u32,
    /// The steps made.
    pub steps: u32,
}

/// As include/tca.h declares them.
mod library {
    #[cfg(feature = "run")]
    use super::RunAnswer;
    use super::Verdict;

    extern "C" {
        pub fn tca_load(file: *const u8, file_len: usize, record: *mut u8, record_len: usize) -> Verdict;

        #[cfg(feature = "run")]
        pub fn tca_run(record: *mut u8, record_len: usize, work: *mut u8, work_len: usize, budget: u32) -> RunAnswer;

        pub fn tca_reply(
            record: *mut u8,
            record_len: usize,
            work: *mut u8,
            work_len: usize,
            reply: *const u8,
            reply_len: usize,
        ) -> Verdict;
    }
}

// The address of an empty slice may dangle, and the library is never lent an address that dangles: NULL, which
// include/tca.h allows for a length of 0, stands for it.

fn address(bytes: &[u8]) -> *const u8 {
    if bytes.is_empty() {
        return std::ptr::null();
    }
    bytes.as_ptr()
}

fn address_to_write(bytes: &mut [u8]) -> *mut u8 {
    if bytes.is_empty() {
        return std::ptr::null_mut();
    }
    bytes.as_mut_ptr()
}

/// Loads a program file into a record.
pub fn load(file: &[u8], record: &mut [u8]) -> Verdict {
    // SAFETY: the addresses are those of slices of the stated lengths, which stay lent for the whole call; being lent,
    // the one to be written is shared with nobody.
    unsafe { library::tca_load(address(file), file.len(), address_to_write(record), record.len()) }
}

/// Runs a record for at most the budget's steps. With the feature `run` only.
#[cfg(feature = "run")]
pub fn run(record: &mut [u8], work: &mut [u8], budget: u32) -> RunAnswer {
    // SAFETY: as for `load`; two slices lent to be written share no byte.
    unsafe { library::tca_run(address_to_write(record), record.len(), address_to_write(work), work.len(), budget) }
}

/// Takes a reply into a record.
pub fn reply(record: &mut [u8], work: &mut [u8], reply: &[u8]) -> Verdict {
    // SAFETY: as for `load`; two slices lent to be written share no byte.
    unsafe {
        library::tca_reply(
            address_to_write(record),
            record.len(),
            address_to_write(work),
            work.len(),
            address(reply),
            reply.len(),
        )
    }
}
