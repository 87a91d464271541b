//! stand-in for nix: `write` copies to the memory that stands for the terminal, as the record of the library does
pub type Result<T> = std::result::Result<T, errno::Errno>;
pub mod errno {
    #[derive(Clone, Copy, Debug, PartialEq, Eq)]
    pub enum Errno { EINTR, EIO, ENOSPC }
}
pub mod poll {
    pub struct PollTimeout;
    impl PollTimeout { pub const ZERO: PollTimeout = PollTimeout; }
    impl From<u8> for PollTimeout { fn from(_: u8) -> Self { PollTimeout } }
}
pub mod term {
    use std::cell::Cell;
    /// where the memory begins, how much it holds, how much of it is filled
    thread_local! { pub static SINK: Cell<(*mut u8, usize, usize)> = const { Cell::new((std::ptr::null_mut(), 0, 0)) }; }
    /// what stands between the crate's callers and its `write_all` in the oracle does nothing here
    #[inline(always)]
    pub fn begin_write_all(_: &[u8]) {}
}
pub mod unistd {
    use super::errno::Errno;
    use super::term::SINK;
    pub fn write<F>(_fd: F, bytes: &[u8]) -> super::Result<usize> {
        let (at, cap, len) = SINK.get();
        let count = bytes.len().min(cap - len);
        if count == 0 { return Err(Errno::ENOSPC); }
        // SAFETY: the memory holds `cap` bytes, and `len + count` is at most that
        unsafe { std::ptr::copy_nonoverlapping(bytes.as_ptr(), at.add(len), count); }
        SINK.set((at, cap, len + count));
        Ok(count)
    }
}
