//! Acts played by the library into memory.

/// an act as numbers, as `bench_lib::deed::Deed` has them
#[repr(C)]
#[derive(Clone, Copy)]
pub struct Deed {
    pub kind: u16,
    pub count: u16,
    pub pos: usize,
    pub from: usize,
    pub len: usize,
}

/// as `bench_lib::play::Played`
#[repr(C)]
#[derive(Clone, Copy)]
pub struct Played {
    pub accepted: usize,
    pub written: usize,
}

unsafe extern "C" {
    // a slice crosses as a pointer and a length, and the allocator as nothing
    fn bench_lib_play(cols: u16, rows: u16, colours: bool, room: usize, deeds: *const Deed, many: usize, texts: *const u8, len: usize,
        out: *mut u8, front: usize) -> Played;
}

/// plays acts behind a create: how many were accepted, create included, and how many bytes were written
/// on a terminal that keeps `room` bytes; `out` gets the first of them
pub fn play(cols: u16, rows: u16, colours: bool, room: usize, deeds: &[Deed], texts: &[u8], out: &mut [u8]) -> (usize, usize) {
    // SAFETY: pointers and lengths are those of three slices that are lent for the call, and the function asks nothing more
    let p = unsafe {
        bench_lib_play(cols, rows, colours, room, deeds.as_ptr(), deeds.len(), texts.as_ptr(), texts.len(), out.as_mut_ptr(), out.len())
    };
    (p.accepted, p.written)
}
