//! The proved box through its C interface, include/bench_box.h, with Rust's slices for C's pointers and lengths.

/// Room for the record, with some to spare: BENCH_BOX_WORDS of the header is not more.
pub const WORDS: usize = 32;

#[repr(C)]
#[derive(Clone, Copy, PartialEq, Eq, Debug)]
pub struct Box {
    pub words: [u64; WORDS],
}

#[repr(C)]
#[derive(Clone, Copy, PartialEq, Eq, Debug, Default)]
pub struct Progress {
    pub read: usize,
    pub written: usize,
    pub ended: usize,
}

/// The functions as the header has them, for calls with the caller's own pointers.
pub mod c {
    use super::{Box, Progress};
    extern "C" {
        pub fn bench_box_fresh(words: *mut Box);
        pub fn bench_box_tick(words: *mut Box, ring_length: usize) -> u16;
        pub fn bench_box_perform(
            words: *mut Box,
            ring: *mut u8,
            ring_length: usize,
            reply: *mut u8,
            reply_length: usize,
            input: *const u8,
            input_length: usize,
            offset: u64,
            last: bool,
            line: *mut u8,
            line_length: usize,
            progress: *mut Progress,
        ) -> u16;
        pub fn bench_box_serve(
            words: *mut Box,
            ring: *mut u8,
            ring_length: usize,
            input: *const u8,
            input_length: usize,
            offset: u64,
            last: bool,
            lines: *mut u8,
            lines_length: usize,
            progress: *mut Progress,
        ) -> u16;
    }
}

impl Box {
    pub fn fresh() -> Box {
        let mut b = Box { words: [0; WORDS] };
        unsafe { c::bench_box_fresh(&mut b) };
        b
    }

    #[inline]
    pub fn tick(&mut self, ring_length: usize) -> u16 {
        unsafe { c::bench_box_tick(self, ring_length) }
    }

    #[inline]
    pub fn perform(
        &mut self,
        ring: &mut [u8],
        reply: &mut [u8],
        input: &[u8],
        offset: u64,
        last: bool,
        line: &mut [u8],
    ) -> (u16, Progress) {
        let mut p = Progress::default();
        let n = unsafe {
            c::bench_box_perform(
                self,
                ring.as_mut_ptr(),
                ring.len(),
                reply.as_mut_ptr(),
                reply.len(),
                input.as_ptr(),
                input.len(),
                offset,
                last,
                line.as_mut_ptr(),
                line.len(),
                &mut p,
            )
        };
        (n, p)
    }

    #[inline]
    pub fn serve(
        &mut self,
        ring: &mut [u8],
        input: &[u8],
        offset: u64,
        last: bool,
        lines: &mut [u8],
    ) -> (u16, Progress) {
        let mut p = Progress::default();
        let n = unsafe {
            c::bench_box_serve(
                self,
                ring.as_mut_ptr(),
                ring.len(),
                input.as_ptr(),
                input.len(),
                offset,
                last,
                lines.as_mut_ptr(),
                lines.len(),
                &mut p,
            )
        };
        (n, p)
    }
}
