//! The library's functions over memory that is lent as words, and the layout of what they give. All that is unsafe in this crate is
//! here: each call hands over a slice's own pointer and length, and the library takes every value there.

/// The words of an end: 474 of its own, then 32 of its setup.
pub const END_WORDS: usize = 506;

/// Answer and detail of a step.
#[repr(C)]
#[derive(Clone, Copy, Debug, PartialEq, Eq)]
pub struct Said {
    pub answer: u8,
    pub detail: u32,
}

/// What Send gives: a frame of two words, both 0 where there is none.
#[repr(C)]
#[derive(Clone, Copy, Debug, PartialEq, Eq)]
pub struct Sending {
    pub answer: u8,
    pub detail: u32,
    pub head: u64,
    pub rest: u64,
}

// The layout that the library was compiled with.
macro_rules! layout {
    ($type:ident, size $size:expr, align $align:expr, $($field:ident at $at:expr),+) => {
        const _: () = assert!(std::mem::size_of::<$type>() == $size);
        const _: () = assert!(std::mem::align_of::<$type>() == $align);
        $(const _: () = assert!(std::mem::offset_of!($type, $field) == $at);)+
    };
}

layout!(Said, size 8, align 4, answer at 0, detail at 4);
layout!(Sending, size 24, align 8, answer at 0, detail at 4, head at 8, rest at 16);

/// As the library has them: words or bytes are a pointer and how many there are.
mod library {
    use super::{Said, Sending};

    extern "C" {
        pub fn end_start(m: *mut u64, words: usize, setup: *const u8, bytes: usize, which: u8) -> u8;
        pub fn end_submit(m: *mut u64, words: usize, kind: u8, class: u8, length: u16, ident: u32) -> u8;
        pub fn end_send(m: *mut u64, words: usize) -> Sending;
        pub fn end_arrive(m: *mut u64, words: usize, head: u64, rest: u64) -> Said;
        pub fn end_damage(m: *mut u64, words: usize, head: u64, rest: u64) -> Said;
        pub fn end_take(m: *mut u64, words: usize, channel: u8, category: u8) -> Said;
        pub fn end_timer(m: *mut u64, words: usize) -> u8;
        pub fn end_refresh(m: *mut u64, words: usize) -> u8;
        pub fn end_shape(m: *const u64, words: usize) -> u8;
        pub fn end_retrains(m: *const u64, words: usize) -> u16;
    }
}

// SAFETY of every call below: the slice is borrowed for the call, and its pointer leads to as many words or bytes as are said.

/// Memory of another length answers 7.
pub fn start(m: &mut [u64], setup: &[u8], which: u8) -> u8 {
    unsafe { library::end_start(m.as_mut_ptr(), m.len(), setup.as_ptr(), setup.len(), which) }
}

/// Memory of another length answers 10 here and in each step below.
pub fn submit(m: &mut [u64], kind: u8, class: u8, length: u16, ident: u32) -> u8 {
    unsafe { library::end_submit(m.as_mut_ptr(), m.len(), kind, class, length, ident) }
}

pub fn send(m: &mut [u64]) -> Sending {
    unsafe { library::end_send(m.as_mut_ptr(), m.len()) }
}

pub fn arrive(m: &mut [u64], head: u64, rest: u64) -> Said {
    unsafe { library::end_arrive(m.as_mut_ptr(), m.len(), head, rest) }
}

pub fn damage(m: &mut [u64], head: u64, rest: u64) -> Said {
    unsafe { library::end_damage(m.as_mut_ptr(), m.len(), head, rest) }
}

pub fn take(m: &mut [u64], channel: u8, category: u8) -> Said {
    unsafe { library::end_take(m.as_mut_ptr(), m.len(), channel, category) }
}

pub fn timer(m: &mut [u64]) -> u8 {
    unsafe { library::end_timer(m.as_mut_ptr(), m.len()) }
}

pub fn refresh(m: &mut [u64]) -> u8 {
    unsafe { library::end_refresh(m.as_mut_ptr(), m.len()) }
}

/// 10 where the state is out of shape, else 0.
pub fn shape(m: &[u64]) -> u8 {
    unsafe { library::end_shape(m.as_ptr(), m.len()) }
}

/// 0 for memory of another length.
pub fn retrains(m: &[u64]) -> u16 {
    unsafe { library::end_retrains(m.as_ptr(), m.len()) }
}
