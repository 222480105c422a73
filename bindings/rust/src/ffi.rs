//! The library's functions, as include/plumtree.h declares them, and a safe function above each. All `unsafe` of this crate is here.
//!
//! Why the calls are sound. The library's functions are proved for every value of their arguments; a caller owes what the types mean:
//! pointers that are valid for their lengths, exclusive where they are not `const`, fewer than 2^63 bytes each, and bytes that have been
//! written. A Rust slice or reference is all of that for as long as it is lent, and each is lent here for the call alone: the
//! library keeps no pointer (it has no variable of its own). An empty slice's pointer may be dangling, which the library allows. The structs
//! are `repr(C)` with the header's fields in its order.
#![allow(unsafe_code)]

use crate::{Limits, LinkRoom, Settings, Stats};

/// A call's answer.
#[repr(C)]
#[derive(Clone, Copy, Debug, PartialEq, Eq)]
pub struct Answer {
    /// 0, or the number of the first question that is answered no.
    pub number: u8,
    /// How many bytes the call wrote into the output, actions or a message; 0 where the number is not 0.
    pub length: usize,
}

/// Whether two blocks are alike.
#[repr(C)]
#[derive(Clone, Copy, Debug, PartialEq, Eq)]
pub struct Likeness {
    /// 0, or 5 where either block is not whole.
    pub number: u8,
    /// Whether they are alike; false where the number is not 0.
    pub alike: bool,
}

#[cfg_attr(plumtree_missing, allow(clashing_extern_declarations))]
extern "C" {
    #[cfg_attr(plumtree_missing, link_name = env!("PLUMTREE_MISSING"))]
    fn plumtree_block_size(limits: Limits) -> usize;
    #[cfg_attr(plumtree_missing, link_name = env!("PLUMTREE_MISSING"))]
    fn plumtree_create(block: *mut u8, block_length: usize, counts: *mut Stats, settings: Settings, limits: Limits) -> Answer;
    #[cfg_attr(plumtree_missing, link_name = env!("PLUMTREE_MISSING"))]
    fn plumtree_event(
        block: *mut u8,
        block_length: usize,
        counts: *mut Stats,
        at: u64,
        event: *const u8,
        event_length: usize,
        rooms: *const LinkRoom,
        rooms_length: usize,
        output: *mut u8,
        output_length: usize,
    ) -> Answer;
    #[cfg_attr(plumtree_missing, link_name = env!("PLUMTREE_MISSING"))]
    fn plumtree_alike(a: *const u8, a_length: usize, b: *const u8, b_length: usize) -> Likeness;
    #[cfg_attr(plumtree_missing, link_name = env!("PLUMTREE_MISSING"))]
    fn plumtree_limit_met(
        block: *const u8,
        block_length: usize,
        at: u64,
        event: *const u8,
        event_length: usize,
        rooms: *const LinkRoom,
        rooms_length: usize,
    ) -> u8;
    #[cfg_attr(plumtree_missing, link_name = env!("PLUMTREE_MISSING"))]
    fn plumtree_rewrite(message: *const u8, message_length: usize, output: *mut u8, output_length: usize) -> Answer;
    #[cfg_attr(plumtree_missing, link_name = env!("PLUMTREE_MISSING"))]
    fn plumtree_save(block: *const u8, block_length: usize, counts: Stats, area: *mut u8, area_length: usize, name: u64) -> Answer;
    #[cfg_attr(plumtree_missing, link_name = env!("PLUMTREE_MISSING"))]
    fn plumtree_return(block: *mut u8, block_length: usize, counts: *mut Stats, area: *const u8, area_length: usize, name: u64) -> Answer;
}

/// How many bytes a block of these limits needs, or 0 where a limit is out of range.
pub fn block_size(limits: Limits) -> usize {
    // SAFETY: no pointer is passed.
    unsafe { plumtree_block_size(limits) }
}

/// Makes the block a new panel and the counts zero: questions 1 to 4. A refused creation leaves both as they are.
pub fn create(block: &mut [u8], counts: &mut Stats, settings: Settings, limits: Limits) -> Answer {
    // SAFETY: `block` and `counts` are exclusive references, so valid for the call and apart from each other.
    unsafe { plumtree_create(block.as_mut_ptr(), block.len(), counts, settings, limits) }
}

/// One event at a time in milliseconds: questions 5 to 9, 23 and 10 to 14. The first `length` bytes of the output are the actions. A refused call
/// leaves block, counts and output as they are.
pub fn event(block: &mut [u8], counts: &mut Stats, at: u64, event: &[u8], rooms: &[LinkRoom], output: &mut [u8]) -> Answer {
    // SAFETY: `block`, `counts` and `output` are exclusive references, so valid for the call and apart from each other and from the two
    // shared ones, which are valid for reading and which nobody writes before the call returns.
    unsafe {
        plumtree_event(
            block.as_mut_ptr(),
            block.len(),
            counts,
            at,
            event.as_ptr(),
            event.len(),
            rooms.as_ptr(),
            rooms.len(),
            output.as_mut_ptr(),
            output.len(),
        )
    }
}

/// Whether two blocks are alike: they hold the same, each list in its order ([`alike`](crate::alike)).
pub fn alike(a: &[u8], b: &[u8]) -> Likeness {
    // SAFETY: both are shared references, valid for reading; they may be the same.
    unsafe { plumtree_alike(a.as_ptr(), a.len(), b.as_ptr(), b.len()) }
}

/// Which limit a call met that is answered 13: its number, from 1 to 9, or 0 where the call, with the counts zero, is not answered 13.
pub fn limit_met(block: &[u8], at: u64, event: &[u8], rooms: &[LinkRoom]) -> u8 {
    // SAFETY: the three are shared references, valid for reading.
    unsafe { plumtree_limit_met(block.as_ptr(), block.len(), at, event.as_ptr(), event.len(), rooms.as_ptr(), rooms.len()) }
}

/// A message in its shortest form: questions 7, 8, 9 and 14. The first `length` bytes of the output are the message. A refused call leaves the output
/// as it is.
pub fn rewrite(message: &[u8], output: &mut [u8]) -> Answer {
    // SAFETY: `output` is an exclusive reference, so valid for the call and apart from `message`, which is valid for reading and which nobody writes
    // before the call returns.
    unsafe { plumtree_rewrite(message.as_ptr(), message.len(), output.as_mut_ptr(), output.len()) }
}

/// A saving of block and counts into the area under a name, the number of its eight bytes, the first one lowest: questions 5, 17 and 16. The length is
/// 0. A refused call leaves the area as it is.
pub fn save(block: &[u8], counts: Stats, area: &mut [u8], name: u64) -> Answer {
    // SAFETY: `area` is an exclusive reference, so valid for the call and apart from `block`, which is valid for reading and which nobody writes before
    // the call returns.
    unsafe { plumtree_save(block.as_ptr(), block.len(), counts, area.as_mut_ptr(), area.len(), name) }
}

/// A return (`plumtree_return`) to the block and counts that the area keeps under a name: questions 5, of the block as it is lent, 17 and 15. The length
/// is 0. A refused call leaves block and counts as they are.
pub fn go_back(block: &mut [u8], counts: &mut Stats, area: &[u8], name: u64) -> Answer {
    // SAFETY: `block` and `counts` are exclusive references, so valid for the call and apart from each other and from `area`, which is valid for
    // reading and which nobody writes before the call returns.
    unsafe { plumtree_return(block.as_mut_ptr(), block.len(), counts, area.as_ptr(), area.len(), name) }
}
