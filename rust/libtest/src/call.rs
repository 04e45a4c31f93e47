//! What a library under test offers.

pub use directives::{Call, Directive};

/// The buffers that a caller lends to a call.
pub struct Buffers<'a> {
    pub record: &'a mut [u32],
    pub memory: &'a mut [u32],
    /// The answer; for a read, the room for the segment's words; a write does
    /// not use it.
    pub answer: &'a mut [u32],
}

/// The functions of the library's header.
pub trait Library {
    /// Makes a call and gives what the function returns: the status, or for a
    /// read the number of words of the segment.
    fn call(&mut self, buffers: Buffers, call: &Call) -> usize;
}
