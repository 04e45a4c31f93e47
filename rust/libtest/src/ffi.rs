//! The library under test, through the functions of its header.

use crate::call::{Buffers, Call, Library};
use crate::gauge::{Alarm, Gauge, Numbers};
use std::ptr;

/// Declares the functions of the table and calls the one of a call. All but
/// those on the words of a segment start with the three buffers.
macro_rules! link {
    (
        SCRIPT {
            $($Variant:ident $name:literal $function:ident
                $({ $($key:ident $(= $text:literal)?),* })? [$($status:literal),*];)*
        }
        LIBRARY { $($rest:tt)* }
    ) => {
        extern "C" {
            $(
                fn $function(
                    record: *mut u32,
                    record_words: usize,
                    memory: *mut u32,
                    memory_words: usize,
                    answer: *mut u32,
                    answer_words: usize,
                    $($($key: u32),*)?
                ) -> u32;
            )*
        }

        /// Calls the function of a call that fills in an answer.
        fn directive(buffers: Buffers, call: &Call) -> u32 {
            let Buffers { record, memory, answer } = buffers;
            match *call {
                $(
                    Call::$Variant $({ $($key),* })? => {
                        // SAFETY: each pointer comes from a slice of the length
                        // that is passed with it, and no two slices overlap, as
                        // all three are borrowed for writing.
                        unsafe {
                            $function(
                                pointer_mut(record),
                                record.len(),
                                pointer_mut(memory),
                                memory.len(),
                                pointer_mut(answer),
                                answer.len(),
                                $($($key),*)?
                            )
                        }
                    }
                )*
                Call::Read { .. } | Call::Write { .. } => unreachable!("these have no answer"),
            }
        }
    };
}

directives::with_table!(link);

extern "C" {
    fn sc_segment_read(
        record: *const u32,
        record_words: usize,
        memory: *const u32,
        memory_words: usize,
        words: *mut u32,
        words_count: usize,
        id: u32,
        address: u32,
    ) -> usize;

    fn sc_segment_write(
        record: *const u32,
        record_words: usize,
        memory: *mut u32,
        memory_words: usize,
        words: *const u32,
        words_count: usize,
        id: u32,
        address: u32,
        first: u32,
    ) -> u32;

    fn sc_gauge_read(
        words: *mut u64,
        sounds: *mut u32,
        alarm: u32,
        limit: u64,
        high: u64,
        held: u32,
        total: u32,
    ) -> u32;

    fn sc_gauge_read_information(
        words: *mut u64,
        sounds: *mut u32,
        alarm: u32,
        limit: u64,
        high: u64,
        answer: *const u32,
        answer_words: usize,
    ) -> u32;
}

/// The pointer to pass for a slice: the header allows null for no words.
fn pointer(words: &[u32]) -> *const u32 {
    match words {
        [] => ptr::null(),
        _ => words.as_ptr(),
    }
}

fn pointer_mut(words: &mut [u32]) -> *mut u32 {
    match words {
        [] => ptr::null_mut(),
        _ => words.as_mut_ptr(),
    }
}

fn read(buffers: Buffers, id: u32, address: u32) -> usize {
    let Buffers {
        record,
        memory,
        answer,
    } = buffers;
    // SAFETY: as above.
    unsafe {
        sc_segment_read(
            pointer(record),
            record.len(),
            pointer(memory),
            memory.len(),
            pointer_mut(answer),
            answer.len(),
            id,
            address,
        )
    }
}

fn write(buffers: Buffers, words: &[u32], id: u32, address: u32, first: u32) -> u32 {
    let Buffers { record, memory, .. } = buffers;
    // SAFETY: as above; `words` is a buffer of its own.
    unsafe {
        sc_segment_write(
            pointer(record),
            record.len(),
            pointer_mut(memory),
            memory.len(),
            pointer(words),
            words.len(),
            id,
            address,
            first,
        )
    }
}

/// The linked library.
#[derive(Clone, Copy, Debug, Default)]
pub struct Linked;

impl Library for Linked {
    fn call(&mut self, buffers: Buffers, call: &Call) -> usize {
        match *call {
            Call::Read { id, address } => read(buffers, id, address),
            Call::Write {
                id,
                address,
                first,
                ref words,
            } => write(buffers, words, id, address, first) as usize,
            _ => directive(buffers, call) as usize,
        }
    }
}

impl Gauge for Linked {
    fn read(
        &mut self,
        words: &mut [u64; 2],
        sounds: &mut u32,
        alarm: Alarm,
        numbers: &Numbers,
    ) -> u32 {
        let words = words.as_mut_ptr();
        let Alarm {
            number,
            limit,
            high,
        } = alarm;
        // SAFETY: the first pointer is of two words, as many as a gauge has, and
        // the second of one. They don't overlap, as both are borrowed for
        // writing. The pointer to an answer comes from a slice of the length that
        // is passed with it, which is only read and overlaps neither.
        unsafe {
            match numbers {
                Numbers::Bytes { held, total } => {
                    sc_gauge_read(words, sounds, number, limit, high, *held, *total)
                }
                Numbers::Answer(answer) => sc_gauge_read_information(
                    words,
                    sounds,
                    number,
                    limit,
                    high,
                    pointer(answer),
                    answer.len(),
                ),
            }
        }
    }
}
