//! The proved library, target/staticlib/libbench.a: one call, so many times on the same block. A slice is passed as a pointer and a length.

use crate::model::Call;
use crate::stored::{Block, BLOCK_BYTES};

#[link(name = "bench", kind = "static")]
extern "C" {
    fn bench_calls(block: *const u8, bytes: usize, kind: u8, reading: u32, task: u8, times: u32) -> u64;
    fn bench_inner(block: *const u8, bytes: usize, kind: u8, reading: u32, task: u8, times: u32) -> u64;
}

fn numbers(call: Call) -> (u8, u32, u8) {
    match call {
        Call::Release { reading, task } => (0, reading, task),
        Call::Done { reading, task } => (1, reading, task),
        Call::Clock { reading } => (2, reading, 0),
    }
}

/// The sum of the tasks that the answers name, by the call as users make it.
pub fn public(block: &Block, call: Call, times: u32) -> u64 {
    let (kind, reading, task) = numbers(call);
    unsafe { bench_calls(block.as_ptr(), BLOCK_BYTES, kind, reading, task, times) }
}

/// By its inner form, without the whole-test.
pub fn inner(block: &Block, call: Call, times: u32) -> u64 {
    let (kind, reading, task) = numbers(call);
    unsafe { bench_inner(block.as_ptr(), BLOCK_BYTES, kind, reading, task, times) }
}
