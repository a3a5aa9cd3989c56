//! The proved library, target/staticlib/libexport.a: a slice is passed as a pointer and a length, an array as a pointer.

use crate::model::{Answer, Call, MOST};

/// The running task or 0; the moves; 0 where there is no margin, 1 where it is 0 or more, 2 where it is less; its ticks.
type Numbers = [u64; 4];
/// Of each point the ticks after the release, and the level.
pub type Points = [[u32; 2]; MOST];

/// The least room that meter_run writes to.
pub const ROOM: usize = 2_097_152;

#[link(name = "export", kind = "static")]
extern "C" {
    fn meter_run(stream: *const u8, length: usize, out: *mut u8, out_length: usize) -> usize;
    fn meter_start(stream: *const u8, length: usize, reading: u32, block: *mut u8, bytes: usize) -> usize;
    fn meter_release(block: *mut u8, bytes: usize, reading: u32, task: u8, answer: *mut Numbers) -> u8;
    fn meter_done(block: *mut u8, bytes: usize, reading: u32, task: u8, answer: *mut Numbers) -> u8;
    fn meter_clock(block: *mut u8, bytes: usize, reading: u32, answer: *mut Numbers) -> u8;
    fn meter_listing(block: *const u8, bytes: usize, buffer: *mut u8, length: usize) -> usize;
    fn meter_plan(block: *const u8, bytes: usize, task: u8, points: *mut Points) -> usize;
    fn meter_whole(block: *const u8, bytes: usize) -> u8;
}

// The references of each function below cannot overlap and live through the call: that is all that the library asks.

/// The length of the output.
pub fn run(stream: &[u8], out: &mut [u8]) -> usize {
    unsafe { meter_run(stream.as_ptr(), stream.len(), out.as_mut_ptr(), out.len()) }
}

/// 0; or the refusal's number and the task or offset with it. The table is the stream's.
pub fn start(stream: &[u8], reading: u32, block: &mut [u8]) -> (u8, usize) {
    let said = unsafe { meter_start(stream.as_ptr(), stream.len(), reading, block.as_mut_ptr(), block.len()) };
    ((said % 256) as u8, said / 256)
}

fn answer_of([running, moves, kind, ticks]: Numbers) -> Option<Answer> {
    let margin = match (kind, i64::try_from(ticks).ok()?) {
        (0, 0) => None,
        (1, ticks) => Some(ticks),
        (2, ticks) if ticks > 0 => Some(-ticks),
        _ => return None,
    };
    Some(Answer { running: running.try_into().ok()?, moves: moves.try_into().ok()?, margin })
}

/// What a refused call is to leave in the answer.
const UNTOUCHED: Numbers = [77; 4];

/// An answer or a number; a third thing, which is a fault, is told as text.
pub fn call(block: &mut [u8], call: Call) -> Result<Result<Answer, u8>, String> {
    let mut answer = UNTOUCHED;
    let (bytes, length) = (block.as_mut_ptr(), block.len());
    let number = match call {
        Call::Release { reading, task } => unsafe { meter_release(bytes, length, reading, task, &mut answer) },
        Call::Done { reading, task } => unsafe { meter_done(bytes, length, reading, task, &mut answer) },
        Call::Clock { reading } => unsafe { meter_clock(bytes, length, reading, &mut answer) },
    };
    match answer_of(answer) {
        Some(accepted) if number == 0 => Ok(Ok(accepted)),
        _ if number != 0 && answer == UNTOUCHED => Ok(Err(number)),
        _ => Err(format!("{call:?}: number {number} with the answer {answer:?}")),
    }
}

/// How many, or a refusal's number; a third thing, which is a fault, is told as a number that no refusal has.
fn counted(said: usize) -> Result<usize, u8> {
    match (said % 256, said / 256) {
        (_, 0) => Ok(said),
        (0, number) => Err(number.try_into().unwrap_or(255)),
        _ => Err(255),
    }
}

/// The number waiting, or a refusal's number.
pub fn listing(block: &[u8], buffer: &mut [u8]) -> Result<usize, u8> {
    counted(unsafe { meter_listing(block.as_ptr(), block.len(), buffer.as_mut_ptr(), buffer.len()) })
}

/// The number of points, or a refusal's number.
pub fn plan(block: &[u8], task: u8, points: &mut Points) -> Result<usize, u8> {
    counted(unsafe { meter_plan(block.as_ptr(), block.len(), task, points) })
}

pub fn whole(block: &[u8]) -> bool {
    unsafe { meter_whole(block.as_ptr(), block.len()) == 1 }
}
