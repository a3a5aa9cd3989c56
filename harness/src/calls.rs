//! Part two: calls, one by one. Number, answer, listing and plans are the model's; the block is whole and holds what the model holds; a
//! refused call leaves every byte.

use crate::judge;
use crate::library::{self, Points};
use crate::model::{table_tests, Call, Kernel, Task, MOST};
use crate::random::Dice;
use crate::sequences::{sequence, spoilt_table, Sequence};
use crate::stored::{Block, BLOCK_BYTES};
use crate::streams::{told, written};

const UNTOUCHED: u8 = 0xa5;
const NO_POINTS: Points = [[0xa5a5a5a5; 2]; MOST];

/// A buffer that is too short, one that just holds the listing, and one that has room behind it.
pub fn listing_agrees(block: &Block, kernel: &Kernel) -> Result<(), String> {
    let want = kernel.listing();
    for length in [want.len().saturating_sub(1), want.len(), want.len() + 3] {
        let mut buffer = vec![UNTOUCHED; length];
        let said = library::listing(block, &mut buffer);
        let mut then = vec![UNTOUCHED; length];
        let expected = if length < want.len() {
            Err(11)
        } else {
            then[..want.len()].copy_from_slice(&want);
            Ok(want.len() / 2)
        };
        if (said, &buffer) != (expected, &then) {
            return Err(format!("a listing into {length} bytes: the model has {expected:?} {then:?}, the library {said:?} {buffer:?}"));
        }
    }
    Ok(())
}

/// A task's plan, or 7; places behind its points stay as they were.
pub fn plan_agrees(block: &Block, kernel: &Kernel, task: u8) -> Result<(), String> {
    let mut points = NO_POINTS;
    let said = library::plan(block, task, &mut points);
    let want = kernel.plan(task);
    let mut then = NO_POINTS;
    for (place, &(at, level)) in then.iter_mut().zip(want.iter().flatten()) {
        *place = [at, level as u32];
    }
    let expected = want.map(|plan| plan.len());
    if (said, points) != (expected, then) {
        return Err(format!("the plan of task {task}: the model has {expected:?} {then:?}, the library {said:?} {points:?}"));
    }
    Ok(())
}

/// The plan of each task, and of three numbers that no task has.
fn plans_agree(block: &Block, kernel: &Kernel) -> Result<(), String> {
    (0..=kernel.table.len() as u8 + 1).chain([255]).try_for_each(|task| plan_agrees(block, kernel, task))
}

/// Whether the block is whole and stands for this kernel.
fn holds(block: &Block, kernel: &Kernel) -> bool {
    judge::kernel_of(block).is_some_and(|held| judge::same(&held, kernel))
}

/// One call on a whole block and on the kernel that it stands for.
pub fn call_agrees(block: &mut Block, kernel: &mut Kernel, call: Call) -> Result<bool, String> {
    let before = *block;
    let want = kernel.call(call);
    let said = library::call(block, call)?;
    if said != want {
        return Err(format!("{call:?}: the model has {want:?}, the library {said:?}"));
    }
    if want.is_err() && *block != before {
        return Err(format!("{call:?} is refused and changes the block"));
    }
    if !holds(block, kernel) {
        return Err(format!("after {call:?} the block is not whole, or does not hold {kernel:?}"));
    }
    if judge::kept(block) != judge::kept(&before) {
        return Err(format!("{call:?} changes the table or a free place"));
    }
    Ok(want.is_ok())
}

/// Each call on a block that is not whole gives 15 and changes nothing.
pub fn fifteen(block: &[u8], calls: &[Call]) -> Result<(), String> {
    for &call in calls {
        let mut after = block.to_vec();
        let said = library::call(&mut after, call)?;
        if said != Err(15) || after != block {
            return Err(format!("{call:?} on a block that is not whole: {said:?}"));
        }
    }
    let mut buffer = [UNTOUCHED; 70];
    let said = library::listing(block, &mut buffer);
    if said != Err(15) || buffer != [UNTOUCHED; 70] {
        return Err(format!("a listing of a block that is not whole: {said:?}"));
    }
    let mut points = NO_POINTS;
    let said = library::plan(block, 1, &mut points);
    if said != Err(15) || points != NO_POINTS {
        return Err(format!("a plan of a block that is not whole: {said:?}"));
    }
    if library::whole(block) {
        return Err("meter_whole says 1 of a block that is not whole".into());
    }
    Ok(())
}

/// A refused start writes nothing.
fn refused_start(table: &[Task], reading: u32) -> Result<(), String> {
    let Err(want) = table_tests(table) else { return Ok(()) };
    let mut block = [UNTOUCHED; BLOCK_BYTES];
    let said = library::start(&written(table, &[]), reading, &mut block);
    if said != want || block != [UNTOUCHED; BLOCK_BYTES] {
        return Err(format!("start on a bad table: the model has {want:?} and nothing written, the library {said:?}"));
    }
    Ok(())
}

/// Bytes that are too few or too many are no whole block.
fn other_lengths(table: &[Task], reading: u32) -> Result<(), String> {
    for length in [0, 1, BLOCK_BYTES - 1, BLOCK_BYTES + 1] {
        let mut bytes = vec![UNTOUCHED; length];
        let said = library::start(&written(table, &[]), reading, &mut bytes);
        if said != (15, 0) {
            return Err(format!("start into {length} bytes: {said:?}"));
        }
        fifteen(&bytes, &[Call::Release { reading, task: 1 }, Call::Done { reading, task: 0 }, Call::Clock { reading }])?;
    }
    Ok(())
}

/// The kernel of a start that is accepted, and its block.
pub fn start_agrees(table: &[Task], reading: u32) -> Result<(Block, Kernel), String> {
    let mut block = [UNTOUCHED; BLOCK_BYTES];
    let kernel = Kernel::start(table, reading).expect("a sound table");
    let said = library::start(&written(table, &[]), reading, &mut block);
    if said != (0, 0) || !holds(&block, &kernel) {
        return Err(format!("start: {said:?}, or the block does not hold {kernel:?}"));
    }
    Ok((block, kernel))
}

/// How many of the calls are accepted.
fn walk(sequence: &Sequence, reading: u32) -> Result<u64, String> {
    let (mut block, mut kernel) = start_agrees(&sequence.table, reading)?;
    listing_agrees(&block, &kernel)?;
    plans_agree(&block, &kernel)?;
    let mut accepted = 0;
    for &call in &sequence.calls {
        accepted += call_agrees(&mut block, &mut kernel, call)? as u64;
        listing_agrees(&block, &kernel)?;
    }
    plans_agree(&block, &kernel)?;
    Ok(accepted)
}

/// How many calls are accepted, and how many there are.
fn compare(dice: &mut Dice) -> Result<(u64, u64), String> {
    let any = dice.next() as u32;
    let reading = dice.one_of(&[0, 1, 4294967290, u32::MAX, any]);
    refused_start(&spoilt_table(dice), reading)?;
    let sequence = sequence(dice, reading);
    other_lengths(&sequence.table, reading)?;
    let told = || told(&written(&sequence.table, &sequence.calls));
    let accepted =
        walk(&sequence, reading).map_err(|why| format!("{why}\nthe table and the calls, from a start at {reading}:\n{}", told()))?;
    Ok((accepted, sequence.calls.len() as u64))
}

pub fn check(seed: u64, count: u64) -> Result<String, String> {
    let (mut accepted, mut calls) = (0, 0);
    for seed in seed..seed + count {
        let (some, all) = compare(&mut Dice::new(seed)).map_err(|why| format!("seed {seed}: {why}"))?;
        accepted += some;
        calls += all;
    }
    Ok(format!(
        "{count} sequences: {accepted} calls accepted, {} refused; as many blocks, answers and listings; every plan before and after",
        calls - accepted
    ))
}
