//! Part three: damaged blocks. Every single bit of a whole block is flipped, and some damage more is done at random: each call, the listing
//! and a plan give 15 exactly where the judge says that the bytes are no whole block; elsewhere they answer as the model does, and leave a
//! whole block.

use crate::calls::{call_agrees, fifteen, listing_agrees, plan_agrees, start_agrees};
use crate::judge::kernel_of;
use crate::library;
use crate::model::{Call, Kernel, MOST};
use crate::random::Dice;
use crate::sequences::{sequence_of, sound_table_of};
use crate::stored::{Block, BLOCK_BYTES, JOB_BYTES, RUNNING_AT, TABLE_BYTES};

/// Besides the bits: so many other damages a block.
const OTHERS: usize = 500;

/// A whole block from a random sequence: of few tasks or of as many as can be, empty or crowded.
fn block(dice: &mut Dice) -> Result<(Block, Kernel), String> {
    let count = if dice.percent(50) { MOST as u64 } else { dice.between(1, 8) };
    let table = sound_table_of(dice, count);
    let length = dice.one_of(&[0, 3, 10, 40, 120]);
    let reading = dice.next() as u32;
    let sequence = sequence_of(dice, table, reading, length);
    let (mut block, mut kernel) = start_agrees(&sequence.table, reading)?;
    for &call in &sequence.calls {
        call_agrees(&mut block, &mut kernel, call)?;
    }
    Ok((block, kernel))
}

/// A release that the kernel accepts: of the first idle task, as soon as its spacing allows.
fn good_release(kernel: &Kernel) -> Option<Call> {
    let task = (1..=kernel.table.len() as u8).find(|&task| !kernel.is_active(task))?;
    let place = task as usize - 1;
    let soonest = kernel.released[place].map_or(0, |last| last + kernel.table[place].t as u64);
    let elapsed = soonest.saturating_sub(kernel.clock) as u32;
    Some(Call::Release { reading: kernel.reading.wrapping_add(elapsed), task })
}

/// Of release, done and clock one that the kernel accepts, where there is one, and one other.
fn calls_on(dice: &mut Dice, kernel: &Kernel) -> Vec<Call> {
    let soon = kernel.reading.wrapping_add(dice.below(4) as u32);
    let far = dice.next() as u32;
    let any = dice.between(0, kernel.table.len() as u64 + 1) as u8;
    let mut calls = vec![
        Call::Release { reading: far, task: any },
        Call::Done { reading: soon, task: kernel.running() },
        Call::Done { reading: far, task: any },
        Call::Clock { reading: soon },
        Call::Clock { reading: far },
    ];
    calls.extend(good_release(kernel));
    calls
}

fn flip(block: &mut Block, bit: usize) {
    block[bit / 8] ^= 1 << (bit % 8);
}

/// The running job is gone, and nobody was put in its place.
fn without_running(block: &Block) -> Block {
    let mut damaged = *block;
    damaged[TABLE_BYTES + JOB_BYTES * block[RUNNING_AT + 1] as usize] = 0;
    damaged[RUNNING_AT..RUNNING_AT + 2].fill(0);
    damaged
}

/// Two bits, or two bytes behind the table exchanged.
fn other_damage(dice: &mut Dice, block: &Block) -> Block {
    let mut damaged = *block;
    if dice.percent(50) {
        flip(&mut damaged, dice.below(BLOCK_BYTES as u64 * 8) as usize);
        flip(&mut damaged, dice.below(BLOCK_BYTES as u64 * 8) as usize);
    } else {
        let mut place = || dice.between(TABLE_BYTES as u64, BLOCK_BYTES as u64 - 1) as usize;
        damaged.swap(place(), place());
    }
    damaged
}

#[derive(Default)]
struct Counts {
    damages: u64,
    whole: u64,
    accepted: u64,
}

/// What is asked of one damaged block.
fn compare(block: &Block, calls: &[Call], counts: &mut Counts) -> Result<(), String> {
    counts.damages += 1;
    let Some(kernel) = kernel_of(block) else { return fifteen(block, calls) };
    counts.whole += 1;
    if !library::whole(block) {
        return Err("meter_whole says 0 of a whole block".into());
    }
    listing_agrees(block, &kernel)?;
    plan_agrees(block, &kernel, kernel.table.len() as u8)?;
    for &call in calls {
        counts.accepted += call_agrees(&mut block.clone(), &mut kernel.clone(), call)? as u64;
    }
    Ok(())
}

/// One block, and all that is done to it.
fn damages(dice: &mut Dice, counts: &mut Counts) -> Result<(), String> {
    let (block, kernel) = block(dice)?;
    let calls = calls_on(dice, &kernel);
    let mut ask = |what: String, damaged: Block| {
        compare(&damaged, &calls, counts).map_err(|why| format!("{what}: {why}\nthe block before: {block:02x?}\nand then: {damaged:02x?}"))
    };
    for bit in 0..BLOCK_BYTES * 8 {
        let mut damaged = block;
        flip(&mut damaged, bit);
        ask(format!("byte {} bit {}", bit / 8, bit % 8), damaged)?;
    }
    ask("the running job gone".into(), without_running(&block))?;
    (0..OTHERS).try_for_each(|i| ask(format!("damage {i}"), other_damage(dice, &block)))
}

pub fn check(seed: u64, count: u64) -> Result<String, String> {
    let mut counts = Counts::default();
    for seed in seed..seed + count {
        damages(&mut Dice::new(seed), &mut counts).map_err(|why| format!("seed {seed}: {why}"))?;
    }
    let Counts { damages, whole, accepted } = counts;
    Ok(format!(
        "{count} blocks, {} bits flipped and {} other damages: {} not whole and 15; {whole} whole still, on which {accepted} calls were accepted",
        count * BLOCK_BYTES as u64 * 8,
        damages - count * BLOCK_BYTES as u64 * 8,
        damages - whole
    ))
}
