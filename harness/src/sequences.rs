//! Random tables and calls. Deadlines are small in most, so that equal ones, promotions and refusals are frequent; a model that runs along
//! lets the calls be ones that a meter would make.

use crate::model::{table_tests, Call, Kernel, Task, LARGEST, MOST};
use crate::random::Dice;

const LONGEST_STEP: u32 = (1 << 31) - 1;

/// A sound table, and calls.
pub struct Sequence {
    pub table: Vec<Task>,
    pub calls: Vec<Call>,
}

// ---- tables

/// C of 1 and T of at least the count: such a table has a load of at most 1000. In a few C is larger.
fn task(dice: &mut Dice, count: u64, largest: u64) -> Task {
    let d = dice.between(1, largest);
    let t = (d.max(count) + dice.below(8)).min(LARGEST as u64);
    let c = if dice.percent(3) { dice.between(1, d) } else { 1 };
    Task { c: c as u32, d: d as u32, t: t as u32 }
}

fn tasks(dice: &mut Dice, count: u64) -> Vec<Task> {
    let largest = dice.one_of(&[2, 4, 8, 12, 12, 40, 40, 1000, 1 << 20, LARGEST as u64]);
    (0..count).map(|_| task(dice, count, largest)).collect()
}

pub fn sound_table_of(dice: &mut Dice, count: u64) -> Vec<Task> {
    loop {
        let table = tasks(dice, count);
        if table_tests(&table).is_ok() {
            return table;
        }
    }
}

fn sound_table(dice: &mut Dice) -> Vec<Task> {
    let count = match dice.below(20) {
        0 => 1,
        1..=11 => dice.between(2, 5),
        12..=15 => dice.between(6, 16),
        16..=17 => dice.between(17, MOST as u64 - 1),
        _ => MOST as u64,
    };
    sound_table_of(dice, count)
}

/// A table that some test may refuse.
pub fn spoilt_table(dice: &mut Dice) -> Vec<Task> {
    let mut table = sound_table(dice);
    let at = dice.below(table.len() as u64) as usize;
    let value = dice.one_of(&[0, 1, 2, LARGEST, LARGEST + 1, u32::MAX]);
    match dice.below(6) {
        0 => table.clear(),
        1 => table.resize(dice.between(MOST as u64 - 1, MOST as u64 + 8) as usize, table[at]),
        2 => table[at].c = value,
        3 => table[at].d = value,
        4 => table[at].t = value,
        // a load of 1000 by itself
        _ => table[at] = Task { c: table[at].t, d: table[at].t, t: table[at].t },
    }
    table
}

// ---- calls

fn small_step(dice: &mut Dice) -> u32 {
    match dice.below(10) {
        0..=3 => 0,
        4..=7 => dice.between(1, 3) as u32,
        _ => dice.between(1, 25) as u32,
    }
}

/// Far, back, and at the edges of both.
fn wild_step(dice: &mut Dice) -> u32 {
    match dice.below(8) {
        0..=2 => dice.of_any_size(31) as u32,
        3 => dice.one_of(&[LONGEST_STEP, LONGEST_STEP - 1]),
        4 => dice.one_of(&[LONGEST_STEP + 1, LONGEST_STEP + 2]),
        5..=6 => 0u32.wrapping_sub(dice.between(1, 5) as u32),
        _ => dice.next() as u32,
    }
}

/// Any task byte; most are in the table, or next to it.
fn any_task(dice: &mut Dice, kernel: &Kernel) -> u8 {
    match dice.below(10) {
        0 => dice.next() as u8,
        _ => dice.between(0, kernel.table.len() as u64 + 1) as u8,
    }
}

fn idle_task(dice: &mut Dice, kernel: &Kernel) -> u8 {
    let idle: Vec<u8> = (1..=kernel.table.len() as u8).filter(|&task| !kernel.is_active(task)).collect();
    if idle.is_empty() {
        any_task(dice, kernel)
    } else {
        dice.one_of(&idle)
    }
}

/// `wild` is the chance, in percent, of each thing that a meter would not do.
fn call(dice: &mut Dice, kernel: &Kernel, wild: u64) -> Call {
    let step = if dice.percent(wild) { wild_step(dice) } else { small_step(dice) };
    let reading = kernel.reading.wrapping_add(step);
    let odd = dice.percent(wild);
    match dice.below(100) {
        0..=19 => Call::Clock { reading },
        20..=49 if odd => Call::Done { reading, task: any_task(dice, kernel) },
        20..=49 if kernel.running() != 0 => Call::Done { reading, task: kernel.running() },
        _ if odd => Call::Release { reading, task: any_task(dice, kernel) },
        _ => Call::Release { reading, task: idle_task(dice, kernel) },
    }
}

/// Clock calls that bring the clock close to its end.
fn to_the_end(dice: &mut Dice, kernel: &mut Kernel) -> Vec<Call> {
    let mut calls = vec![];
    for _ in 0..512 {
        calls.push(Call::Clock { reading: kernel.reading.wrapping_add(LONGEST_STEP) });
        let _ = kernel.call(calls[calls.len() - 1]);
    }
    calls.push(Call::Clock { reading: kernel.reading.wrapping_add(dice.between(490, 514) as u32) });
    let _ = kernel.call(calls[calls.len() - 1]);
    calls
}

/// How many calls: few in most, in one of 500 about as many as an input has room for.
fn length(dice: &mut Dice) -> u64 {
    match dice.below(500) {
        0 => dice.between(8_000, 10_500),
        1..=20 => dice.between(100, 600),
        _ => dice.below(60),
    }
}

pub fn sequence_of(dice: &mut Dice, table: Vec<Task>, reading: u32, length: u64) -> Sequence {
    let mut kernel = Kernel::start(&table, reading).expect("a sound table");
    let wild = dice.one_of(&[0, 3, 10, 30]);
    // a few jobs first, which are very late then
    let early = if dice.percent(1) { dice.below(6) } else { length };
    let mut calls = vec![];
    for i in 0..length {
        if i == early {
            calls.extend(to_the_end(dice, &mut kernel));
        }
        let next = call(dice, &kernel, wild);
        let _ = kernel.call(next);
        calls.push(next);
    }
    Sequence { table, calls }
}

pub fn sequence(dice: &mut Dice, reading: u32) -> Sequence {
    let table = sound_table(dice);
    let length = length(dice);
    sequence_of(dice, table, reading, length)
}
