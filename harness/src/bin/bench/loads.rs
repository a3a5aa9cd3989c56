//! The streams that are timed: what a meter's tasks do, and bursts. Each gives the next accepted call for a kernel.

use crate::model::{table_tests, Call, Kernel, Task};
use crate::random::Dice;

/// A number from 0 up to 1.
fn fraction(dice: &mut Dice) -> f64 {
    dice.below(1 << 53) as f64 / (1u64 << 53) as f64
}

fn part(dice: &mut Dice, least: f64, most: f64) -> f64 {
    least + (most - least) * fraction(dice)
}

/// A load of 0.9 that is shared out evenly at random, T log-uniform from 1e3 to 1e5, D from 0.6 of T up to it.
fn tasks(dice: &mut Dice, count: usize) -> Vec<Task> {
    let mut rest = 0.9;
    let mut table = vec![];
    for left in (0..count).rev() {
        let after = if left == 0 { 0.0 } else { rest * fraction(dice).powf(1.0 / left as f64) };
        let t = 10f64.powf(part(dice, 3.0, 5.0));
        let (c, d) = ((rest - after) * t, part(dice, 0.6, 1.0) * t);
        table.push(Task { c: c.max(1.0) as u32, d: d as u32, t: t as u32 });
        rest = after;
    }
    table
}

/// One that passes the tests.
pub fn table(dice: &mut Dice, count: usize) -> Vec<Task> {
    loop {
        let table = tasks(dice, count);
        if table_tests(&table).is_ok() {
            return table;
        }
    }
}

/// The counter's reading so many ticks after the last call.
fn later(kernel: &Kernel, ticks: u64) -> u32 {
    kernel.reading.wrapping_add(ticks as u32)
}

/// Tasks that are released sporadically, T to 1.3 of T apart; each job is done when it has run for 0.3 to 1 of C; and a clock call now and
/// then.
pub struct Real {
    /// When task k is released next, at place k - 1; and for how long its job still runs.
    releases: Vec<u64>,
    rest: Vec<u64>,
    look: u64,
}

impl Real {
    pub fn new(dice: &mut Dice, table: &[Task]) -> Real {
        Real { releases: table.iter().map(|task| dice.below(task.t as u64)).collect(), rest: vec![0; table.len()], look: 0 }
    }

    pub fn next(&mut self, dice: &mut Dice, kernel: &Kernel) -> Call {
        let idle = (1..=kernel.table.len() as u8).filter(|&task| !kernel.is_active(task));
        let release = idle.map(|task| (self.releases[task as usize - 1].max(kernel.clock), task)).min();
        let running = kernel.running();
        let done = (running != 0).then(|| (kernel.clock + self.rest[running as usize - 1], running));
        let look = self.look.max(kernel.clock);
        let first = release.into_iter().chain(done).fold(look, |first, (time, _)| first.min(time));
        if running != 0 {
            self.rest[running as usize - 1] -= first - kernel.clock;
        }
        let reading = later(kernel, first - kernel.clock);
        match (done, release) {
            (Some((time, task)), _) if time == first => Call::Done { reading, task },
            (_, Some((time, task))) if time == first => {
                let Task { c, t, .. } = kernel.table[task as usize - 1];
                self.rest[task as usize - 1] = (part(dice, 0.3, 1.0) * c as f64).max(1.0) as u64;
                self.releases[task as usize - 1] = first + (part(dice, 1.0, 1.3) * t as f64).ceil() as u64;
                Call::Release { reading, task }
            }
            _ => {
                self.look = first + dice.between(1, 800);
                Call::Clock { reading }
            }
        }
    }
}

/// All tasks are released within as many ticks, in any order; then all are done, a tick apart; and when every spacing is past, again.
pub struct Burst {
    to_release: Vec<u8>,
}

impl Burst {
    pub fn new() -> Burst {
        Burst { to_release: vec![] }
    }

    pub fn next(&mut self, dice: &mut Dice, kernel: &Kernel) -> Call {
        let running = kernel.running();
        let mut ticks = 1;
        if self.to_release.is_empty() && running == 0 {
            self.to_release = (1..=kernel.table.len() as u8).collect();
            ticks = 100_001;
        }
        let reading = later(kernel, ticks);
        if self.to_release.is_empty() {
            return Call::Done { reading, task: running };
        }
        let at = dice.below(self.to_release.len() as u64) as usize;
        Call::Release { reading, task: self.to_release.swap_remove(at) }
    }
}
