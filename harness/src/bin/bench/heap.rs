//! What the kernel is timed beside: the same calls and tests over a binary heap of the unfinished jobs, whose first runs. It has no levels,
//! so nothing is promoted.

use crate::model::{time_at, Call, Kernel, Task, MOST};
use std::cmp::Reverse;
use std::collections::BinaryHeap;

pub struct Heap<'a> {
    table: &'a [Task],
    clock: u64,
    reading: u32,
    calls: u64,
    /// Bit k - 1 for task k.
    active: u64,
    released: [Option<u64>; MOST],
    /// Deadline, number of the release call, task.
    jobs: BinaryHeap<Reverse<(u64, u64, u8)>>,
}

/// `clone_from` keeps the room that `jobs` has.
impl Clone for Heap<'_> {
    fn clone(&self) -> Self {
        Heap { jobs: self.jobs.clone(), ..*self }
    }

    fn clone_from(&mut self, other: &Self) {
        let mut jobs = std::mem::take(&mut self.jobs);
        jobs.clone_from(&other.jobs);
        *self = Heap { jobs, ..*other };
    }
}

impl<'a> Heap<'a> {
    /// What the kernel holds; the table is the kernel's.
    pub fn of(kernel: &Kernel, table: &'a [Task]) -> Heap<'a> {
        let mut heap = Heap {
            table,
            clock: kernel.clock,
            reading: kernel.reading,
            calls: kernel.calls,
            active: 0,
            released: [None; MOST],
            jobs: BinaryHeap::with_capacity(MOST),
        };
        heap.released[..kernel.released.len()].copy_from_slice(&kernel.released);
        for job in &kernel.unfinished {
            heap.active |= 1 << (job.task - 1);
            heap.jobs.push(Reverse((job.deadline, job.call, job.task)));
        }
        heap
    }

    /// 0 if nobody runs.
    fn running(&self) -> u8 {
        self.jobs.peek().map_or(0, |job| job.0 .2)
    }

    /// Who runs, and the margin of a job that is done; or the number of the refusal.
    pub fn call(&mut self, call: Call) -> Result<(u8, Option<i64>), u8> {
        self.calls += 1;
        let (Call::Release { reading, .. } | Call::Done { reading, .. } | Call::Clock { reading }) = call;
        let time = time_at(self.clock, self.reading, reading)?;
        let margin = match call {
            Call::Release { task, .. } => self.release(task, time)?,
            Call::Done { task, .. } => self.done(task, time)?,
            Call::Clock { .. } => None,
        };
        (self.clock, self.reading) = (time, reading);
        Ok((self.running(), margin))
    }

    /// 7.
    fn task(&self, task: u8) -> Result<Task, u8> {
        self.table.get((task as usize).wrapping_sub(1)).copied().ok_or(7)
    }

    /// 8, then 9.
    fn release(&mut self, task: u8, time: u64) -> Result<Option<i64>, u8> {
        let Task { d, t, .. } = self.task(task)?;
        let place = task as usize - 1;
        match self.released[place] {
            _ if self.active >> place & 1 == 1 => return Err(8),
            Some(last) if time < last + t as u64 => return Err(9),
            _ => self.released[place] = Some(time),
        }
        self.active |= 1 << place;
        self.jobs.push(Reverse((time + d as u64, self.calls, task)));
        Ok(None)
    }

    /// 10.
    fn done(&mut self, task: u8, time: u64) -> Result<Option<i64>, u8> {
        self.task(task)?;
        if self.running() != task {
            return Err(10);
        }
        self.active &= !(1 << (task - 1));
        Ok(self.jobs.pop().map(|Reverse((deadline, ..))| deadline as i64 - time as i64))
    }
}
