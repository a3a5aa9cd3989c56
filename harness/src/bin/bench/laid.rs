//! The bytes of the block that holds what a kernel of the model holds.

use crate::model::{Kernel, Task, MOST};
use crate::stored::{Block, PLACES};

pub fn block_of(kernel: &Kernel) -> Block {
    let table = &kernel.table;
    let none = Task { c: 0, d: 0, t: 0 };
    let mut rising: Vec<u32> = table.iter().map(|task| task.d).collect();
    rising.sort();
    rising.resize(MOST, 0);
    let mut bytes = (table.len() as u64).to_le_bytes().to_vec();
    for place in 0..MOST {
        let Task { c, d, t } = *table.get(place).unwrap_or(&none);
        [c, d, t].iter().for_each(|number| bytes.extend(number.to_le_bytes()));
    }
    rising.iter().for_each(|deadline| bytes.extend(deadline.to_le_bytes()));
    for task in 0..PLACES {
        let released = if task == 0 { None } else { kernel.released.get(task - 1).copied().flatten() };
        bytes.extend([kernel.is_active(task as u8) as u8, released.is_some() as u8]);
        bytes.extend(released.unwrap_or(0).to_le_bytes());
    }
    bytes.extend([(kernel.running() != 0) as u8, kernel.running()]);
    put_lists(kernel, &mut bytes);
    bytes.extend(kernel.clock.to_le_bytes());
    bytes.extend(kernel.reading.to_le_bytes());
    bytes.try_into().expect("a block's bytes")
}

/// The waiting jobs, a list for each level: its first and last, the links, and the map.
fn put_lists(kernel: &Kernel, bytes: &mut Vec<u8>) {
    let (mut first, mut last, mut next, mut map) = ([0; PLACES], [0; PLACES], [0; PLACES], 0u64);
    for job in kernel.waiting() {
        let level = kernel.level_at(job, kernel.clock) as usize;
        match last[level] {
            0 => first[level] = job.task,
            end => next[end as usize] = job.task,
        }
        last[level] = job.task;
        map |= 1 << (level - 1);
    }
    [first, last, next].iter().for_each(|places| bytes.extend(places));
    bytes.extend(map.to_le_bytes());
}
