//! "A block is whole when", condition by condition, over a block's bytes; and the model's kernel that a whole block stands for.

use crate::model::{level, tests_1_to_3, Job, Kernel, Task, LAST_TICK};
use crate::stored::{self, Block, Stored, PLACES, TABLE_BYTES};

/// The kernel that a block stands for: there is one exactly where the block is whole.
pub fn kernel_of(block: &Block) -> Option<Kernel> {
    let stored = Stored::read(block);
    let table = table_of(&stored)?;
    let lists = lists_of(&stored)?;
    let waiting: Vec<u8> = lists.concat();
    let everyone: Vec<u8> = stored.running.iter().chain(&waiting).copied().collect();
    let whole = copy_agrees(&stored, &table)
        && stored.clock <= LAST_TICK
        && times_are_past(&stored, &table)
        && each_active_once(&stored, &table, &everyone)
        && lists_tell_all(&stored, &lists)
        && each_in_its_list(&stored, &table, &lists)
        && lists.iter().all(|list| list.windows(2).all(|two| may_lead(&stored, &table, two[0], two[1])))
        && stored.running.is_none_or(|first| waiting.iter().all(|&task| may_lead(&stored, &table, first, task)))
        && (stored.running.is_some() || waiting.is_empty());
    whole.then(|| kernel(&stored, table, &everyone))
}

/// "its table passes tests 1 to 3"
fn table_of(stored: &Stored) -> Option<Vec<Task>> {
    let table = stored.tasks.get(..usize::try_from(stored.count).ok()?)?;
    tests_1_to_3(table).is_ok().then(|| table.to_vec())
}

/// "its rising copy of the deadlines agrees with the table"
fn copy_agrees(stored: &Stored, table: &[Task]) -> bool {
    let mut deadlines: Vec<u32> = table.iter().map(|task| task.d).collect();
    deadlines.sort();
    stored.rising[..table.len()] == deadlines
}

/// "every active job has a release time, and no release time lies after the clock"
fn times_are_past(stored: &Stored, table: &[Task]) -> bool {
    stored.jobs[1..=table.len()].iter().all(|job| match job.released {
        Some(time) => time <= stored.clock,
        None => !job.active,
    })
}

/// "the running job and all waiting ones are active jobs of tasks in the table", "every active job either runs or waits, once"
fn each_active_once(stored: &Stored, table: &[Task], everyone: &[u8]) -> bool {
    let mut named = everyone.to_vec();
    named.sort();
    let active: Vec<u8> = (1..=table.len() as u8).filter(|&task| stored.jobs[task as usize].active).collect();
    named == active
}

/// The list of each level, at place level - 1: from its first by the links. None, if a name is no place or a walk does not end.
fn lists_of(stored: &Stored) -> Option<Vec<Vec<u8>>> {
    stored.first[1..].iter().map(|&first| list_from(stored, first)).collect()
}

fn list_from(stored: &Stored, first: u8) -> Option<Vec<u8>> {
    let (mut list, mut task) = (vec![], first);
    while task != 0 {
        list.push(task);
        task = *stored.next.get(task as usize)?;
        if list.len() >= PLACES {
            return None;
        }
    }
    Some(list)
}

/// Links, ends and map say the lists, and nothing else: "the map of occupied lists tells the truth".
fn lists_tell_all(stored: &Stored, lists: &[Vec<u8>]) -> bool {
    let (mut first, mut last, mut next, mut map) = ([0; PLACES], [0; PLACES], [0; PLACES], 0);
    for (i, list) in lists.iter().enumerate().filter(|(_, list)| !list.is_empty()) {
        first[i + 1] = list[0];
        last[i + 1] = list[list.len() - 1];
        list.windows(2).for_each(|two| next[two[0] as usize] = two[1]);
        map |= 1 << i;
    }
    first == stored.first && last == stored.last && next == stored.next && map == stored.map
}

fn released(stored: &Stored, task: u8) -> u64 {
    stored.jobs[task as usize].released.expect("tested before: an active job has a release time")
}

fn deadline(stored: &Stored, table: &[Task], task: u8) -> u64 {
    released(stored, task) + table[task as usize - 1].d as u64
}

/// "each waits in the list of its level at the block's clock"
fn each_in_its_list(stored: &Stored, table: &[Task], lists: &[Vec<u8>]) -> bool {
    let level_of = |task| level(table, deadline(stored, table, task) as i64 - stored.clock as i64);
    lists.iter().enumerate().all(|(i, list)| list.iter().all(|&task| level_of(task) as usize == i + 1))
}

/// "in order of deadline, earlier first, and of equal deadlines no later release time stands ahead of an earlier one"
fn may_lead(stored: &Stored, table: &[Task], ahead: u8, behind: u8) -> bool {
    let place = |task| (deadline(stored, table, task), released(stored, task));
    place(ahead) <= place(behind)
}

/// The numbers of the release calls are not stored; the order of the jobs tells as much of them as counts.
fn kernel(stored: &Stored, table: Vec<Task>, everyone: &[u8]) -> Kernel {
    let unfinished =
        everyone.iter().enumerate().map(|(i, &task)| Job { deadline: deadline(stored, &table, task), call: i as u64, task }).collect();
    let released = stored.jobs[1..=table.len()].iter().map(|job| job.released).collect();
    Kernel { clock: stored.clock, reading: stored.reading, calls: everyone.len() as u64, released, unfinished, table }
}

/// Whether two kernels are the same but for the numbers of calls.
pub fn same(a: &Kernel, b: &Kernel) -> bool {
    let jobs = |kernel: &Kernel| -> Vec<(u8, u64)> { kernel.unfinished.iter().map(|job| (job.task, job.deadline)).collect() };
    (&a.table, a.clock, a.reading, &a.released, jobs(a)) == (&b.table, b.clock, b.reading, &b.released, jobs(b))
}

/// What no call changes: the table and its copy, with their free places, and the jobs that no task has.
pub fn kept(block: &Block) -> (&[u8], Vec<stored::Job>) {
    let Stored { count, jobs, .. } = Stored::read(block);
    let free = (0..PLACES).filter(|&place| place == 0 || place as u64 > count);
    (&block[..TABLE_BYTES], free.map(|place| jobs[place]).collect())
}
