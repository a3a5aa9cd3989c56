//! The paper, written apart from the kernel. No lists, links or maps: the unfinished jobs are one sorted vector, the first of them runs,
//! the others wait; levels are counted from the table.

pub const MOST: usize = 64;
pub const LARGEST: u32 = 1 << 30;
pub const LAST_TICK: u64 = 1 << 40;

#[derive(Clone, Copy, PartialEq, Debug)]
pub struct Task {
    pub c: u32,
    pub d: u32,
    pub t: u32,
}

#[derive(Clone, Copy, PartialEq, Debug)]
pub enum Call {
    Release { reading: u32, task: u8 },
    Done { reading: u32, task: u8 },
    Clock { reading: u32 },
}

#[derive(Clone, Copy, PartialEq, Debug)]
pub struct Answer {
    /// 0 if nobody runs.
    pub running: u8,
    pub moves: u64,
    pub margin: Option<i64>,
}

/// A number of the paper's table, with the task or offset that is given.
pub type Refusal = (u8, usize);

// ---- the table

/// "the count, then each task in turn (range, then C ≤ D ≤ T)"
pub fn tests_1_to_3(table: &[Task]) -> Result<(), Refusal> {
    if table.is_empty() || table.len() > MOST {
        return Err((1, 0));
    }
    for (i, task) in table.iter().enumerate() {
        if [task.c, task.d, task.t].iter().any(|value| !(1..=LARGEST).contains(value)) {
            return Err((2, i + 1));
        }
        if task.c > task.d || task.d > task.t {
            return Err((3, i + 1));
        }
    }
    Ok(())
}

/// "then the load": each quotient rounded down.
pub fn table_tests(table: &[Task]) -> Result<(), Refusal> {
    tests_1_to_3(table)?;
    let load: u64 = table.iter().map(|task| 1000 * task.c as u64 / task.t as u64).sum();
    if load > 1000 {
        Err((4, 0))
    } else {
        Ok(())
    }
}

/// "1 plus the number of tasks whose D is smaller than the remaining time"
pub fn level(table: &[Task], remaining: i64) -> u8 {
    1 + table.iter().filter(|task| (task.d as i64) < remaining).count() as u8
}

pub fn first_level(table: &[Task], task: u8) -> u8 {
    level(table, table[task as usize - 1].d as i64)
}

/// "for each distinct smaller deadline e in the table, taken from the largest down, the point D − e and the level"
pub fn plan(table: &[Task], d: u32) -> Vec<(u32, u8)> {
    let mut smaller: Vec<u32> = table.iter().map(|task| task.d).filter(|&e| e < d).collect();
    smaller.sort();
    smaller.dedup();
    smaller.iter().rev().map(|&e| (d - e, level(table, e as i64))).collect()
}

// ---- the calls

/// Compares in the order of demand 2: by deadline, of equals by the number of the release call.
#[derive(Clone, PartialEq, Eq, PartialOrd, Ord, Debug)]
pub struct Job {
    pub deadline: u64,
    pub call: u64,
    pub task: u8,
}

#[derive(Clone, Debug)]
pub struct Kernel {
    pub table: Vec<Task>,
    pub clock: u64,
    pub reading: u32,
    /// How many there were, refused ones counted.
    pub calls: u64,
    /// The last accepted release of task k, at place k - 1.
    pub released: Vec<Option<u64>>,
    /// Sorted.
    pub unfinished: Vec<Job>,
}

/// The time of a call: the clock and what has elapsed since the last reading; or 5, then 6.
pub fn time_at(clock: u64, last: u32, reading: u32) -> Result<u64, u8> {
    let elapsed = reading.wrapping_sub(last);
    if elapsed >= 1 << 31 {
        return Err(5);
    }
    let time = clock + elapsed as u64;
    if time > LAST_TICK {
        Err(6)
    } else {
        Ok(time)
    }
}

impl Kernel {
    pub fn start(table: &[Task], reading: u32) -> Result<Kernel, Refusal> {
        table_tests(table)?;
        Ok(Kernel { table: table.to_vec(), clock: 0, reading, calls: 0, released: vec![None; table.len()], unfinished: vec![] })
    }

    /// 0 if nobody runs.
    pub fn running(&self) -> u8 {
        self.unfinished.first().map_or(0, |job| job.task)
    }

    pub fn waiting(&self) -> &[Job] {
        self.unfinished.get(1..).unwrap_or(&[])
    }

    pub fn level_at(&self, job: &Job, time: u64) -> u8 {
        level(&self.table, job.deadline as i64 - time as i64)
    }

    /// The bytes that a listing writes: level and task of each waiting job.
    pub fn listing(&self) -> Vec<u8> {
        self.waiting().iter().flat_map(|job| [self.level_at(job, self.clock), job.task]).collect()
    }

    /// A task's plan, or 7.
    pub fn plan(&self, task: u8) -> Result<Vec<(u32, u8)>, u8> {
        if !self.is_task(task) {
            return Err(7);
        }
        Ok(plan(&self.table, self.table[task as usize - 1].d))
    }

    pub fn is_active(&self, task: u8) -> bool {
        self.unfinished.iter().any(|job| job.task == task)
    }

    /// The clock at a reading; or 5, then 6.
    fn time_of(&self, reading: u32) -> Result<u64, u8> {
        time_at(self.clock, self.reading, reading)
    }

    fn is_task(&self, task: u8) -> bool {
        1 <= task && task as usize <= self.table.len()
    }

    fn too_soon(&self, task: u8, time: u64) -> bool {
        let place = task as usize - 1;
        self.released[place].is_some_and(|last| time < last + self.table[place].t as u64)
    }

    /// "7, then 8 and 9, or 10"
    fn task_tests(&self, call: Call, time: u64) -> Result<(), u8> {
        match call {
            Call::Release { task, .. } | Call::Done { task, .. } if !self.is_task(task) => Err(7),
            Call::Release { task, .. } if self.is_active(task) => Err(8),
            Call::Release { task, .. } if self.too_soon(task, time) => Err(9),
            Call::Done { task, .. } if task != self.running() => Err(10),
            _ => Ok(()),
        }
    }

    /// An answer; or a number, and nothing is changed.
    pub fn call(&mut self, call: Call) -> Result<Answer, u8> {
        self.calls += 1;
        let (Call::Release { reading, .. } | Call::Done { reading, .. } | Call::Clock { reading }) = call;
        let time = self.time_of(reading)?;
        self.task_tests(call, time)?;
        let moves = self.waiting().iter().filter(|job| self.level_at(job, time) < self.level_at(job, self.clock)).count() as u64;
        self.clock = time;
        self.reading = reading;
        let margin = match call {
            Call::Release { task, .. } => self.release(task),
            Call::Done { .. } => Some(self.unfinished.remove(0).deadline as i64 - time as i64),
            Call::Clock { .. } => None,
        };
        Ok(Answer { running: self.running(), moves, margin })
    }

    fn release(&mut self, task: u8) -> Option<i64> {
        let place = task as usize - 1;
        self.released[place] = Some(self.clock);
        self.unfinished.push(Job { deadline: self.clock + self.table[place].d as u64, call: self.calls, task });
        self.unfinished.sort();
        None
    }
}
