//! What the bytes of a block say, field by field. Numbers are little-endian.

use crate::model::{Task, MOST};

/// The count, the tasks and the copy of the deadlines stand first.
pub const TABLE_BYTES: usize = 8 + 12 * MOST + 4 * MOST;
/// A place for each task's or level's number; place 0 is nobody's.
pub const PLACES: usize = MOST + 1;
/// Jobs stand behind the copy, and who runs behind the jobs.
pub const JOB_BYTES: usize = 10;
pub const RUNNING_AT: usize = TABLE_BYTES + JOB_BYTES * PLACES;
/// Behind who runs: first, last and link of each place, the map, the clock, the last reading.
pub const BLOCK_BYTES: usize = RUNNING_AT + 2 + 3 * PLACES + 8 + 8 + 4;
pub type Block = [u8; BLOCK_BYTES];

#[derive(Clone, Copy, PartialEq)]
pub struct Job {
    pub active: bool,
    pub released: Option<u64>,
}

pub struct Stored {
    pub count: u64,
    pub tasks: [Task; MOST],
    pub rising: [u32; MOST],
    pub jobs: [Job; PLACES],
    pub running: Option<u8>,
    pub first: [u8; PLACES],
    pub last: [u8; PLACES],
    pub next: [u8; PLACES],
    pub map: u64,
    pub clock: u64,
    pub reading: u32,
}

/// Takes fields off the front.
struct Fields<'a>(&'a [u8]);

impl Fields<'_> {
    fn take<const N: usize>(&mut self) -> [u8; N] {
        let (field, rest) = self.0.split_at(N);
        self.0 = rest;
        field.try_into().unwrap()
    }

    fn byte(&mut self) -> u8 {
        self.take::<1>()[0]
    }

    fn word(&mut self) -> u32 {
        u32::from_le_bytes(self.take())
    }

    fn long(&mut self) -> u64 {
        u64::from_le_bytes(self.take())
    }

    fn task(&mut self) -> Task {
        Task { c: self.word(), d: self.word(), t: self.word() }
    }

    fn job(&mut self) -> Job {
        let (active, known, time) = (self.byte() != 0, self.byte() != 0, self.long());
        Job { active, released: known.then_some(time) }
    }

    fn running(&mut self) -> Option<u8> {
        let (somebody, task) = (self.byte() != 0, self.byte());
        somebody.then_some(task)
    }
}

impl Stored {
    pub fn read(block: &Block) -> Stored {
        let mut fields = Fields(block);
        let stored = Stored {
            count: fields.long(),
            tasks: std::array::from_fn(|_| fields.task()),
            rising: std::array::from_fn(|_| fields.word()),
            jobs: std::array::from_fn(|_| fields.job()),
            running: fields.running(),
            first: fields.take(),
            last: fields.take(),
            next: fields.take(),
            map: fields.long(),
            clock: fields.long(),
            reading: fields.word(),
        };
        assert!(fields.0.is_empty(), "a block has {BLOCK_BYTES} bytes");
        stored
    }
}
