//! Times release, done and clock of the proved library beside a binary heap, on the same streams, and writes docs/PERFORMANCE.md.

mod heap;
mod laid;
mod library;
mod loads;
mod report;
mod timing;

#[allow(dead_code)]
#[path = "../../judge.rs"]
mod judge;
#[allow(dead_code)]
#[path = "../../model.rs"]
mod model;
#[allow(dead_code)]
#[path = "../../random.rs"]
mod random;
#[allow(dead_code)]
#[path = "../../stored.rs"]
mod stored;

use heap::Heap;
use loads::{Burst, Real};
use model::{Call, Kernel, Task};
use random::Dice;
use report::Stream;
use timing::Sample;

const SEED: u64 = 1;
const COUNTS: [usize; 3] = [5, 20, 60];
/// So many events of each kind are timed.
pub const EACH: usize = 200;
/// At one of so many of them it is tested that the time grows with the number of calls.
const GROWTH_EACH: usize = 20;

pub const KINDS: [&str; 3] = ["release", "done", "clock"];

fn kind_of(call: Call) -> usize {
    match call {
        Call::Release { .. } => 0,
        Call::Done { .. } => 1,
        Call::Clock { .. } => 2,
    }
}

/// Runs a stream until there are samples enough of the kinds that it has: the samples of each kind, and how many events there were. After
/// each event library, heap and model name the same running job.
fn walk(table: &[Task], kinds: &[usize], mut next: impl FnMut(&Kernel) -> Call) -> ([Vec<Sample>; 3], u64) {
    let mut kernel = Kernel::start(table, SEED as u32).expect("a sound table");
    let mut heap = Heap::of(&kernel, table);
    let (mut samples, mut events) = ([const { vec![] }; 3], 0);
    while kinds.iter().any(|&kind| samples[kind].len() < EACH) {
        let (call, before) = (next(&kernel), kernel.clone());
        let block = laid::block_of(&before);
        assert!(judge::kernel_of(&block).is_some_and(|held| judge::same(&held, &before)), "the block holds {before:?}");
        let answer = kernel.call(call).expect("the streams make calls that are accepted");
        assert_eq!(heap.call(call), Ok((answer.running, answer.margin)), "the heap, at {call:?}");
        assert_eq!(library::public(&block, call, 1), answer.running as u64, "the library, at {call:?}");
        assert_eq!(library::inner(&block, call, 1), answer.running as u64, "its inner form, at {call:?}");
        events += 1;
        let kept = &mut samples[kind_of(call)];
        if kept.len() < EACH {
            kept.push(Sample { kernel: before, block, call, moves: answer.moves });
        }
    }
    (samples, events)
}

fn stream(count: usize, name: &'static str) -> Stream {
    let mut dice = Dice::new(SEED + count as u64);
    let table = loads::table(&mut dice, count);
    let (samples, events) = if name == "real" {
        let mut real = Real::new(&mut dice, &table);
        walk(&table, &[0, 1, 2], |kernel| real.next(&mut dice, kernel))
    } else {
        let mut burst = Burst::new();
        walk(&table, &[0, 1], |kernel| burst.next(&mut dice, kernel))
    };
    eprintln!("bench: {count} tasks, {name}: {events} events agree, timing");
    let growth = samples.iter().flatten().step_by(GROWTH_EACH).map(timing::growth).collect();
    let times = samples.map(|kind| kind.iter().map(timing::of).collect());
    Stream { count, name, events, times, growth }
}

fn main() {
    let streams: Vec<Stream> = COUNTS.iter().flat_map(|&count| [stream(count, "real"), stream(count, "burst")]).collect();
    let page = concat!(env!("CARGO_MANIFEST_DIR"), "/../docs/PERFORMANCE.md");
    let text = report::page(&streams);
    std::fs::write(page, &text).expect("docs/PERFORMANCE.md is written");
    print!("{text}");
}
