//! The time of one call, at one event, in nanoseconds.

use crate::heap::Heap;
use crate::library;
use crate::model::{Call, Kernel};
use crate::stored::Block;
use std::hint::black_box;
use std::time::Instant;

/// So many calls are timed at once, and so often; the quickest counts.
pub const TIMES: u32 = 2000;
pub const TRIES: usize = 3;

/// An event, and what there was before it.
pub struct Sample {
    pub kernel: Kernel,
    pub block: Block,
    pub call: Call,
    pub moves: u64,
}

pub struct Times {
    pub heap: f64,
    pub inner: f64,
    pub public: f64,
    /// An inner clock call that is refused, as its reading is one back.
    pub refused: f64,
    pub moves: u64,
}

fn quickest(mut work: impl FnMut()) -> f64 {
    let tries = (0..TRIES).map(|_| {
        let begun = Instant::now();
        work();
        begun.elapsed().as_nanos() as f64
    });
    tries.fold(f64::INFINITY, f64::min)
}

type Form = fn(&Block, Call, u32) -> u64;

/// So many calls, less none.
fn calls(form: Form, block: &Block, call: Call, times: u32) -> f64 {
    let time_of = |times| {
        quickest(|| {
            black_box(form(black_box(block), black_box(call), black_box(times)));
        })
    };
    time_of(times) - time_of(0)
}

/// Clone and call, less clone alone.
fn heap(sample: &Sample) -> f64 {
    let before = Heap::of(&sample.kernel, &sample.kernel.table);
    let mut work = Heap::of(&sample.kernel, &sample.kernel.table);
    let clones = quickest(|| {
        for _ in 0..TIMES {
            black_box(&mut work).clone_from(black_box(&before));
        }
    });
    let both = quickest(|| {
        for _ in 0..TIMES {
            black_box(&mut work).clone_from(black_box(&before));
            let _ = black_box(black_box(&mut work).call(black_box(sample.call)));
        }
    });
    both - clones
}

/// What is timed at an event: the inner form, the public call, and an inner clock call that is refused.
fn forms(sample: &Sample) -> [(Form, Call); 3] {
    let back = Call::Clock { reading: sample.kernel.reading.wrapping_sub(1) };
    [(library::inner, sample.call), (library::public, sample.call), (library::inner, back)]
}

pub fn of(sample: &Sample) -> Times {
    let [inner, public, refused] = forms(sample).map(|(form, call)| calls(form, &sample.block, call, TIMES) / TIMES as f64);
    Times { heap: heap(sample) / TIMES as f64, inner, public, refused, moves: sample.moves }
}

/// For each form, how many times as long twice as many calls take: from half of TIMES to TIMES, and from there to twice TIMES.
pub fn growth(sample: &Sample) -> [[f64; 2]; 3] {
    forms(sample).map(|(form, call)| {
        let [half, once, twice] = [TIMES / 2, TIMES, 2 * TIMES].map(|times| calls(form, &sample.block, call, times));
        [once / half, twice / once]
    })
}
