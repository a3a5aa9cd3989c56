//! The page: what was measured and how, the table, and what follows. Every number in it is one that was seen.

use crate::timing::{Times, TIMES, TRIES};
use crate::{EACH, KINDS};

pub struct Stream {
    pub count: usize,
    pub name: &'static str,
    pub events: u64,
    /// Of each kind.
    pub times: [Vec<Times>; 3],
    /// At some events.
    pub growth: Vec<[[f64; 2]; 3]>,
}

fn median(numbers: impl Iterator<Item = f64>) -> f64 {
    let mut sorted: Vec<f64> = numbers.collect();
    sorted.sort_by(f64::total_cmp);
    sorted.get(sorted.len() / 2).copied().unwrap_or(f64::NAN)
}

fn median_of(times: &[&Times], of: impl Fn(&Times) -> f64) -> f64 {
    median(times.iter().map(|time| of(time)))
}

/// The least and the most.
fn range(numbers: impl Iterator<Item = f64>) -> (f64, f64) {
    numbers.fold((f64::INFINITY, 0.0), |(least, most), n| (n.min(least), n.max(most)))
}

struct Row {
    name: String,
    heap: f64,
    inner: f64,
    public: f64,
}

fn rows(streams: &[Stream]) -> Vec<Row> {
    let of_kind = |stream: &Stream, kind: usize| {
        let times: Vec<&Times> = stream.times[kind].iter().collect();
        let name = format!("{} | {} | {}", stream.count, stream.name, KINDS[kind]);
        let [heap, inner, public] = [median_of(&times, |t| t.heap), median_of(&times, |t| t.inner), median_of(&times, |t| t.public)];
        (!times.is_empty()).then_some(Row { name, heap, inner, public })
    };
    streams.iter().flat_map(|stream| [0, 1, 2].map(|kind| of_kind(stream, kind))).flatten().collect()
}

fn line(Row { name, heap, inner, public }: &Row) -> String {
    format!("| {name} | {heap:.0} | {inner:.0} | {:.1} | {public:.0} | {:.1} |\n", inner / heap, public / heap)
}

/// The two prices at a number of tasks: of the whole-test and of the block by value.
fn prices(streams: &[Stream]) -> String {
    let mut counts: Vec<usize> = streams.iter().map(|stream| stream.count).collect();
    counts.dedup();
    let line = |count: usize| {
        let times: Vec<&Times> =
            streams.iter().filter(|stream| stream.count == count).flat_map(|stream| stream.times.iter().flatten()).collect();
        let (whole, passed) = (median_of(&times, |t| t.public - t.inner), median_of(&times, |t| t.refused));
        format!("| {count} | {whole:.0} | {passed:.0} |\n")
    };
    counts.into_iter().map(line).collect()
}

/// What a promotion costs: the inner form where a job moves, and where none does, in the streams that have both.
fn promoting(streams: &[Stream]) -> String {
    let times: Vec<&Times> =
        streams.iter().filter(|stream| stream.name == "real").flat_map(|stream| stream.times.iter().flatten()).collect();
    let (moving, still): (Vec<&Times>, Vec<&Times>) = times.into_iter().partition(|time| time.moves > 0);
    let [moved, stayed] = [median_of(&moving, |t| t.inner), median_of(&still, |t| t.inner)];
    let (some, others) = (moving.len(), still.len());
    format!("In `real` {some} of the calls timed promote: {moved:.0} ns in the inner form, against {stayed:.0} ns of the {others} others. The heap never promotes.")
}

/// The load of the machine, where it says it.
fn load() -> String {
    let told = std::fs::read_to_string("/proc/loadavg").unwrap_or_default();
    told.split(' ')
        .next()
        .filter(|number| !number.is_empty())
        .map_or(String::new(), |number| format!(" with a load of {number} at the end"))
}

/// The least and the most that twice as many calls take, of medians over events. Where it is not about twice as long, the compiler has left
/// something out of the loop, and no time counts.
fn growth(streams: &[Stream]) -> (f64, f64) {
    let medians = (0..6).map(|at| median(streams.iter().flat_map(|stream| &stream.growth).map(|growth| growth[at / 2][at % 2])));
    let (least, most) = range(medians);
    assert!(1.8 < least && most < 2.2, "twice as many calls take {least:.2} to {most:.2} times as long: these times say nothing");
    (least, most)
}

pub fn page(streams: &[Stream]) -> String {
    let rows = rows(streams);
    let all: Vec<&Times> = streams.iter().flat_map(|stream| stream.times.iter().flatten()).collect();
    let events: u64 = streams.iter().map(|stream| stream.events).sum();
    let cores = std::thread::available_parallelism().map_or(1, |n| n.get());
    let table: String = rows.iter().map(line).collect();
    let (growth, growth_most) = growth(streams);
    let (inner, inner_most) = range(rows.iter().map(|row| row.inner / row.heap));
    let (public, public_most) = range(rows.iter().map(|row| row.public / row.heap));
    let (slowest_inner, slowest) = (range(rows.iter().map(|row| row.inner)).1, range(rows.iter().map(|row| row.public)).1);
    let tested = 100.0 * median_of(&all, |t| 1.0 - t.inner / t.public);
    let passed = 100.0 * median_of(&all, |t| t.refused / t.inner);
    format!(
        "# What calls cost

`./meter bench` writes this page from what it measures. It promises nothing.

A call is timed at up to {EACH} events of its kind in a stream, each time on the block as it was before the event: {TIMES} calls less none,
the quickest of {TRIES} tries; a row has the median over its events. `public` is the call as users make it, over `crates/bench`; `inner` is its inner
form, without the whole-test. `heap` is Rust's own binary heap over the same jobs, with the same tests 5 to 10, spacing and margin, in the same
state: clone and call less clone alone. Heap, public call, inner form and the harness's model named the same running job after each of
{events} events. Twice as many calls take {growth:.2} to {growth_most:.2} times as long, so none is left out. The block that a call gives
back is kept, and tested when all are made, so that it has to be written.

- `real`: load 0.9, T log-uniform from 1e3 to 1e5, D 0.6 to 1 of T, sporadic releases, each job done after 0.3 to 1 of C, a clock call now and then.
- `burst`: all tasks are released within as many ticks, then all are done; and again, when their spacing is past.

{cores} shared cores{}: ratios within one run count, absolute times do not.

| tasks | stream | call | heap ns | inner ns | ratio | public ns | ratio |
|---|---|---|---|---|---|---|---|
{table}
Two prices, medians over all events: the whole-test (public less inner), and the block by value (an inner clock call that is refused, whose
reading is one back: it does nothing but take the block and give it back).

| tasks | whole-test ns | block by value ns |
|---|---|---|
{}
## Is it quick enough?

- An inner form takes {inner:.1} to {inner_most:.1} times what the heap takes, {slowest_inner:.0} ns in the slowest row; a public call {public:.1} to {public_most:.1} times, {slowest:.0} ns.
- The whole-test is {tested:.0} % of a public call, and passing the block by value once is {passed:.0} % of an inner form (medians): time is to be saved there first.
- {}
",
        load(),
        prices(streams),
        promoting(streams)
    )
}
