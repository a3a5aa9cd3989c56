//! Streams of records: written from calls, damaged at random, and told as the text that tools/stream.py reads.

use crate::model::{Call, Task};
use crate::random::Dice;
use crate::runner::{call_of, record_at, task_of};
use crate::sequences::{sequence, spoilt_table};

// ---- written

fn put_task(stream: &mut Vec<u8>, task: &Task) {
    stream.extend(b"TK");
    for number in [task.c, task.d, task.t] {
        stream.extend(number.to_le_bytes());
    }
}

fn put_call(stream: &mut Vec<u8>, call: &Call) {
    let (mark, reading, task) = match *call {
        Call::Release { reading, task } => (b"RL", reading, Some(task)),
        Call::Done { reading, task } => (b"DN", reading, Some(task)),
        Call::Clock { reading } => (b"TM", reading, None),
    };
    stream.extend(mark);
    stream.extend(reading.to_le_bytes());
    stream.extend(task);
}

pub fn written(table: &[Task], calls: &[Call]) -> Vec<u8> {
    let mut stream = vec![];
    table.iter().for_each(|task| put_task(&mut stream, task));
    calls.iter().for_each(|call| put_call(&mut stream, call));
    stream
}

// ---- random

/// Seven of ten are as they should be; of the others some have a spoilt table and most are damaged.
pub fn random(dice: &mut Dice) -> Vec<u8> {
    let mut sequence = sequence(dice, 0);
    if dice.percent(5) {
        sequence.table = spoilt_table(dice);
    }
    let mut stream = written(&sequence.table, &sequence.calls);
    if dice.percent(25) {
        damage(dice, &mut stream);
    }
    stream
}

/// The offsets of the records, as far as they can be read.
fn offsets(stream: &[u8]) -> Vec<usize> {
    let (mut found, mut at) = (vec![], 0);
    while let Some(record) = record_at(stream, at) {
        found.push(at);
        at += record.len();
    }
    found
}

fn any_place(dice: &mut Dice, stream: &[u8]) -> usize {
    dice.below(stream.len() as u64) as usize
}

fn damage(dice: &mut Dice, stream: &mut Vec<u8>) {
    let records = offsets(stream);
    if records.is_empty() {
        return stream.push(dice.next() as u8);
    }
    let at = any_place(dice, stream);
    match dice.below(10) {
        0 => stream.truncate(at),
        1 => stream[at] ^= 1 << dice.below(8),
        2 => stream[at] = dice.next() as u8,
        3 => stream.insert(at, dice.next() as u8),
        4 => drop(stream.remove(at)),
        5..=6 => change_mark(dice, stream, &records),
        7 => swap_records(dice, stream, &records),
        8 => task_between(dice, stream, &records),
        _ => lengthen(dice, stream),
    }
}

/// To another mark, or to a pair that is none.
fn change_mark(dice: &mut Dice, stream: &mut [u8], records: &[usize]) {
    let at = dice.one_of(records);
    let mark = dice.one_of(&[b"TK", b"RL", b"DN", b"TM", b"TL", b"KT", b"RN", b"MT", b"tk"]);
    stream[at..at + 2].copy_from_slice(mark);
}

fn swap_records(dice: &mut Dice, stream: &mut Vec<u8>, records: &[usize]) {
    let (a, b) = (dice.one_of(records), dice.one_of(records));
    let (a, b) = (a.min(b), a.max(b));
    let first = record_at(stream, a).unwrap().to_vec();
    let second = record_at(stream, b).unwrap().to_vec();
    stream.splice(b..b + second.len(), first.clone());
    stream.splice(a..a + first.len(), second);
}

/// Before any record, so often behind an event.
fn task_between(dice: &mut Dice, stream: &mut Vec<u8>, records: &[usize]) {
    let at = dice.one_of(records);
    let mut task = vec![];
    put_task(&mut task, &Task { c: 1, d: dice.between(0, 9) as u32, t: dice.between(0, 99) as u32 });
    stream.splice(at..at, task);
}

/// To some bytes around the longest that is taken.
fn lengthen(dice: &mut Dice, stream: &mut Vec<u8>) {
    let length = dice.between(65_530, 65_545) as usize;
    while stream.len() < length {
        put_call(stream, &Call::Clock { reading: stream.len() as u32 });
    }
    stream.truncate(length);
}

// ---- told

fn told_record(record: &[u8]) -> String {
    if record.starts_with(b"TK") {
        let Task { c, d, t } = task_of(record);
        return format!("task {c} {d} {t}\n");
    }
    match call_of(record) {
        Call::Release { reading, task } => format!("release {reading} {task}\n"),
        Call::Done { reading, task } => format!("done {reading} {task}\n"),
        Call::Clock { reading } => format!("clock {reading}\n"),
    }
}

/// The text of a stream; what cannot be read stands in it as bytes.
pub fn told(stream: &[u8]) -> String {
    let (mut text, mut at) = (String::new(), 0);
    while let Some(record) = record_at(stream, at) {
        text += &told_record(record);
        at += record.len();
    }
    if at < stream.len() {
        text += "bytes";
        stream[at..].iter().for_each(|byte| text += &format!(" {byte:02X}"));
        text += "\n";
    }
    text
}
