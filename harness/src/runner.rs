//! The runner by the model: from the bytes of a stream to the text that it prints.

use std::fmt::Write;

use crate::model::{first_level, level, plan, Call, Kernel, Refusal, Task};

pub const LONGEST: usize = 65536;

// ---- the stream

/// How long a record with this mark is.
fn size_of(mark: &[u8]) -> Option<usize> {
    match mark {
        b"TK" => Some(14),
        b"RL" | b"DN" => Some(7),
        b"TM" => Some(6),
        _ => None,
    }
}

fn word(bytes: &[u8]) -> u32 {
    u32::from_le_bytes([bytes[0], bytes[1], bytes[2], bytes[3]])
}

/// The record at an offset, if all of it is there.
pub fn record_at(stream: &[u8], at: usize) -> Option<&[u8]> {
    let size = size_of(stream.get(at..at + 2)?)?;
    stream.get(at..at + size)
}

pub fn task_of(record: &[u8]) -> Task {
    Task { c: word(&record[2..]), d: word(&record[6..]), t: word(&record[10..]) }
}

pub fn call_of(record: &[u8]) -> Call {
    let reading = word(&record[2..]);
    match &record[..2] {
        b"RL" => Call::Release { reading, task: record[6] },
        b"DN" => Call::Done { reading, task: record[6] },
        _ => Call::Clock { reading },
    }
}

/// The tasks and the calls of a stream; or 14, then at each record 12 before 13.
pub fn records(stream: &[u8]) -> Result<(Vec<Task>, Vec<Call>), Refusal> {
    if stream.len() > LONGEST {
        return Err((14, LONGEST));
    }
    let (mut tasks, mut calls, mut at) = (vec![], vec![], 0);
    while at < stream.len() {
        let record = record_at(stream, at).ok_or((12, at))?;
        match &record[..2] {
            b"TK" if !calls.is_empty() => return Err((13, at)),
            b"TK" => tasks.push(task_of(record)),
            _ => calls.push(call_of(record)),
        }
        at += record.len();
    }
    Ok((tasks, calls))
}

// ---- the runner's lines

fn plan_lines(table: &[Task]) -> String {
    let mut out = String::new();
    for (i, task) in table.iter().enumerate() {
        write!(out, "P {} {}", i + 1, level(table, task.d as i64)).unwrap();
        for (point, to) in plan(table, task.d) {
            write!(out, " {point}:{to}").unwrap();
        }
        out.push('\n');
    }
    out
}

/// The E lines, then the S line.
fn event_lines(kernel: &mut Kernel, calls: &[Call]) -> String {
    let (mut out, mut total, mut bound) = (String::new(), 0, 0);
    for (i, &call) in calls.iter().enumerate() {
        let answer = kernel.call(call);
        let number = answer.err().unwrap_or(0);
        let moves = answer.map_or(0, |accepted| accepted.moves);
        let margin = answer.ok().and_then(|accepted| accepted.margin).map_or("-".into(), |ticks| ticks.to_string());
        if let (Call::Release { task, .. }, Ok(_)) = (call, answer) {
            bound += first_level(&kernel.table, task) as u64 - 1;
        }
        total += moves;
        writeln!(out, "E {} {number} {} {moves} {} {margin}", i + 1, kernel.running(), kernel.waiting().len()).unwrap();
    }
    writeln!(out, "S {total} {bound}").unwrap();
    out
}

fn lines(stream: &[u8]) -> Result<String, Refusal> {
    let (table, calls) = records(stream)?;
    let mut kernel = Kernel::start(&table, 0)?;
    Ok(plan_lines(&table) + &event_lines(&mut kernel, &calls))
}

/// The runner's whole output.
pub fn output(stream: &[u8]) -> String {
    lines(stream).unwrap_or_else(|(number, given)| format!("X {number} {given}\n"))
}
