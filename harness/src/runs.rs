//! Part one: whole streams. meter_run's output is the model's, to the byte.

use crate::library::{self, ROOM};
use crate::random::Dice;
use crate::runner::{self, LONGEST};
use crate::streams;

/// What the room holds before a run; behind the output it stays.
const UNTOUCHED: u8 = 0xa5;

#[derive(Default)]
struct Counts {
    refused: u64,
    accepted_calls: u64,
    refused_calls: u64,
    longest: usize,
}

impl Counts {
    fn add(&mut self, stream: &[u8], want: &str) {
        self.longest = self.longest.max(stream.len());
        self.refused += want.starts_with('X') as u64;
        for line in want.lines().filter(|line| line.starts_with('E')) {
            let accepted = line.split(' ').nth(2) == Some("0");
            self.accepted_calls += accepted as u64;
            self.refused_calls += !accepted as u64;
        }
    }
}

fn first_difference(want: &[u8], got: &[u8]) -> String {
    let text = |bytes: &[u8]| String::from_utf8_lossy(bytes).into_owned();
    let (want, got) = (text(want), text(got));
    let (mut wants, mut gots) = (want.lines(), got.lines());
    for line in 1.. {
        match (wants.next(), gots.next()) {
            (None, None) => break,
            (want, got) if want == got => {}
            (want, got) => return format!("line {line}: the model has {want:?}, the library {got:?}"),
        }
    }
    "they differ in line ends".into()
}

/// The room holds the model's output, and behind it every byte is as it was before the run.
fn compare(stream: &[u8], before: &[u8], room: &mut [u8], counts: &mut Counts) -> Result<(), String> {
    let want = runner::output(stream);
    counts.add(stream, &want);
    let length = library::run(stream, room);
    let got = room.get(..length).ok_or(format!("a length of {length} bytes"))?;
    if got != want.as_bytes() {
        return Err(first_difference(want.as_bytes(), got));
    }
    if room[length..] != before[length..] {
        return Err("bytes behind the output were written".into());
    }
    room[..length].fill(UNTOUCHED);
    Ok(())
}

/// Where there is too little room nothing is written.
fn short_room() -> Result<(), String> {
    let mut room = vec![UNTOUCHED; ROOM - 1];
    let length = library::run(b"", &mut room);
    if length != 0 || room.iter().any(|&byte| byte != UNTOUCHED) {
        return Err(format!("room for {} bytes: {length} were written", ROOM - 1));
    }
    Ok(())
}

pub fn check(seed: u64, count: u64) -> Result<String, String> {
    short_room()?;
    let before = vec![UNTOUCHED; ROOM];
    let (mut room, mut counts) = (before.clone(), Counts::default());
    for seed in seed..seed + count {
        let stream = streams::random(&mut Dice::new(seed));
        compare(&stream, &before, &mut room, &mut counts).map_err(|why| format!("seed {seed}: {why}\nthe stream:\n{}", streams::told(&stream)))?;
    }
    let Counts { refused, accepted_calls, refused_calls, longest } = counts;
    Ok(format!(
        "{count} streams: {refused} refused; in the others {accepted_calls} events accepted, {refused_calls} refused; \
         the longest has {longest} bytes (taken are {LONGEST})"
    ))
}
