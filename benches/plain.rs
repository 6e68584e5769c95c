// Plain Rust of document 01's rules, written for speed, to compare the proved code with. Nothing here is proved.
// It reads the same jobs as crates/test_speed and crates/test_expander_speed and prints the same lines; benches/run builds and times both.
use std::hint::black_box;
use std::io::{Read, Write};

mod expander;
mod image;
mod machine;
mod run;
mod seeded;
mod step;

use machine::Machine;

// A job: kind, repetitions, seed, limit, and three counts of words, then the words.
struct Job {
    kind: u32,
    times: u32,
    seed: u32,
    limit: u32,
    parts: [Vec<u32>; 3],
}

fn words(input: &mut &[u8], count: usize) -> Option<Vec<u32>> {
    let bytes = count.checked_mul(4)?;
    if input.len() < bytes {
        return None;
    }
    let (now, rest) = input.split_at(bytes);
    *input = rest;
    Some(now.chunks_exact(4).map(|b| u32::from_le_bytes([b[0], b[1], b[2], b[3]])).collect())
}

fn next_job(input: &mut &[u8]) -> Option<Job> {
    let h = words(input, 7)?;
    let mut part = |n: u32| words(input, n as usize);
    Some(Job { kind: h[0], times: h[1], seed: h[2], limit: h[3], parts: [part(h[4])?, part(h[5])?, part(h[6])?] })
}

// Runs from the streams' start, each on the machine that the one before it left. Only the stores are of the seed.
fn runs(job: &Job) -> String {
    let mut m = seeded::machine(job.seed);
    m.control = machine::Control::default();
    let (mut turns, mut ending, mut stalls) = (0u32, 0, 0);
    for _ in 0..job.times {
        let streams = black_box([&job.parts[0][..], &job.parts[1][..], &job.parts[2][..]]);
        let ran = run::run(&mut m, streams, run::Cursor::default(), black_box(job.limit));
        turns = turns.wrapping_add(ran.turns);
        ending = ran.ending.number();
        stalls = ran.stalls.iter().flatten().map(|(number, cause)| number + cause).sum::<u32>();
        black_box(ran.cursor);
    }
    format!("run {} {} {} {}", ending, turns, stalls, seeded::digest(&m))
}

fn saves(job: &Job) -> String {
    let m = seeded::machine(job.seed);
    let mut out = vec![0u8; job.limit as usize];
    let mut answer = 0;
    for _ in 0..job.times {
        answer = image::save(black_box(&m), black_box(&mut out)).err().unwrap_or(0);
    }
    format!("save {} {}", answer, seeded::checksum(&out))
}

fn loads(job: &Job) -> String {
    let mut bytes = vec![0u8; image::SIZE];
    image::save(&seeded::machine(job.seed), &mut bytes).unwrap();
    let mut m = Machine::fresh();
    let mut answer = 0;
    for _ in 0..job.times {
        answer = image::load(black_box(&bytes), black_box(&mut m)).err().map_or(0, |_| 9);
    }
    format!("load {} {}", answer, seeded::digest(&m))
}

fn expansions(job: &Job) -> String {
    let mut out = vec![0u32; job.limit as usize];
    let mut carried = expander::Carried::with_mask(job.seed as u16);
    let mut answer = (0, 0);
    for _ in 0..job.times {
        let done = expander::expand(black_box(&job.parts[0]), &carried, black_box(&job.parts[1]), black_box(&mut out));
        answer = match done {
            Ok((count, after)) => {
                carried = after;
                (0, count)
            }
            Err(number) => (number, 0),
        };
    }
    let bytes: Vec<u8> = out.iter().flat_map(|w| w.to_le_bytes()).collect();
    format!("expand {} {} {} {}", answer.0, answer.1, carried.high, seeded::checksum(&bytes))
}

fn main() {
    let mut all = Vec::new();
    std::io::stdin().read_to_end(&mut all).unwrap();
    let mut input = &all[..];
    while let Some(job) = next_job(&mut input) {
        let line = match job.kind {
            1 => runs(&job),
            2 => saves(&job),
            3 => loads(&job),
            4 => expansions(&job),
            _ => return,
        };
        writeln!(std::io::stdout(), "{line}").unwrap();
    }
}
