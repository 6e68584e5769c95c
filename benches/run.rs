// A run of three streams.
use crate::machine::Machine;
use crate::step::Outcome;

#[derive(Clone, Copy, Default)]
pub struct Cursor {
    pub at: [usize; 3],
    pub next: usize,
}

pub enum Ending {
    Finished,
    Stuck,
    Budget,
    WordRefused(u32),
    CallRefused(u32),
}

pub struct Ran {
    pub ending: Ending,
    pub turns: u32,
    pub cursor: Cursor,
    // Each thread's last stall: number and cause.
    pub stalls: [Option<(u32, u32)>; 3],
}

impl Ending {
    // How a job's line says it.
    pub fn number(&self) -> u32 {
        match *self {
            Ending::Finished => 0,
            Ending::Stuck => 1,
            Ending::Budget => 2,
            Ending::WordRefused(n) => 100 + n,
            Ending::CallRefused(n) => 200 + n,
        }
    }
}

fn call_refusal(m: &Machine, streams: &[&[u32]; 3], cursor: &Cursor, budget: u32) -> Option<u32> {
    if streams.iter().any(|s| s.len() > 65536) {
        return Some(4);
    }
    if !m.well_formed() {
        return Some(10);
    }
    if streams.iter().zip(cursor.at).any(|(s, at)| at > s.len()) || cursor.next > 2 {
        return Some(5);
    }
    (budget > 1_000_000).then_some(6)
}

#[inline(never)]
pub fn run(m: &mut Machine, streams: [&[u32]; 3], cursor: Cursor, budget: u32) -> Ran {
    run_told(m, streams, cursor, budget, |_, _, _, _| {})
}

// The same; each turn is told once it is done: its number from 1 on, the thread, its word unless it is idle, and the outcome.
#[inline(always)]
pub fn run_told<F>(m: &mut Machine, streams: [&[u32]; 3], cursor: Cursor, budget: u32, mut tell: F) -> Ran
where
    F: FnMut(u32, usize, Option<u32>, Outcome),
{
    if let Some(number) = call_refusal(m, &streams, &cursor, budget) {
        return Ran { ending: Ending::CallRefused(number), turns: 0, cursor, stalls: [None; 3] };
    }
    let mut c = cursor;
    let mut left: usize = (0..3).map(|t| streams[t].len() - c.at[t]).sum();
    let (mut quiet, mut turns) = (0, 0);
    let mut stalls = [None; 3];
    let ending = loop {
        if left == 0 {
            break Ending::Finished;
        }
        if quiet >= 3 {
            break Ending::Stuck;
        }
        if turns == budget {
            break Ending::Budget;
        }
        let t = c.next;
        let word = streams[t].get(c.at[t]).copied();
        let outcome = match word {
            None => Outcome::Idle,
            Some(word) => m.offer(t, word),
        };
        turns += 1;
        tell(turns, t, word, outcome);
        if let Outcome::Refused(number) = outcome {
            break Ending::WordRefused(number);
        }
        if let Outcome::Stalled(number, cause) = outcome {
            stalls[t] = Some((number, cause));
        }
        if outcome == Outcome::Passed {
            stalls[t] = None;
            c.at[t] += 1;
            left -= 1;
            quiet = 0;
        } else {
            quiet += 1;
        }
        c.next = if t < 2 { t + 1 } else { 0 };
    };
    Ran { ending, turns, cursor: c, stalls }
}
