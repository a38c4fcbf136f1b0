//! The shortest trace found that still shows a difference.
use std::time::{Duration, Instant};

use crate::calls::Call;
use crate::trial::Trial;

const PATIENCE: Duration = Duration::from_secs(60);

/// The first call that differs, and how.
pub fn run(p: usize, calls: &[Call]) -> Option<(usize, String)> {
    let mut trial = match Trial::new(p) {
        Ok(trial) => trial,
        Err(difference) => return Some((0, difference)),
    };
    calls.iter().enumerate().find_map(|(i, call)| trial.make(call).err().map(|difference| (i + 1, difference)))
}

/// Leaves out what can be left out, in ever smaller pieces.
pub fn shrink(p: usize, mut calls: Vec<Call>) -> Vec<Call> {
    let start = Instant::now();
    if let Some((differs, _)) = run(p, &calls) {
        calls.truncate(differs);
    } else {
        return calls;
    }
    let mut piece = calls.len().div_ceil(2);
    while piece > 0 {
        let mut from = 0;
        while from < calls.len() && start.elapsed() < PATIENCE {
            let mut fewer = calls.clone();
            fewer.drain(from..(from + piece).min(calls.len()));
            match run(p, &fewer) {
                Some((differs, _)) => {
                    fewer.truncate(differs);
                    calls = fewer;
                }
                None => from += piece,
            }
        }
        piece /= 2;
    }
    calls
}
