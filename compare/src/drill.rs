//! What the program `drill` must write: the same list, built and emptied on the mirror. The library has no part in it.
use std::io::Write;

use crate::calls::{Call, Fields};
use crate::digest::rolled_words;
use crate::mirror::Mirror;

/// This and the next are those of `crates/drill`.
const ELEMENTS: u64 = 2000;
const NODES: usize = 140;

/// Its orders are these, in this order.
fn place(order: u64, n: u64) -> u64 {
    match order {
        0 => 0,
        1 => n - 1,
        2 => n / 2,
        _ => 1000003 % n,
    }
}

/// Makes a call, and compares the shape that it leaves with the original's.
fn make(mirror: &mut Mirror, call: Call) -> Result<Fields, String> {
    let due = mirror.due(&call)?;
    mirror.compare_shape()?;
    Ok(due)
}

fn round(up: u64, down: u64) -> Result<u64, String> {
    let mut mirror = Mirror::new(NODES);
    for n in 1..=ELEMENTS {
        make(&mut mirror, Call::Insert(place(up, n), n * 2654435761))?;
    }
    let mut digest = rolled_words(0, mirror.model.words());
    for n in (1..=ELEMENTS).rev() {
        let at = place(down, n);
        for call in [Call::Get(at), Call::Remove(at)] {
            let [number, value, compared, _] = make(&mut mirror, call)?;
            digest = rolled_words(digest, &[number, value, compared]);
        }
    }
    Ok(rolled_words(digest, mirror.model.words()))
}

/// Writes a digest for each pair of orders.
pub fn write(due: &mut impl Write) -> Result<(), Box<dyn std::error::Error>> {
    for pair in 0..16 {
        writeln!(due, "{:016x}", round(pair / 4, pair % 4)?)?;
    }
    Ok(())
}
