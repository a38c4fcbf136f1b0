//! 01's batch, command by command on the mirror, and input for it.
use crate::calls::{Call, Fields};
use crate::mirror::Mirror;
use crate::random::Random;

/// The longest answer.
pub const LONGEST: usize = 13;

/// The bytes of a kind's body, if the kind is known.
fn body(kind: u8) -> Option<usize> {
    match kind {
        1 | 5 => Some(12),
        2 | 4 => Some(4),
        3 => Some(8),
        6 => Some(0),
        _ => None,
    }
}

fn number(bytes: &[u8]) -> u64 {
    bytes.iter().rev().fold(0, |all, byte| all << 8 | *byte as u64)
}

fn command(bytes: &[u8]) -> Call {
    match bytes[0] {
        1 => Call::Insert(number(&bytes[1..5]), number(&bytes[5..13])),
        2 => Call::Remove(number(&bytes[1..5])),
        3 => Call::Push(number(&bytes[1..9])),
        4 => Call::Get(number(&bytes[1..5])),
        5 => Call::Replace(number(&bytes[1..5]), number(&bytes[5..13])),
        _ => Call::Len,
    }
}

fn record(kind: u8, fields: Fields) -> Vec<u8> {
    let value = fields[1].to_le_bytes();
    match (fields[0], kind) {
        (0, 1 | 3) => vec![0x81],
        (0, 2 | 5) => [&[0x82], &value[..]].concat(),
        (0, 6) => [&[0x83], &value[..]].concat(),
        (0, _) => [&[0x85], &value[..], &(fields[2] as u32).to_le_bytes()].concat(),
        (refused, _) => vec![0x84, refused as u8],
    }
}

/// Runs a batch on the mirror, with so much room for the answers: the result that is due, and the answers.
pub fn due(mirror: &mut Mirror, input: &[u8], room: usize) -> Result<(Fields, Vec<u8>), String> {
    let (mut commands, mut read, mut answers) = (0, 0, Vec::new());
    let stop = loop {
        let rest = &input[read..];
        let Some(kind) = rest.first() else { break 0 };
        let Some(body) = body(*kind) else { break 5 };
        if rest.len() < 1 + body {
            break 6;
        }
        if room - answers.len() < LONGEST {
            break 7;
        }
        let fields = mirror.due(&command(rest))?;
        answers.extend(record(*kind, fields));
        commands += 1;
        read += 1 + body;
    };
    Ok(([stop, commands, read as u64, answers.len() as u64], answers))
}

/// A call in bytes, if it is one of a batch's; an index that has no 4 bytes becomes the largest that has.
pub fn bytes(call: &Call) -> Option<Vec<u8>> {
    let index = |i: u64| u32::try_from(i).unwrap_or(u32::MAX).to_le_bytes();
    Some(match *call {
        Call::Insert(i, x) => [&[1], &index(i)[..], &x.to_le_bytes()].concat(),
        Call::Remove(i) => [&[2], &index(i)[..]].concat(),
        Call::Push(x) => [&[3], &x.to_le_bytes()[..]].concat(),
        Call::Get(i) => [&[4], &index(i)[..]].concat(),
        Call::Replace(i, x) => [&[5], &index(i)[..], &x.to_le_bytes()].concat(),
        Call::Len => vec![6],
        _ => return None,
    })
}

/// Random commands, for a list of about n elements: kinds in about equal parts, some indexes beyond.
pub fn commands(random: &mut Random, n: u64, count: u64) -> Vec<u8> {
    let mut input = Vec::new();
    let mut n = n;
    let grow = random.within(1, 3);
    for _ in 0..count {
        let index = if random.percent(5) { random.huge() } else { random.below(n + 2) };
        let x = random.element();
        let call = match random.below(6 + grow) {
            0 => Call::Remove(index),
            1 => Call::Push(x),
            2 => Call::Get(index),
            3 => Call::Replace(index, x),
            4 => Call::Len,
            5 if grow == 1 => Call::Remove(index),
            _ => Call::Insert(index, x),
        };
        match call {
            Call::Remove(_) => n = n.saturating_sub(1),
            Call::Push(_) | Call::Insert(..) => n += 1,
            _ => {}
        }
        input.extend(bytes(&call).expect("a batch's call"));
    }
    input
}

/// Batches that fill a pool of p nodes, by insertions at random or by pushes.
pub fn filling(random: &mut Random, p: u64) -> Vec<Call> {
    // A node holds about 21 elements after the first, and 15 after the others.
    let (any, count) = if random.percent(50) { (true, 22 * p) } else { (false, 16 * p) };
    let commands: Vec<Vec<u8>> = (0..count)
        .filter_map(|n| {
            let x = random.element();
            bytes(&if any { Call::Insert(random.below(n + 1), x) } else { Call::Push(x) })
        })
        .collect();
    commands.chunks(1000).map(|some| Call::Batch(some.concat(), LONGEST * some.len())).collect()
}

/// Input that may be cut, or have an unknown kind, or be no commands at all; and room that may be short.
pub fn batch(random: &mut Random, n: u64, most: u64) -> (Vec<u8>, usize) {
    let count = random.below(most + 1);
    let mut input = commands(random, n, count);
    match random.below(8) {
        0 => input.truncate(random.below(input.len() as u64 + 1) as usize),
        1 => input.push(if random.percent(20) { 0 } else { random.within(7, 255) as u8 }),
        2 if !input.is_empty() => {
            let place = random.below(input.len() as u64) as usize;
            input[place] = random.any() as u8;
        }
        3 if random.percent(20) => input = (0..random.below(40)).map(|_| random.below(9) as u8).collect(),
        _ => {}
    }
    let all = LONGEST * (count as usize + 1);
    let room = if random.percent(30) { random.below(all as u64 + 1) as usize } else { all };
    (input, room)
}
