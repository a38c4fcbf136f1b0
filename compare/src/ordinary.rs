//! The batch as an ordinary Rust program does it on the original, for the measurements. The original does not count comparisons: 0 is
//! written for them.
use crate::bag::Ran;
use crate::sequence_tree::SequenceTree;

fn word(bytes: &[u8]) -> u64 {
    u64::from_le_bytes(bytes.try_into().unwrap())
}

fn index(bytes: &[u8]) -> usize {
    u32::from_le_bytes(bytes.try_into().unwrap()) as usize
}

/// Writes a record, and gives its length.
fn reply(out: &mut [u8], kind: u8, value: u64) -> usize {
    out[0] = kind;
    out[1..9].copy_from_slice(&value.to_le_bytes());
    9
}

fn done(out: &mut [u8]) -> usize {
    out[0] = 0x81;
    1
}

/// Runs a command of a known kind; none if it is refused.
fn run(tree: &mut SequenceTree<u64>, command: &[u8], out: &mut [u8]) -> Option<usize> {
    match command[0] {
        1 => (index(&command[1..5]) <= tree.len()).then(|| {
            tree.insert(index(&command[1..5]), word(&command[5..13]));
            done(out)
        }),
        2 => (index(&command[1..5]) < tree.len()).then(|| reply(out, 0x82, tree.remove(index(&command[1..5])))),
        3 => {
            tree.push(word(&command[1..9]));
            Some(done(out))
        }
        4 => tree.get(index(&command[1..5])).map(|element| {
            out[9..13].fill(0);
            reply(out, 0x85, *element) + 4
        }),
        5 => tree.get_mut(index(&command[1..5])).map(|slot| reply(out, 0x82, std::mem::replace(slot, word(&command[5..13])))),
        _ => Some(reply(out, 0x83, tree.len() as u64)),
    }
}

pub fn batch(tree: &mut SequenceTree<u64>, input: &[u8], output: &mut [u8]) -> Ran {
    let (mut commands, mut read, mut written) = (0, 0, 0);
    let number = loop {
        let rest = &input[read..];
        let Some(kind) = rest.first() else { break 0 };
        let length = match kind {
            1 | 5 => 13,
            2 | 4 => 5,
            3 => 9,
            6 => 1,
            _ => break 5,
        };
        if rest.len() < length {
            break 6;
        }
        if output.len() - written < 13 {
            break 7;
        }
        let out = &mut output[written..written + 13];
        written += match run(tree, &rest[..length], out) {
            Some(bytes) => bytes,
            None => {
                out[..2].copy_from_slice(&[0x84, 2]);
                2
            }
        };
        commands += 1;
        read += length;
    };
    Ran { number, commands, read: read as u64, written: written as u64 }
}
