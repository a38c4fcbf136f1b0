//! The program on random bytes: what it writes beside what 01 says of it.
use std::io::Write;
use std::path::{Path, PathBuf};
use std::process::{Command, Stdio};

use crate::batches;
use crate::mirror::Mirror;
use crate::random::Random;

const NODES: usize = 60;
const MOST_INPUT: usize = 2048;

/// Where `rt run` leaves the program.
pub fn path() -> PathBuf {
    Path::new(env!("CARGO_MANIFEST_DIR")).join("../crates/scanner/out/scanner")
}

fn due(input: &[u8]) -> Result<Vec<u8>, String> {
    if input.len() > MOST_INPUT {
        return Ok([&[0x8F, 8], &[0; 8][..]].concat());
    }
    // Room enough that 7 does not arise: a command has a byte at least.
    let room = batches::LONGEST * (input.len() + 1);
    let (fields, mut output) = batches::due(&mut Mirror::new(NODES), input, room)?;
    output.extend([0x8F, fields[0] as u8]);
    output.extend((fields[1] as u32).to_le_bytes());
    output.extend((fields[2] as u32).to_le_bytes());
    Ok(output)
}

fn run(input: &[u8]) -> std::io::Result<Vec<u8>> {
    let mut child = Command::new(path()).stdin(Stdio::piped()).stdout(Stdio::piped()).spawn()?;
    // The program reads one byte more than it runs, and then no more.
    match child.stdin.take().map(|mut pipe| pipe.write_all(input)) {
        Some(Err(e)) if e.kind() != std::io::ErrorKind::BrokenPipe => return Err(e),
        _ => {}
    }
    Ok(child.wait_with_output()?.stdout)
}

fn input(random: &mut Random) -> Vec<u8> {
    match random.below(6) {
        // near the longest that is run, and beyond
        0 => {
            let mut input = batches::commands(random, 0, 400);
            input.resize(random.within(2040, 2056) as usize, 6);
            input
        }
        1 => vec![6; random.within(2040, 2056) as usize],
        _ => batches::batch(random, 0, 200).0,
    }
}

/// Runs the program once; an error has the input and the difference.
pub fn try_program(random: &mut Random) -> Result<(), (Vec<u8>, String)> {
    let input = input(random);
    let judge = || -> Result<(), String> {
        let got = run(&input).map_err(|e| format!("{}: {e}", path().display()))?;
        let due = due(&input)?;
        if got != due {
            let differs = got.iter().zip(&due).position(|(a, b)| a != b).unwrap_or(got.len().min(due.len()));
            return Err(format!("the program writes {} bytes, {} are due; byte {differs} differs", got.len(), due.len()));
        }
        Ok(())
    };
    judge().map_err(|difference| (input.clone(), difference))
}
