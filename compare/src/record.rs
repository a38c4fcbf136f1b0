//! A fixed list of commands, and what the program `replay` must write for it.
use std::io::Write;

use crate::batches;
use crate::digest::rolled_words;
use crate::mirror::Mirror;
use crate::workload::Workload;

/// With this one the last block borrows to the left and to the right, and merges, at inner nodes too, and at their separators.
const SEED: u64 = 20261215;

/// The nodes of each block's pool, and the most bytes of its commands. A tree of three levels takes 35 nodes, and long to grow.
const BLOCKS: [(usize, usize); 14] = [
    (0, 1024),
    (1, 6144),
    (2, 6144),
    (2, 6144),
    (3, 6144),
    (3, 6144),
    (4, 6144),
    (5, 6144),
    (6, 6144),
    (8, 6144),
    (12, 6144),
    (20, 6144),
    (40, 20480),
    (60, 24576),
];

/// Writes a line that says how the list was made, then blocks, each a batch on a pool that is formatted before it: the pool's nodes and
/// the bytes of commands, 4 bytes each and little-endian, and the commands. What is due for a block: the answers, a digest of the
/// pool's words afterwards in 16 digits, and a line end.
///
/// The commands are a workload's, for an odd block one that fills the pool first. What is due is what the mirror says, whose shape is
/// compared with the original's after each command: the library has no part in it. Gives the number of commands.
pub fn write(list: &mut impl Write, due: &mut impl Write) -> Result<u64, Box<dyn std::error::Error>> {
    writeln!(list, "commands recorded beside the original Rust by `compare record LIST DUE` (compare/src/record.rs), seed {SEED}")?;
    let mut all = 0;
    for (block, (p, most)) in BLOCKS.into_iter().enumerate() {
        let seed = SEED + block as u64;
        let mut workload = if block % 2 == 1 { Workload::full(seed, 25, p as u64) } else { Workload::new(seed, 25) };
        let mut mirror = Mirror::new(p);
        let mut commands = Vec::new();
        while commands.len() + 13 <= most {
            let Some(bytes) = batches::bytes(&workload.next(&mirror)) else { continue };
            let (_, answer) = batches::due(&mut mirror, &bytes, batches::LONGEST)?;
            mirror.compare_shape()?;
            commands.extend(bytes);
            due.write_all(&answer)?;
            all += 1;
        }
        for number in [p, commands.len()] {
            list.write_all(&(number as u32).to_le_bytes())?;
        }
        list.write_all(&commands)?;
        writeln!(due, "{:016x}", rolled_words(0, mirror.model.words()))?;
    }
    Ok(all)
}
