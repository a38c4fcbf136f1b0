//! Long random call sequences on the library, the original, a `Vec` and the driver's own model of 01, with every difference shown.
//!
//!     compare short SEED | compare long SEED | compare record LIST DUE | compare drill DUE
use std::process::exit;
use std::time::Instant;

use compare::random::Random;
use compare::refusals::{try_damage, try_lengths, Finding};
use compare::shrink::{run, shrink};
use compare::trial::Trial;
use compare::workload::Workload;
use compare::{batches, drill, program, record};

#[derive(Default)]
struct Tally {
    calls: u64,
    batches: u64,
    damaged: u64,
    programs: u64,
    differences: u64,
    /// How often each number was due of a call in a sequence, and of a damaged pool.
    numbers: [u64; 8],
    verdicts: [u64; 8],
}

/// What a run has at least.
struct Plan {
    calls: u64,
    damaged: u64,
    programs: u64,
}

const SHORT: Plan = Plan { calls: 400_000, damaged: 40_000, programs: 400 };
const LONG: Plan = Plan { calls: 20_000_000, damaged: 1_000_000, programs: 10_000 };

/// A sequence of calls on a pool of p nodes, with damage now and then to a copy of it. The largest pools are filled by batches first.
fn sequence(p: usize, seed: u64, calls: u64, damages: u64, tally: &mut Tally) {
    let large = p > 300;
    let fills = !large && seed % 3 == 0;
    let calls = if fills { calls + 28 * p as u64 } else { calls };
    let mut workload = if fills { Workload::full(seed, 10, p as u64) } else { Workload::new(seed, 20) };
    let mut filling = if large { batches::filling(&mut Random::new(seed), p as u64) } else { Vec::new() }.into_iter();
    let mut trace = Vec::new();
    let damage = &mut Random::new(seed ^ 0xDA3A6E);
    let mut trial = match Trial::new(p) {
        Ok(trial) => trial,
        Err(difference) => return report(p, seed, Vec::new(), &difference, tally),
    };
    let turn = calls / (damages + 1) + 1;
    while trial.calls < calls {
        let call = filling.next().unwrap_or_else(|| workload.next(&trial.mirror));
        trace.push(call);
        if let Err(difference) = trial.make(&trace[trace.len() - 1]) {
            report(p, seed, trace, &difference, tally);
            break;
        }
        if trace.len() as u64 % turn == 0 {
            damaged(trial.pool(), seed, damage, tally);
        }
    }
    tally.calls += trial.calls;
    tally.batches += trial.batches;
    (0..8).for_each(|i| tally.numbers[i] += trial.numbers[i]);
}

fn report(p: usize, seed: u64, trace: Vec<compare::calls::Call>, difference: &str, tally: &mut Tally) {
    tally.differences += 1;
    let whole = trace.len();
    let short = shrink(p, trace);
    let shown = run(p, &short).map_or_else(|| difference.to_string(), |(_, d)| d);
    println!("DIFFERENCE: {p} nodes, seed {seed}, after {whole} calls: {difference}");
    println!("  the shortest trace found has {} calls on a formatted pool: {shown}", short.len());
    for call in short.iter().take(400) {
        println!("  {call:?}");
    }
}

fn damaged(base: &[u64], seed: u64, random: &mut Random, tally: &mut Tally) {
    tally.damaged += 1;
    match try_damage(base, random) {
        Ok((calls, verdict)) => {
            tally.calls += calls;
            tally.verdicts[verdict as usize] += 1;
        }
        Err(finding) => report_words("a damaged pool", seed, finding, base, tally),
    }
}

fn lengths(seed: u64, tally: &mut Tally) {
    match try_lengths(&mut Random::new(seed)) {
        Ok(calls) => tally.calls += calls,
        Err(finding) => report_words("a length", seed, finding, &[], tally),
    }
}

fn report_words(what: &str, seed: u64, finding: Finding, base: &[u64], tally: &mut Tally) {
    tally.differences += 1;
    println!("DIFFERENCE: {what}, {} words, seed {seed}, {:?}: {}", finding.pool.len(), finding.call, finding.difference);
    for (i, word) in finding.pool.iter().enumerate().filter(|(i, w)| base.get(*i) != Some(w)).take(200) {
        println!("  word {i} was {:?} and is {word}", base.get(i));
    }
}

fn programs(count: u64, seed: u64, tally: &mut Tally) {
    let random = &mut Random::new(seed);
    for _ in 0..count {
        tally.programs += 1;
        if let Err((input, difference)) = program::try_program(random) {
            tally.differences += 1;
            println!("DIFFERENCE: the program, seed {seed}: {difference}\n  input {input:02X?}");
        }
    }
}

/// Every size from 0 to 300, then 1,024 and 4,096; again with other seeds until the plan is met.
fn compare(plan: Plan, seed: u64) -> Tally {
    let (start, mut tally, mut round) = (Instant::now(), Tally::default(), 0);
    let random = &mut Random::new(seed);
    while tally.calls < plan.calls || tally.damaged < plan.damaged {
        round += 1;
        lengths(random.any(), &mut tally);
        for p in 0..=300 {
            sequence(p, random.any(), 600 + 15 * p as u64, 250, &mut tally);
        }
        sequence(1024, random.any(), 15_000, 100, &mut tally);
        sequence(4096, random.any(), 15_000, 30, &mut tally);
        let (calls, damaged, seconds) = (tally.calls, tally.damaged, start.elapsed().as_secs());
        println!("round {round}: {calls} calls, {damaged} damaged pools, {} differences, {seconds} s", tally.differences);
        if tally.differences > 20 {
            return tally;
        }
    }
    programs(plan.programs, random.any(), &mut tally);
    tally
}

fn usage() -> ! {
    eprintln!("usage: compare short SEED | compare long SEED | compare record LIST DUE | compare drill DUE");
    exit(2)
}

fn main() -> Result<(), Box<dyn std::error::Error>> {
    let words: Vec<String> = std::env::args().skip(1).collect();
    let words: Vec<&str> = words.iter().map(String::as_str).collect();
    let create = |file| std::fs::File::create(file).map(std::io::BufWriter::new);
    let (plan, seed) = match words[..] {
        ["short", seed] => (SHORT, seed.parse()?),
        ["long", seed] => (LONG, seed.parse()?),
        ["record", list, due] => {
            let commands = record::write(&mut create(list)?, &mut create(due)?)?;
            println!("{commands} commands");
            return Ok(());
        }
        ["drill", due] => return drill::write(&mut create(due)?),
        _ => usage(),
    };
    if !program::path().exists() {
        return Err(format!("{} is missing: run `rt run` in crates/scanner", program::path().display()).into());
    }
    println!("seed {seed}");
    let tally = compare(plan, seed);
    let Tally { calls, damaged, batches, programs, differences, numbers, verdicts } = tally;
    println!(
        "due of a call, by number from 0 to 7: {numbers:?}; of a damaged pool: {} sound, {} 1, {} 4",
        verdicts[0], verdicts[1], verdicts[4]
    );
    println!("{calls} calls, {damaged} damaged pools, {batches} batches, {programs} runs of the program, {differences} differences");
    exit((differences > 0) as i32)
}
