//! How long the library takes: the check beside adding up the pool's words, a command on lists from 30 to 60,000 samples, and batches
//! beside an ordinary Rust program. Ends with 1 if a ratio of medians is above its bar.
use std::hint::black_box;
use std::process::exit;
use std::time::Instant;

use compare::calls::{ask, Call};
use compare::random::Random;
use compare::sequence_tree::{SequenceTree, Shape};
use compare::{bag, batches, ordinary};

const NODES: usize = 4096;
const ROUNDS: usize = 400;

/// A ratio of medians that was measured, and its bar.
struct Bar {
    name: &'static str,
    ratio: f64,
    most: f64,
}

fn free(nodes: usize) -> Vec<u64> {
    let mut pool = vec![0; bag::words(nodes)];
    assert_eq!(bag::format(&mut pool).number, 0);
    pool
}

fn pushed() -> Vec<u64> {
    let mut pool = free(NODES);
    let mut tube = 0;
    while bag::push(&mut pool, tube).number == 0 {
        tube += 1;
    }
    pool
}

/// Nodes lie in the pool in no order: each insertion splits another leaf.
fn shuffled(random: &mut Random) -> Vec<u64> {
    let mut pool = free(NODES);
    let mut n = 0;
    while bag::insert(&mut pool, random.below(n + 1), n).number == 0 {
        n += 1;
    }
    pool
}

/// All but `rest` of the list removed at random: the chain of freed nodes lies in no order either.
fn thinned(mut pool: Vec<u64>, rest: u64, random: &mut Random) -> Vec<u64> {
    for left in (rest + 1..=bag::len(&pool).value).rev() {
        assert_eq!(bag::remove(&mut pool, random.below(left)).number, 0);
    }
    pool
}

fn sum(pool: &[u64]) -> u64 {
    pool.iter().fold(0, |all: u64, word| all.wrapping_add(*word))
}

/// How long something takes, in microseconds.
fn time<R>(call: impl FnOnce() -> R) -> f64 {
    let start = Instant::now();
    black_box(call());
    start.elapsed().as_nanos() as f64 / 1000.0
}

/// The median and the best.
fn of(mut times: Vec<f64>) -> (f64, f64) {
    times.sort_by(f64::total_cmp);
    (times[times.len() / 2], times[0])
}

/// Measures a pool and prints its line; gives the ratio of the medians.
fn measure(name: &str, pool: &[u64]) -> f64 {
    let answer = bag::len(pool);
    assert_eq!(answer.number, 0);
    let (mut checks, mut sums) = (Vec::new(), Vec::new());
    for _ in 0..ROUNDS {
        checks.push(time(|| bag::check(black_box(pool))));
        sums.push(time(|| sum(black_box(pool))));
    }
    let (check, best_check) = of(checks);
    let (sum, best_sum) = of(sums);
    let (ratio, best) = (check / sum, best_check / best_sum);
    let samples = answer.value;
    println!("| {name} | {samples} | {check:.1} | {sum:.1} | {ratio:.2} | {best_check:.1} | {best_sum:.1} | {best:.2} |");
    ratio
}

/// The check on the largest pool; gives the worst ratio.
fn checks(random: &mut Random) -> f64 {
    let full = shuffled(random);
    let half = thinned(full.clone(), bag::len(&full).value / 2, random);
    let none = thinned(half.clone(), 0, random);
    let pools = [
        ("free", free(NODES)),
        ("pushed until full", pushed()),
        ("inserted at random until full", full),
        ("half of it removed at random", half),
        ("all of it removed at random", none),
    ];
    println!("{NODES} nodes, {} words, {ROUNDS} rounds; times in microseconds\n", bag::words(NODES));
    println!("| pool | samples | check, median | sum, median | ratio | check, best | sum, best | ratio |");
    println!("|---|---|---|---|---|---|---|---|");
    pools.iter().map(|(name, pool)| measure(name, pool)).fold(0.0, f64::max)
}

/// The samples of the lists on which a command is timed.
const LISTS: [u64; 5] = [30, 300, 3000, 30_000, 60_000];
const KINDS: [&str; 5] = ["insert", "remove", "push", "get", "replace"];

fn command(kind: &str, n: u64, random: &mut Random) -> Call {
    match kind {
        "insert" => Call::Insert(random.below(n + 1), random.any()),
        "remove" => Call::Remove(random.below(n)),
        "push" => Call::Push(random.any()),
        "get" => Call::Get(random.below(n)),
        _ => Call::Replace(random.below(n), random.any()),
    }
}

fn bytes<'a>(calls: impl IntoIterator<Item = &'a Call>) -> Vec<u8> {
    calls.into_iter().flat_map(|call| batches::bytes(call).expect("a batch's call")).collect()
}

/// A pool and the Rust's tree with the same list, and room for the answers of a batch.
struct Pair {
    pool: Vec<u64>,
    tree: SequenceTree<u64>,
    output: Vec<u8>,
}

impl Pair {
    /// Lists of n samples that were inserted at random places.
    fn new(nodes: usize, n: u64, random: &mut Random) -> Pair {
        let output = vec![0; batches::LONGEST * (n as usize + 2000)];
        let mut pair = Pair { pool: free(nodes), tree: SequenceTree::new(), output };
        pair.run(&mixed([100, 0, 0, 0, 0, 0], 0, n, random));
        pair
    }

    /// Runs a batch on both.
    fn run(&mut self, input: &[u8]) {
        assert_eq!(bag::batch(&mut self.pool, input, &mut self.output).number, 0);
        assert_eq!(ordinary::batch(&mut self.tree, input, &mut self.output).number, 0);
    }

    /// Takes off both lists what is behind the first n samples.
    fn cut(&mut self, n: u64) {
        let removals = |len: u64| bytes(&vec![Call::Remove(n); (len - n) as usize]);
        let (ours, theirs) = (removals(bag::len(&self.pool).value), removals(self.tree.len() as u64));
        assert_eq!(bag::batch(&mut self.pool, &ours, &mut self.output).number, 0);
        assert_eq!(ordinary::batch(&mut self.tree, &theirs, &mut self.output).number, 0);
    }

    /// Microseconds: so many of the calls, and as many checks, each by itself; all of the calls as a batch, and in the Rust program.
    fn time(&mut self, made: &[Call], few: usize) -> [f64; 4] {
        let input = bytes(made);
        let calls = time(|| made[..few].iter().for_each(|call| assert!(ask(&mut self.pool, call)[0] == 0)));
        let checks = time(|| (0..few).for_each(|_| assert!(bag::check(black_box(&self.pool)).number == 0)));
        let batch = time(|| bag::batch(&mut self.pool, &input, &mut self.output));
        black_box(self.tree.shape().map(touch));
        [calls, checks, batch, time(|| ordinary::batch(&mut self.tree, &input, &mut self.output))]
    }
}

/// Reads every element, so that the tree is in the cache as far as it fits: a pool is there after its check.
fn touch(node: Shape<u64>) -> u64 {
    sum(node.elements()).wrapping_add(node.children().map(touch).fold(0, u64::wrapping_add))
}

/// The commands on a list of n samples, in a pool with room for more; nanoseconds, from the medians.
fn growth(n: u64, random: &mut Random) {
    let count = (n / 10).clamp(10, 2000);
    let few = count.min(50) as usize;
    let nodes = (n as usize / 10 + 4).min(NODES);
    let mut pair = Pair::new(nodes, n, random);
    let mut times: [[Vec<f64>; 4]; 5] = Default::default();
    for _ in 0..if n > 10_000 { 41 } else { 401 } {
        for (kind, lines) in KINDS.iter().zip(&mut times) {
            let made: Vec<Call> = (0..count).map(|_| command(kind, n, random)).collect();
            lines.iter_mut().zip(pair.time(&made, few)).for_each(|(line, time)| line.push(time));
            // Each list keeps its n: what a round inserts it removes again, and what it pushes here.
            if *kind == "push" {
                pair.cut(n);
            }
        }
    }
    for (kind, lines) in KINDS.iter().zip(times) {
        let [calls, checks, batch, rust] = lines.map(|times| of(times).0 * 1000.0);
        let (call, check) = (calls / few as f64, checks / few as f64);
        let (batch, rust) = ((batch - check) / count as f64, rust / count as f64);
        let ratio = batch / rust;
        println!("| {n} | {nodes} | {kind} | {call:.0} | {check:.0} | {batch:.0} | {rust:.0} | {ratio:.2} |");
    }
}

/// A batch beside the Rust program on the same bytes, both after the same preparation; gives the ratio.
fn batch(name: &str, nodes: usize, before: &[u8], input: &[u8]) -> f64 {
    let room = input.len() * 9 + 13;
    let (mut ours, mut theirs) = (vec![0; room], vec![0; room]);
    let (mut library, mut rust) = (Vec::new(), Vec::new());
    let mut written = 0;
    for _ in 0..101 {
        let mut pool = free(nodes);
        let mut tree = SequenceTree::new();
        assert_eq!(bag::batch(&mut pool, before, &mut vec![0; before.len() * 9 + 13]).number, 0);
        ordinary::batch(&mut tree, before, &mut vec![0; before.len() * 9 + 13]);
        let (mut ran, mut also) = (None, None);
        library.push(time(|| ran = Some(bag::batch(&mut pool, input, &mut ours))));
        rust.push(time(|| also = Some(ordinary::batch(&mut tree, input, &mut theirs))));
        assert_eq!(ran, also);
        written = ran.map_or(0, |r| r.written as usize);
    }
    assert!(without_comparisons(&ours[..written]) == theirs[..written], "the answers differ");
    let ((library, best), (rust, rust_best)) = (of(library), of(rust));
    let ratio = library / rust;
    println!("| {name} | {nodes} | {library:.0} | {rust:.0} | {ratio:.2} | {best:.0} | {rust_best:.0} | {:.2} |", best / rust_best);
    ratio
}

/// Answers with 0 for the comparisons.
fn without_comparisons(answers: &[u8]) -> Vec<u8> {
    let mut answers = answers.to_vec();
    let mut at = 0;
    while at < answers.len() {
        at += match answers[at] {
            0x81 => 1,
            0x84 => 2,
            0x85 => {
                answers[at + 9..at + 13].fill(0);
                13
            }
            _ => 9,
        };
    }
    answers
}

/// Commands of which so many of a hundred are of each kind from 1 to 6, for a list that starts with n samples.
fn mixed(parts: [u64; 6], mut n: u64, count: u64, random: &mut Random) -> Vec<u8> {
    let mut input = Vec::new();
    for _ in 0..count {
        let drawn = random.below(100);
        let kind = (0..5).find(|k| drawn < parts[..=*k].iter().sum()).unwrap_or(5);
        let call = match kind {
            0 => Call::Insert(random.below(n + 1), random.any()),
            1 => Call::Remove(random.below(n.max(1))),
            2 => Call::Push(random.any()),
            3 => Call::Get(random.below(n.max(1))),
            4 => Call::Replace(random.below(n.max(1)), random.any()),
            _ => Call::Len,
        };
        n = match kind {
            0 | 2 => n + 1,
            1 => n.saturating_sub(1),
            _ => n,
        };
        input.extend(batches::bytes(&call).expect("a batch's call"));
    }
    input
}

/// 10,000 commands of each sort; gives the ratios that have bars.
fn batch_table(random: &mut Random) -> Vec<Bar> {
    const NODES: usize = 1024;
    println!("\n10,000 commands, 101 rounds; times in microseconds\n");
    println!("| commands | nodes | library, median | Rust, median | ratio | library, best | Rust, best | ratio |");
    println!("|---|---|---|---|---|---|---|---|");
    let mut bars = Vec::new();
    let mut held = |name, most, before: &[u8], input: &[u8]| {
        bars.push(Bar { name, ratio: batch(name, NODES, before, input), most });
    };
    let long = mixed([100, 0, 0, 0, 0, 0], 0, 10_000, random);
    let short = mixed([100, 0, 0, 0, 0, 0], 0, 20, random);
    let lookups = [0, 0, 0, 100, 0, 0];
    held("mixed, from an empty list", 0.95, &[], &mixed([30, 20, 10, 20, 10, 10], 0, 10_000, random));
    held("insertions at random", 1.0, &[], &long);
    held("removals at random, from 10000", 0.9, &long, &mixed([0, 100, 0, 0, 0, 0], 10_000, 10_000, random));
    held("pushes", 0.5, &[], &mixed([0, 0, 100, 0, 0, 0], 0, 10_000, random));
    held("lookups at random, in 10000", 1.12, &long, &mixed(lookups, 10_000, 10_000, random));
    held("lookups at random, in 20", 1.25, &short, &mixed(lookups, 20, 10_000, random));
    batch("lookups at random, in 20", 60, &short, &mixed(lookups, 20, 10_000, random));
    for n in [1000, 5000, 10_000] {
        let before = mixed([100, 0, 0, 0, 0, 0], 0, n, random);
        batch(&format!("mixed, from {n} samples"), NODES, &before, &mixed([20, 20, 10, 30, 10, 10], n, 10_000, random));
    }
    bars
}

fn main() {
    let random = &mut Random::new(20261115);
    let mut bars = vec![Bar { name: "the check, worst of the five pools, to the sum", ratio: checks(random), most: 1.9 }];
    println!("\na command at random places; times in nanoseconds, medians\n");
    println!("| samples | nodes | command | call by itself | of it, the check | in a batch | in the Rust program | ratio |");
    println!("|---|---|---|---|---|---|---|---|");
    LISTS.into_iter().for_each(|n| growth(n, random));
    bars.extend(batch_table(random));
    println!("\n| ratio of medians | measured | bar |");
    println!("|---|---|---|");
    bars.iter().for_each(|Bar { name, ratio, most }| println!("| {name} | {ratio:.2} | {most:.2} |"));
    exit(bars.iter().any(|bar| bar.ratio > bar.most) as i32);
}
