//! Damaged pools: each clause of soundness broken in turn, words and bits changed at random, and garbage.
use crate::random::Random;
use crate::sound::{self, at, CHILDREN, ELEMENTS, NEXT, NODE_WORDS};

/// The nodes of a sound pool, by what they are.
struct Nodes {
    p: u64,
    inner: Vec<u64>,
    leaves: Vec<u64>,
    tree: Vec<u64>,
    free: Vec<u64>,
}

impl Nodes {
    fn of(pool: &[u64]) -> Nodes {
        let p = sound::nodes(pool.len()).unwrap_or(0) as u64;
        let (free, tree): (Vec<u64>, Vec<u64>) = (1..=p).partition(|k| pool[at(*k, 0)] == 0);
        let (leaves, inner) = tree.iter().partition(|k| pool[at(**k, CHILDREN)] == 0);
        Nodes { p, inner, leaves, tree, free }
    }
}

fn pick(random: &mut Random, of: &[u64]) -> Option<u64> {
    (!of.is_empty()).then(|| of[random.below(of.len() as u64) as usize])
}

fn one(random: &mut Random, of: [u64; 5]) -> u64 {
    of[random.below(5) as usize]
}

/// No id: one past the last, or one that is right in its low bits.
fn no_id(random: &mut Random, p: u64, right: u64) -> u64 {
    one(random, [p + 1, u64::MAX, right | 1 << 32, right | 1 << 63, p + 1 + right])
}

/// A value other than this one.
fn other(random: &mut Random, value: u64) -> u64 {
    let bit = 1 << random.below(64);
    one(random, [value.wrapping_add(1), value.wrapping_sub(1), value ^ bit, !value, value ^ bit])
}

pub const CLAUSES: u64 = 33;

/// Breaks a clause of soundness in a sound pool. None if the pool has not what it takes.
pub fn break_clause(pool: &mut [u64], clause: u64, random: &mut Random) -> Option<()> {
    let nodes = Nodes::of(pool);
    let root = pool[0];
    let any = pick(random, &nodes.tree);
    let inner = pick(random, &nodes.inner);
    let leaf = pick(random, &nodes.leaves);
    let free = pick(random, &nodes.free);
    let child = inner.map(|k| at(k, CHILDREN + random.below(pool[at(k, 0)] + 1) as usize));
    let last = nodes.free.iter().copied().find(|k| pool[at(*k, NEXT)] == 0);
    let roomy = any.filter(|k| pool[at(*k, 0)] < 31);
    let (word, value) = match clause {
        // ids out of range, or none where one is due
        0 => (0, no_id(random, nodes.p, root)),
        1 => (1, no_id(random, nodes.p, pool[1])),
        2 => (child?, no_id(random, nodes.p, pool[child?])),
        3 => (at(free?, NEXT), no_id(random, nodes.p, pool[at(free?, NEXT)])),
        4 => (child?, 0),
        5 => (0, any.and(Some(0))?),
        // reached twice, on a ring, both reached and free, or neither
        6 => (child?, any.filter(|k| *k != pool[child.unwrap_or(0)])?),
        7 => (child?, inner?),
        8 => (child?, root),
        9 => (child?, free?),
        10 => (0, any.filter(|k| *k != root)?),
        11 => (0, free?),
        12 => (1, any?),
        13 => (at(last?, NEXT), any?),
        14 => (at(last?, NEXT), free?),
        15 => (at(free?, NEXT), any?),
        16 => (1, free.map(|_| pool[at(pool[1], NEXT)])?),
        17 => (at(free?, NEXT), free.filter(|k| pool[at(*k, NEXT)] != 0).map(|k| pool[at(pool[at(k, NEXT)], NEXT)])?),
        18 => (at(leaf?, CHILDREN), any?),
        // counts
        19 => (at(any?, 0), other(random, pool[at(any?, 0)])),
        20 => (at(any?, 0), one(random, [0, 14, 32, 33, 1 << 32 | 15])),
        // an inner node's children
        21 => (at(inner?, CHILDREN + pool[at(inner?, 0)] as usize), 0),
        22 => (at(inner.filter(|k| pool[at(*k, 0)] < 31)?, CHILDREN + 1 + pool[at(inner?, 0)] as usize), free.or(any)?),
        // subtree lengths
        23 => (at(any?, 1), other(random, pool[at(any?, 1)])),
        24 => (at(root.checked_sub(1).map(|_| root)?, 1), other(random, pool[at(root, 1)])),
        // unused words
        25 => (at(roomy?, ELEMENTS + random.within(pool[at(roomy?, 0)], 30) as usize), random.any() | 1),
        26 => (at(leaf?, CHILDREN + random.within(1, 31) as usize), random.any() | 1),
        27 => (at(any?, NEXT), free.or(any)?),
        28 => (at(free?, random.below(65) as usize), random.any() | 1),
        // several words, with all else in order
        29 => return thin(pool, &nodes, random),
        30 => return raise(pool, &nodes),
        31 => return empty_root(pool),
        _ => return double(pool, inner?, random),
    };
    if pool[word] == value {
        return None;
    }
    pool[word] = value;
    Some(())
}

/// Sets the lengths below node k.
fn measure(pool: &mut [u64], k: u64) -> u64 {
    let mut length = pool[at(k, 0)];
    for slot in at(k, CHILDREN)..at(k, NEXT) {
        if pool[slot] != 0 {
            length += measure(pool, pool[slot]);
        }
    }
    pool[at(k, 1)] = length;
    length
}

/// Frees the nodes below k, and k.
fn give(pool: &mut [u64], k: u64) {
    for slot in at(k, CHILDREN)..at(k, NEXT) {
        if pool[slot] != 0 {
            give(pool, pool[slot]);
        }
    }
    pool[at(k, 0)..at(k, NODE_WORDS)].fill(0);
    pool[at(k, NEXT)] = pool[1];
    pool[1] = k;
}

/// A node other than the root is left with 14 elements: an inner one gives up its last child.
fn thin(pool: &mut [u64], nodes: &Nodes, random: &mut Random) -> Option<()> {
    let below: Vec<u64> = nodes.tree.iter().copied().filter(|k| *k != pool[0]).collect();
    let k = pick(random, &below)?;
    while pool[at(k, 0)] > 14 {
        let n = pool[at(k, 0)] as usize;
        let last = pool[at(k, CHILDREN + n)];
        if pool[at(k, CHILDREN)] != 0 {
            give(pool, last);
            pool[at(k, CHILDREN + n)] = 0;
        }
        pool[at(k, ELEMENTS + n - 1)] = 0;
        pool[at(k, 0)] -= 1;
    }
    measure(pool, pool[0]);
    Some(())
}

/// A leaf takes the place of the inner node above it.
fn raise(pool: &mut [u64], nodes: &Nodes) -> Option<()> {
    let k = nodes.inner.iter().copied().find(|k| *k != pool[0])?;
    let leaf = pool[at(k, CHILDREN)];
    let slot = (0..pool.len()).find(|w| *w >= 2 && pool[*w] == k && (CHILDREN..NEXT).contains(&((*w - 2) % NODE_WORDS)))?;
    if pool[at(leaf, CHILDREN)] != 0 {
        return None;
    }
    pool[slot] = leaf;
    pool[at(k, CHILDREN)] = 0;
    give(pool, k);
    measure(pool, pool[0]);
    Some(())
}

/// A free node becomes a root without elements; what was the root is its one child.
fn empty_root(pool: &mut [u64]) -> Option<()> {
    let k = pool[1];
    if k == 0 {
        return None;
    }
    pool[1] = pool[at(k, NEXT)];
    pool[at(k, NEXT)] = 0;
    pool[at(k, CHILDREN)] = pool[0];
    pool[0] = k;
    measure(pool, k);
    Some(())
}

/// One child of node k takes the place of another as well, which is freed.
fn double(pool: &mut [u64], k: u64, random: &mut Random) -> Option<()> {
    let n = pool[at(k, 0)];
    let kept = random.below(n + 1);
    let gone = (kept + random.within(1, n)) % (n + 1);
    let slot = at(k, CHILDREN + gone as usize);
    give(pool, pool[slot]);
    pool[slot] = pool[at(k, CHILDREN + kept as usize)];
    measure(pool, pool[0]);
    Some(())
}

/// Bits, words, nodes or the length changed at random; what is left may be sound.
pub fn scramble(pool: &mut Vec<u64>, random: &mut Random) {
    let words = pool.len() as u64;
    let p = sound::nodes(pool.len()).unwrap_or(0) as u64;
    match random.below(8) {
        0 | 1 => (0..random.within(1, 3)).for_each(|_| pool[random.below(words) as usize] ^= 1 << random.below(64)),
        2 | 3 => (0..random.within(1, 3)).for_each(|_| pool[random.below(words) as usize] = random.below(40)),
        4 => pool.swap(random.below(words) as usize, random.below(words) as usize),
        5 if p > 0 => {
            let (from, to) = (random.within(1, p), random.within(1, p));
            pool.copy_within(at(from, 0)..at(from, NODE_WORDS), at(to, 0));
        }
        6 => pool.resize((words as usize + random.below(5) as usize).saturating_sub(2), 0),
        _ => {
            let below = [2, 40, p + 2, u64::MAX][random.below(4) as usize];
            pool.iter_mut().for_each(|w| *w = random.below(below));
        }
    }
}
