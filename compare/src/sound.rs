//! 01's soundness, and the reading of a pool's words, worked out here and not by the library: level by level from the root, and the
//! lengths from the leaves up.

pub const MOST_NODES: usize = 4096;
pub const NODE_WORDS: usize = 66;
pub const ELEMENTS: usize = 2;
pub const CHILDREN: usize = 33;
pub const NEXT: usize = 65;

/// The place in the pool of a word of node k.
pub fn at(k: u64, word: usize) -> usize {
    2 + NODE_WORDS * (k as usize - 1) + word
}

/// The nodes of a pool of so many words, if there is such a pool.
pub fn nodes(words: usize) -> Option<usize> {
    let rest = words.checked_sub(2)?;
    (rest % NODE_WORDS == 0 && rest / NODE_WORDS <= MOST_NODES).then_some(rest / NODE_WORDS)
}

/// The number that refuses every call but formatting, or 0.
pub fn verdict(pool: &[u64]) -> u64 {
    match nodes(pool.len()) {
        None => 4,
        Some(p) => !sound(pool, p as u64) as u64,
    }
}

fn zeros(words: &[u64]) -> bool {
    words.iter().all(|w| *w == 0)
}

fn sound(pool: &[u64], p: u64) -> bool {
    let mut met = vec![false; p as usize + 1];
    let mut meet = |k: u64| k >= 1 && k <= p && !std::mem::replace(&mut met[k as usize], true);
    let mut order: Vec<u64> = Vec::new();
    let mut level: Vec<u64> = if pool[0] == 0 { Vec::new() } else { vec![pool[0]] };
    while !level.is_empty() {
        if !level.iter().all(|k| meet(*k)) {
            return false;
        }
        let mut below = Vec::new();
        for k in &level {
            let node = &pool[at(*k, 0)..at(*k, NODE_WORDS)];
            let least = if *k == pool[0] { 1 } else { 15 };
            if node[0] < least || node[0] > 31 || node[NEXT] != 0 {
                return false;
            }
            let n = node[0] as usize;
            let children = if node[CHILDREN] == 0 { 0 } else { n + 1 };
            if !zeros(&node[ELEMENTS + n..CHILDREN]) || !zeros(&node[CHILDREN + children..NEXT]) {
                return false;
            }
            below.extend(&node[CHILDREN..CHILDREN + children]);
        }
        let leaves = level.iter().filter(|k| pool[at(**k, CHILDREN)] == 0).count();
        if leaves != 0 && leaves != level.len() {
            return false;
        }
        order.append(&mut level);
        level = below;
    }
    // A child's length is judged before its parent's, so that no wrong one is added up.
    for k in order.iter().rev() {
        let node = &pool[at(*k, 0)..at(*k, NODE_WORDS)];
        let below: u64 = node[CHILDREN..NEXT].iter().filter(|c| **c != 0).map(|c| pool[at(*c, 1)]).sum();
        if node[1] != node[0] + below {
            return false;
        }
    }
    let mut free = pool[1];
    while free != 0 {
        if !meet(free) || !zeros(&pool[at(free, 0)..at(free, NEXT)]) {
            return false;
        }
        free = pool[at(free, NEXT)];
    }
    met[1..].iter().all(|m| *m)
}

/// Whether the shape that the words hold below node k, which is 0 for none, is the original's.
pub fn same_shape(pool: &[u64], k: u64, shape: Option<crate::sequence_tree::Shape<u64>>) -> bool {
    let Some(shape) = shape else { return k == 0 };
    if k == 0 || at(k, NODE_WORDS) > pool.len() {
        return false;
    }
    let node = &pool[at(k, 0)..at(k, NODE_WORDS)];
    let elements = shape.elements();
    let children = shape.children();
    let (n, kids) = (elements.len(), children.len());
    node[0] == n as u64
        && node[1] == shape.length() as u64
        && node[ELEMENTS..ELEMENTS + n] == *elements
        && zeros(&node[CHILDREN + kids..NEXT])
        && children.zip(&node[CHILDREN..]).all(|(child, id)| same_shape(pool, *id, Some(child)))
}

/// The list that a sound pool holds.
pub fn list(pool: &[u64]) -> Vec<u64> {
    let mut all = Vec::new();
    if pool[0] != 0 {
        read_list(pool, pool[0], &mut all);
    }
    all
}

fn read_list(pool: &[u64], k: u64, all: &mut Vec<u64>) {
    let node = &pool[at(k, 0)..at(k, NODE_WORDS)];
    let n = node[0] as usize;
    if node[CHILDREN] == 0 {
        all.extend(&node[ELEMENTS..ELEMENTS + n]);
        return;
    }
    for c in 0..=n {
        read_list(pool, node[CHILDREN + c], all);
        if c < n {
            all.push(node[ELEMENTS + c]);
        }
    }
}

/// Where an element of the list stands, how many of its leaf stand from there on (an inner node's element stands by itself), and how
/// many children were compared on the way: at each inner node, those up to the first whose end is at or past the index.
pub struct Found {
    pub word: usize,
    pub count: usize,
    pub compared: u64,
}

/// Of a list that has such an index.
pub fn find(pool: &[u64], index: u64) -> Found {
    let (mut k, mut index, mut compared) = (pool[0], index, 0);
    'down: loop {
        let node = &pool[at(k, 0)..at(k, NODE_WORDS)];
        if node[CHILDREN] == 0 {
            return Found { word: at(k, ELEMENTS + index as usize), count: (node[0] - index) as usize, compared };
        }
        for c in 0.. {
            let length = pool[at(node[CHILDREN + c], 1)];
            compared += 1;
            if index < length {
                k = node[CHILDREN + c];
                continue 'down;
            }
            if index == length {
                return Found { word: at(k, ELEMENTS + c), count: 1, compared };
            }
            index -= length + 1;
        }
    }
}
