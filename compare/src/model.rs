//! 01's modules 2 to 7 with node ids and the free chain, and the words that 01's table asks for. Written from 01: it owes nothing to
//! the original, which knows no ids, nor to the library.
use crate::sound::{CHILDREN, ELEMENTS, NEXT, NODE_WORDS};

const FULL: usize = 31;
const LEAST: usize = 15;

#[derive(Clone, Default)]
struct Node {
    elements: Vec<u64>,
    children: Vec<usize>,
    length: usize,
}

#[derive(Clone)]
pub struct Model {
    /// The first is no node: ids count from 1.
    nodes: Vec<Node>,
    root: usize,
    /// The chain from its end: the last is taken first.
    free: Vec<usize>,
    words: Vec<u64>,
    /// The nodes that the last edit wrote, perhaps more than once.
    touched: Vec<usize>,
}

impl Model {
    /// An empty list with the chain 1, 2, .. p.
    pub fn new(p: usize) -> Model {
        let free = (1..=p).rev().collect();
        let nodes = vec![Node::default(); p + 1];
        let mut model = Model { nodes, root: 0, free, words: vec![0; 2 + NODE_WORDS * p], touched: (1..=p).collect() };
        model.write();
        model
    }

    /// What a sound pool holds.
    pub fn read(pool: &[u64]) -> Model {
        let p = (pool.len() - 2) / NODE_WORDS;
        let nodes = vec![Node::default(); p + 1];
        let mut model = Model { nodes, root: pool[0] as usize, free: Vec::new(), words: pool.to_vec(), touched: Vec::new() };
        let mut k = pool[1] as usize;
        while k != 0 {
            model.free.push(k);
            k = pool[place(k) + NEXT] as usize;
        }
        model.free.reverse();
        for k in 1..=p {
            let node = &pool[place(k)..place(k) + NODE_WORDS];
            model.nodes[k] = Node {
                elements: node[ELEMENTS..ELEMENTS + node[0] as usize].to_vec(),
                children: node[CHILDREN..NEXT].iter().filter(|c| **c != 0).map(|c| *c as usize).collect(),
                length: node[1] as usize,
            };
        }
        model
    }

    pub fn words(&self) -> &[u64] {
        &self.words
    }

    pub fn free(&self) -> usize {
        self.free.len()
    }

    pub fn len(&self) -> usize {
        self.nodes[self.root].length
    }

    /// The nodes that an insertion takes: the full ones on its path, one more for a full root, 1 for an empty list.
    pub fn needed(&self, index: usize) -> usize {
        if self.root == 0 {
            return 1;
        }
        let (mut k, mut index) = (self.root, index);
        let mut needed = self.full(k) as usize;
        loop {
            needed += self.full(k) as usize;
            if self.leaf(k) {
                return needed;
            }
            let (c, rest) = self.child(k, index);
            (k, index) = (self.nodes[k].children[c], rest);
        }
    }

    /// There is room for it.
    pub fn insert(&mut self, index: usize, element: u64) {
        self.touched.clear();
        if self.root == 0 {
            self.root = self.take();
        } else if self.full(self.root) {
            let top = self.take();
            self.nodes[top].length = self.nodes[self.root].length;
            self.nodes[top].children.push(self.root);
            self.root = top;
            self.split(top, 0);
        }
        self.insert_below(self.root, index, element);
        self.write();
    }

    pub fn replace(&mut self, index: usize, element: u64) -> u64 {
        self.touched.clear();
        let (mut k, mut index) = (self.root, index);
        while !self.leaf(k) {
            let (c, rest) = self.child(k, index);
            let child = self.nodes[k].children[c];
            if rest == self.nodes[child].length {
                index = c;
                break;
            }
            (k, index) = (child, rest);
        }
        let old = std::mem::replace(&mut self.node(k).elements[index], element);
        self.write();
        old
    }

    pub fn remove(&mut self, index: usize) -> u64 {
        self.touched.clear();
        let old = self.remove_below(self.root, index);
        let root = self.root;
        if self.nodes[root].elements.is_empty() {
            self.root = self.nodes[root].children.pop().unwrap_or(0);
            self.give(root);
        }
        self.write();
        old
    }

    fn node(&mut self, k: usize) -> &mut Node {
        self.touched.push(k);
        &mut self.nodes[k]
    }

    fn leaf(&self, k: usize) -> bool {
        self.nodes[k].children.is_empty()
    }

    fn full(&self, k: usize) -> bool {
        self.nodes[k].elements.len() == FULL
    }

    fn spare(&self, k: usize) -> bool {
        self.nodes[k].elements.len() > LEAST
    }

    fn take(&mut self) -> usize {
        let k = self.free.pop().expect("a free node");
        self.touched.push(k);
        k
    }

    fn give(&mut self, k: usize) {
        *self.node(k) = Node::default();
        self.free.push(k);
    }

    /// The first child whose end is at or past the index, and the index in it.
    fn child(&self, k: usize, index: usize) -> (usize, usize) {
        let (mut c, mut rest) = (0, index);
        loop {
            let length = self.nodes[self.nodes[k].children[c]].length;
            if rest <= length {
                return (c, rest);
            }
            rest -= length + 1;
            c += 1;
        }
    }

    fn split(&mut self, k: usize, c: usize) {
        let left = self.nodes[k].children[c];
        let right = self.take();
        let full = self.node(left);
        let elements = full.elements.split_off(LEAST + 1);
        let middle = full.elements.pop().expect("a full node");
        let children = if full.children.is_empty() { Vec::new() } else { full.children.split_off(LEAST + 1) };
        let length = elements.len() + children.iter().map(|d| self.nodes[*d].length).sum::<usize>();
        self.node(left).length -= length + 1;
        *self.node(right) = Node { elements, children, length };
        self.node(k).elements.insert(c, middle);
        self.node(k).children.insert(c + 1, right);
    }

    fn insert_below(&mut self, k: usize, index: usize, element: u64) {
        self.node(k).length += 1;
        if self.leaf(k) {
            self.node(k).elements.insert(index, element);
            return;
        }
        let (mut c, mut rest) = self.child(k, index);
        if self.full(self.nodes[k].children[c]) {
            self.split(k, c);
            (c, rest) = self.child(k, index);
        }
        self.insert_below(self.nodes[k].children[c], rest, element);
    }

    fn remove_below(&mut self, k: usize, index: usize) -> u64 {
        self.node(k).length -= 1;
        if self.leaf(k) {
            return self.node(k).elements.remove(index);
        }
        let (c, rest) = self.child(k, index);
        let child = self.nodes[k].children[c];
        if rest < self.nodes[child].length {
            let (child, rest) = self.strengthen(k, c, rest);
            return self.remove_below(child, rest);
        }
        let next = self.nodes[k].children[c + 1];
        let instead = if self.spare(child) {
            self.remove_below(child, rest - 1)
        } else if self.spare(next) {
            self.remove_below(next, 0)
        } else {
            self.merge(k, c);
            return self.remove_below(child, rest);
        };
        std::mem::replace(&mut self.node(k).elements[c], instead)
    }

    /// Sees to it that the child has more than 15 elements; gives the node that then holds the index, and the index in it.
    fn strengthen(&mut self, k: usize, c: usize, rest: usize) -> (usize, usize) {
        let child = self.nodes[k].children[c];
        let left = c.checked_sub(1).map(|b| self.nodes[k].children[b]);
        let right = self.nodes[k].children.get(c + 1).copied();
        if self.spare(child) {
            return (child, rest);
        }
        match (left, right) {
            (Some(left), _) if self.spare(left) => (child, rest + self.borrow_left(k, c, left)),
            (_, Some(right)) if self.spare(right) => {
                self.borrow_right(k, c, right);
                (child, rest)
            }
            (Some(left), _) => {
                let before = self.nodes[left].length + 1;
                self.merge(k, c - 1);
                (left, before + rest)
            }
            (None, _) => {
                self.merge(k, c);
                (child, rest)
            }
        }
    }

    /// Gives by how much the child's own elements move.
    fn borrow_left(&mut self, k: usize, c: usize, left: usize) -> usize {
        let child = self.nodes[k].children[c];
        let up = self.node(left).elements.pop().expect("a spare element");
        let down = std::mem::replace(&mut self.node(k).elements[c - 1], up);
        self.node(child).elements.insert(0, down);
        let mut moved = 1;
        if let Some(last) = self.node(left).children.pop() {
            moved += self.nodes[last].length;
            self.node(child).children.insert(0, last);
        }
        self.node(left).length -= moved;
        self.node(child).length += moved;
        moved
    }

    fn borrow_right(&mut self, k: usize, c: usize, right: usize) {
        let child = self.nodes[k].children[c];
        let up = self.node(right).elements.remove(0);
        let down = std::mem::replace(&mut self.node(k).elements[c], up);
        self.node(child).elements.push(down);
        let mut moved = 1;
        if !self.leaf(right) {
            let first = self.node(right).children.remove(0);
            moved += self.nodes[first].length;
            self.node(child).children.push(first);
        }
        self.node(right).length -= moved;
        self.node(child).length += moved;
    }

    /// Children c and c + 1 become one.
    fn merge(&mut self, k: usize, c: usize) {
        let middle = self.node(k).elements.remove(c);
        let right = self.node(k).children.remove(c + 1);
        let left = self.nodes[k].children[c];
        let gone = std::mem::take(self.node(right));
        let kept = self.node(left);
        kept.elements.push(middle);
        kept.elements.extend(gone.elements);
        kept.children.extend(gone.children);
        kept.length += gone.length + 1;
        self.give(right);
    }

    /// Writes the head and every touched node as 01's table has them.
    fn write(&mut self) {
        self.words[0] = self.root as u64;
        self.words[1] = self.free.last().copied().unwrap_or(0) as u64;
        for k in &self.touched {
            let node = &self.nodes[*k];
            let words = &mut self.words[place(*k)..place(*k) + NODE_WORDS];
            words.fill(0);
            words[0] = node.elements.len() as u64;
            words[1] = node.length as u64;
            words[ELEMENTS..ELEMENTS + node.elements.len()].copy_from_slice(&node.elements);
            for (slot, child) in words[CHILDREN..].iter_mut().zip(&node.children) {
                *slot = *child as u64;
            }
        }
        self.link();
    }

    /// The touched nodes that are free stand at the chain's front.
    fn link(&mut self) {
        let from = self.free.len().saturating_sub(self.touched.len());
        for i in from..self.free.len() {
            let next = if i == 0 { 0 } else { self.free[i - 1] };
            self.words[place(self.free[i]) + NEXT] = next as u64;
        }
    }
}

fn place(k: usize) -> usize {
    2 + NODE_WORDS * (k - 1)
}
