//! The original, a `Vec` and the model side by side: what each call is due to answer, and the words that it is due to leave.
use crate::calls::{Call, Fields};
use crate::model::Model;
use crate::sequence_tree::{SequenceTree, Shape};
use crate::sound;

pub struct Mirror {
    pub tree: SequenceTree<u64>,
    /// Whether the original has the model's shape, not only its list.
    shaped: bool,
    pub list: Vec<u64>,
    pub model: Model,
}

const BEYOND: Fields = [2, 0, 0, 0];
const NO_ROOM: Fields = [3, 0, 0, 0];

/// The children compared on the way to an index: at each inner node, those up to the first whose end is at or past it.
pub fn compared(root: Option<Shape<u64>>, index: usize) -> u64 {
    let (mut shape, mut index, mut count) = (root, index, 0);
    while let Some(node) = shape {
        shape = None;
        for child in node.children() {
            count += 1;
            if index <= child.length() {
                shape = (index < child.length()).then_some(child);
                break;
            }
            index -= child.length() + 1;
        }
    }
    count
}

impl Mirror {
    /// An empty list of p nodes.
    pub fn new(p: usize) -> Mirror {
        Mirror { tree: SequenceTree::new(), shaped: true, list: Vec::new(), model: Model::new(p) }
    }

    /// What a sound pool holds. No calls of the original make any given shape, so its part is only the list.
    pub fn read(pool: &[u64]) -> Mirror {
        let list = sound::list(pool);
        Mirror { tree: list.iter().copied().collect(), shaped: false, list, model: Model::read(pool) }
    }

    pub fn len(&self) -> u64 {
        self.list.len() as u64
    }

    /// An error where the words that are due hold another shape than the original.
    pub fn compare_shape(&self) -> Result<(), String> {
        let words = self.model.words();
        if !sound::same_shape(words, words[0], self.tree.shape()) {
            return Err("the shape is not the original's".to_string());
        }
        Ok(())
    }

    fn index(&self, index: u64) -> Option<usize> {
        (index < self.len()).then_some(index as usize)
    }

    /// Makes the call, and gives the answer that is due. An error tells where the original, the `Vec` and the model part.
    pub fn due(&mut self, call: &Call) -> Result<Fields, String> {
        match *call {
            Call::Format => *self = Mirror::new(self.model.words().len() / sound::NODE_WORDS),
            Call::Check => {}
            Call::Len => return agree([self.len(), self.tree.len() as u64, self.model.len() as u64]),
            Call::Insert(index, element) => return self.insert(index, element),
            Call::Push(element) => return self.insert(self.len(), element),
            Call::Get(index) => return self.get(index),
            Call::Replace(index, element) => {
                let Some(i) = self.index(index) else { return Ok(BEYOND) };
                let here = std::mem::replace(&mut self.list[i], element);
                let there = self.tree.get_mut(i).map(|slot| std::mem::replace(slot, element));
                return agree([here, there.ok_or("the original has no such index")?, self.model.replace(i, element)]);
            }
            Call::Remove(index) => {
                let Some(i) = self.index(index) else { return Ok(BEYOND) };
                return agree([self.list.remove(i), self.tree.remove(i), self.model.remove(i)]);
            }
            Call::Step(position) => return Ok(self.skip(position, 0)),
            Call::Skip(position, m) => return Ok(self.skip(position, m)),
            Call::Window(index) => {
                let found = self.index(index).map(|_| sound::find(self.model.words(), index));
                return Ok(found.map_or([0; 4], |f| [f.word as u64, f.count as u64, 0, 0]));
            }
            Call::Equal(_) | Call::Walk(_) | Call::Batch(..) => unreachable!("made of several"),
        }
        Ok([0; 4])
    }

    fn insert(&mut self, index: u64, element: u64) -> Result<Fields, String> {
        if index > self.len() {
            return Ok(BEYOND);
        }
        let i = index as usize;
        if self.model.needed(i) > self.model.free() {
            return Ok(NO_ROOM);
        }
        self.list.insert(i, element);
        self.tree.insert(i, element);
        self.model.insert(i, element);
        Ok([0; 4])
    }

    fn get(&self, index: u64) -> Result<Fields, String> {
        let there = self.tree.get(index as usize).copied();
        let here = self.index(index).map(|i| self.list[i]);
        if there != here {
            return Err(format!("the original gets {there:?} where Vec has {here:?}"));
        }
        let Some(element) = here else { return Ok(BEYOND) };
        let count = sound::find(self.model.words(), index).compared;
        let there = compared(self.tree.shape(), index as usize);
        if self.shaped && count != there {
            return Err(format!("{there} comparisons in the original's shape, {count} in the words that are due"));
        }
        Ok([0, element, count, 0])
    }

    pub fn skip(&self, position: u64, m: u64) -> Fields {
        let n = self.len();
        if position >= n || m >= n - position {
            return [2, 0, n, 0];
        }
        [0, self.list[(position + m) as usize], position + m + 1, 0]
    }
}

/// An accepted answer with the value that all three give.
fn agree(values: [u64; 3]) -> Result<Fields, String> {
    let [vec, original, model] = values;
    if vec != original || vec != model {
        return Err(format!("Vec gives {vec}, the original {original}, the model {model}"));
    }
    Ok([0, vec, 0, 0])
}
