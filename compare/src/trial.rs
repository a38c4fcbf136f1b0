//! A pool beside its mirror. After each call all is compared: the answer, every word, the shape that the words hold, and the list.
use std::panic::{catch_unwind, AssertUnwindSafe};

use crate::bag;
use crate::batches;
use crate::calls::{answer, ask, ran, walked, Call, Fields};
use crate::mirror::Mirror;
use crate::model::Model;
use crate::random::Random;
use crate::sequence_tree::SequenceTree;
use crate::sound;

/// Words before and after the pool that no call may write, and bytes after an output.
const GUARD: usize = 8;
const KEPT: u64 = 0x5A5A_5A5A_5A5A_5A5A;

pub struct Trial {
    store: Vec<u64>,
    pub mirror: Mirror,
    pub calls: u64,
    pub batches: u64,
    /// How often each number from 0 to 7 was due, one count for a batch or a walk.
    pub numbers: [u64; 8],
}

impl Trial {
    /// A pool of p nodes with any old words, formatted.
    pub fn new(p: usize) -> Result<Trial, String> {
        let words = bag::words(p);
        let mut store: Vec<u64> = (0..words + 2 * GUARD).map(|i| (i as u64).wrapping_mul(0x9E37_79B9_7F4A_7C15)).collect();
        store[..GUARD].fill(KEPT);
        store[GUARD + words..].fill(KEPT);
        let mut trial = Trial { store, mirror: Mirror::new(p), calls: 0, batches: 0, numbers: [0; 8] };
        trial.make(&Call::Format)?;
        Ok(trial)
    }

    pub fn pool(&mut self) -> &mut [u64] {
        let words = self.store.len() - 2 * GUARD;
        &mut self.store[GUARD..GUARD + words]
    }

    /// Makes a call and compares; an error tells the difference. A panic, of the original too, is one.
    pub fn make(&mut self, call: &Call) -> Result<(), String> {
        catch_unwind(AssertUnwindSafe(|| self.make_one(call))).unwrap_or_else(|_| Err("a panic".to_string()))
    }

    fn make_one(&mut self, call: &Call) -> Result<(), String> {
        self.calls += 1;
        let number = match call {
            Call::Equal(variant) => self.equal(*variant)?,
            Call::Walk(seed) => self.walk(*seed)?,
            Call::Batch(input, room) => self.batch(input, *room)?,
            _ => {
                let due = self.mirror.due(call)?;
                same("the answer", ask(self.pool(), call), due)?;
                // A window has no number.
                if matches!(call, Call::Window(_)) {
                    0
                } else {
                    due[0]
                }
            }
        };
        self.numbers[number as usize] += 1;
        self.compare()
    }

    fn compare(&self) -> Result<(), String> {
        let words = self.store.len() - 2 * GUARD;
        if self.store[..GUARD].iter().chain(&self.store[GUARD + words..]).any(|w| *w != KEPT) {
            return Err("a word outside the pool is changed".to_string());
        }
        let Mirror { list, model, .. } = &self.mirror;
        let pool = &self.store[GUARD..GUARD + words];
        let due = model.words();
        if let Some(i) = (pool != due).then(|| (0..words).find(|i| pool[*i] != due[*i])).flatten() {
            return Err(format!("word {i} of the pool is {}, due is {}", pool[i], due[i]));
        }
        self.mirror.compare_shape()?;
        if sound::list(pool) != *list {
            return Err("the list is not Vec's".to_string());
        }
        Ok(())
    }

    /// This and the next two give the last number that was due.
    fn batch(&mut self, input: &[u8], room: usize) -> Result<u64, String> {
        self.batches += 1;
        let filler = input.len() as u8 | 1;
        let mut output = vec![filler; room + GUARD];
        let result = ran(bag::batch(self.pool(), input, &mut output[..room]));
        let (due, mut answers) = batches::due(&mut self.mirror, input, room)?;
        same("the batch's result", result, due)?;
        answers.resize(room + GUARD, filler);
        let differs = (0..output.len()).find(|i| output[*i] != answers[*i]);
        differs.map_or(Ok(due[0]), |i| Err(format!("output byte {i} is {:02X}, due is {:02X}", output[i], answers[i])))
    }

    /// Steps and skips, beside the original's iterator until that has passed the end.
    fn walk(&mut self, seed: u64) -> Result<u64, String> {
        let random = &mut Random::new(seed);
        let (mut position, mut number) = (0, 0);
        let mut iterator = self.mirror.tree.iter();
        let mut inside = true;
        let pool = &self.store[GUARD..self.store.len() - GUARD];
        for _ in 0..random.within(1, 40) {
            let m = if random.percent(4) { random.huge() } else { random.below(12) };
            let stepping = random.percent(60);
            let (result, due) = if stepping {
                (walked(bag::step(pool, position)), self.mirror.skip(position, 0))
            } else {
                (walked(bag::skip(pool, position, m)), self.mirror.skip(position, m))
            };
            self.calls += 1;
            same("a walk's answer", result, due)?;
            if inside && m < 1 << 32 {
                let there = if stepping { iterator.next() } else { iterator.nth(m as usize) };
                inside = there.is_some();
                if there.copied() != (due[0] == 0).then_some(due[1]) {
                    return Err("the original's iterator gives another element".to_string());
                }
            } else {
                inside = false;
            }
            (position, number) = (due[2], due[0]);
        }
        Ok(number)
    }

    fn equal(&mut self, variant: u64) -> Result<u64, String> {
        let random = &mut Random::new(variant);
        let mut list = self.mirror.list.clone();
        match random.below(6) {
            0 if !list.is_empty() => {
                let i = random.below(list.len() as u64) as usize;
                list[i] = list[i].wrapping_add(1);
            }
            1 => drop(list.pop()),
            2 => list.push(0),
            _ => {}
        }
        let mut model = Model::new(list.len() / 15 + 1);
        for i in 0..list.len() {
            if variant % 2 == 0 {
                model.insert(i, list[i]);
            } else {
                model.insert(0, list[list.len() - 1 - i]);
            }
        }
        let mut second = model.words().to_vec();
        match random.below(8) {
            0 => second.truncate(random.below(second.len() as u64) as usize),
            1 => {
                let place = random.below(second.len() as u64) as usize;
                second[place] ^= 1 << random.below(64);
            }
            _ => {}
        }
        let number = sound::verdict(&second);
        let equal = number == 0 && sound::list(&second) == self.mirror.list;
        let due = [number, equal as u64, 0, 0];
        if number == 0 && equal != (sound::list(&second).into_iter().collect::<SequenceTree<u64>>() == self.mirror.tree) {
            return Err("the original's equality differs".to_string());
        }
        same("equal", answer(bag::equal(self.pool(), &second)), due)?;
        same("equal, the other way", answer(bag::equal(&second, self.pool())), due)?;
        let pool = &self.store[GUARD..self.store.len() - GUARD];
        same("equal to itself", answer(bag::equal(pool, pool)), [0, 1, 0, 0])?;
        self.calls += 2;
        Ok(number)
    }
}

pub fn same(what: &str, got: Fields, due: Fields) -> Result<(), String> {
    if got != due {
        return Err(format!("{what} is {got:?}, due is {due:?}"));
    }
    Ok(())
}
