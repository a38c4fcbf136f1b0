//! Which call comes next: phases of growth and drain at random, in front, at the back and at separators, around the sizes at which
//! nodes split and merge, and at the end of the room.
use crate::batches;
use crate::calls::Call;
use crate::mirror::Mirror;
use crate::random::Random;

#[derive(Clone, Copy, PartialEq)]
enum Place {
    Any,
    Front,
    Back,
    Separator,
}

#[derive(Clone, Copy, PartialEq)]
enum Phase {
    /// So many of a hundred edits insert.
    Drift(u64, Place),
    /// The list's length goes to and fro around this one.
    Around(u64),
    /// No insertion finds room but by chance.
    Brim,
}

pub struct Workload {
    random: Random,
    phase: Phase,
    left: u64,
    /// So many of a hundred calls change nothing, or are a batch.
    asides: u64,
}

/// The index of an element of an inner node, if there is one.
pub fn separator(mirror: &Mirror, random: &mut Random) -> Option<u64> {
    let mut node = mirror.tree.shape()?;
    let mut before = 0;
    loop {
        let children = node.children();
        if children.len() == 0 {
            return None;
        }
        let c = random.below(children.len() as u64 - 1) as usize;
        let child = node.children().nth(c)?;
        before += node.children().take(c).map(|d| d.length() + 1).sum::<usize>();
        if child.children().len() == 0 || random.percent(40) {
            return Some((before + child.length()) as u64);
        }
        node = child;
    }
}

impl Workload {
    pub fn new(seed: u64, asides: u64) -> Workload {
        Workload { random: Random::new(seed), phase: Phase::Drift(100, Place::Any), left: 0, asides }
    }

    /// Starts with growth to the end of the room of p nodes, by insertions at random or by pushes.
    pub fn full(seed: u64, asides: u64, p: u64) -> Workload {
        // A node holds about 21 elements after the first, and 15 after the others; the asides come on top.
        let (place, calls) = if seed % 2 == 0 { (Place::Any, 24) } else { (Place::Back, 17) };
        Workload { random: Random::new(seed), phase: Phase::Drift(100, place), left: calls * p, asides }
    }

    fn turn(&mut self, p: u64) {
        let random = &mut self.random;
        let place = [Place::Any, Place::Front, Place::Back, Place::Separator][random.below(4) as usize];
        self.phase = match random.below(8) {
            0 | 1 => Phase::Drift(random.within(85, 100), place),
            2 | 3 => Phase::Drift(random.within(0, 15), place),
            4 => Phase::Drift(50, place),
            5 => Phase::Around([15, 16, 30, 31, 32, 33, 46, 47, 48, 62, 63, 79][random.below(12) as usize]),
            6 => Phase::Brim,
            _ => Phase::Drift(random.below(101), place),
        };
        self.left = 1 + random.below(40 + 16 * p);
    }

    pub fn next(&mut self, mirror: &Mirror) -> Call {
        let p = (mirror.model.words().len() / 66) as u64;
        if self.left == 0 {
            self.turn(p);
        }
        self.left -= 1;
        if self.random.percent(self.asides) {
            return self.aside(mirror);
        }
        let n = mirror.len();
        let (insertions, place) = match self.phase {
            Phase::Drift(insertions, place) => (insertions, place),
            Phase::Around(m) => (if n < m { 80 } else { 20 }, Place::Any),
            Phase::Brim => (if mirror.model.free() <= 1 { 50 } else { 95 }, Place::Any),
        };
        let inserts = self.random.percent(insertions);
        let index = self.index(mirror, place, n + inserts as u64);
        let element = self.random.element();
        match inserts {
            true if place == Place::Back && self.random.percent(70) => Call::Push(element),
            true => Call::Insert(index, element),
            false => Call::Remove(index),
        }
    }

    /// An index below a bound, or rarely any number at all.
    fn index(&mut self, mirror: &Mirror, place: Place, bound: u64) -> u64 {
        let random = &mut self.random;
        if bound == 0 || random.percent(1) {
            return if random.percent(50) { bound + random.below(3) } else { random.huge() };
        }
        match place {
            Place::Any => random.below(bound),
            Place::Front => random.below(bound.min(3)),
            Place::Back => bound - 1 - random.below(bound.min(3)),
            // An insertion there stands at the end of the child before it, one further in front of the child after it.
            Place::Separator => match separator(mirror, random) {
                Some(index) => index + random.below(2),
                None => random.below(bound),
            },
        }
    }

    fn aside(&mut self, mirror: &Mirror) -> Call {
        let n = mirror.len();
        let place = [Place::Any, Place::Any, Place::Front, Place::Back, Place::Separator][self.random.below(5) as usize];
        let index = self.index(mirror, place, n + 1);
        let random = &mut self.random;
        let small = n <= 1500;
        match random.below(100) {
            0..=34 => Call::Get(index),
            35..=49 => Call::Replace(index, random.element()),
            50..=59 => Call::Window(index),
            60..=66 => Call::Step(index),
            67..=74 => {
                let m = if random.percent(30) { random.huge() } else { random.below(n + 2) };
                Call::Skip(index, m)
            }
            75..=79 => Call::Len,
            80..=82 => Call::Check,
            83..=88 if small => Call::Walk(random.any()),
            89..=90 if small => Call::Equal(random.any()),
            91..=97 if small || random.percent(5) => {
                let (input, room) = batches::batch(random, n, 40);
                Call::Batch(input, room)
            }
            98 if random.percent(2) => Call::Format,
            _ => Call::Insert(index, random.element()),
        }
    }
}
