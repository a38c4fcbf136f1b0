//! The archive's calls as values, so that a sequence of them can be kept, run again and cut down.
use crate::bag;

#[derive(Clone, Debug, PartialEq)]
pub enum Call {
    Format,
    Check,
    Len,
    Insert(u64, u64),
    Push(u64),
    Get(u64),
    Replace(u64, u64),
    Remove(u64),
    Step(u64),
    Skip(u64, u64),
    Window(u64),
    /// With a second pool that is made from the list by this number.
    Equal(u64),
    /// Steps and skips from the front, by this number.
    Walk(u64),
    /// The input, and the bytes of output.
    Batch(Vec<u8>, usize),
}

/// What a call answers, field by field; 0 where it has fewer than four.
pub type Fields = [u64; 4];

pub fn answer(a: bag::Answer) -> Fields {
    [a.number, a.value, a.compared, 0]
}

pub fn walked(w: bag::Walked) -> Fields {
    [w.number, w.element, w.position, 0]
}

pub fn ran(r: bag::Ran) -> Fields {
    [r.number, r.commands, r.read, r.written]
}

/// Makes one of the calls that need nothing but the pool.
pub fn ask(pool: &mut [u64], call: &Call) -> Fields {
    match *call {
        Call::Format => answer(bag::format(pool)),
        Call::Check => answer(bag::check(pool)),
        Call::Len => answer(bag::len(pool)),
        Call::Insert(index, element) => answer(bag::insert(pool, index, element)),
        Call::Push(element) => answer(bag::push(pool, element)),
        Call::Get(index) => answer(bag::get(pool, index)),
        Call::Replace(index, element) => answer(bag::replace(pool, index, element)),
        Call::Remove(index) => answer(bag::remove(pool, index)),
        Call::Step(position) => walked(bag::step(pool, position)),
        Call::Skip(position, m) => walked(bag::skip(pool, position, m)),
        Call::Window(index) => {
            let part = bag::window(pool, index);
            [(part.as_ptr() as u64 - pool.as_ptr() as u64) / 8, part.len() as u64, 0, 0]
        }
        Call::Equal(_) | Call::Walk(_) | Call::Batch(..) => unreachable!("made where their other operand is"),
    }
}

/// What is due of a pool that is refused with 1 or 4.
pub fn refusal(number: u64, call: &Call) -> Fields {
    match *call {
        Call::Window(_) => [0; 4],
        Call::Step(position) | Call::Skip(position, _) => [number, 0, position, 0],
        _ => [number, 0, 0, 0],
    }
}
