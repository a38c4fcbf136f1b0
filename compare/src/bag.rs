//! The calls of libbag.a, over slices. What each answers is said in include/bag.h.

/// The words of a pool of `nodes` nodes.
pub const fn words(nodes: usize) -> usize {
    2 + 66 * nodes
}

#[repr(C)]
#[derive(Clone, Copy, Debug, PartialEq, Eq)]
pub struct Answer {
    pub number: u64,
    pub value: u64,
    pub compared: u64,
}

#[repr(C)]
#[derive(Clone, Copy, Debug, PartialEq, Eq)]
pub struct Walked {
    pub number: u64,
    pub element: u64,
    pub position: u64,
}

#[repr(C)]
#[derive(Clone, Copy, Debug, PartialEq, Eq)]
pub struct Part {
    pub start: usize,
    pub count: usize,
}

#[repr(C)]
#[derive(Clone, Copy, Debug, PartialEq, Eq)]
pub struct Ran {
    pub number: u64,
    pub commands: u64,
    pub read: u64,
    pub written: u64,
}

#[link(name = "bag", kind = "static")]
extern "C" {
    fn bag_format(pool: *mut u64, words: usize) -> Answer;
    fn bag_check(pool: *const u64, words: usize) -> Answer;
    fn bag_len(pool: *const u64, words: usize) -> Answer;
    fn bag_insert(pool: *mut u64, words: usize, index: u64, element: u64) -> Answer;
    fn bag_push(pool: *mut u64, words: usize, element: u64) -> Answer;
    fn bag_get(pool: *const u64, words: usize, index: u64) -> Answer;
    fn bag_replace(pool: *mut u64, words: usize, index: u64, element: u64) -> Answer;
    fn bag_remove(pool: *mut u64, words: usize, index: u64) -> Answer;
    fn bag_step(pool: *const u64, words: usize, position: u64) -> Walked;
    fn bag_skip(pool: *const u64, words: usize, position: u64, m: u64) -> Walked;
    fn bag_equal(a: *const u64, a_words: usize, b: *const u64, b_words: usize) -> Answer;
    fn bag_window(pool: *const u64, words: usize, index: u64) -> Part;
    fn bag_batch(pool: *mut u64, words: usize, input: *const u8, input_bytes: usize, output: *mut u8, output_bytes: usize) -> Ran;
}

// SAFETY, of every call below: a slice's pointer is aligned, is not null even when it is empty, and is good for its words;
// and while the slice is lent, no other thread writes to it.

pub fn format(pool: &mut [u64]) -> Answer {
    unsafe { bag_format(pool.as_mut_ptr(), pool.len()) }
}

pub fn check(pool: &[u64]) -> Answer {
    unsafe { bag_check(pool.as_ptr(), pool.len()) }
}

pub fn len(pool: &[u64]) -> Answer {
    unsafe { bag_len(pool.as_ptr(), pool.len()) }
}

pub fn insert(pool: &mut [u64], index: u64, element: u64) -> Answer {
    unsafe { bag_insert(pool.as_mut_ptr(), pool.len(), index, element) }
}

pub fn push(pool: &mut [u64], element: u64) -> Answer {
    unsafe { bag_push(pool.as_mut_ptr(), pool.len(), element) }
}

pub fn get(pool: &[u64], index: u64) -> Answer {
    unsafe { bag_get(pool.as_ptr(), pool.len(), index) }
}

pub fn replace(pool: &mut [u64], index: u64, element: u64) -> Answer {
    unsafe { bag_replace(pool.as_mut_ptr(), pool.len(), index, element) }
}

pub fn remove(pool: &mut [u64], index: u64) -> Answer {
    unsafe { bag_remove(pool.as_mut_ptr(), pool.len(), index) }
}

pub fn step(pool: &[u64], position: u64) -> Walked {
    unsafe { bag_step(pool.as_ptr(), pool.len(), position) }
}

pub fn skip(pool: &[u64], position: u64, m: u64) -> Walked {
    unsafe { bag_skip(pool.as_ptr(), pool.len(), position, m) }
}

pub fn equal(a: &[u64], b: &[u64]) -> Answer {
    unsafe { bag_equal(a.as_ptr(), a.len(), b.as_ptr(), b.len()) }
}

/// The part of the pool itself; empty if refused.
pub fn window(pool: &[u64], index: u64) -> &[u64] {
    let part = unsafe { bag_window(pool.as_ptr(), pool.len(), index) };
    &pool[part.start..part.start + part.count]
}

pub fn batch(pool: &mut [u64], input: &[u8], output: &mut [u8]) -> Ran {
    unsafe { bag_batch(pool.as_mut_ptr(), pool.len(), input.as_ptr(), input.len(), output.as_mut_ptr(), output.len()) }
}
