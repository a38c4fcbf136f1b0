//! Calls on words that may not be sound. What is due is what `sound::verdict` says: a refused call changes no word and no byte, and a
//! pool that is sound all the same is used as it stands.
use crate::bag;
use crate::batches;
use crate::calls::{answer, ask, ran, refusal, Call, Fields};
use crate::damage::{break_clause, scramble, CLAUSES};
use crate::mirror::Mirror;
use crate::random::Random;
use crate::sound;
use crate::trial::same;

const FILLER: u8 = 0xA5;

/// A damaged pool, and the difference that a call shows on it.
pub struct Finding {
    pub pool: Vec<u64>,
    pub call: Call,
    pub difference: String,
}

fn any_call(random: &mut Random, words: usize) -> Call {
    let index = if random.percent(20) { random.huge() } else { random.below(words as u64 / 2 + 2) };
    match random.below(13) {
        0 => Call::Format,
        1 => Call::Check,
        2 => Call::Len,
        3 => Call::Insert(index, random.element()),
        4 => Call::Push(random.element()),
        5 => Call::Get(index),
        6 => Call::Replace(index, random.element()),
        7 => Call::Remove(index),
        8 => Call::Step(index),
        9 => Call::Skip(index, random.huge()),
        10 => Call::Window(index),
        11 => Call::Equal(random.below(3)),
        _ => {
            let (input, room) = batches::batch(random, 10, 6);
            Call::Batch(input, room)
        }
    }
}

/// The answer and output bytes of a call.
fn made(pool: &mut [u64], call: &Call) -> (Fields, Vec<u8>) {
    match call {
        // With itself, or before or after a pool of no length.
        Call::Equal(0) => (answer(bag::equal(pool, pool)), Vec::new()),
        Call::Equal(1) => (answer(bag::equal(pool, &[])), Vec::new()),
        Call::Equal(_) => (answer(bag::equal(&[], pool)), Vec::new()),
        Call::Batch(input, room) => {
            let mut output = vec![FILLER; *room];
            (ran(bag::batch(pool, input, &mut output)), output)
        }
        _ => (ask(pool, call), Vec::new()),
    }
}

/// The answer, output bytes and words that are due.
fn due(pool: &[u64], verdict: u64, call: &Call) -> Result<(Fields, Vec<u8>, Vec<u64>), String> {
    let room = if let Call::Batch(_, room) = call { *room } else { 0 };
    if *call == Call::Format && verdict != 4 {
        let formatted = Mirror::new((pool.len() - 2) / sound::NODE_WORDS);
        return Ok(([0; 4], Vec::new(), formatted.model.words().to_vec()));
    }
    if *call == Call::Equal(2) || (*call == Call::Equal(1) && verdict == 0) {
        return Ok(([4, 0, 0, 0], Vec::new(), pool.to_vec()));
    }
    if verdict != 0 {
        return Ok((refusal(verdict, call), vec![FILLER; room], pool.to_vec()));
    }
    let mut mirror = Mirror::read(pool);
    let (fields, mut output) = match call {
        Call::Equal(_) => ([0, 1, 0, 0], Vec::new()),
        Call::Batch(input, _) => batches::due(&mut mirror, input, room)?,
        _ => (mirror.due(call)?, Vec::new()),
    };
    output.resize(room, FILLER);
    Ok((fields, output, mirror.model.words().to_vec()))
}

fn try_call(pool: &[u64], verdict: u64, call: &Call) -> Result<(), String> {
    let mut words = pool.to_vec();
    let (fields, output) = made(&mut words, call);
    let (due_fields, due_output, due_words) = due(pool, verdict, call)?;
    same("the answer", fields, due_fields)?;
    if output != due_output {
        return Err("the output differs".to_string());
    }
    let differs = (0..words.len()).find(|i| words[*i] != due_words[*i]);
    differs.map_or(Ok(()), |i| Err(format!("word {i} is {}, due is {}", words[i], due_words[i])))
}

/// Makes some calls on words that the driver's own check gives this number. Gives how many.
fn try_words(pool: Vec<u64>, verdict: u64, random: &mut Random) -> Result<u64, Finding> {
    let mut calls = vec![Call::Check];
    calls.extend((0..3).map(|_| any_call(random, pool.len())));
    for call in &calls {
        if let Err(difference) = try_call(&pool, verdict, call) {
            return Err(Finding { pool, call: call.clone(), difference });
        }
    }
    Ok(calls.len() as u64)
}

/// Damages a sound pool, and makes some calls on what is left. Gives how many, and the number that is due of the pool.
pub fn try_damage(base: &[u64], random: &mut Random) -> Result<(u64, u64), Finding> {
    let mut pool = base.to_vec();
    let broken = random.percent(60) && break_clause(&mut pool, random.below(CLAUSES), random).is_some();
    if !broken {
        scramble(&mut pool, random);
    }
    let verdict = sound::verdict(&pool);
    if broken && verdict != 1 {
        let difference = "a clause is broken, and the driver's own check does not see it".to_string();
        return Err(Finding { pool, call: Call::Check, difference });
    }
    Ok((try_words(pool, verdict, random)?, verdict))
}

/// Words of every length up to that of two nodes, and of lengths around the largest pool's and beyond: zeros, and an empty list.
pub fn try_lengths(random: &mut Random) -> Result<u64, Finding> {
    let around = |nodes: usize| bag::words(nodes) - 1..=bag::words(nodes) + 1;
    let mut calls = 0;
    for length in (0..=bag::words(2) + 1).chain(around(4096)).chain(around(4097)).chain(around(8192)) {
        let mut pool = vec![0; length];
        calls += try_words(pool.clone(), sound::verdict(&pool), random)?;
        bag::format(&mut pool);
        calls += try_words(pool.clone(), sound::verdict(&pool), random)?;
    }
    Ok(calls)
}
