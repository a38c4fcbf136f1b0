//! A scanner's bag, from Rust: c/bag.c tells the same story, and both print story.txt. `bag` is compare/src/bag.rs.

const NODES: usize = 3;

/// Tubes 1001, 1002, .. are scanned one after the other.
fn scan(pool: &mut [u64], tubes: u64) {
    let mut number = 0;
    for tube in 1001..=1000 + tubes {
        if number == 0 {
            number = bag::push(pool, tube).number;
        }
    }
    println!("scanned {} tubes: {number}", bag::len(pool).value);
}

fn look_up(pool: &[u64], index: u64) {
    let a = bag::get(pool, index);
    println!("tube at {index}: {}, {}, {} compared", a.number, a.value, a.compared);
}

/// A walk over the bag ends with the answer 2, at the place after the last tube.
fn walk(pool: &[u64]) {
    let mut at = bag::step(pool, 0);
    print!("in order:");
    while at.number == 0 {
        print!(" {}", at.element);
        at = bag::step(pool, at.position);
    }
    println!("; {} at {}", at.number, at.position);
}

/// The tubes from an index on that lie side by side in the pool, read there.
fn look_through(pool: &[u64], index: u64) {
    let part = bag::window(pool, index);
    let start = (part.as_ptr() as usize - pool.as_ptr() as usize) / 8;
    print!("window at {index}: words {start} + {}:", part.len());
    for tube in part {
        print!(" {tube}");
    }
    println!();
}

/// Every refusal has a number, and changes no word.
fn be_refused(pool: &mut [u64]) {
    println!("remove at 99: {}", bag::remove(pool, 99).number);
    let mut number = 0;
    while number == 0 {
        number = bag::push(pool, 7).number;
    }
    println!("push until the bag is full: {number}");
    println!("a word too few: {}", bag::len(&pool[1..]).number);
    pool[0] = NODES as u64 + 1;
    println!("a damaged pool: {}", bag::len(pool).number);
}

/// Commands in bytes, run by one call on an empty bag: scan tube 7, look it up at 0, take out the tube at 1, which is refused.
/// The answers have room for up to 27 bytes, and a command runs only if 13 are left.
fn run_commands(pool: &mut [u64], room: usize) {
    #[rustfmt::skip]
    let commands = [
        3, 7, 0, 0, 0, 0, 0, 0, 0, // push 7
        4, 0, 0, 0, 0,             // get 0
        2, 1, 0, 0, 0,             // remove 1
    ];
    let mut answers = [0; 27];
    println!("formatted: {}", bag::format(pool).number);
    let ran = bag::batch(pool, &commands, &mut answers[..room]);
    print!("batch into {room} bytes: {} after {} commands, ", ran.number, ran.commands);
    print!("{} bytes read, {} written:", ran.read, ran.written);
    for byte in &answers[..ran.written as usize] {
        print!(" {byte:02x}");
    }
    println!();
}

fn main() {
    let pool = &mut [0; bag::words(NODES)];
    println!("formatted: {}", bag::format(pool).number);
    scan(pool, 32);
    println!("slot 2000 in at 15: {}", bag::insert(pool, 15, 2000).number);
    look_up(pool, 15);
    look_up(pool, 32);
    let a = bag::replace(pool, 15, 2001);
    println!("relabel the tube at 15: {}, it was {}", a.number, a.value);
    let a = bag::remove(pool, 0);
    println!("take the first tube out: {}, it was {}", a.number, a.value);
    walk(pool);
    look_through(pool, 20);
    be_refused(pool);
    run_commands(pool, 27);
    run_commands(pool, 26);
}
