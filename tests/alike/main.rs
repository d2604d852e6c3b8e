//! Compiled match specifications against the plain matcher of their definition, on random specifications and objects. Built and run by
//! tests/alike/run.sh.

#[path = "../answers.rs"]
mod answers;
#[path = "../hostile/random.rs"]
#[allow(dead_code)] // the numbers of tests/hostile
mod random;
mod specification;

use answers::Answers;
use random::Random;
use std::process::exit;

/// How many objects each specification is tried on.
const OBJECTS: usize = 4;

/// How many specifications were refused, and how many objects had a result or none.
#[derive(Default)]
struct Counts {
    refused: usize,
    with_result: usize,
    without: usize,
}

/// Adds what the two answers to a specification and an object tell; false where they differ. Of a term that is no specification only the
/// compiler tells something.
fn add(counts: &mut Counts, compiled: &[u8], plain: &[u8]) -> bool {
    if compiled.starts_with(b"BadSpec ") {
        counts.refused += 1;
        return true;
    }
    match compiled {
        b"none" => counts.without += 1,
        _ => counts.with_result += 1,
    }
    compiled == plain && (compiled == b"none" || compiled.starts_with(b"result "))
}

fn main() {
    let words: Vec<usize> = std::env::args().skip(1).map(|word| word.parse().expect("a number")).collect();
    let [count, seed] = words.as_slice() else {
        eprintln!("alike COUNT SEED");
        exit(2);
    };
    let mut random = Random::new(*seed as u64);
    let mut calls = Vec::new();
    for _ in 0..*count {
        let specification = specification::specification(&mut random);
        for _ in 0..OBJECTS {
            let object = specification::object(&mut random);
            calls.push(format!("apply {specification} {object}"));
            calls.push(format!("match {specification} {object}"));
        }
    }
    let told = Answers::start().ask(&calls);
    let mut counts = Counts::default();
    for (calls, told) in calls.chunks(2).zip(told.chunks(2)) {
        if !add(&mut counts, &told[0], &told[1]) {
            println!("DIFFERENCE: {}", calls[0]);
            println!("compiled: {}", String::from_utf8_lossy(&told[0]));
            println!("plain:    {}", String::from_utf8_lossy(&told[1]));
            exit(1);
        }
    }
    let refused = counts.refused / OBJECTS;
    let Counts { with_result, without, .. } = counts;
    println!("seed {seed}: {count} specifications, {refused} of them refused, {with_result} objects with a result and {without} with none, no difference");
    // Of each sort enough must come, by shares that random specifications reach with some room.
    if refused * 4 <= *count || with_result * 20 <= *count * 7 || without * 2 <= *count * 3 {
        println!("too few of some sort");
        exit(1);
    }
}
