//! 10,000 generated inputs in one process, against the second implementation. SEED repeats the inputs of a printed seed.
mod common;

use common::both::Both;
use common::{listed, output, texts};
use std::env;
use std::sync::atomic::{AtomicU64, Ordering};
use std::thread;
use std::time::{SystemTime, UNIX_EPOCH};

const COUNT: u64 = 10_000;

/// The seed given, or one of the clock.
fn seed() -> u64 {
    match env::var("SEED") {
        Ok(seed) => seed
            .parse()
            .unwrap_or_else(|_| panic!("SEED is a number, not {seed:?}")),
        Err(_) => SystemTime::now()
            .duration_since(UNIX_EPOCH)
            .expect("a clock after 1970")
            .as_secs(),
    }
}

/// The input with this index of a seed. Of those that take long, the deepest trees and the largest plants, only every fifth is
/// taken.
fn input(seed: u64, index: u64) -> Vec<u8> {
    let slow = index >= COUNT / 5 && matches!(index % 50, 7 | 33);
    second::inputs::input(seed, if slow { index + COUNT + 1 } else { index })
}

/// In what the implementations differ on an input, where they do: in its listing, or in what a text of it gets or leaves.
fn compare(input: &[u8], room: &mut [u8]) -> Result<(), String> {
    if listed(input, room) != second::listing(input) {
        return Err("listing".to_string());
    }
    let mut both = Both::new();
    for (k, text) in texts(input).into_iter().enumerate() {
        both.lodge(text)
            .map_err(|why| format!("text {}: {why}", k + 1))?;
    }
    Ok(())
}

#[test]
fn generated_inputs_get_the_second_implementations_listings_answers_and_reports() {
    let seed = seed();
    println!("seed {seed}, {COUNT} inputs");
    let next = AtomicU64::new(0);
    // Each worker keeps one output for all of its inputs, so that nothing of an earlier listing may show.
    let work = || {
        let mut room = output();
        let mut differ = Vec::new();
        loop {
            let index = next.fetch_add(1, Ordering::Relaxed);
            if index >= COUNT {
                return differ;
            }
            if let Err(why) = compare(&input(seed, index), &mut room) {
                differ.push(format!("input {index}: {why}"));
            }
        }
    };
    let workers = thread::available_parallelism().map_or(1, |n| n.get());
    let differ: Vec<String> = thread::scope(|scope| {
        let running: Vec<_> = (0..workers).map(|_| scope.spawn(work)).collect();
        running
            .into_iter()
            .flat_map(|worker| worker.join().expect("a worker"))
            .collect()
    });
    assert!(differ.is_empty(), "seed {seed} differs: {differ:#?}");
}
