// The work of the program `memory_bench` on a plain slice, for bench/memory to compare: memory load|store ROUNDS.
use std::env;

const WORDS: u64 = 32768;

fn next(state: u64) -> u64 {
    state.wrapping_mul(6364136223846793005).wrapping_add(1442695040888963407)
}

fn loads(bytes: &[u8], rounds: u64) -> u64 {
    let (mut state, mut sum) = (1, 0u64);
    for _ in 0..rounds {
        state = next(state);
        let at = ((state >> 32) % WORDS * 8) as usize;
        if let Some(word) = bytes.get(at..at + 8) {
            sum = sum.wrapping_add(u64::from_le_bytes(word.try_into().unwrap()));
        }
    }
    sum
}

fn stores(bytes: &mut [u8], rounds: u64) -> u64 {
    let (mut state, mut sum) = (1, 0u64);
    for _ in 0..rounds {
        state = next(state);
        let at = ((state >> 32) % WORDS * 8) as usize;
        if let Some(word) = bytes.get_mut(at..at + 8) {
            word.copy_from_slice(&state.to_le_bytes());
            sum = sum.wrapping_add(state);
        }
    }
    sum
}

fn main() {
    let words: Vec<String> = env::args().collect();
    let rounds = words[2].parse().unwrap();
    let mut bytes = vec![1u8; 262144];
    let sum = if words[1] == "load" { loads(&bytes, rounds) } else { stores(&mut bytes, rounds) };
    println!("{sum:016x}");
}
