//! What memory that grows costs by itself: the pieces that a writing session offers, written to a vector that grows and to one that is there.
//!
//!     rustc -O -o /tmp/growth scripts/growth.rs && /tmp/growth
//!
//! It prints MB/s, the middle of 21 runs by turns. (both are as a new process finds them: a vector that is let go gives its memory back)
use std::io::{self, Write};
use std::time::Instant;

const BYTES: usize = 20_000_000;
const PIECE: usize = 65_536;
const RUNS: usize = 21;

/// How many MB a second come into this vector, which is then compared.
fn speed(mut memory: Vec<u8>, piece: &[u8]) -> io::Result<f64> {
    let start = Instant::now();
    while memory.len() < BYTES {
        let rest = piece.len().min(BYTES - memory.len());
        memory.write_all(&piece[..rest])?;
    }
    let seconds = start.elapsed().as_secs_f64();
    assert!(memory.iter().all(|byte| *byte == 7));
    Ok(BYTES as f64 / 1e6 / seconds)
}

/// The middle one of these.
fn middle(mut speeds: Vec<f64>) -> f64 {
    speeds.sort_by(f64::total_cmp);
    speeds[speeds.len() / 2]
}

fn main() -> io::Result<()> {
    let piece = vec![7; PIECE];
    let (mut grows, mut is_there) = (Vec::new(), Vec::new());
    for _ in 0..RUNS {
        grows.push(speed(Vec::new(), &piece)?);
        is_there.push(speed(Vec::with_capacity(BYTES), &piece)?);
    }
    println!("grows {:.0} MB/s", middle(grows));
    println!("is there {:.0} MB/s", middle(is_there));
    Ok(())
}
