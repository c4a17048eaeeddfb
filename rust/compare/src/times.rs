//! Nanoseconds a call, on both sides.
use crate::splitmix::SplitMix64;
use std::hint::black_box;
use std::time::Instant;

const CALLS: usize = 1 << 20;
const CHUNK: usize = 1 << 10;

/// The median over short runs, so that other work on the machine hardly shows.
fn median(operands: &[u64], call: impl Fn(u64) -> u64) -> f64 {
    let run = |chunk: &[u64]| {
        let start = Instant::now();
        for bits in chunk {
            black_box(call(black_box(*bits)));
        }
        start.elapsed().as_nanos() as f64 / chunk.len() as f64
    };
    let mut times: Vec<f64> = operands.chunks(CHUNK).map(run).collect();
    times.sort_by(f64::total_cmp);
    times[times.len() / 2]
}

pub fn print() {
    let mut random = SplitMix64(41);
    let operands: Vec<u64> = (0..CALLS).map(|_| random.draw() >> 1).collect();
    let (ours, theirs) = (
        median(&operands, rimdovek_sys::sqrt),
        median(&operands, |bits| f64::from_bits(bits).sqrt().to_bits()),
    );
    println!("{ours:>11.2}  ns a call, sqrt, proved");
    println!("{theirs:>11.2}  ns a call, sqrt, machine");
    let both = |state| rimdovek_sys::splitmix64_state(state) ^ rimdovek_sys::splitmix64_draw(state);
    let plain = |state| {
        let mut generator = SplitMix64(state);
        let draw = generator.draw();
        generator.0 ^ draw
    };
    println!(
        "{:>11.2}  ns a call, splitmix64, proved (state and draw: two calls)",
        median(&operands, both)
    );
    println!("{:>11.2}  ns a call, splitmix64, plain", median(&operands, plain));
}
