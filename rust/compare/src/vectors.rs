//! What the programs `roots` and `draws` read and must write, from the machine's roots and the plain generator.
use crate::operands::FAMILIES;
use crate::roots;
use crate::splitmix::{PUBLISHED, START, SplitMix64, edges};
use std::collections::BTreeSet;
use std::fmt::Write;
use std::fs;
use std::io;
use std::path::Path;

/// Of each family at most this many operands.
const SAMPLE: usize = 40;

pub fn write() -> io::Result<()> {
    let crates = Path::new(env!("CARGO_MANIFEST_DIR")).join("../../crates");
    let operands = operands();
    put(&crates.join("roots"), &operands, |bits| format!("{:016x}", roots::machine(bits)))?;
    let states = states();
    put(&crates.join("draws"), &states, five)?;
    println!("{:>11}  operands for roots", operands.len());
    println!("{:>11}  states for draws", states.len());
    Ok(())
}

fn put(folder: &Path, numbers: &[u64], answer: fn(u64) -> String) -> io::Result<()> {
    let (mut input, mut output) = (String::new(), String::new());
    for number in numbers {
        writeln!(input, "{number:016x}").expect("a string takes all");
        writeln!(output, "{}", answer(*number)).expect("a string takes all");
    }
    fs::create_dir_all(folder)?;
    fs::write(folder.join("stdin"), input)?;
    fs::write(folder.join("stdout"), output)
}

/// Operands of every family, evenly through it, each once.
fn operands() -> Vec<u64> {
    let mut seen = BTreeSet::new();
    let mut sample = Vec::new();
    for family in &FAMILIES {
        let mut all = Vec::new();
        (family.each)(1 << 12, &mut |bits| all.push(bits));
        let step = all.len().div_ceil(SAMPLE);
        sample.extend(all.into_iter().step_by(step).filter(|bits| seen.insert(*bits)));
    }
    sample
}

/// The published start, the measurements' start, the edges, and some random states.
fn states() -> Vec<u64> {
    let mut random = SplitMix64(51);
    let mut states = vec![PUBLISHED.0, START];
    states.extend(edges().into_iter().filter(|state| *state != START));
    states.extend((0..64).map(|_| random.draw()));
    states
}

/// The next five draws.
fn five(state: u64) -> String {
    let mut generator = SplitMix64(state);
    let draws: Vec<String> = (0..5).map(|_| format!("{:016x}", generator.draw())).collect();
    draws.join(" ")
}
