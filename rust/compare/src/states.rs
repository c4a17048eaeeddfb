//! SplitMix64 against the description's.
use crate::splitmix::{PUBLISHED, START, SplitMix64, edges};

pub fn compare(count: u64) -> Result<(), String> {
    published()?;
    chained("0", 0, count / 4)?;
    chained("the published start", PUBLISHED.0, count / 4)?;
    chained("the measurements' start", START, count / 4)?;
    let edges = edges();
    edges.iter().try_for_each(|state| step(*state).map(|_| ()))?;
    println!("{:>11}  splitmix64, states at the edges", edges.len());
    random(count / 4)
}

/// One step on both sides; the next state.
fn step(state: u64) -> Result<u64, String> {
    let mut plain = SplitMix64(state);
    let draw = plain.draw();
    let ours = (rimdovek_sys::splitmix64_state(state), rimdovek_sys::splitmix64_draw(state));
    if ours == (plain.0, draw) {
        return Ok(plain.0);
    }
    Err(format!(
        "difference: splitmix64 at {state:016x}: proved {:016x} {:016x}, plain {:016x} {draw:016x}",
        ours.0, ours.1, plain.0
    ))
}

fn published() -> Result<(), String> {
    let mut state = PUBLISHED.0;
    for says in PUBLISHED.1 {
        let draw = rimdovek_sys::splitmix64_draw(state);
        if draw != says {
            return Err(format!("difference: splitmix64 at {state:016x}: proved {draw}, published {says}"));
        }
        state = step(state)?;
    }
    println!("{:>11}  splitmix64, published draws", PUBLISHED.1.len());
    Ok(())
}

fn chained(name: &str, start: u64, count: u64) -> Result<(), String> {
    (0..count).try_fold(start, |state, _| step(state))?;
    println!("{count:>11}  splitmix64, chained from {name}");
    Ok(())
}

/// States from another generator, xorshift, so that they do not lie on one chain.
fn random(count: u64) -> Result<(), String> {
    let mut state = START;
    for _ in 0..count {
        state ^= state << 13;
        state ^= state >> 7;
        state ^= state << 17;
        step(state)?;
    }
    println!("{count:>11}  splitmix64, random states");
    Ok(())
}
