//! The selectivity of a path against plain Rust.
use crate::bits;
use crate::splitmix::SplitMix64;

/// "Selectivity is 0.5 without a fan-out or with denominator 0, else f/denominator held to 0..1."
fn plain(fanout: Option<f64>, denom: u32) -> f64 {
    match fanout {
        Some(f) if denom > 0 => (f / f64::from(denom)).clamp(0.0, 1.0),
        _ => 0.5,
    }
}

pub fn compare(count: u64) -> Result<(), String> {
    for (fanout, denom, says) in [(3.0, 4, 0.75), (8.0, 4, 1.0), (3.0, 0, 0.5)] {
        if check(Some(fanout), denom)? != says {
            return Err(format!("difference: selectivity of ({fanout}, {denom}): not {says}"));
        }
    }
    println!("{:>11}  selectivity, the document's examples", 3);
    family("edges", edges().into_iter())?;
    let mut random = SplitMix64(21);
    family(
        "random patterns",
        (0..count / 16).map(|_| (some(random.draw()), denominator(&mut random))),
    )?;
    let mut random = SplitMix64(22);
    family("quotients of counts", (0..count / 16).map(|_| counts(&mut random)))
}

fn family(name: &str, mut pairs: impl Iterator<Item = (Option<f64>, u32)>) -> Result<(), String> {
    let seen = pairs.try_fold(0, |seen, (fanout, denom)| check(fanout, denom).map(|_| seen + 1))?;
    println!("{seen:>11}  selectivity, {name}");
    Ok(())
}

/// The proved answer, where it equals the plain one.
fn check(fanout: Option<f64>, denom: u32) -> Result<f64, String> {
    let (ours, theirs) = (rimdovek_sys::path_selectivity(fanout, denom), plain(fanout, denom));
    if ours.to_bits() == bits::of(theirs) {
        return Ok(ours);
    }
    let fanout = fanout.map(f64::to_bits);
    Err(format!(
        "difference: selectivity of ({fanout:016x?}, {denom}): proved {ours:e}, plain {theirs:e}"
    ))
}

fn some(bits: u64) -> Option<f64> {
    Some(f64::from_bits(bits))
}

/// A denominator of any size.
fn denominator(random: &mut SplitMix64) -> u32 {
    let bits = random.below(33);
    (random.draw() & ((1 << bits) - 1)) as u32
}

/// A fan-out as it is measured, entries over keys, at most about the denominator.
fn counts(random: &mut SplitMix64) -> (Option<f64>, u32) {
    let denom = denominator(random);
    let entries = random.below(2 * u64::from(denom) + 1);
    let keys = 1 + random.below(8);
    (Some(entries as f64 / keys as f64), denom)
}

fn edges() -> Vec<(Option<f64>, u32)> {
    let mut pairs = Vec::new();
    for denom in [0, 1, 2, 3, 4, 7, 10, u32::MAX - 1, u32::MAX] {
        pairs.push((None, denom));
        let whole = f64::from(denom);
        for f in [
            0.0,
            5e-324,
            1e-310,
            f64::MIN_POSITIVE,
            0.5,
            1.0,
            whole,
            whole.next_up(),
            whole.next_down(),
            f64::MAX,
        ] {
            pairs.extend([(Some(f), denom), (Some(-f), denom)]);
        }
        for f in [f64::INFINITY, f64::NEG_INFINITY, f64::NAN, -f64::NAN] {
            pairs.push((Some(f), denom));
        }
    }
    pairs
}
