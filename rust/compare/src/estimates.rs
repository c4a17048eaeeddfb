//! The mean of draws and its guard against plain Rust.
use crate::bits;
use crate::splitmix::{START, SplitMix64};
use rimdovek_sys::Settings;

/// What `mean` holds before a call.
const BEFORE: u64 = 0x0123_4567_89ab_cdef;

/// The mean, and whether the guard accepts it. `sum` starts at -0.0, the proved sums at 0.0: see `minus_zeros`.
fn plain(draws: &[f64], settings: Settings) -> (f64, bool) {
    let mean = draws.iter().sum::<f64>() / draws.len() as f64;
    (mean, settings.bootstrap == 0 || accepted(draws, mean, settings))
}

/// "All draws 0: accepted .. Else .. sqrt(variance)/mean <= cv_threshold accepts." A mean below 0, which no probe lengths give, is
/// accepted only with draws that are all 0.
fn accepted(draws: &[f64], mean: f64, settings: Settings) -> bool {
    if mean <= 0.0 {
        return draws.iter().all(|d| *d == 0.0);
    }
    spread(draws, settings.bootstrap) / mean <= settings.cv_threshold
}

/// The root of the variance of the means of `count` resamples.
fn spread(draws: &[f64], count: usize) -> f64 {
    let mut generator = SplitMix64(START);
    let mut resample = || {
        let mut total = 0.0;
        for _ in draws {
            total += draws[generator.below(draws.len() as u64) as usize];
        }
        total / draws.len() as f64
    };
    let means: Vec<f64> = (0..count).map(|_| resample()).collect();
    let center = means.iter().sum::<f64>() / count as f64;
    let squares = means.iter().map(|m| (m - center) * (m - center));
    (squares.sum::<f64>() / count as f64).sqrt()
}

pub fn compare(count: u64) -> Result<(), String> {
    let mut random = SplitMix64(31);
    family("probe lengths", count >> 11, &mut random, probe_lengths)?;
    family("any doubles", count >> 11, &mut random, any_doubles)?;
    named()?;
    at_the_threshold(count >> 12, &mut random)?;
    refused(&mut random)?;
    minus_zeros()
}

/// Compares `count` samples, and says how many are rejected.
fn family(name: &str, count: u64, random: &mut SplitMix64, draw: fn(&mut SplitMix64) -> f64) -> Result<(), String> {
    let mut rejected = 0;
    for _ in 0..count {
        let draws = sample(random, draw);
        rejected += u64::from(check(&draws, settings(random))?);
    }
    println!("{count:>11}  estimates, draws of {name}, {rejected} of them rejected");
    Ok(())
}

/// Draws at the edges of the format, each sample with every guard and threshold.
fn named() -> Result<(), String> {
    let (inf, nan, least) = (f64::INFINITY, f64::NAN, 5e-324);
    let samples: [&[f64]; 14] = [
        &[nan],
        &[-nan, 1.0],
        &[inf, -inf],
        &[inf, 1.0],
        &[-inf, 1.0],
        &[f64::MAX, f64::MAX],
        &[-1.0, 1.0],
        &[-1.0],
        &[0.0, -0.0],
        &[least],
        &[least, 0.0, 0.0, 0.0],
        &[1.0; 64],
        &[0.1, 0.2, 0.3],
        &[1.0, 1e16, -1e16],
    ];
    let mut seen = 0;
    for draws in samples {
        for bootstrap in [0, 1, 2, 8, 256] {
            for cv_threshold in [0.0, -0.0, 0.5, 1.0, -1.0, inf, -inf, nan] {
                check(
                    draws,
                    Settings {
                        k: 64,
                        bootstrap,
                        cv_threshold,
                    },
                )?;
                seen += 1;
            }
        }
    }
    println!("{seen:>11}  estimates, named draws");
    Ok(())
}

/// From 1 to 64 draws; one sample in eight is all zeros.
fn sample(random: &mut SplitMix64, draw: fn(&mut SplitMix64) -> f64) -> Vec<f64> {
    let length = 1 + random.below(64);
    match random.below(8) {
        0 => vec![0.0; length as usize],
        _ => (0..length).map(|_| draw(random)).collect(),
    }
}

/// "A draw is the sum of its probe lengths over its class count": from 1 to 32 classes, lengths of any size.
fn probe_lengths(random: &mut SplitMix64) -> f64 {
    let classes = 1 + random.below(32);
    let bits = random.below(33);
    let total: u64 = (0..classes).map(|_| random.draw() & ((1 << bits) - 1)).sum();
    total as f64 / classes as f64
}

/// One in 64 of any pattern, the others from -10 to about 1,040.
fn any_doubles(random: &mut SplitMix64) -> f64 {
    match random.below(64) {
        0 => f64::from_bits(random.draw()),
        _ => random.below(1 << 20) as f64 * 1e-3 - 10.0,
    }
}

fn settings(random: &mut SplitMix64) -> Settings {
    let bootstrap = match random.below(8) {
        0 => 0,
        1 => 1,
        2 => 256,
        _ => random.below(257) as usize,
    };
    let cv_threshold = match random.below(8) {
        0 => 0.0,
        1 => f64::from_bits(random.draw()),
        _ => random.below(1 << 20) as f64 / 1048576.0,
    };
    Settings {
        k: random.below(65) as usize,
        bootstrap,
        cv_threshold,
    }
}

/// Compares one estimate; its status.
fn check(draws: &[f64], settings: Settings) -> Result<u8, String> {
    let mut mean = BEFORE;
    let status = rimdovek_sys::estimate_draws_into(draws, settings, &mut mean);
    let (plain_mean, accepted) = plain(draws, settings);
    let says = if accepted { (0, bits::of(plain_mean)) } else { (1, BEFORE) };
    if (status, mean) == says {
        return Ok(status);
    }
    Err(format!(
        "difference: estimate of {draws:?} with {settings:?}: proved {status} {mean:016x}, plain {} {:016x}",
        says.0, says.1
    ))
}

/// Thresholds at the very spread of the sample and a unit to either side: a unit of difference anywhere before shows here.
fn at_the_threshold(count: u64, random: &mut SplitMix64) -> Result<(), String> {
    for _ in 0..count {
        let draws = sample(random, probe_lengths);
        let bootstrap = 1 + random.below(256) as usize;
        let mean = draws.iter().sum::<f64>() / draws.len() as f64;
        let spread = spread(&draws, bootstrap) / mean;
        for cv_threshold in [spread.next_down(), spread, spread.next_up()] {
            check(
                &draws,
                Settings {
                    k: 64,
                    bootstrap,
                    cv_threshold,
                },
            )?;
        }
    }
    println!("{:>11}  estimates, thresholds at the spread and a unit to either side", 3 * count);
    Ok(())
}

fn refused(random: &mut SplitMix64) -> Result<(), String> {
    let most = [257, 258, 65536, usize::MAX].map(|bootstrap| (1, bootstrap));
    let lengths = [0, 65, 66, 1000].map(|length| (length, 8));
    for (length, bootstrap) in most.into_iter().chain(lengths) {
        let draws: Vec<f64> = (0..length).map(|_| probe_lengths(random)).collect();
        let mut mean = BEFORE;
        let settings = Settings {
            k: 64,
            bootstrap,
            cv_threshold: 1.0,
        };
        let status = rimdovek_sys::estimate_draws_into(&draws, settings, &mut mean);
        if (status, mean) != (2, BEFORE) {
            return Err(format!(
                "difference: estimate of {length} draws, {bootstrap} resamples: {status} {mean:016x}, not refused"
            ));
        }
    }
    println!("{:>11}  estimates, refused", 8);
    Ok(())
}

/// The one sample on which the sums' starts show: nothing but -0.0, which no probe lengths give. Its mean is 0.0 here and -0.0 in Rust.
fn minus_zeros() -> Result<(), String> {
    for length in 1..=64 {
        let draws = vec![-0.0; length];
        let mut mean = BEFORE;
        let settings = Settings {
            k: 64,
            bootstrap: 8,
            cv_threshold: 0.0,
        };
        let status = rimdovek_sys::estimate_draws_into(&draws, settings, &mut mean);
        let (plain_mean, _) = plain(&draws, settings);
        if (status, mean, plain_mean.to_bits()) != (0, 0, 1 << 63) {
            return Err(format!(
                "difference: estimate of {length} draws of -0.0: proved {status} {mean:016x}, plain {plain_mean:?}"
            ));
        }
    }
    println!("{:>11}  estimates, nothing but -0.0: mean 0.0 proved, -0.0 in Rust", 64);
    Ok(())
}
