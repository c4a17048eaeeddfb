//! Cardinalities and fan-outs, with their edges.
use crate::random::Random;

/// How a query's cardinalities come.
#[derive(Clone, Copy)]
pub enum Cardinalities {
    Equal(u32),
    Few,
    Edges,
    Any,
}

pub fn cardinalities(r: &mut Random) -> Cardinalities {
    match r.below(8) {
        0 | 1 => Cardinalities::Equal(r.pick(&[0, 1, 10, 100, 4096, u32::MAX])),
        2..5 => Cardinalities::Few,
        5 => Cardinalities::Edges,
        _ => Cardinalities::Any,
    }
}

pub fn cardinality(r: &mut Random, how: Cardinalities) -> u32 {
    match how {
        Cardinalities::Equal(n) => n,
        Cardinalities::Few => r.pick(&[0, 1, 2, 3, 4, 10, 100, 1000]),
        Cardinalities::Edges => r.pick(&[0, 1, u32::MAX, u32::MAX - 1, 1 << 31, (1 << 24) + 1]),
        Cardinalities::Any => {
            let bits = r.between(0, 32);
            (r.next() & ((1 << bits) - 1)) as u32
        }
    }
}

/// Finite and not below 0; `denominator` is what it may be divided by.
pub fn fan_out(r: &mut Random, denominator: u32) -> f64 {
    let full = f64::from(denominator);
    match r.below(20) {
        0 => 0.0,
        1 => -0.0,
        2 => f64::from_bits(r.between(1, 9) as u64),
        3 => f64::from_bits(r.next() & ((1 << 52) - 1)),
        4 => f64::from_bits((1 << 52) - 1 + r.below(3) as u64),
        5 => r.pick(&[f64::MAX, 1e308, 1e300, 1.5e200]),
        6 => full,
        7 => full.next_up(),
        8 => full.next_down().max(0.0),
        9 => f64::from_bits(((r.next() << 16) ^ r.next()) % f64::INFINITY.to_bits()),
        10..14 => r.between(1, 20) as f64,
        14 => r.between(1, 9) as f64 / r.between(1, 9) as f64,
        _ => full * fraction(r),
    }
}

pub fn fraction(r: &mut Random) -> f64 {
    (r.next() & ((1 << 53) - 1)) as f64 / (1_u64 << 53) as f64
}
