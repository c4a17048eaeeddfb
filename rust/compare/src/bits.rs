//! The bits of a double, with one NaN.
use std::hint::black_box;

pub const NAN: u64 = 0x7ff8_0000_0000_0000;

/// The bits of x; every NaN counts as 7ff8000000000000, since neither the machine nor Rust says which one an operation gives. The test is on
/// the bits and out of the optimiser's sight: it takes `if x.is_nan() { NAN } else { x.to_bits() }` for `x.to_bits()`.
pub fn of(x: f64) -> u64 {
    let bits = black_box(x).to_bits();
    let magnitude = black_box(bits) & (u64::MAX >> 1);
    if magnitude > f64::INFINITY.to_bits() { NAN } else { bits }
}
