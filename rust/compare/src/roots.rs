//! The square root against the machine's.
use crate::bits;
use crate::operands::{FAMILIES, Family};

/// The machine's root by its bits.
pub fn machine(bits: u64) -> u64 {
    bits::of(f64::from_bits(bits).sqrt())
}

pub fn compare(count: u64) -> Result<(), String> {
    FAMILIES.iter().try_for_each(|family| one(family, count))
}

fn one(family: &Family, count: u64) -> Result<(), String> {
    let mut seen = 0u64;
    let mut first = None;
    (family.each)(count, &mut |bits| {
        seen += 1;
        if first.is_none() && rimdovek_sys::sqrt(bits) != machine(bits) {
            first = Some(bits);
        }
    });
    if let Some(bits) = first {
        let (ours, theirs) = (rimdovek_sys::sqrt(bits), machine(bits));
        return Err(format!(
            "difference: sqrt of {bits:016x} ({}): proved {ours:016x}, machine {theirs:016x}",
            family.name
        ));
    }
    println!("{seen:>11}  sqrt, {}", family.name);
    Ok(())
}
