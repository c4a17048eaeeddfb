//! The operands of the square root, a family each.
use crate::splitmix::SplitMix64;

/// A family hands each of its operands to `visit`; `count` is the number of random ones in the large families.
pub struct Family {
    pub name: &'static str,
    pub each: fn(count: u64, visit: &mut dyn FnMut(u64)),
}

pub const FAMILIES: [Family; 13] = [
    Family {
        name: "named patterns",
        each: named,
    },
    Family {
        name: "powers of two and neighbours",
        each: powers_of_two,
    },
    Family {
        name: "smallest and largest of each exponent",
        each: ends,
    },
    Family {
        name: "subnormals with one or two bits",
        each: sparse_subnormals,
    },
    Family {
        name: "subnormals by leading zeros",
        each: subnormals_by_zeros,
    },
    Family {
        name: "random subnormals",
        each: random_subnormals,
    },
    Family {
        name: "squares of 26-bit numbers and neighbours",
        each: squares,
    },
    Family {
        name: "squares of halfway numbers and neighbours",
        each: halfway,
    },
    Family { name: "NaNs", each: nans },
    Family {
        name: "random negatives",
        each: negatives,
    },
    Family {
        name: "random patterns",
        each: patterns,
    },
    Family {
        name: "random patterns without sign",
        each: unsigned,
    },
    Family {
        name: "random numbers from 1 to 4",
        each: one_to_four,
    },
];

const SIGN: u64 = 1 << 63;
const HIDDEN: u64 = 1 << 52;
const FRACTION: u64 = HIDDEN - 1;
const ONES: u64 = 0x7ff;
const INFINITY: u64 = ONES << 52;

/// A pattern and its neighbours, up to two units away.
fn around(bits: u64, visit: &mut dyn FnMut(u64)) {
    for by in -2..=2 {
        visit(bits.wrapping_add_signed(by));
    }
}

fn named(_: u64, visit: &mut dyn FnMut(u64)) {
    let quiet = INFINITY | HIDDEN >> 1;
    let named = [0.0, 1.0, 2.0, 2.25, 3.0, 4.0, 0.25, 1e-310, 1e308, f64::MIN_POSITIVE, f64::MAX];
    for bits in named
        .map(f64::to_bits)
        .into_iter()
        .chain([1, INFINITY, INFINITY + 1, quiet, SIGN - 1])
    {
        visit(bits);
        visit(SIGN | bits);
    }
}

fn powers_of_two(_: u64, visit: &mut dyn FnMut(u64)) {
    for sign in [0, SIGN] {
        (0..52).for_each(|bit| around(sign | 1 << bit, visit));
        (0..=ONES).for_each(|field| around(sign | field << 52, visit));
    }
}

fn ends(_: u64, visit: &mut dyn FnMut(u64)) {
    for sign in [0, SIGN] {
        for field in 0..=ONES {
            visit(sign | field << 52);
            visit(sign | field << 52 | FRACTION);
        }
    }
}

fn sparse_subnormals(_: u64, visit: &mut dyn FnMut(u64)) {
    for high in 0..52 {
        visit(1 << high);
        (0..high).for_each(|low| visit(1 << high | 1 << low));
    }
}

fn subnormals_by_zeros(count: u64, visit: &mut dyn FnMut(u64)) {
    let mut random = SplitMix64(1);
    for high in 0..52 {
        let top = 1u64 << high;
        visit(top);
        visit(top | (top - 1));
        (0..count >> 12).for_each(|_| visit(top | random.draw() & (top - 1)));
    }
}

fn random_subnormals(count: u64, visit: &mut dyn FnMut(u64)) {
    let mut random = SplitMix64(2);
    (0..count >> 4).for_each(|_| visit(random.draw() & FRACTION));
}

fn squares(count: u64, visit: &mut dyn FnMut(u64)) {
    let mut random = SplitMix64(3);
    for _ in 0..count >> 4 {
        let root = 1 + random.below((1 << 26) - 1);
        let square = ((root * root) as f64).to_bits();
        // times a power of four, within the normal range: the square lies below 2^52
        let scaled = square - (1022 << 52) + (random.below(996) << 53);
        around(scaled, visit);
    }
}

/// The double nearest to (n + 1/2)^2, for a 53-bit n and times a power of four: its root lies close to halfway between two doubles.
fn halfway(count: u64, visit: &mut dyn FnMut(u64)) {
    let mut random = SplitMix64(4);
    for _ in 0..count >> 4 {
        let odd = u128::from(2 * (HIDDEN | random.draw() & FRACTION) + 1);
        let square = odd * odd;
        let shift = 128 - square.leading_zeros() - 53;
        let significand = ((square + (1 << (shift - 1))) >> shift) as u64;
        // field - 1075 is the exponent of the significand's last place: even or odd as `shift` is
        let field = u64::from(shift % 2) + 1 + 2 * random.below(1022);
        around((field << 52) + (significand - HIDDEN), visit);
    }
}

fn nans(count: u64, visit: &mut dyn FnMut(u64)) {
    let mut random = SplitMix64(5);
    for sign in [0, SIGN] {
        (0..52).for_each(|bit| visit(sign | INFINITY | 1 << bit));
        for _ in 0..count >> 8 {
            visit(sign | INFINITY | (1 + random.below(FRACTION)));
        }
    }
}

fn negatives(count: u64, visit: &mut dyn FnMut(u64)) {
    let mut random = SplitMix64(6);
    (0..count >> 4).for_each(|_| visit(SIGN | random.draw()));
}

fn patterns(count: u64, visit: &mut dyn FnMut(u64)) {
    let mut random = SplitMix64(7);
    (0..count).for_each(|_| visit(random.draw()));
}

fn unsigned(count: u64, visit: &mut dyn FnMut(u64)) {
    let mut random = SplitMix64(8);
    (0..count).for_each(|_| visit(random.draw() >> 1));
}

fn one_to_four(count: u64, visit: &mut dyn FnMut(u64)) {
    let mut random = SplitMix64(9);
    (0..count).for_each(|_| visit((1023 << 52) + (random.draw() >> 11)));
}
