//! The C functions of the crate `exports`, declared and wrapped. Each is proved to meet an equation and asks nothing of its caller
//! beyond what its Rust type says, so every wrapper is safe.

use std::thread;

mod c {
    unsafe extern "C" {
        pub safe fn rimdovek_sqrt(bits: u64) -> u64;
        pub safe fn rimdovek_splitmix64_state(state: u64) -> u64;
        pub safe fn rimdovek_splitmix64_draw(state: u64) -> u64;
        pub safe fn rimdovek_path_selectivity(measured: bool, fanout: u64, denom: u32) -> u64;
        // A slice is a pointer and then a length; `handed` says whether there is a table.
        pub fn rimdovek_estimate_draws(draws: *const f64, draws_len: usize, k: usize, bootstrap: usize, cv: u64, mean: *mut u64) -> u8;
        pub fn rimdovek_plan(
            query: *const u8,
            query_len: usize,
            handed: bool,
            table: *const u8,
            table_len: usize,
            out: *mut u8,
            out_len: usize,
        ) -> u64;
        pub fn rimdovek_round_costs(
            query: *const u8,
            query_len: usize,
            handed: bool,
            table: *const u8,
            table_len: usize,
            round: usize,
            costs: *mut u64,
            costs_len: usize,
        ) -> u64;
        pub fn rimdovek_run(
            plan: *const u8,
            plan_len: usize,
            table: *const u8,
            table_len: usize,
            allowance: u64,
            atom: u64,
            out: *mut u8,
            out_len: usize,
            tries: *mut u64,
            matches: *mut u64,
        ) -> u64;
        pub fn rimdovek_some_match(
            plan: *const u8,
            plan_len: usize,
            table: *const u8,
            table_len: usize,
            allowance: u64,
            atom: u64,
            out: *mut u8,
            out_len: usize,
        ) -> u64;
    }
}

/// The square root, from bit pattern to bit pattern; 7ff8000000000000 for NaN and below 0.
pub fn sqrt(bits: u64) -> u64 {
    c::rimdovek_sqrt(bits)
}

/// The generator's next state.
pub fn splitmix64_state(state: u64) -> u64 {
    c::rimdovek_splitmix64_state(state)
}

/// The number drawn at a state.
pub fn splitmix64_draw(state: u64) -> u64 {
    c::rimdovek_splitmix64_draw(state)
}

/// The selectivity of a path; a NaN comes back as 7ff8000000000000.
pub fn path_selectivity(fanout: Option<f64>, denom: u32) -> f64 {
    let bits = fanout.map_or(0, f64::to_bits);
    f64::from_bits(c::rimdovek_path_selectivity(fanout.is_some(), bits, denom))
}

/// The settings of sampling.
#[derive(Clone, Copy, Debug)]
pub struct Settings {
    pub k: usize,
    pub bootstrap: usize,
    pub cv_threshold: f64,
}

/// What a measurement gives from its draws.
#[derive(Clone, Copy, Debug)]
pub enum Estimate {
    Accepted(f64),
    /// The guard rejects the mean.
    Rejected,
    /// No draw, more than 64 of them, or more than 256 resamples.
    Refused,
}

/// The measurement from its draws.
pub fn estimate_draws(draws: &[f64], settings: Settings) -> Estimate {
    let mut mean = 0;
    match estimate_draws_into(draws, settings, &mut mean) {
        0 => Estimate::Accepted(f64::from_bits(mean)),
        1 => Estimate::Rejected,
        _ => Estimate::Refused,
    }
}

/// The same as the C function gives it: 0, and `mean` is set to the mean's bits; 1 rejected; 2 refused, and `mean` is as it was.
pub fn estimate_draws_into(draws: &[f64], settings: Settings, mean: &mut u64) -> u8 {
    // SAFETY: both pointers are of references that outlive the call, and the length is the slice's.
    unsafe {
        c::rimdovek_estimate_draws(
            draws.as_ptr(),
            draws.len(),
            settings.k,
            settings.bootstrap,
            settings.cv_threshold.to_bits(),
            mean,
        )
    }
}

/// A text is refused, and nothing is written.
#[derive(Clone, Copy, Debug, PartialEq, Eq)]
pub struct Refusal {
    /// The document's number.
    pub number: u8,
    /// 0 query, 1 plan, 2 table.
    pub text: u8,
    pub line: u16,
}

/// An answer's highest bit says that it is a refusal; number, text and line are its lowest four bytes, the line taking two.
fn accepted(answer: u64) -> Result<u64, Refusal> {
    if answer >> 63 == 0 {
        return Ok(answer);
    }
    Err(Refusal {
        number: (answer >> 24) as u8,
        text: (answer >> 16) as u8,
        line: answer as u16,
    })
}

/// What the planner says of a plan it wrote.
#[derive(Clone, Copy, Debug, PartialEq, Eq)]
pub struct Planned {
    pub written: usize,
    pub steps: u16,
    pub tallied: u16,
    pub rejected: u16,
}

/// The plan of a query text, written into the lent output. No plan is longer than 20,565 bytes. `table` is the text handed in beside the query,
/// perhaps an empty one: frame 24 reads it and is refused (13) where there is none; without frame 24 it is not read.
///
/// The C function's answer, accepted: from the highest bit, 0, fifteen bits of bytes written, and steps, tallied and rejected of sixteen each.
pub fn plan(query: &[u8], table: Option<&[u8]>, out: &mut [u8]) -> Result<Planned, Refusal> {
    let rows = table.unwrap_or_default();
    // SAFETY: the pointers are of references that outlive the call, and the lengths are the slices'.
    let answer = accepted(unsafe {
        c::rimdovek_plan(
            query.as_ptr(),
            query.len(),
            table.is_some(),
            rows.as_ptr(),
            rows.len(),
            out.as_mut_ptr(),
            out.len(),
        )
    })?;
    let word = |place: u32| (answer >> (16 * place)) as u16;
    Ok(Planned {
        written: word(3).into(),
        steps: word(2),
        tallied: word(1),
        rejected: word(0),
    })
}

/// The bits that stand for no cost.
pub const NO_COST: u64 = u64::MAX;

/// The costs of round number `round` of a query text, from 0, as bits in the lent array: as far as it is long, and [`NO_COST`] for an atom that
/// is no candidate and past the atoms. The atom chosen, or none where no atom is a candidate. `table` is as in [`plan`].
///
/// The C function's answer, accepted: the atom chosen, or 256.
pub fn round_costs(query: &[u8], table: Option<&[u8]>, round: usize, costs: &mut [u64]) -> Result<Option<u8>, Refusal> {
    let rows = table.unwrap_or_default();
    // SAFETY: the pointers are of references that outlive the call, and the lengths are the slices'.
    let answer = accepted(unsafe {
        c::rimdovek_round_costs(
            query.as_ptr(),
            query.len(),
            table.is_some(),
            rows.as_ptr(),
            rows.len(),
            round,
            costs.as_mut_ptr(),
            costs.len(),
        )
    })?;
    Ok(u8::try_from(answer).ok())
}

/// How a run ended.
#[derive(Clone, Copy, Debug, PartialEq, Eq)]
pub enum Status {
    Done,
    /// A try was due with all the allowance used.
    Spent,
    /// A match lacked space.
    Full,
}

/// What the runner says of a run.
#[derive(Clone, Copy, Debug, PartialEq, Eq)]
pub struct Ran {
    pub status: Status,
    pub written: usize,
    pub tries: u64,
    pub matches: u64,
}

/// A run takes some 1,700 bytes of stack a Join and 290,000 besides: a plan up to this long stays below 1.7 MB.
const SHORT_PLAN: usize = 20 << 10;

/// Enough for the longest plan text that is accepted, which takes less than 4.7 MB.
const STACK: usize = 8 << 20;

/// A call that runs a plan: on a thread of its own where the plan is long.
fn with_stack<T: Send>(plan: &[u8], call: impl FnOnce() -> T + Send) -> T {
    if plan.len() <= SHORT_PLAN {
        return call();
    }
    thread::scope(|scope| {
        let own = thread::Builder::new().stack_size(STACK).spawn_scoped(scope, call);
        own.expect("a thread is made").join().expect("the call returns")
    })
}

/// The number that names no atom.
const NO_ATOM: u64 = u64::MAX;

/// Runs a plan over a table with an allowance of tries; the lines of the matches go into the lent output. The Join of the atom `delta_atom`, if one is
/// named, tries new rows, those from the table's frame 33 on, Joins of lower atoms old rows, higher ones all.
///
/// The C function's answer, accepted: the status from bit 32 on, the bytes written below. So at most 2^32 - 1 bytes of the output are lent.
///
/// # Panics
/// Where the plan has more than 20 kB and no thread can be made.
pub fn run(plan: &[u8], table: &[u8], allowance: u64, delta_atom: Option<u32>, out: &mut [u8]) -> Result<Ran, Refusal> {
    let (mut tries, mut matches) = (0, 0);
    let room = out.len().min(u32::MAX as usize);
    // SAFETY: the pointers are of references that outlive the call, and the lengths are the slices'.
    let answer = accepted(with_stack(plan, || unsafe {
        c::rimdovek_run(
            plan.as_ptr(),
            plan.len(),
            table.as_ptr(),
            table.len(),
            allowance,
            delta_atom.map_or(NO_ATOM, u64::from),
            out.as_mut_ptr(),
            room,
            &mut tries,
            &mut matches,
        )
    }))?;
    let status = match answer >> 32 {
        0 => Status::Done,
        1 => Status::Spent,
        _ => Status::Full,
    };
    Ok(Ran {
        status,
        written: answer as u32 as usize,
        tries,
        matches,
    })
}

/// What the second entry says.
#[derive(Clone, Copy, Debug, PartialEq, Eq)]
pub enum SomeMatch {
    /// No match exists.
    None,
    /// The allowance is used before a match is found.
    Spent,
    /// Its line is at the beginning of the output, where it has room: 419 bytes always suffice.
    Match,
}

/// Some match of a plan over a table, in a run that names the atom `delta_atom`, if any.
///
/// # Panics
/// As `run`.
pub fn some_match(plan: &[u8], table: &[u8], allowance: u64, delta_atom: Option<u32>, out: &mut [u8]) -> Result<SomeMatch, Refusal> {
    // SAFETY: the pointers are of references that outlive the call, and the lengths are the slices'.
    let answer = accepted(with_stack(plan, || unsafe {
        c::rimdovek_some_match(
            plan.as_ptr(),
            plan.len(),
            table.as_ptr(),
            table.len(),
            allowance,
            delta_atom.map_or(NO_ATOM, u64::from),
            out.as_mut_ptr(),
            out.len(),
        )
    }))?;
    Ok(match answer {
        0 => SomeMatch::None,
        1 => SomeMatch::Spent,
        _ => SomeMatch::Match,
    })
}
