//! Accepted queries from a seed, alone or with a table: all kinds and limits, small and middle ones often, the largest now and then.
mod atoms;
mod numbers;
mod rules;
mod sheets;
mod stats;
mod tables;
mod texts;

use crate::query::{Atom, Operand, Query, Settings};
use crate::random::Random;
use crate::table::Table;

pub use stats::operators;
pub use tables::ROWS;
pub use texts::LONGEST;

/// A query and a text of it, with its frames in some order and letter case; so a table, where one is handed in.
pub struct Generated {
    pub query: Query,
    pub text: Vec<u8>,
    pub table: Option<(Table, Vec<u8>)>,
}

pub fn generate(seed: u64) -> Generated {
    let mut random = Random::new(seed);
    let r = &mut random;
    let size = size(r);
    let mut query = if r.chance(15) {
        rules::typical(r, size.clamp(1, 32))
    } else {
        loose(r, size)
    };
    if r.chance(60) {
        sheets::add(r, &mut query);
        sheets::threshold(r, &mut query, None);
    }
    texts::fit(&mut query);
    if size == 64 && r.chance(30) {
        texts::fill(r, &mut query);
    }
    let text = texts::text(r, &query);
    let table = None;
    Generated { query, text, table }
}

/// Frame 24 and a table mostly; now and then sheets beside a table that nothing asks for.
pub fn generate_with_table(seed: u64) -> Generated {
    let mut random = Random::new(seed);
    let r = &mut random;
    let size = size(r).max(r.below(7));
    let mut query = match r.below(10) {
        0..2 => rules::typical(r, size.clamp(1, 32)),
        2..8 => joined(r, size),
        _ => loose(r, size),
    };
    let table = tables::table(r, &query);
    if r.chance(50) {
        stats::counted(&mut query, &table);
    }
    if r.chance(3) {
        sheets::add(r, &mut query);
        texts::fit(&mut query);
    } else {
        query.from_table = true;
        query.settings = r.chance(97).then(|| sheets::settings(r));
    }
    sheets::threshold(r, &mut query, Some(&table));
    let text = texts::text(r, &query);
    let table_text = texts::table_text(r, &table);
    Generated {
        query,
        text,
        table: Some((table, table_text)),
    }
}

/// A rule as programs have them: Plains that hang together, with all statistics.
pub fn typical(seed: u64, atoms: usize) -> Query {
    rules::typical(&mut Random::new(seed), atoms)
}

/// The same with sampling on.
pub fn sampled(seed: u64, atoms: usize) -> Query {
    let r = &mut Random::new(seed);
    let mut query = rules::typical(r, atoms);
    sheets::full(r, &mut query, 32, 8);
    query
}

/// 64 atoms of 16 items over 64 variables, with all statistics; sampling as told.
pub fn largest(seed: u64, sampling: bool) -> Query {
    let r = &mut Random::new(seed);
    let mut query = atoms::largest(r);
    stats::full(r, &mut query);
    if sampling {
        sheets::full(r, &mut query, 64, 256);
        texts::fit(&mut query);
    }
    query
}

/// So many Plains in a row, each with the last's second child as its first, of four operators; 64 nodes and 256 resamples a measurement, from a
/// table of so many rows.
pub fn chain(seed: u64, atoms: u8, rows: usize) -> (Query, Table) {
    let ops = [1, 2, 3, 4];
    let plain = |atom: u8| Atom::Plain {
        node: atom,
        op: ops[usize::from(atom) % ops.len()],
        children: vec![Operand::Local(atoms + atom), Operand::Local(atoms + atom + 1)],
    };
    let mut query = Query {
        variables: 2 * atoms + 1,
        atoms: (0..atoms).map(plain).collect(),
        settings: Some(Settings {
            k: 64,
            bootstrap: 256,
            cv_threshold: 0.25,
        }),
        from_table: true,
        ..Query::default()
    };
    let table = tables::even(&mut Random::new(seed), &ops, rows, 100);
    stats::counted(&mut query, &table);
    (query, table)
}

fn joined(r: &mut Random, size: usize) -> Query {
    let mut query = atoms::joined(r, size);
    if r.chance(85) {
        stats::add(r, &mut query);
    }
    query
}

fn loose(r: &mut Random, size: usize) -> Query {
    let mut query = if size == 64 && r.chance(20) {
        atoms::largest(r)
    } else {
        atoms::loose(r, size)
    };
    if r.chance(85) {
        stats::add(r, &mut query);
    }
    query
}

/// The number of atoms.
fn size(r: &mut Random) -> usize {
    match r.below(100) {
        0..25 => r.between(0, 3),
        25..65 => r.between(2, 8),
        65..92 => r.between(5, 20),
        92..98 => r.between(20, 63),
        _ => 64,
    }
}
