//! Frames 10 to 14.
use super::numbers::{Cardinalities, cardinalities, cardinality, fan_out};
use crate::query::{Atom, Query};
use crate::random::Random;
use crate::table::Table;
use std::collections::BTreeSet;

/// Some of the statistics.
pub fn add(r: &mut Random, query: &mut Query) {
    let percent = r.pick(&[30, 70, 100, 100]);
    let how = cardinalities(r);
    put(r, query, percent, how);
    if r.chance(10) {
        let (op, pos) = (r.byte(), r.byte());
        query.op_card.insert(op, cardinality(r, how));
        query.by_child_pos.insert((op, pos), fan_out(r, 7));
        query.by_contains.insert(r.byte(), fan_out(r, 7));
    }
}

/// Frame 10 as the table's rows are.
pub fn counted(query: &mut Query, table: &Table) {
    for op in operators(query) {
        let rows = table.rows.iter().filter(|row| row.op() == op).count();
        query.op_card.insert(op, rows as u32);
    }
}

/// All of them.
pub fn full(r: &mut Random, query: &mut Query) {
    put(r, query, 100, Cardinalities::Any);
}

fn put(r: &mut Random, query: &mut Query, percent: usize, how: Cardinalities) {
    for op in operators(query) {
        if r.chance(percent) {
            query.op_card.insert(op, cardinality(r, how));
        }
        let full = query.op_card.get(&op).copied().unwrap_or(10);
        for pos in 0..arity(query, op) {
            if r.chance(percent) {
                query.by_child_pos.insert((op, pos), fan_out(r, full));
            }
        }
        if r.chance(percent) {
            query.by_contains.insert(op, fan_out(r, full));
        }
    }
    let of_atom = r.pick(&[0, 0, 20, 100]);
    for atom in 0..query.atoms.len() as u8 {
        if r.chance(of_atom) {
            query.atom_card.insert(atom, cardinality(r, how));
        }
    }
    if r.chance(percent) {
        let nodes = cardinality(r, how);
        query.by_repr = Some((fan_out(r, nodes), nodes));
    }
}

/// Every operator of an atom.
pub fn operators(query: &Query) -> BTreeSet<u8> {
    query.atoms.iter().filter_map(|atom| operator(atom).map(|(op, _)| op)).collect()
}

/// The most children that a Plain of the operator has.
pub fn arity(query: &Query, op: u8) -> u8 {
    query
        .atoms
        .iter()
        .filter_map(operator)
        .filter(|(other, _)| *other == op)
        .map(|(_, n)| n)
        .max()
        .unwrap_or(0)
}

fn operator(atom: &Atom) -> Option<(u8, u8)> {
    match atom {
        Atom::Plain { op, children, .. } => Some((*op, children.len() as u8)),
        Atom::Lit { op, .. }
        | Atom::LitBind { op, .. }
        | Atom::AExact { op, .. }
        | Atom::APrefix { op, .. }
        | Atom::ASuffix { op, .. }
        | Atom::ABoth { op, .. }
        | Atom::ACExact { op, .. }
        | Atom::ACSub { op, .. }
        | Atom::ACIExact { op, .. }
        | Atom::ACISub { op, .. } => Some((*op, 0)),
        Atom::Eq(..) | Atom::EqGlobal(..) | Atom::Pred { .. } => None,
    }
}
