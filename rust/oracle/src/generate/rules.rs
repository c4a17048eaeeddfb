//! Rules as programs have them: each Plain stands below an earlier one, a literal or a guard at the end.
use super::numbers::{Cardinalities, cardinality, fraction};
use super::stats::{arity, operators};
use crate::query::{Atom, Operand, Query};
use crate::random::Random;

pub fn typical(r: &mut Random, size: usize) -> Query {
    let mut query = Query {
        variables: 1,
        literals: 1,
        ..Query::default()
    };
    let ops: Vec<u8> = (0..4).map(|_| r.byte()).collect();
    let mut open = vec![0];
    for number in 0..size {
        let node = if open.is_empty() {
            r.below(query.variables.into()) as u8
        } else {
            open.remove(r.below(open.len()))
        };
        let op = r.pick(&ops);
        let next = match r.below(12) {
            0 if number > 0 => Atom::LitBind { node, op, literal: 0 },
            1 if number > 1 => Atom::Pred {
                guard: r.byte(),
                deps: vec![r.below(number) as u8],
            },
            2 if number > 0 => Atom::Lit {
                node,
                op,
                sort: 0,
                value: r.next() as u32,
            },
            _ => Atom::Plain {
                node,
                op,
                children: children(r, &mut query, &mut open),
            },
        };
        query.atoms.push(next);
    }
    r.shuffle_atoms(&mut query);
    statistics(r, &mut query);
    query
}

impl Random {
    /// Atoms in any order; a guard keeps pointing at the same atoms.
    fn shuffle_atoms(&mut self, query: &mut Query) {
        let mut order: Vec<usize> = (0..query.atoms.len()).collect();
        self.shuffle(&mut order);
        let place = |old: u8| order.iter().position(|from| *from == usize::from(old)).expect("an atom's place") as u8;
        let mut moved: Vec<Atom> = order.iter().map(|from| query.atoms[*from].clone()).collect();
        for atom in &mut moved {
            if let Atom::Pred { deps, .. } = atom {
                deps.iter_mut().for_each(|dep| *dep = place(*dep));
            }
        }
        query.atoms = moved;
    }
}

/// Up to three: new variables, or ones there are.
fn children(r: &mut Random, query: &mut Query, open: &mut Vec<u8>) -> Vec<Operand> {
    let mut list = Vec::new();
    for _ in 0..r.between(1, 3) {
        let fresh = query.variables < 64 && r.chance(70);
        let child = if fresh {
            query.variables
        } else {
            r.below(query.variables.into()) as u8
        };
        if fresh {
            query.variables += 1;
            open.push(child);
        }
        list.push(Operand::Local(child));
    }
    list
}

fn statistics(r: &mut Random, query: &mut Query) {
    for op in operators(query) {
        let full = 1 + cardinality(r, Cardinalities::Any) % 1_000_000;
        query.op_card.insert(op, full);
        for pos in 0..arity(query, op) {
            query.by_child_pos.insert((op, pos), 1.0 + fraction(r) * f64::from(full) / 10.0);
        }
    }
    let nodes = 1 + cardinality(r, Cardinalities::Any) % 10_000_000;
    query.by_repr = Some((1.0 + 9.0 * fraction(r), nodes));
}
