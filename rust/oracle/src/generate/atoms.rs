//! Atoms: every kind, with shared, repeated and own variables, globals, chains and rings.
use crate::query::{Atom, Operand, Query};
use crate::random::Random;

/// Kinds by weight.
const FLAVOURS: [&[u8]; 7] = [
    &[1, 2, 3, 4, 5, 6, 7, 8, 9, 10, 11, 12, 13, 14],
    &[1, 1, 1, 1, 2, 3],
    &[1, 1, 1, 7, 8, 9, 10, 11, 12, 13, 14],
    &[1, 4, 4, 4, 5],
    &[6, 6, 6, 1, 3, 4],
    &[7, 8, 9, 10, 11, 12, 13, 14, 4, 2],
    &[1, 1, 1, 2, 3, 4, 5, 6, 12],
];

/// The same, of queries whose atoms share variables.
const JOINED: [&[u8]; 5] = [
    &[1],
    &[1, 1, 1, 1, 2, 3],
    &[1, 1, 1, 7, 8, 9, 10, 11, 12, 13, 14],
    &[7, 8, 9, 10, 11, 12, 13, 14],
    &[1, 1, 1, 4, 5, 6, 7, 11, 13],
];

/// From what an atom is made.
struct Making {
    kinds: &'static [u8],
    ops: Vec<u8>,
    /// Variables come from the first so many.
    variables: usize,
    globals: usize,
    literals: usize,
    atoms: usize,
    items: usize,
    percent_global: usize,
    /// Each atom has a node of its own where there are enough, so that Joins go by children and elements.
    own_nodes: bool,
}

pub fn loose(r: &mut Random, size: usize) -> Query {
    let variables = match r.below(10) {
        0 => 64,
        1 => r.between(0, 2),
        2..5 => r.between(1, 64),
        _ => r.between(1, (size + size / 2 + 2).min(64)),
    };
    let used = if r.chance(25) { variables.min(r.between(1, 6)) } else { variables };
    let ops = r.between(1, 6);
    let making = Making {
        kinds: r.pick(&FLAVOURS),
        ops: (0..ops).map(|_| r.byte()).collect(),
        variables: used,
        globals: r.pick(&[0, 0, 1, 2, 16]),
        literals: r.pick(&[0, 1, 2, 16]),
        atoms: size,
        items: r.pick(&[1, 2, 3, 3, 4, 16]),
        percent_global: r.pick(&[0, 5, 20, 60]),
        own_nodes: r.chance(45),
    };
    query(r, &making, variables)
}

/// Nodes of their own over few variables, so that most Joins go by children and elements of atoms before.
pub fn joined(r: &mut Random, size: usize) -> Query {
    let variables = r.between(size + 1, 2 * size + 2).min(64);
    let ops = r.between(1, 4);
    let making = Making {
        kinds: r.pick(&JOINED),
        ops: (0..ops).map(|_| r.byte()).collect(),
        variables,
        globals: r.pick(&[0, 0, 1, 2]),
        literals: r.pick(&[0, 1]),
        atoms: size,
        items: r.pick(&[1, 2, 2, 3, 3, 4, 16]),
        percent_global: r.pick(&[0, 0, 5, 20]),
        own_nodes: true,
    };
    query(r, &making, variables)
}

/// Every atom as long as can be; with globals alone and nodes of their own, the plan too.
pub fn largest(r: &mut Random) -> Query {
    let kinds = r.pick(&[&[1][..], &[1], &[11, 12], &[1, 7, 8, 9, 10, 11, 12, 13, 14]]);
    let ops = r.between(1, 8);
    let ops = (0..ops).map(|_| r.byte()).collect();
    let percent_global = r.pick(&[0, 10, 100]);
    let own_nodes = r.chance(70);
    let making = Making {
        kinds,
        ops,
        variables: 64,
        globals: 16,
        literals: 16,
        atoms: 64,
        items: 16,
        percent_global,
        own_nodes,
    };
    let mut query = query(r, &making, 64);
    query.atoms.iter_mut().for_each(|atom| lengthen(r, &making, atom));
    query
}

fn query(r: &mut Random, making: &Making, variables: usize) -> Query {
    let mut atoms: Vec<Atom> = Vec::new();
    for number in 0..making.atoms {
        let again = number > 0 && making.percent_global < 100 && r.chance(7);
        let next = if again {
            atoms[r.below(number)].clone()
        } else {
            atom(r, making, number)
        };
        atoms.push(next);
    }
    Query {
        variables: variables as u8,
        globals: making.globals as u8,
        literals: making.literals as u8,
        atoms,
        ..Query::default()
    }
}

fn lengthen(r: &mut Random, making: &Making, atom: &mut Atom) {
    match atom {
        Atom::Plain { children: list, .. }
        | Atom::AExact { children: list, .. }
        | Atom::APrefix { fixed: list, .. }
        | Atom::ASuffix { fixed: list, .. }
        | Atom::ABoth { fixed: list, .. }
        | Atom::ACIExact { elems: list, .. }
        | Atom::ACISub { elems: list, .. } => list.resize_with(16, || operand(r, making)),
        Atom::ACExact { elems, .. } | Atom::ACSub { elems, .. } => elems.resize_with(16, || (operand(r, making), r.byte())),
        _ => {}
    }
}

/// An atom of a kind that the header leaves room for.
fn atom(r: &mut Random, making: &Making, number: usize) -> Atom {
    let kind = r.pick(making.kinds);
    if kind == 6 || making.variables == 0 {
        return pred(r, making, number);
    }
    let own = making.own_nodes && number < making.variables && !matches!(kind, 4 | 5) && !r.chance(10);
    let node = if own {
        (making.variables - 1 - number) as u8
    } else {
        variable(r, making)
    };
    let op = r.pick(&making.ops);
    match kind {
        3 if making.literals > 0 => Atom::LitBind {
            node,
            op,
            literal: r.below(making.literals) as u8,
        },
        2 | 3 => Atom::Lit {
            node,
            op,
            sort: r.byte(),
            value: r.next() as u32,
        },
        5 if making.globals > 0 => Atom::EqGlobal(node, r.below(making.globals) as u8),
        4 | 5 => Atom::Eq(node, if r.chance(5) { node } else { variable(r, making) }),
        11 => Atom::ACExact {
            node,
            op,
            elems: multiples(r, making, node),
        },
        12 => Atom::ACSub {
            node,
            op,
            rest: r.byte(),
            elems: multiples(r, making, node),
        },
        _ => listed(r, making, kind, node, op),
    }
}

fn listed(r: &mut Random, making: &Making, kind: u8, node: u8, op: u8) -> Atom {
    let list = operands(r, making, node);
    match kind {
        1 => Atom::Plain { node, op, children: list },
        7 => Atom::AExact { node, op, children: list },
        8 => Atom::APrefix {
            node,
            op,
            pre: r.byte(),
            fixed: list,
        },
        9 => Atom::ASuffix {
            node,
            op,
            suf: r.byte(),
            fixed: list,
        },
        10 => Atom::ABoth {
            node,
            op,
            pre: r.byte(),
            suf: r.byte(),
            fixed: list,
        },
        13 => Atom::ACIExact { node, op, elems: list },
        _ => Atom::ACISub {
            node,
            op,
            rest: r.byte(),
            elems: list,
        },
    }
}

fn variable(r: &mut Random, making: &Making) -> u8 {
    r.below(making.variables) as u8
}

fn length(r: &mut Random, making: &Making) -> usize {
    match r.below(20) {
        0 => 0,
        1 => making.items,
        _ => r.between(0, making.items),
    }
}

fn operands(r: &mut Random, making: &Making, node: u8) -> Vec<Operand> {
    let mut list: Vec<Operand> = Vec::new();
    for place in 0..length(r, making) {
        let next = match r.below(100) {
            0..5 if making.percent_global < 100 => Operand::Local(node),
            5..13 if place > 0 => list[r.below(place)],
            _ => operand(r, making),
        };
        list.push(next);
    }
    list
}

/// With own nodes, the lower half of the variables is for operands.
fn operand(r: &mut Random, making: &Making) -> Operand {
    if making.globals > 0 && r.chance(making.percent_global) {
        return Operand::Global(r.below(making.globals) as u8);
    }
    let part = if making.own_nodes && !r.chance(20) {
        making.variables.div_ceil(2)
    } else {
        making.variables
    };
    Operand::Local(r.below(part) as u8)
}

fn multiples(r: &mut Random, making: &Making, node: u8) -> Vec<(Operand, u8)> {
    operands(r, making, node).into_iter().map(|item| (item, r.byte())).collect()
}

/// Dependencies: none, itself, a ring with the next atom, earlier atoms, any atoms.
fn pred(r: &mut Random, making: &Making, number: usize) -> Atom {
    let any = |r: &mut Random| r.below(making.atoms) as u8;
    let deps = match r.below(12) {
        0 | 1 => vec![],
        2 => vec![number as u8],
        3 => vec![((number + 1) % making.atoms) as u8],
        4..8 if number > 0 => (0..r.between(1, 3)).map(|_| r.below(number) as u8).collect(),
        11 => (0..16).map(|_| any(r)).collect(),
        _ => (0..r.between(0, 3)).map(|_| any(r)).collect(),
    };
    Atom::Pred { guard: r.byte(), deps }
}
