//! A query as the document's frames give it, and its text.
use std::collections::BTreeMap;

/// One byte each: a variable, a global, an operator, a handle.
#[derive(Clone, Copy, Debug, PartialEq, Eq)]
pub enum Operand {
    Local(u8),
    Global(u8),
}

#[derive(Clone, Debug, PartialEq, Eq)]
pub enum Atom {
    Plain {
        node: u8,
        op: u8,
        children: Vec<Operand>,
    },
    Lit {
        node: u8,
        op: u8,
        sort: u8,
        value: u32,
    },
    LitBind {
        node: u8,
        op: u8,
        literal: u8,
    },
    Eq(u8, u8),
    EqGlobal(u8, u8),
    Pred {
        guard: u8,
        deps: Vec<u8>,
    },
    AExact {
        node: u8,
        op: u8,
        children: Vec<Operand>,
    },
    APrefix {
        node: u8,
        op: u8,
        pre: u8,
        fixed: Vec<Operand>,
    },
    ASuffix {
        node: u8,
        op: u8,
        suf: u8,
        fixed: Vec<Operand>,
    },
    ABoth {
        node: u8,
        op: u8,
        pre: u8,
        suf: u8,
        fixed: Vec<Operand>,
    },
    ACExact {
        node: u8,
        op: u8,
        elems: Vec<(Operand, u8)>,
    },
    ACSub {
        node: u8,
        op: u8,
        rest: u8,
        elems: Vec<(Operand, u8)>,
    },
    ACIExact {
        node: u8,
        op: u8,
        elems: Vec<Operand>,
    },
    ACISub {
        node: u8,
        op: u8,
        rest: u8,
        elems: Vec<Operand>,
    },
}

/// Frame 20.
#[derive(Clone, Copy, Debug, PartialEq)]
pub struct Settings {
    pub k: u8,
    pub bootstrap: u16,
    pub cv_threshold: f64,
}

#[derive(Clone, Debug, Default, PartialEq)]
pub struct Query {
    pub variables: u8,
    pub globals: u8,
    pub literals: u8,
    pub atoms: Vec<Atom>,
    /// Frame 10, by operator.
    pub op_card: BTreeMap<u8, u32>,
    /// Frame 11, by atom.
    pub atom_card: BTreeMap<u8, u32>,
    /// Frame 12: by_repr and nodes.
    pub by_repr: Option<(f64, u32)>,
    /// Frame 13, by operator and position.
    pub by_child_pos: BTreeMap<(u8, u8), f64>,
    /// Frame 14, by operator.
    pub by_contains: BTreeMap<u8, f64>,
    /// Frame 20: sampling is on.
    pub settings: Option<Settings>,
    /// Frame 21: an atom's nodes.
    pub nodes: BTreeMap<u8, Vec<u16>>,
    /// Frame 22: the classes by node, site and position.
    pub classes: BTreeMap<(u16, u8, u8), Vec<u16>>,
    /// Frame 23: the length by class, path, position and operator.
    pub lengths: BTreeMap<(u16, u8, u8, u8), u32>,
    /// Frame 24: the samples come from a table, not from frames 21 to 23.
    pub from_table: bool,
}

/// The query's text: header, atoms, statistics, settings, sheets or frame 24.
pub fn to_text(query: &Query) -> String {
    frames(query).iter().map(|frame| line(frame)).collect()
}

/// A frame's line.
pub fn line(frame: &[u8]) -> String {
    let mut line: String = frame.iter().map(|byte| format!("{byte:02x}")).collect();
    line.push('\n');
    line
}

/// The frames in the order of their kinds; the atoms in their own.
pub fn frames(query: &Query) -> Vec<Vec<u8>> {
    let mut all = vec![vec![0, query.variables, query.globals, query.literals]];
    all.extend(query.atoms.iter().map(atom));
    all.extend(query.op_card.iter().map(|(op, n)| join(&[&[0x10, *op], &n.to_be_bytes()])));
    all.extend(query.atom_card.iter().map(|(atom, n)| join(&[&[0x11, *atom], &n.to_be_bytes()])));
    all.extend(
        query
            .by_repr
            .map(|(f, nodes)| join(&[&[0x12], &f.to_be_bytes(), &nodes.to_be_bytes()])),
    );
    all.extend(
        query
            .by_child_pos
            .iter()
            .map(|((op, pos), f)| join(&[&[0x13, *op, *pos], &f.to_be_bytes()])),
    );
    all.extend(query.by_contains.iter().map(|(op, f)| join(&[&[0x14, *op], &f.to_be_bytes()])));
    all.extend(
        query
            .settings
            .map(|s| join(&[&[0x20, s.k], &s.bootstrap.to_be_bytes(), &s.cv_threshold.to_be_bytes()])),
    );
    all.extend(
        query
            .nodes
            .iter()
            .map(|(atom, nodes)| join(&[&[0x21, *atom, count(nodes)], &words(nodes)])),
    );
    all.extend(
        query
            .classes
            .iter()
            .map(|((node, site, pos), classes)| join(&[&[0x22], &node.to_be_bytes(), &[*site, *pos, count(classes)], &words(classes)])),
    );
    all.extend(
        query
            .lengths
            .iter()
            .map(|((class, path, pos, op), n)| join(&[&[0x23], &class.to_be_bytes(), &[*path, *pos, *op], &n.to_be_bytes()])),
    );
    all.extend(query.from_table.then(|| vec![0x24]));
    all
}

fn atom(atom: &Atom) -> Vec<u8> {
    match atom {
        Atom::Plain { node, op, children } => join(&[&[1, *node, *op, count(children)], &operands(children)]),
        Atom::Lit { node, op, sort, value } => join(&[&[2, *node, *op, *sort], &value.to_be_bytes()]),
        Atom::LitBind { node, op, literal } => vec![3, *node, *op, *literal],
        Atom::Eq(a, b) => vec![4, *a, *b],
        Atom::EqGlobal(local, global) => vec![5, *local, *global],
        Atom::Pred { guard, deps } => join(&[&[6, *guard, count(deps)], deps]),
        Atom::AExact { node, op, children } => join(&[&[7, *node, *op, count(children)], &operands(children)]),
        Atom::APrefix { node, op, pre, fixed } => join(&[&[8, *node, *op, *pre, count(fixed)], &operands(fixed)]),
        Atom::ASuffix { node, op, suf, fixed } => join(&[&[9, *node, *op, *suf, count(fixed)], &operands(fixed)]),
        Atom::ABoth { node, op, pre, suf, fixed } => join(&[&[10, *node, *op, *pre, *suf, count(fixed)], &operands(fixed)]),
        Atom::ACExact { node, op, elems } => join(&[&[11, *node, *op, count(elems)], &multiples(elems)]),
        Atom::ACSub { node, op, rest, elems } => join(&[&[12, *node, *op, *rest, count(elems)], &multiples(elems)]),
        Atom::ACIExact { node, op, elems } => join(&[&[13, *node, *op, count(elems)], &operands(elems)]),
        Atom::ACISub { node, op, rest, elems } => join(&[&[14, *node, *op, *rest, count(elems)], &operands(elems)]),
    }
}

pub(crate) fn join(parts: &[&[u8]]) -> Vec<u8> {
    parts.concat()
}

pub(crate) fn count<T>(items: &[T]) -> u8 {
    u8::try_from(items.len()).expect("a list within the limits")
}

pub(crate) fn words(items: &[u16]) -> Vec<u8> {
    items.iter().flat_map(|item| item.to_be_bytes()).collect()
}

impl Operand {
    pub(crate) fn bytes(self) -> [u8; 2] {
        match self {
            Operand::Local(v) => [0, v],
            Operand::Global(g) => [1, g],
        }
    }
}

fn operands(items: &[Operand]) -> Vec<u8> {
    items.iter().flat_map(|item| item.bytes()).collect()
}

fn multiples(items: &[(Operand, u8)]) -> Vec<u8> {
    items
        .iter()
        .flat_map(|(item, multiplicity)| [item.bytes()[0], item.bytes()[1], *multiplicity])
        .collect()
}
