//! A query from its text, and the fields of frames. Accepted texts only are meant: the frames' form is looked at, limits and references are not.
use crate::query::{Atom, Operand, Query, Settings};

/// The query of an accepted text; none where a line is no frame.
pub fn parse(text: &[u8]) -> Option<Query> {
    let (mut query, mut started) = (Query::default(), false);
    each_frame(text, |kind, fields| {
        if started == (kind == 0) {
            return None;
        }
        started = true;
        frame(&mut query, kind, fields)
    })?;
    started.then_some(query)
}

/// Reads each line's frame by its kind, and all its fields; a text may be empty.
pub(crate) fn each_frame(text: &[u8], mut read: impl FnMut(u8, &mut Fields) -> Option<()>) -> Option<()> {
    if text.is_empty() {
        return Some(());
    }
    for line in text.strip_suffix(b"\n")?.split(|byte| *byte == b'\n') {
        let bytes = decode(line)?;
        let (kind, rest) = bytes.split_first()?;
        let mut fields = Fields(rest);
        read(*kind, &mut fields)?;
        fields.0.is_empty().then_some(())?;
    }
    Some(())
}

/// The bytes that hexadecimal digits give.
pub fn decode(digits: &[u8]) -> Option<Vec<u8>> {
    let nibble = |digit: u8| char::from(digit).to_digit(16);
    let pair = |pair: &[u8]| Some((nibble(*pair.first()?)? * 16 + nibble(*pair.get(1)?)?) as u8);
    digits.chunks(2).map(pair).collect()
}

pub(crate) struct Fields<'a>(&'a [u8]);

impl Fields<'_> {
    fn bytes<const N: usize>(&mut self) -> Option<[u8; N]> {
        let (first, rest) = self.0.split_first_chunk()?;
        self.0 = rest;
        Some(*first)
    }
    pub fn byte(&mut self) -> Option<u8> {
        self.bytes().map(|[byte]| byte)
    }
    pub fn word(&mut self) -> Option<u16> {
        self.bytes().map(u16::from_be_bytes)
    }
    pub fn long(&mut self) -> Option<u32> {
        self.bytes().map(u32::from_be_bytes)
    }
    fn double(&mut self) -> Option<f64> {
        self.bytes().map(f64::from_be_bytes)
    }
    fn operand(&mut self) -> Option<Operand> {
        match self.bytes()? {
            [0, index] => Some(Operand::Local(index)),
            [1, index] => Some(Operand::Global(index)),
            _ => None,
        }
    }
    pub fn list<T>(&mut self, item: fn(&mut Self) -> Option<T>) -> Option<Vec<T>> {
        (0..self.byte()?).map(|_| item(self)).collect()
    }
    fn operands(&mut self) -> Option<Vec<Operand>> {
        self.list(Fields::operand)
    }
    fn multiples(&mut self) -> Option<Vec<(Operand, u8)>> {
        self.list(|fields| Some((fields.operand()?, fields.byte()?)))
    }
}

fn frame(query: &mut Query, kind: u8, f: &mut Fields) -> Option<()> {
    match kind {
        0 => [query.variables, query.globals, query.literals] = f.bytes()?,
        1..=14 => query.atoms.push(atom(kind, f)?),
        0x10 => drop(query.op_card.insert(f.byte()?, f.long()?)),
        0x11 => drop(query.atom_card.insert(f.byte()?, f.long()?)),
        0x12 => query.by_repr = Some((f.double()?, f.long()?)),
        0x13 => drop(query.by_child_pos.insert((f.byte()?, f.byte()?), f.double()?)),
        0x14 => drop(query.by_contains.insert(f.byte()?, f.double()?)),
        0x20 => query.settings = Some(settings(f)?),
        0x21 => drop(query.nodes.insert(f.byte()?, f.list(Fields::word)?)),
        0x22 => drop(query.classes.insert((f.word()?, f.byte()?, f.byte()?), f.list(Fields::word)?)),
        0x23 => drop(query.lengths.insert((f.word()?, f.byte()?, f.byte()?, f.byte()?), f.long()?)),
        0x24 => query.from_table = true,
        _ => return None,
    }
    Some(())
}

fn settings(f: &mut Fields) -> Option<Settings> {
    Some(Settings {
        k: f.byte()?,
        bootstrap: f.word()?,
        cv_threshold: f.double()?,
    })
}

fn atom(kind: u8, f: &mut Fields) -> Option<Atom> {
    if kind == 6 {
        let (guard, deps) = (f.byte()?, f.list(Fields::byte)?);
        return Some(Atom::Pred { guard, deps });
    }
    let [node, op] = f.bytes()?;
    Some(match kind {
        2 => {
            let (sort, value) = (f.byte()?, f.long()?);
            Atom::Lit { node, op, sort, value }
        }
        3 => {
            let literal = f.byte()?;
            Atom::LitBind { node, op, literal }
        }
        4 => Atom::Eq(node, op),
        5 => Atom::EqGlobal(node, op),
        11 => {
            let elems = f.multiples()?;
            Atom::ACExact { node, op, elems }
        }
        12 => {
            let (rest, elems) = (f.byte()?, f.multiples()?);
            Atom::ACSub { node, op, rest, elems }
        }
        8 | 9 | 10 | 14 => handled(kind, node, op, f)?,
        _ => exact(kind, node, op, f.operands()?)?,
    })
}

/// Kinds with a handle or two before the operands.
fn handled(kind: u8, node: u8, op: u8, f: &mut Fields) -> Option<Atom> {
    let pre = f.byte()?;
    let suf = if kind == 10 { f.byte()? } else { pre };
    let fixed = f.operands()?;
    Some(match kind {
        8 => Atom::APrefix { node, op, pre, fixed },
        9 => Atom::ASuffix { node, op, suf, fixed },
        10 => Atom::ABoth { node, op, pre, suf, fixed },
        _ => {
            let (rest, elems) = (pre, fixed);
            Atom::ACISub { node, op, rest, elems }
        }
    })
}

fn exact(kind: u8, node: u8, op: u8, children: Vec<Operand>) -> Option<Atom> {
    match kind {
        1 => Some(Atom::Plain { node, op, children }),
        7 => Some(Atom::AExact { node, op, children }),
        13 => {
            let elems = children;
            Some(Atom::ACIExact { node, op, elems })
        }
        _ => None,
    }
}
