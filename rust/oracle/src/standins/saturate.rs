//! Stands in for `saturate`, which is not at hand: the operator of an atom as the document gives it.
use crate::resolve::RAtom;

/// The atom's operator; none for Eq, EqGlobal and Pred.
pub fn atom_op<O: Copy, S, V>(atom: &RAtom<O, S, V>) -> Option<O> {
    match atom {
        RAtom::Plain { op, .. }
        | RAtom::Lit { op, .. }
        | RAtom::LitBind { op, .. }
        | RAtom::AExact { op, .. }
        | RAtom::APrefix { op, .. }
        | RAtom::ASuffix { op, .. }
        | RAtom::ABoth { op, .. }
        | RAtom::ACExact { op, .. }
        | RAtom::ACSub { op, .. }
        | RAtom::ACIExact { op, .. }
        | RAtom::ACISub { op, .. } => Some(*op),
        RAtom::Eq(..) | RAtom::EqGlobal(..) | RAtom::Pred { .. } => None,
    }
}
