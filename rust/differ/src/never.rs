//! Why an atom is never lowered.
use oracle::Atom;

pub enum Reason {
    Eq,
    Pred {
        itself: bool,
        ring: bool,
        direct: bool,
        through: bool,
    },
}

/// A reason for each atom that was not lowered.
pub fn never_lowered(atoms: &[Atom], lowered: &[bool]) -> Vec<Reason> {
    let left = (0..atoms.len()).filter(|atom| !lowered[*atom]);
    left.map(|atom| reason(atoms, lowered, atom)).collect()
}

fn reason(atoms: &[Atom], lowered: &[bool], atom: usize) -> Reason {
    let direct = left_dependencies(atoms, lowered, atom);
    if !matches!(atoms[atom], Atom::Pred { .. }) {
        return Reason::Eq;
    }
    let is_eq = |other: &usize| matches!(atoms[*other], Atom::Eq(..));
    let far = reached(atoms, lowered, atom);
    let ring = |other: &usize| reached(atoms, lowered, *other).contains(other);
    Reason::Pred {
        itself: direct.contains(&atom),
        ring: far.iter().any(ring),
        direct: direct.iter().any(is_eq),
        through: far.iter().any(|other| is_eq(other) && !direct.contains(other)),
    }
}

/// The dependencies of an atom that were not lowered.
fn left_dependencies(atoms: &[Atom], lowered: &[bool], atom: usize) -> Vec<usize> {
    match &atoms[atom] {
        Atom::Pred { deps, .. } => deps.iter().map(|dep| usize::from(*dep)).filter(|dep| !lowered[*dep]).collect(),
        _ => Vec::new(),
    }
}

/// All atoms that an atom depends on, directly or through others.
fn reached(atoms: &[Atom], lowered: &[bool], atom: usize) -> Vec<usize> {
    let mut open = left_dependencies(atoms, lowered, atom);
    let mut seen = Vec::new();
    while let Some(next) = open.pop() {
        if !seen.contains(&next) {
            seen.push(next);
            open.extend(left_dependencies(atoms, lowered, next));
        }
    }
    seen
}
