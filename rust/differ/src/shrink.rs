//! A smaller query and a smaller table that still show a difference: one part after another is taken away while the difference stays.
use oracle::{Atom, Query, Table};
use std::collections::BTreeMap;

/// A query, and the table that is handed in beside it.
#[derive(Clone, Debug, PartialEq)]
pub struct Case {
    pub query: Query,
    pub table: Option<Table>,
}

/// So many rows are taken away together, the most first.
const RUNS_OF_ROWS: [usize; 4] = [512, 64, 8, 1];

pub fn shrink(mut case: Case, differs: impl Fn(&Case) -> bool) -> Case {
    let mut changed = true;
    while changed {
        changed = false;
        for run in RUNS_OF_ROWS {
            changed |= take_away(&mut case, &differs, |case, place| without_rows(case, place, run));
        }
        changed |= take_away(&mut case, &differs, without);
    }
    case
}

/// Takes away part after part, the one of each number, while the difference stays; whether any went.
fn take_away(case: &mut Case, differs: &impl Fn(&Case) -> bool, without: impl Fn(&Case, usize) -> Option<Case>) -> bool {
    let (mut changed, mut place) = (false, 0);
    while let Some(smaller) = without(case, place) {
        if smaller != *case && differs(&smaller) {
            *case = smaller;
            changed = true;
        } else {
            place += 1;
        }
    }
    changed
}

/// The table without so many of its rows, those of the place.
fn without_rows(case: &Case, place: usize, run: usize) -> Option<Case> {
    let mut case = case.clone();
    let table = case.table.as_mut()?;
    let rows = table.rows.len();
    if place * run >= rows {
        return None;
    }
    table.rows.drain(place * run..rows.min((place + 1) * run));
    let left = table.rows.len() as u16;
    table.new_rows = table.new_rows.map(|row| row.min(left));
    Some(case)
}

/// The query without its part of that number: atoms, the last items of atoms, single frames, entries; and the table's frames 32 and 33, and its leaders.
fn without(case: &Case, place: usize) -> Option<Case> {
    let mut case = case.clone();
    let query = &mut case.query;
    let atoms = query.atoms.len();
    match place.checked_sub(2 * atoms) {
        None if place < atoms => remove_atom(query, place),
        None => shorten(&mut query.atoms[place - atoms]),
        Some(0) => query.settings = None,
        Some(1) => query.by_repr = None,
        Some(2) => query.from_table = false,
        Some(3) => remove_others(case.table.as_mut()),
        Some(4) => remove_leaders(case.table.as_mut()),
        Some(entry) => remove_entry(query, entry - 5)?,
    }
    Some(case)
}

fn remove_others(table: Option<&mut Table>) {
    if let Some(table) = table {
        table.globals.clear();
        table.new_rows = None;
    }
}

fn remove_leaders(table: Option<&mut Table>) {
    if let Some(table) = table {
        table.leaders.clear();
    }
}

fn remove_entry(query: &mut Query, mut place: usize) -> Option<()> {
    let gone = remove(&mut query.op_card, &mut place)
        || remove(&mut query.atom_card, &mut place)
        || remove(&mut query.by_child_pos, &mut place)
        || remove(&mut query.by_contains, &mut place)
        || remove(&mut query.nodes, &mut place)
        || remove(&mut query.classes, &mut place)
        || remove(&mut query.lengths, &mut place);
    gone.then_some(())
}

/// Removes the entry at the place, or counts the place down by the entries.
fn remove<K: Ord + Copy, T>(map: &mut BTreeMap<K, T>, place: &mut usize) -> bool {
    let key = map.keys().nth(*place).copied();
    match key {
        Some(key) => map.remove(&key).is_some(),
        None => {
            *place -= map.len();
            false
        }
    }
}

/// Later atoms move up; what named the atom is gone.
fn remove_atom(query: &mut Query, place: usize) {
    let renamed = |old: u8| match usize::from(old) {
        n if n == place => None,
        n => Some(old - u8::from(n > place)),
    };
    query.atoms.remove(place);
    for atom in &mut query.atoms {
        if let Atom::Pred { deps, .. } = atom {
            *deps = deps.iter().filter_map(|dep| renamed(*dep)).collect();
        }
    }
    query.atom_card = query.atom_card.iter().filter_map(|(atom, n)| Some((renamed(*atom)?, *n))).collect();
    query.nodes = query
        .nodes
        .iter()
        .filter_map(|(atom, list)| Some((renamed(*atom)?, list.clone())))
        .collect();
}

fn shorten(atom: &mut Atom) {
    match atom {
        Atom::Plain { children: list, .. }
        | Atom::AExact { children: list, .. }
        | Atom::APrefix { fixed: list, .. }
        | Atom::ASuffix { fixed: list, .. }
        | Atom::ABoth { fixed: list, .. }
        | Atom::ACIExact { elems: list, .. }
        | Atom::ACISub { elems: list, .. } => drop(list.pop()),
        Atom::ACExact { elems, .. } | Atom::ACSub { elems, .. } => drop(elems.pop()),
        Atom::Pred { deps, .. } => drop(deps.pop()),
        Atom::Lit { .. } | Atom::LitBind { .. } | Atom::Eq(..) | Atom::EqGlobal(..) => {}
    }
}

#[cfg(test)]
mod tests {
    use super::{Case, shrink};
    use oracle::generate::generate_with_table;
    use oracle::{Query, Row, Table};

    /// What differs where two rows of some operator stay and an atom does: nothing else is left.
    #[test]
    fn only_what_differs_stays() {
        for seed in 0..200 {
            let made = generate_with_table(seed);
            let Some((table, _)) = made.table.filter(|(table, _)| table.rows.len() > 2) else {
                continue;
            };
            let op = table.rows[table.rows.len() / 2].op();
            let case = Case {
                query: made.query,
                table: Some(table),
            };
            let least = rows_of(&case, op).min(2);
            let differs = |case: &Case| rows_of(case, op) >= least && !case.query.atoms.is_empty();
            if differs(&case) {
                let small = shrink(case, differs);
                assert_eq!(small.table.as_ref().map(|table| table.rows.len()), Some(least), "seed {seed}");
                assert_eq!(small.query.atoms.len(), 1, "seed {seed}");
                assert!(bare(&small), "seed {seed}: {small:?}");
            }
        }
    }

    fn rows_of(case: &Case, op: u8) -> usize {
        let rows = case.table.iter().flat_map(|table| &table.rows);
        rows.filter(|row| row.op() == op).count()
    }

    /// No frame besides the header, an atom and rows.
    fn bare(case: &Case) -> bool {
        let query = Query {
            variables: case.query.variables,
            globals: case.query.globals,
            literals: case.query.literals,
            atoms: case.query.atoms.clone(),
            ..Query::default()
        };
        let rows: Vec<Row> = case.table.iter().flat_map(|table| table.rows.clone()).collect();
        let table = Some(Table { rows, ..Table::default() });
        *case == Case { query, table }
    }
}
