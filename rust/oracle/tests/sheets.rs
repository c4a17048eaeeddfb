//! A query with frame 24 plans as one with sheets filled by plain scans from the rows of its table that stand: the two samplers agree.
use oracle::generate::{generate_with_table, operators};
use oracle::{Atom, Query, Row, Run, Table};
use std::collections::BTreeSet;

#[test]
fn samples_as_filled_sheets() {
    let (mut tallied, mut long) = (0, 0);
    for seed in 0..250 {
        let made = generate_with_table(seed);
        let (table, _) = made.table.expect("a table");
        if made.query.from_table {
            let run = Run::new(&made.query, Some(&table)).expect("the accessor follows the Rust");
            let rows = table.standing().into_owned();
            let standing = Table { rows, ..Table::default() };
            let sheeted = Run::new(&filled(&made.query, &standing), None).expect("the accessor follows the Rust");
            assert_eq!(run.answer, sheeted.answer, "seed {seed}");
            assert_eq!(run.costs(), sheeted.costs(), "seed {seed}");
            assert_eq!(run.asked.probes, sheeted.asked.probes, "seed {seed}");
            tallied += run.answer.tallied;
            long += usize::from(run.asked.probes.iter().any(|probe| probe.length > 256));
        }
    }
    assert!(tallied > 100 && long > 5, "{tallied} tallied, {long} with long buckets");
}

/// The query with frames 21 to 23 as the table has them.
fn filled(query: &Query, table: &Table) -> Query {
    let mut sheeted = query.clone();
    sheeted.from_table = false;
    let k = query.settings.map_or(0, |settings| settings.k.into());
    for (atom, op) in (0..).zip(query.atoms.iter().map(operator)) {
        let nodes = op.map_or(Vec::new(), |op| drivers(table, op, k));
        for node in &nodes {
            put_classes(&mut sheeted, *node, &table.rows[usize::from(*node)]);
        }
        sheeted.nodes.insert(atom, nodes);
    }
    put_lengths(&mut sheeted, table);
    sheeted
}

fn operator(atom: &Atom) -> Option<u8> {
    let atoms = vec![atom.clone()];
    let query = Query { atoms, ..Query::default() };
    operators(&query).pop_first()
}

fn drivers(table: &Table, op: u8, k: usize) -> Vec<u16> {
    let rows: Vec<u16> = (0..)
        .zip(&table.rows)
        .filter(|(_, row)| row.op() == op)
        .map(|(node, _)| node)
        .collect();
    let take = k.min(rows.len());
    (0..take).map(|j| rows[j * rows.len() / take]).collect()
}

fn put_classes(query: &mut Query, node: u16, row: &Row) {
    query.classes.insert((node, 0, 0), vec![row.class()]);
    for (pos, class) in (0..).zip(row.children()) {
        query.classes.insert((node, 1, pos), vec![*class]);
        let elements = query.classes.entry((node, 2, 0)).or_default();
        if !elements.contains(class) {
            elements.push(*class);
        }
    }
}

/// The lengths of every class that a node has, by every position and by containing.
fn put_lengths(query: &mut Query, table: &Table) {
    let classes: BTreeSet<u16> = query.classes.values().flatten().copied().collect();
    for class in classes {
        for pos in 0..16 {
            let at = |row: &&Row| row.children().get(usize::from(pos)) == Some(&class);
            let bucket: Vec<&Row> = table.rows.iter().filter(at).collect();
            put_bucket(query, (class, 0, pos), &bucket);
        }
        let bucket: Vec<&Row> = table.rows.iter().filter(|row| row.children().contains(&class)).collect();
        put_bucket(query, (class, 1, 0), &bucket);
    }
}

fn put_bucket(query: &mut Query, (class, path, pos): (u16, u8, u8), bucket: &[&Row]) {
    let n = bucket.len();
    for op in operators(query) {
        let length = if n <= 256 {
            bucket.iter().filter(|row| row.op() == op).count()
        } else {
            (0..256).filter(|j| bucket[j * n / 256].op() == op).count() * n / 256
        };
        query.lengths.insert((class, path, pos, op), length as u32);
    }
}
