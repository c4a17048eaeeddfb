//! Generated queries with tables are accepted ones.
use oracle::generate::{LONGEST, ROWS, generate_with_table};
use oracle::{Query, Row, Table, parse};
use std::collections::HashSet;

#[test]
fn tables_within_the_limits() {
    for seed in 0..1_000 {
        let made = generate_with_table(seed);
        let (table, text) = made.table.as_ref().expect("a table");
        assert!(made.text.len() <= LONGEST && text.len() <= LONGEST, "seed {seed}");
        assert_eq!(parse(&made.text).as_ref(), Some(&made.query), "seed {seed}");
        assert_eq!(Table::parse(text).as_ref(), Some(table), "seed {seed}");
        assert!(accepted(table), "seed {seed}");
        assert!(!(made.query.from_table && has_sheets(&made.query)), "seed {seed}");
    }
}

fn accepted(table: &Table) -> bool {
    let classes = table
        .rows
        .iter()
        .flat_map(|row| row.children().iter().copied().chain([row.class()]));
    let distinct: HashSet<&Row> = table.rows.iter().collect();
    distinct.len() == table.rows.len()
        && table.rows.len() <= ROWS
        && table.rows.iter().all(|row| row.children().len() <= 16)
        && classes.chain(table.globals.values().copied()).all(|class| class <= 0xfffe)
        && table.globals.keys().all(|global| *global < 16)
        && table.new_rows.is_none_or(|row| usize::from(row) <= table.rows.len())
}

fn has_sheets(query: &Query) -> bool {
    !(query.nodes.is_empty() && query.classes.is_empty() && query.lengths.is_empty())
}
