//! Tables for a query: rows of its operators and of others over few classes, with hubs that many rows have as a child.
use super::stats::{arity, operators};
use super::texts::{LONGEST, table_size};
use crate::query::Query;
use crate::random::Random;
use crate::table::{Row, Table};
use std::collections::{BTreeMap, HashSet};
use std::iter::{repeat, repeat_n};

/// The most rows, and the most children of a row.
pub const ROWS: usize = 1_024;
const CHILDREN: usize = 16;
/// The most frames 34.
const LEADERS: usize = 24;
/// Bytes: of a row's line without its children, of a child, and of all frames 32 to 34 that there can be.
const ROW: usize = 11;
const CHILD: usize = 4;
const OTHERS: usize = 16 * 9 + 7 + LEADERS * 11;

/// From what rows are made.
struct Making {
    /// Operators, with the children that their rows mostly have.
    ops: Vec<(u8, usize)>,
    /// The classes of rows, and of children that are no hub.
    classes: Vec<u16>,
    others: Vec<u16>,
    most_children: usize,
    percent_literal: usize,
    /// Rows with any number of children.
    percent_uneven: usize,
    /// Rows whose own class is any.
    percent_wide: usize,
}

/// A class that so many rows have at the position, and no other row has as a child.
#[derive(Clone, Copy)]
struct Hub {
    class: u16,
    position: usize,
    rows: usize,
}

/// Rows of which no two are equal.
#[derive(Default)]
struct Distinct {
    rows: Vec<Row>,
    seen: HashSet<Row>,
}

impl Distinct {
    /// Adds the row, under another class where it is there already.
    fn push(&mut self, r: &mut Random, mut row: Row) {
        while !self.seen.insert(row.clone()) {
            match &mut row {
                Row::Node { class, .. } | Row::Literal { class, .. } => *class = any_class(r),
            }
        }
        self.rows.push(row);
    }

    fn table(self) -> Table {
        let rows = self.rows;
        Table { rows, ..Table::default() }
    }
}

pub fn table(r: &mut Random, query: &Query) -> Table {
    let (total, sizes) = sizes(r);
    let (making, hubs) = making(r, query, total, &sizes);
    let mut rows = Distinct::default();
    let of_hubs = hubs.iter().flat_map(|hub| repeat_n(Some(*hub), hub.rows));
    for hub in of_hubs.chain(repeat(None)).take(total) {
        let row = row(r, &making, hub);
        rows.push(r, row);
    }
    if r.chance(2) {
        fill(r, &making, &mut rows);
        return rows.table();
    }
    let rows = ordered(r, rows.rows);
    with_others(r, rows)
}

/// Rows of these operators by turns, each of two children from so many classes; every third row has class 0 first.
pub fn even(r: &mut Random, ops: &[u8], total: usize, classes: usize) -> Table {
    let mut rows = Distinct::default();
    for place in 0..total {
        let mut class = || r.below(classes) as u16;
        let (class, first, second) = (class(), if place % 3 == 0 { 0 } else { class() }, class());
        let row = Row::Node {
            class,
            op: ops[place % ops.len()],
            children: vec![first, second],
        };
        rows.push(r, row);
    }
    rows.table()
}

/// The number of rows, and those of each hub among them.
fn sizes(r: &mut Random) -> (usize, Vec<usize>) {
    match r.below(40) {
        0 => (0, Vec::new()),
        1..18 => (r.between(1, 24), Vec::new()),
        18..26 => (r.between(10, 120), Vec::new()),
        26..28 => (r.between(100, 400), Vec::new()),
        28 => (ROWS, Vec::new()),
        _ => hub_sizes(r),
    }
}

fn hub_sizes(r: &mut Random) -> (usize, Vec<usize>) {
    let long = r.between(258, ROWS);
    let mut sizes = vec![r.pick(&[255, 256, 257, 257, 1_000, long])];
    let mut left = ROWS - sizes[0];
    while r.chance(40) {
        let short = r.between(1, 60);
        let size = r.pick(&[255, 256, 257, short]).min(left);
        sizes.push(size);
        left -= size;
    }
    let (few, any) = (r.between(0, left.min(20)), r.between(0, left));
    let unhubbed = r.pick(&[0, few, few, any, any, left]);
    (ROWS - left + unhubbed, sizes)
}

fn making(r: &mut Random, query: &Query, total: usize, sizes: &[usize]) -> (Making, Vec<Hub>) {
    let few = r.between(1, 8);
    let classes = classes(r, few + sizes.len());
    let line = (LONGEST - OTHERS) / total.max(1);
    let making = Making {
        ops: ops(r, query),
        others: classes[..few].to_vec(),
        classes,
        most_children: ((line - ROW) / CHILD).min(CHILDREN),
        percent_literal: r.pick(&[0, 0, 5, 20, 60]),
        percent_uneven: r.pick(&[0, 10, 10, 50, 100]),
        percent_wide: r.pick(&[0, 20, 50, 100]),
    };
    let positions = widest(query).clamp(1, making.most_children);
    let hub = |(class, rows): (&u16, &usize)| Hub {
        class: *class,
        position: r.below(positions),
        rows: *rows,
    };
    let hubs = making.classes[few..].iter().zip(sizes).map(hub).collect();
    (making, hubs)
}

/// The query's operators, some others, and one of them more often than the rest.
fn ops(r: &mut Random, query: &Query) -> Vec<(u8, usize)> {
    let mut ops: Vec<(u8, usize)> = operators(query).into_iter().map(|op| (op, usual(r, query, op))).collect();
    let strange = r.between(usize::from(ops.is_empty()), 2);
    ops.extend((0..strange).map(|_| (r.byte(), r.between(0, 4))));
    if r.chance(40) {
        let often = r.pick(&ops);
        ops.extend([often; 8]);
    }
    ops
}

/// As many children as a Plain of the operator has; any few where none has.
fn usual(r: &mut Random, query: &Query, op: u8) -> usize {
    match arity(query, op) {
        0 => r.between(0, 6),
        n => n.into(),
    }
}

fn widest(query: &Query) -> usize {
    let arities = operators(query).into_iter().map(|op| arity(query, op));
    arities.max().unwrap_or(0).into()
}

/// So many, no two equal.
fn classes(r: &mut Random, n: usize) -> Vec<u16> {
    let mut classes = Vec::new();
    while classes.len() < n {
        let class = any_class(r);
        if !classes.contains(&class) {
            classes.push(class);
        }
    }
    classes
}

fn any_class(r: &mut Random) -> u16 {
    match r.below(20) {
        0 => 0xfffe,
        1 => 0,
        _ => r.below(0xffff) as u16,
    }
}

fn row(r: &mut Random, making: &Making, hub: Option<Hub>) -> Row {
    let (op, usual) = r.pick(&making.ops);
    let class = if r.chance(making.percent_wide) {
        any_class(r)
    } else {
        r.pick(&making.classes)
    };
    if hub.is_none() && r.chance(making.percent_literal) {
        let value = r.pick(&[0, 7, u32::MAX]);
        return Row::Literal { class, op, value };
    }
    let uneven = r.chance(making.percent_uneven);
    let n = if uneven { r.between(0, making.most_children) } else { usual };
    let mut children = children(r, making, n.min(making.most_children));
    if let Some(hub) = hub {
        put_hub(r, making, hub, &mut children);
    }
    Row::Node { class, op, children }
}

fn children(r: &mut Random, making: &Making, n: usize) -> Vec<u16> {
    (0..n).map(|_| r.pick(&making.others)).collect()
}

/// At its position, and now and then at another one too.
fn put_hub(r: &mut Random, making: &Making, hub: Hub, children: &mut Vec<u16>) {
    let missing = (hub.position + 1).saturating_sub(children.len());
    children.extend(self::children(r, making, missing));
    children[hub.position] = hub.class;
    if r.chance(20) {
        let place = r.below(children.len());
        children[place] = hub.class;
    }
}

/// Adds rows until the text is as long as can be, where there is room for them: so many that the rest divides by a child's bytes.
fn fill(r: &mut Random, making: &Making, rows: &mut Distinct) {
    let room = LONGEST - table_size(&rows.rows);
    let mut lines = room.div_ceil(ROW + CHILDREN * CHILD);
    while !room.abs_diff(lines * ROW).is_multiple_of(CHILD) {
        lines += 1;
    }
    if lines * ROW > room || rows.rows.len() + lines > ROWS {
        return;
    }
    let mut items = (room - lines * ROW) / CHILD;
    for left in (1..=lines).rev() {
        let n = items.div_ceil(left);
        let (class, (op, _)) = (any_class(r), r.pick(&making.ops));
        let children = children(r, making, n);
        rows.push(r, Row::Node { class, op, children });
        items -= n;
    }
}

/// As they were made, by operators, or mixed.
fn ordered(r: &mut Random, mut rows: Vec<Row>) -> Vec<Row> {
    match r.below(3) {
        0 => {}
        1 => rows.sort_by_key(Row::op),
        _ => r.shuffle(&mut rows),
    }
    rows
}

/// With frames 32 and 33, which no sample depends on, and some with frames 34.
fn with_others(r: &mut Random, rows: Vec<Row>) -> Table {
    let globals = r.pick(&[0, 0, 1, 16]);
    let new_rows = r.chance(30).then(|| r.between(0, rows.len()) as u16);
    Table {
        globals: (0..globals).map(|global| (global, any_class(r))).collect(),
        new_rows,
        leaders: leaders(r, &rows),
        rows,
    }
}

/// Leaders for some of the classes in the rows, mostly classes in the rows too; no leader has one.
fn leaders(r: &mut Random, rows: &[Row]) -> BTreeMap<u16, u16> {
    let mut classes: Vec<u16> = rows
        .iter()
        .flat_map(|row| row.children().iter().copied().chain([row.class()]))
        .collect();
    classes.sort_unstable();
    classes.dedup();
    r.shuffle(&mut classes);
    let most = r.pick(&[0, 0, 1, 3, 8, LEADERS]).min(classes.len() / 2);
    let led = classes.split_off(classes.len() - most);
    let to: Vec<u16> = classes.into_iter().take(r.between(1, 8)).collect();
    let outside = |class: &u16| !led.contains(class);
    led.iter()
        .map(|class| {
            let any = any_class(r);
            (*class, if r.chance(90) || !outside(&any) { r.pick(&to) } else { any })
        })
        .collect()
}
