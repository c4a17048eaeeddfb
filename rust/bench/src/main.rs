//! Times planning: the Rust's alone, from a query in its own types to its steps; the Rust's from text to text, with the plain reader and writer of
//! `oracle`, which tests no limits; and, with the feature `ours`, the proved planner's from text to text, on the same queries. Where samples come
//! from a table, the Rust alone has its index already; both others begin at the table's text, and the Rust's index is made in every plan. Then
//! running, in `running`.
mod interpreter;
mod running;

use oracle::generate::{chain, largest, sampled, typical};
use oracle::{Prepared, Query, Table, parse, plan_text, to_text};
use std::hint::black_box;
use std::time::{Duration, Instant};

const WORKED: &[u8] = b"00040000\n0100010200010002\n010202010003\n10010000000a\n100200000064\n";
/// Of so many runs the best counts; each takes at least this long.
const RUNS: usize = 5;
const RUN: Duration = Duration::from_millis(200);

fn main() {
    let words: Vec<String> = std::env::args().skip(1).collect();
    match words.iter().map(String::as_str).collect::<Vec<_>>()[..] {
        [] => times(),
        ["lines"] => (0..NAMES.len()).for_each(|i| println!("{i} {}", NAMES[i])),
        ["pass", side, line, passes] => pass(side, number(line), number(passes)),
        _ => panic!("bench [lines | pass SIDE LINE PASSES]"),
    }
}

fn number(word: &str) -> usize {
    word.parse().expect("a number")
}

const NAMES: [&str; 12] = [
    "worked example",
    "typical rule, 3 atoms",
    "typical rule, 4 atoms",
    "typical rule, 5 atoms",
    "typical rule, 6 atoms",
    "typical rule, 7 atoms",
    "typical rule, 8 atoms",
    "typical rule, 3 atoms, sampling on",
    "typical rule, 8 atoms, sampling on",
    "largest query",
    "largest query, sampling on",
    "chain of 8 atoms, samples from a table of 1,000 rows",
];

/// A query, and the table that it takes its samples from.
struct Case {
    query: Query,
    table: Option<Table>,
}

struct Texts {
    query: String,
    table: Option<String>,
}

impl Case {
    fn prepared(&self) -> Prepared<'_> {
        Prepared::new(&self.query, self.table.as_ref())
    }

    fn texts(&self) -> Texts {
        Texts {
            query: to_text(&self.query),
            table: self.table.as_ref().map(Table::to_text),
        }
    }
}

impl Texts {
    fn table(&self) -> Option<&[u8]> {
        self.table.as_deref().map(str::as_bytes)
    }

    fn size(&self) -> usize {
        self.query.len() + self.table.as_ref().map_or(0, String::len)
    }
}

/// The cases of a line.
fn cases(line: usize) -> Vec<Case> {
    let alone = |query| Case { query, table: None };
    match line {
        0 => vec![alone(parse(WORKED).expect("the document's example"))],
        1..=6 => (0..32).map(|seed| alone(typical(seed, line + 2))).collect(),
        7 => (0..32).map(|seed| alone(sampled(seed, 3))).collect(),
        8 => (0..32).map(|seed| alone(sampled(seed, 8))).collect(),
        11 => (0..8).map(sampled_table).collect(),
        _ => (0..8).map(|seed| alone(largest(seed, line == 10))).collect(),
    }
}

fn sampled_table(seed: u64) -> Case {
    let (query, table) = chain(seed, 8, 1_000);
    let table = Some(table);
    Case { query, table }
}

fn times() {
    println!(
        "{:>10}  {:>10}  {:>10}  ns a plan, and ours by each",
        "the Rust", "from text", "ours"
    );
    (0..NAMES.len()).for_each(line);
    running::lines();
}

/// So many passes over a line's cases on one side, for a count of instructions: prints how many plans and how many bytes of text a pass has.
fn pass(side: &str, line: usize, passes: usize) {
    let cases = cases(line);
    let texts: Vec<Texts> = cases.iter().map(Case::texts).collect();
    println!("{} {}", texts.len(), texts.iter().map(Texts::size).sum::<usize>());
    let prepared: Vec<Prepared> = cases.iter().map(Case::prepared).collect();
    prepared[0].switch_sampling();
    let mut out = [0; 20_600];
    for _ in 0..passes {
        match side {
            "rust" => prepared.iter().for_each(|query| drop(black_box(query.schedule()))),
            "text" => texts.iter().for_each(plan_one),
            "ours" => texts.iter().for_each(|texts| plan_ours(texts, &mut out)),
            _ => panic!("rust, text or ours"),
        }
    }
}

fn line(i: usize) {
    let (name, cases) = (NAMES[i], cases(i));
    let texts: Vec<Texts> = cases.iter().map(Case::texts).collect();
    let (rust, texted) = (rust(&cases), from_text(&texts));
    match ours(&texts) {
        Some(ours) => println!(
            "{rust:>10.0}  {texted:>10.0}  {ours:>10.0}  {:>6.2}  {:>6.2}  {name}",
            ours / rust,
            ours / texted
        ),
        None => println!("{rust:>10.0}  {texted:>10.0}  {:>10}  {:>6}  {:>6}  {name}", "-", "-", "-"),
    }
}

/// Nanoseconds a plan; the settings are set once for all, as every query of a line has the same.
fn rust(cases: &[Case]) -> f64 {
    let prepared: Vec<Prepared> = cases.iter().map(Case::prepared).collect();
    prepared[0].switch_sampling();
    best(cases.len(), || prepared.iter().for_each(|query| drop(black_box(query.schedule()))))
}

/// The same from query text, and table text, to plan text.
fn from_text(texts: &[Texts]) -> f64 {
    best(texts.len(), || texts.iter().for_each(plan_one))
}

fn plan_one(texts: &Texts) {
    drop(black_box(plan_text(black_box(texts.query.as_bytes()), black_box(texts.table()))))
}

#[cfg(feature = "ours")]
fn ours(texts: &[Texts]) -> Option<f64> {
    let mut out = [0; 20_600];
    texts.iter().for_each(|texts| same(texts, &mut out));
    Some(best(texts.len(), || texts.iter().for_each(|texts| plan_ours(texts, &mut out))))
}

/// Both plan the same.
#[cfg(feature = "ours")]
fn same(texts: &Texts, out: &mut [u8; 20_600]) {
    let says = plan_text(texts.query.as_bytes(), texts.table()).expect("accepted texts");
    let planned = rimdovek_sys::plan(texts.query.as_bytes(), texts.table(), out).expect("it is planned");
    assert!(out[..planned.written] == *says.as_bytes(), "the plans differ");
}

#[cfg(feature = "ours")]
fn plan_ours(texts: &Texts, out: &mut [u8; 20_600]) {
    _ = black_box(rimdovek_sys::plan(black_box(texts.query.as_bytes()), black_box(texts.table()), out));
}

#[cfg(not(feature = "ours"))]
fn plan_ours(_: &Texts, _: &mut [u8; 20_600]) {}

#[cfg(not(feature = "ours"))]
fn ours(_: &[Texts]) -> Option<f64> {
    None
}

fn best(plans: usize, mut pass: impl FnMut()) -> f64 {
    pass();
    (0..RUNS).map(|_| run(plans, &mut pass)).fold(f64::INFINITY, f64::min)
}

fn run(plans: usize, pass: &mut impl FnMut()) -> f64 {
    let (start, mut passes) = (Instant::now(), 0);
    while start.elapsed() < RUN {
        pass();
        passes += 1;
    }
    start.elapsed().as_nanos() as f64 / (passes * plans) as f64
}
