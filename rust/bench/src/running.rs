//! Times running: a plain Rust runner over steps and rows decoded beforehand, and the proved runner from text to text, on the same inputs.
use crate::best;
use crate::interpreter::{Ran, Runner};
use std::fmt::Write;
use std::hint::black_box;

const PLAN: &str = "3f040000000500000000\n4000000100010000\n41010000\n41020001\n400201020202000000020000\n41030200\n";
const TABLE: &str = "30000502010007\n300006010200070005\n3000070300\n";
const ROOM: usize = 65_536;

pub fn lines() {
    println!(
        "{:>10}  {:>10}  {:>6}  {:>10}  {:>6}  million tries a second: a plain loop, ours from text to text, ours without reading",
        "the Rust", "ours", "ratio", "run alone", "ratio"
    );
    line("worked plan, 3 rows", PLAN, TABLE);
    for rows in [100, 1_000] {
        line(&format!("worked plan, {rows} rows"), PLAN, &table(rows));
    }
    line("8 atoms, 1000 rows of 16 operators", &chain(), &linked());
}

/// A Join by operator, then seven each by its operator and by the class that is the child of the row before it.
fn chain() -> String {
    let mut text = String::from("3f080000000f00000000\n4000000100000000\n");
    for k in 1..8 {
        writeln!(text, "41{k:02x}{:02x}00", k - 1).expect("a string grows");
        writeln!(text, "40{k:02x}{k:02x}0200{k:02x}000002{k:02x}0000").expect("a string grows");
    }
    text
}

/// 1,000 rows of 16 operators by turns, each with the next row's class as its child.
fn linked() -> String {
    let mut text = String::new();
    for i in 0..1_000 {
        writeln!(text, "30{i:04x}{:02x}01{:04x}", i % 16, (i + 1) % 1_000).expect("a string grows");
    }
    text
}

/// Rows of the worked example's two operators by turns; each of the first has a second's class as its child, so each is in one match.
fn table(rows: u16) -> String {
    let mut text = String::new();
    for i in 0..rows / 2 {
        let child = (i * 7 + 3) % (rows / 2);
        writeln!(text, "30{:04x}01020007{:04x}", 2_000 + i, child).expect("a string grows");
        writeln!(text, "30{i:04x}02010007").expect("a string grows");
    }
    text
}

fn line(name: &str, plan: &str, table: &str) {
    let (runner, mut out) = (Runner::new(plan, table), vec![0; ROOM]);
    let ran = runner.run(&mut out);
    let tries = ran.tries as usize;
    let mut again = vec![0; ROOM];
    let rust = 1_000.0 / best(tries, || _ = black_box(runner.run(black_box(&mut again))));
    match ours(plan, table, &ran, &out) {
        Some((ours, alone)) => println!(
            "{rust:>10.1}  {ours:>10.1}  {:>6.2}  {alone:>10.1}  {:>6.2}  {name}, {tries} tries, {} matches",
            ours / rust,
            alone / rust,
            ran.matches
        ),
        None => println!(
            "{rust:>10.1}  {:>10}  {:>6}  {:>10}  {:>6}  {name}, {tries} tries, {} matches",
            "-", "-", "-", "-", ran.matches
        ),
    }
}

/// Million tries a second, from text to text and without reading; the run must give the same tries, matches and lines. A run with no try
/// allowed reads, tests, decodes and indexes its texts and is spent: its time is taken off.
#[cfg(feature = "ours")]
fn ours(plan: &str, table: &str, says: &Ran, lines: &[u8]) -> Option<(f64, f64)> {
    let mut out = vec![0; ROOM];
    let mut run = |allowance| rimdovek_sys::run(black_box(plan.as_bytes()), black_box(table.as_bytes()), allowance, None, &mut out);
    let tries = says.tries as usize;
    let reading = best(tries, || _ = black_box(run(0)));
    let first = run(u64::MAX).expect("it runs");
    let whole = best(tries, || _ = black_box(run(u64::MAX)));
    assert_eq!(
        (first.tries, first.matches, first.written),
        (says.tries, says.matches, says.written)
    );
    assert!(out == lines, "the lines differ");
    Some((1_000.0 / whole, 1_000.0 / (whole - reading)))
}

#[cfg(not(feature = "ours"))]
fn ours(_: &str, _: &str, _: &Ran, _: &[u8]) -> Option<(f64, f64)> {
    None
}
