//! Compares the proved planner with the Rust's, byte for byte, on generated queries, alone or with tables, and counts what they met.
mod cases;
mod counts;
mod never;
#[cfg(feature = "ours")]
mod ours;
#[cfg(any(test, feature = "ours"))]
mod shrink;
mod vectors;

use counts::Counts;
use oracle::generate::{Generated, generate, generate_with_table};
use oracle::{Run, Table};
use std::env;
use std::process::ExitCode;
use std::time::Instant;

const USAGE: &str = "usage: differ [--tables] SEED COUNT | differ --vectors N DIR | differ --cases FILE";

fn main() -> ExitCode {
    let words: Vec<String> = env::args().skip(1).collect();
    let words: Vec<&str> = words.iter().map(String::as_str).collect();
    let answer = match words[..] {
        ["--vectors", n, dir] => number(n).and_then(|n| vectors::write(n as usize, dir)),
        ["--cases", file] => cases::compare(file),
        ["--tables", seed, count] => compare(seed, count, generate_with_table),
        [seed, count] => compare(seed, count, generate),
        _ => Err(USAGE.to_string()),
    };
    match answer {
        Ok(()) => ExitCode::SUCCESS,
        Err(message) => {
            println!("{message}");
            ExitCode::FAILURE
        }
    }
}

fn number(word: &str) -> Result<u64, String> {
    word.parse().map_err(|_| USAGE.to_string())
}

fn compare(seed: &str, count: &str, make: fn(u64) -> Generated) -> Result<(), String> {
    let (seed, count) = (number(seed)?, number(count)?);
    let start = Instant::now();
    let mut counts = Counts::default();
    for number in seed..seed + count {
        query(number, &make(number), &mut counts)?;
    }
    counts.print();
    println!("{:>13.1}  seconds", start.elapsed().as_secs_f64());
    println!("{}", ending());
    Ok(())
}

fn ending() -> &'static str {
    if cfg!(feature = "ours") {
        "no differences"
    } else {
        "counted only: built without the proved planner"
    }
}

/// One query on both sides.
fn query(seed: u64, made: &Generated, counts: &mut Counts) -> Result<(), String> {
    let (table, table_text) = made.table.as_ref().map(|(table, text)| (table, &text[..])).unzip();
    let told = |message: String| format!("difference: seed {seed}: {message}\n{}", texts(&made.text, table_text));
    if oracle::parse(&made.text).as_ref() != Some(&made.query) {
        return Err(told("the text reads back to another query".to_string()));
    }
    if table_text.and_then(Table::parse).as_ref() != table {
        return Err(told("the table's text reads back to another".to_string()));
    }
    let run = Run::new(&made.query, table).map_err(told)?;
    #[cfg(feature = "ours")]
    ours::compare(seed, &made.text, table_text, &run).map_err(|message| told(message) + &ours::smaller(seed, &made.query, table))?;
    counts.add(made, &run);
    Ok(())
}

/// A query's text, and its table's.
fn texts(query: &[u8], table: Option<&[u8]>) -> String {
    let query = String::from_utf8_lossy(query);
    match table {
        Some(table) => format!("{query}with the table\n{}", String::from_utf8_lossy(table)),
        None => query.into_owned(),
    }
}
