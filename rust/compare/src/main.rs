//! Compares the proved numbers, through the static library, with the machine's and with plain Rust. `run` beside this folder calls it.
mod bits;
mod estimates;
mod operands;
mod roots;
mod selectivity;
mod splitmix;
mod states;
mod times;
mod vectors;

use std::env;
use std::process::ExitCode;
use std::time::Instant;

fn main() -> ExitCode {
    let word = env::args().nth(1);
    if word.as_deref() == Some("--vectors") {
        return end(vectors::write().map_err(|e| e.to_string()));
    }
    match word.map_or(Ok(1 << 26), |word| word.parse()) {
        Ok(count) => end(run(count)),
        Err(_) => end(Err("usage: run [COUNT] or run --vectors".to_string())),
    }
}

fn run(count: u64) -> Result<(), String> {
    let start = Instant::now();
    compare(count)?;
    println!("{:>11.1}  seconds", start.elapsed().as_secs_f64());
    times::print();
    println!("no differences");
    Ok(())
}

fn compare(count: u64) -> Result<(), String> {
    roots::compare(count)?;
    states::compare(count)?;
    selectivity::compare(count)?;
    estimates::compare(count)
}

fn end(answer: Result<(), String>) -> ExitCode {
    match answer {
        Ok(()) => ExitCode::SUCCESS,
        Err(message) => {
            println!("{message}");
            ExitCode::FAILURE
        }
    }
}
