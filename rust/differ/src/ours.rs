//! The proved planner against a run of the Rust.
use crate::shrink::{Case, shrink};
use crate::texts;
use oracle::{Query, Run, Table, to_text};
use rimdovek_sys::{NO_COST, Planned, Refusal, plan, round_costs};

/// Bytes past the plan must keep this value.
const LENT: u8 = 0xa5;
/// Above the longest plan.
const ROOM: usize = 20_600;
/// The most atoms, and one place that no atom has.
const ATOMS: usize = 65;

pub fn compare(seed: u64, text: &[u8], table: Option<&[u8]>, run: &Run) -> Result<(), String> {
    let mut out = [LENT; ROOM];
    let room = if seed.is_multiple_of(8) { run.answer.text.len() } else { ROOM };
    same(&mut out[..room], text, table, run)?;
    costs(text, table, run)?;
    if seed % 8 == 1 {
        short(&mut [LENT; ROOM][..run.answer.text.len() - 1], text, table)?;
    }
    Ok(())
}

/// The difference that a smaller query and a smaller table show.
pub fn smaller(seed: u64, query: &Query, table: Option<&Table>) -> String {
    let (query, table) = (query.clone(), table.cloned());
    let small = shrink(Case { query, table }, |case| difference(seed, case).is_some());
    let message = difference(seed, &small).unwrap_or_else(|| "none in the canonical text".to_string());
    let table = small.table.map(|table| table.to_text());
    let texts = texts(to_text(&small.query).as_bytes(), table.as_deref().map(str::as_bytes));
    format!("smaller: {message}\n{texts}")
}

fn difference(seed: u64, case: &Case) -> Option<String> {
    let text = to_text(&case.query);
    let table = case.table.as_ref().map(Table::to_text);
    let table = table.as_deref().map(str::as_bytes);
    let run = Run::new(&case.query, case.table.as_ref());
    run.and_then(|run| compare(seed, text.as_bytes(), table, &run)).err()
}

fn same(out: &mut [u8], text: &[u8], table: Option<&[u8]>, run: &Run) -> Result<(), String> {
    let answer = &run.answer;
    let says = Planned {
        written: answer.text.len(),
        steps: answer.steps,
        tallied: answer.tallied,
        rejected: answer.rejected,
    };
    let planned = plan(text, table, out);
    let (plan, rest) = out.split_at(answer.text.len());
    if plan != answer.text.as_bytes() {
        let plan = String::from_utf8_lossy(plan);
        return Err(format!("the Rust plans\n{}and ours ({planned:?})\n{plan}for", answer.text));
    }
    if planned != Ok(says) {
        return Err(format!("the answer is {planned:?}, not {says:?}, for"));
    }
    if rest.iter().any(|byte| *byte != LENT) {
        return Err("bytes past the plan are changed, for".to_string());
    }
    Ok(())
}

/// Every round's candidates and their costs, bit for bit, and the round behind the last.
fn costs(text: &[u8], table: Option<&[u8]>, run: &Run) -> Result<(), String> {
    let trace = &run.trace;
    for (number, round) in trace.rounds.iter().enumerate() {
        let mut says = [NO_COST; ATOMS];
        for (atom, cost) in round {
            says[*atom] = cost.to_bits();
        }
        round_is(text, table, number, says, Some(trace.chosen[number] as u8))?;
    }
    round_is(text, table, trace.rounds.len(), [NO_COST; ATOMS], None)
}

fn round_is(text: &[u8], table: Option<&[u8]>, number: usize, says: [u64; ATOMS], chosen: Option<u8>) -> Result<(), String> {
    let mut costs = [0; ATOMS];
    let answer = round_costs(text, table, number, &mut costs);
    if answer != Ok(chosen) || costs != says {
        return Err(format!(
            "round {number} of the Rust chooses {chosen:?} by {says:x?}, ours {answer:?} by {costs:x?}, for"
        ));
    }
    Ok(())
}

/// An output a byte too short is refused and kept.
fn short(out: &mut [u8], text: &[u8], table: Option<&[u8]>) -> Result<(), String> {
    let planned = plan(text, table, out);
    let no_room = Refusal {
        number: 8,
        text: 0,
        line: 0,
    };
    if planned != Err(no_room) || out.iter().any(|byte| *byte != LENT) {
        return Err(format!("an output of {} bytes gives {planned:?}, for", out.len()));
    }
    Ok(())
}
