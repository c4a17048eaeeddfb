//! The Rust's plan as the document's plan text, and the costs behind it.
use crate::parse::parse;
use crate::prepare::{Prepared, Step, Traced};
use crate::query::{Query, count, line};
use crate::resolve::{PatVar, RMult, RPredExpr};
use crate::schedule::{IndexLookup, Trace};
use crate::table::Table;
use crate::watched::Asked;

/// A plan text with the numbers of its header.
#[derive(Clone, Debug, PartialEq, Eq)]
pub struct Answer {
    pub text: String,
    pub steps: u16,
    pub tallied: u16,
    pub rejected: u16,
}

/// A candidate's cost in a round, by its bits.
#[derive(Clone, Copy, Debug, PartialEq, Eq)]
pub struct Cost {
    pub round: u16,
    pub atom: u8,
    pub bits: u64,
}

/// An answer with the trace of the run that gave it, and what was asked of the sampler.
pub struct Run {
    pub answer: Answer,
    pub trace: Trace<u8, u8, u32>,
    pub asked: Asked,
}

impl Run {
    /// Both by the unchanged entry and by the accessor; told apart if they ever part.
    pub fn new(query: &Query, table: Option<&Table>) -> Result<Run, String> {
        let prepared = Prepared::new(query, table);
        let (plan, tallied, rejected) = prepared.tallied();
        let answer = written(query, &plan.steps, tallied, rejected);
        let Traced {
            trace,
            tallied,
            rejected,
            asked,
        } = prepared.traced();
        if written(query, &trace.steps, tallied, rejected) != answer {
            return Err("the accessor's plan is not the Rust's".to_string());
        }
        Ok(Run { answer, trace, asked })
    }

    /// Every candidate of every round, in the order in which the Rust prices them.
    pub fn costs(&self) -> Vec<Cost> {
        let rounds = self.trace.rounds.iter().enumerate();
        let cost = |round, (atom, cost): &(usize, f64)| Cost {
            round: word(round),
            atom: byte(*atom),
            bits: cost.to_bits(),
        };
        rounds
            .flat_map(|(round, list)| list.iter().map(move |candidate| cost(round, candidate)))
            .collect()
    }
}

/// The plan text of accepted texts; none where one does not read, or frame 24 has no table. Without frame 24 no table is read.
pub fn plan_text(query: &[u8], table: Option<&[u8]>) -> Option<String> {
    let query = parse(query)?;
    let table = if query.from_table { Some(Table::parse(table?)?) } else { None };
    Some(answer(&query, table.as_ref()).text)
}

pub fn answer(query: &Query, table: Option<&Table>) -> Answer {
    let (plan, tallied, rejected) = Prepared::new(query, table).tallied();
    written(query, &plan.steps, tallied, rejected)
}

/// The costs behind the plan; see `Run::costs`.
pub fn costs(query: &Query, table: Option<&Table>) -> Vec<Cost> {
    Run::new(query, table).expect("the accessor follows the Rust").costs()
}

/// The plan text of these steps and tallies.
fn written(query: &Query, steps: &[Step], tallied: u64, rejected: u64) -> Answer {
    let answer = Answer {
        text: String::new(),
        steps: word(steps.len()),
        tallied: word(tallied as usize),
        rejected: word(rejected as usize),
    };
    let mut header = vec![0x3f, query.variables, query.globals, query.literals];
    for number in [answer.steps, answer.tallied, answer.rejected] {
        header.extend(number.to_be_bytes());
    }
    let text = line(&header) + &steps.iter().map(|step| line(&frame(step))).collect::<String>();
    Answer { text, ..answer }
}

fn byte(n: usize) -> u8 {
    n.try_into().expect("a number within the limits")
}

fn word(n: usize) -> u16 {
    n.try_into().expect("a count within the limits")
}

fn operand(pv: &PatVar) -> [u8; 2] {
    match pv {
        PatVar::Local(v) => [0, byte(v.idx())],
        PatVar::Global(g) => [1, byte(g.idx())],
    }
}

fn lookup(lookup: &IndexLookup<u8, u8>) -> [u8; 4] {
    match lookup {
        IndexLookup::ByOp { op } => [0, *op, 0, 0],
        IndexLookup::ByChildPos { child, pos } => [1, operand(child)[0], operand(child)[1], *pos],
        IndexLookup::ByRepr { repr } => [2, byte(repr.idx()), 0, 0],
        IndexLookup::ByContains { child } => [3, operand(child)[0], operand(child)[1], 0],
    }
}

fn frame(step: &Step) -> Vec<u8> {
    match step {
        Step::Join { target, lookups, atom_id } => {
            let mut frame = vec![0x40, byte(target.idx()), byte(*atom_id), count(lookups)];
            frame.extend(lookups.iter().flat_map(lookup));
            frame
        }
        Step::ExtractChild { target, parent, pos } => vec![0x41, byte(target.idx()), byte(parent.idx()), *pos],
        Step::CheckChildEq { parent, pos, expected } => [&[0x42, byte(parent.idx()), *pos], &operand(expected)[..]].concat(),
        Step::CheckEq { a, b } => vec![0x43, byte(a.idx()), byte(b.idx())],
        Step::CheckEqGlobal { local, global } => vec![0x44, byte(local.idx()), byte(global.idx())],
        Step::BindGlobal { target, global } => vec![0x45, byte(target.idx()), byte(global.idx())],
        Step::CopyBinding { target, other } => vec![0x46, byte(target.idx()), byte(other.idx())],
        Step::ExpandA { node, children, pre, suf } => {
            let flags = u8::from(pre.is_some()) + 2 * u8::from(suf.is_some());
            let (pre, suf) = (pre.map_or(0, |v| byte(v.idx())), suf.map_or(0, |v| byte(v.idx())));
            let mut frame = vec![0x47, byte(node.idx()), flags, pre, suf, count(children)];
            frame.extend(children.iter().flat_map(operand));
            frame
        }
        Step::DecomposeAC {
            node,
            elems,
            rest,
            idempotent,
        } => {
            let rest = rest.map(|v| byte(v.idx()));
            let idempotent = u8::from(*idempotent);
            let mut frame = vec![
                0x48,
                byte(node.idx()),
                idempotent,
                u8::from(rest.is_some()),
                rest.unwrap_or(0),
                count(elems),
            ];
            frame.extend(
                elems
                    .iter()
                    .flat_map(|(item, mult)| [operand(item)[0], operand(item)[1], multiplicity(mult)]),
            );
            frame
        }
        Step::DecomposeACI { node, elems, rest } => {
            let rest = rest.map(|v| byte(v.idx()));
            let mut frame = vec![0x49, byte(node.idx()), u8::from(rest.is_some()), rest.unwrap_or(0), count(elems)];
            frame.extend(elems.iter().flat_map(operand));
            frame
        }
        Step::ExtractLitVal { node, val } => vec![0x4a, byte(node.idx()), byte(val.idx())],
        Step::CheckLit { node, value } => [&[0x4b, byte(node.idx())], &value.to_be_bytes()[..]].concat(),
        Step::CheckPred { guard } => match guard.expr {
            RPredExpr::Val(handle) => vec![0x4c, byte(handle.idx())],
            _ => unreachable!("a guard is made as a handle"),
        },
    }
}

fn multiplicity(mult: &RMult) -> u8 {
    match mult {
        RMult::Exact(handle) => byte(*handle as usize),
        RMult::Var { .. } => unreachable!("a multiplicity is made as a number"),
    }
}
