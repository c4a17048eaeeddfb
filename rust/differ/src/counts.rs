//! What the queries, tables and plans held, so that a reader sees what was covered.
mod tables;

use crate::never::{Reason, never_lowered};
use oracle::generate::{Generated, LONGEST};
use oracle::schedule::{IndexLookup, KeySample, PricedKey, Step};
use oracle::{Atom, Query, Run};

/// The table's lines, in their order; lines that stay 0 are printed too.
const LINES: [&str; 110] = [
    "queries",
    "  without atoms",
    "  of 1 to 8 atoms",
    "  of 9 to 32 atoms",
    "  of 33 to 63 atoms",
    "  of 64 atoms",
    "  of 64 variables",
    "  of 65,536 bytes",
    "  with sampling on",
    "  with sampling on and bootstrap",
    "  whose threshold is a spread that the guard met",
    "atoms Plain",
    "atoms Lit",
    "atoms LitBind",
    "atoms Eq",
    "atoms EqGlobal",
    "atoms Pred",
    "atoms AExact",
    "atoms APrefix",
    "atoms ASuffix",
    "atoms ABoth",
    "atoms ACExact",
    "atoms ACSub",
    "atoms ACIExact",
    "atoms ACISub",
    "steps Join",
    "steps ExtractChild",
    "steps CheckChildEq",
    "steps CheckEq",
    "steps CheckEqGlobal",
    "steps BindGlobal",
    "steps CopyBinding",
    "steps ExpandA",
    "steps DecomposeAC",
    "steps DecomposeACI",
    "steps ExtractLitVal",
    "steps CheckLit",
    "steps CheckPred",
    "lookups ByOp",
    "lookups ByChildPos",
    "lookups ByRepr",
    "lookups ByContains",
    "rounds",
    "  with a tie for the lowest cost",
    "costs",
    "  that are 0",
    "  that are subnormal",
    "  without any cardinality",
    "measurements tallied",
    "measurements rejected by the guard",
    "keys priced",
    "  sampling off: measured fan-out",
    "  sampling off: 0.5, no fan-out",
    "  sampling off: 0.5, denominator 0",
    "  no emitter: measured fan-out",
    "  no emitter: 0.5, no fan-out",
    "  no emitter: 0.5, denominator 0",
    "  no draws: measured fan-out",
    "  no draws: 0.5, no fan-out",
    "  no draws: 0.5, denominator 0",
    "  rejected: fallback to the measured fan-out",
    "  rejected: 0.5, no fan-out",
    "  rejected: 0.5, denominator 0",
    "  accepted: the sample's mean",
    "  accepted: 0.5, denominator 0",
    "queries with an atom never lowered",
    "never lowered: Eq",
    "never lowered: Pred",
    "  naming itself",
    "  in or leading to a ring of Preds",
    "  on an Eq, directly",
    "  on an Eq, through Preds",
    "queries whose costs change the order of atoms",
    "bytes of query texts",
    "bytes of plan texts",
    "longest plan text",
    "most steps",
    "tables",
    "  without rows",
    "  of 1 to 256 rows",
    "  of 257 to 1,023 rows",
    "  of 1,024 rows",
    "  of 65,536 bytes in all",
    "  that nothing asks for",
    "  with frames 34",
    "bytes of table texts",
    "rows of children",
    "rows of a literal",
    "  of an operator that the query has not",
    "rows passed over",
    "queries with frame 24",
    "  that tally a measurement",
    "  that reject a measurement",
    "  that take a row's own class",
    "  that take a child",
    "  that take every element",
    "  where a row lacks what is taken",
    "  that probe a bucket of at most 256 rows",
    "  that probe a bucket of more than 256 rows",
    "buckets probed by position",
    "buckets probed by containing",
    "  of 0 rows",
    "  of 1 to 254 rows",
    "  of 255 rows",
    "  of 256 rows",
    "  of 257 rows",
    "  of 1,000 rows",
    "  of other numbers above 256",
    "  whose told length is above 0",
    "  whose told length is not the count",
];

pub struct Counts([u64; LINES.len()]);

impl Default for Counts {
    fn default() -> Self {
        Counts([0; LINES.len()])
    }
}

impl Counts {
    pub fn print(&self) {
        for (line, count) in LINES.iter().zip(self.0) {
            println!("{count:>13}  {line}");
        }
    }

    fn at(&mut self, line: &str) -> &mut u64 {
        let place = LINES.iter().position(|other| *other == line);
        &mut self.0[place.unwrap_or_else(|| panic!("no line {line}"))]
    }

    fn one(&mut self, line: &str) {
        *self.at(line) += 1;
    }

    fn one_if(&mut self, holds: bool, line: &str) {
        *self.at(line) += u64::from(holds);
    }

    fn most(&mut self, line: &str, n: usize) {
        let place = self.at(line);
        *place = (*place).max(n as u64);
    }

    pub fn add(&mut self, made: &Generated, run: &Run) {
        let query = &made.query;
        self.sizes(query, &made.text, run);
        query.atoms.iter().for_each(|atom| self.one(atom_line(atom)));
        run.trace.steps.iter().for_each(|step| self.step(step));
        run.trace.keys.iter().for_each(|key| self.one(key_line(key)));
        *self.at("keys priced") += run.trace.keys.len() as u64;
        self.rounds(query, run);
        self.never(query, run);
        if let Some((table, text)) = &made.table {
            self.table(query, table, text, run);
        }
    }

    fn sizes(&mut self, query: &Query, text: &[u8], run: &Run) {
        self.one("queries");
        self.one(match query.atoms.len() {
            0 => "  without atoms",
            1..=8 => "  of 1 to 8 atoms",
            9..=32 => "  of 9 to 32 atoms",
            33..=63 => "  of 33 to 63 atoms",
            _ => "  of 64 atoms",
        });
        self.one_if(query.variables == 64, "  of 64 variables");
        self.one_if(text.len() == LONGEST, "  of 65,536 bytes");
        self.one_if(query.settings.is_some(), "  with sampling on");
        self.one_if(query.settings.is_some_and(|s| s.bootstrap > 0), "  with sampling on and bootstrap");
        let met = query.settings.is_some_and(|s| run.trace.spreads.contains(&s.cv_threshold));
        self.one_if(met, "  whose threshold is a spread that the guard met");
        *self.at("bytes of query texts") += text.len() as u64;
        *self.at("bytes of plan texts") += run.answer.text.len() as u64;
        self.most("longest plan text", run.answer.text.len());
        self.most("most steps", run.answer.steps.into());
        *self.at("measurements tallied") += u64::from(run.answer.tallied);
        *self.at("measurements rejected by the guard") += u64::from(run.answer.rejected);
    }

    fn step(&mut self, step: &Step<u8, u8, u32>) {
        self.one(step_line(step));
        if let Step::Join { lookups, .. } = step {
            lookups.iter().for_each(|lookup| self.one(lookup_line(lookup)));
        }
    }

    fn rounds(&mut self, query: &Query, run: &Run) {
        for round in &run.trace.rounds {
            let lowest = round.iter().map(|(_, cost)| *cost).fold(f64::INFINITY, f64::min);
            self.one("rounds");
            self.one_if(
                round.iter().filter(|(_, cost)| *cost == lowest).count() > 1,
                "  with a tie for the lowest cost",
            );
            for (_, cost) in round {
                self.one("costs");
                self.one_if(*cost == 0.0, "  that are 0");
                self.one_if(cost.is_subnormal(), "  that are subnormal");
                self.one_if(*cost == 2_f64.powi(64), "  without any cardinality");
            }
        }
        let moved = run.trace.chosen.windows(2).any(|pair| pair[0] > pair[1]);
        self.one_if(moved && !query.op_card.is_empty(), "queries whose costs change the order of atoms");
    }

    fn never(&mut self, query: &Query, run: &Run) {
        self.one_if(run.trace.lowered.contains(&false), "queries with an atom never lowered");
        for reason in never_lowered(&query.atoms, &run.trace.lowered) {
            match reason {
                Reason::Eq => self.one("never lowered: Eq"),
                Reason::Pred {
                    itself,
                    ring,
                    direct,
                    through,
                } => {
                    self.one("never lowered: Pred");
                    self.one_if(itself, "  naming itself");
                    self.one_if(ring, "  in or leading to a ring of Preds");
                    self.one_if(direct, "  on an Eq, directly");
                    self.one_if(through, "  on an Eq, through Preds");
                }
            }
        }
    }
}

fn atom_line(atom: &Atom) -> &'static str {
    match atom {
        Atom::Plain { .. } => "atoms Plain",
        Atom::Lit { .. } => "atoms Lit",
        Atom::LitBind { .. } => "atoms LitBind",
        Atom::Eq(..) => "atoms Eq",
        Atom::EqGlobal(..) => "atoms EqGlobal",
        Atom::Pred { .. } => "atoms Pred",
        Atom::AExact { .. } => "atoms AExact",
        Atom::APrefix { .. } => "atoms APrefix",
        Atom::ASuffix { .. } => "atoms ASuffix",
        Atom::ABoth { .. } => "atoms ABoth",
        Atom::ACExact { .. } => "atoms ACExact",
        Atom::ACSub { .. } => "atoms ACSub",
        Atom::ACIExact { .. } => "atoms ACIExact",
        Atom::ACISub { .. } => "atoms ACISub",
    }
}

fn step_line(step: &Step<u8, u8, u32>) -> &'static str {
    match step {
        Step::Join { .. } => "steps Join",
        Step::ExtractChild { .. } => "steps ExtractChild",
        Step::CheckChildEq { .. } => "steps CheckChildEq",
        Step::CheckEq { .. } => "steps CheckEq",
        Step::CheckEqGlobal { .. } => "steps CheckEqGlobal",
        Step::BindGlobal { .. } => "steps BindGlobal",
        Step::CopyBinding { .. } => "steps CopyBinding",
        Step::ExpandA { .. } => "steps ExpandA",
        Step::DecomposeAC { .. } => "steps DecomposeAC",
        Step::DecomposeACI { .. } => "steps DecomposeACI",
        Step::ExtractLitVal { .. } => "steps ExtractLitVal",
        Step::CheckLit { .. } => "steps CheckLit",
        Step::CheckPred { .. } => "steps CheckPred",
    }
}

fn lookup_line(lookup: &IndexLookup<u8, u8>) -> &'static str {
    match lookup {
        IndexLookup::ByOp { .. } => "lookups ByOp",
        IndexLookup::ByChildPos { .. } => "lookups ByChildPos",
        IndexLookup::ByRepr { .. } => "lookups ByRepr",
        IndexLookup::ByContains { .. } => "lookups ByContains",
    }
}

fn key_line(key: &PricedKey) -> &'static str {
    let lines = match key.sample {
        KeySample::Accepted if key.denominator => return "  accepted: the sample's mean",
        KeySample::Accepted => return "  accepted: 0.5, denominator 0",
        KeySample::Off => [
            "  sampling off: measured fan-out",
            "  sampling off: 0.5, no fan-out",
            "  sampling off: 0.5, denominator 0",
        ],
        KeySample::NoEmitter => [
            "  no emitter: measured fan-out",
            "  no emitter: 0.5, no fan-out",
            "  no emitter: 0.5, denominator 0",
        ],
        KeySample::NoDraws => [
            "  no draws: measured fan-out",
            "  no draws: 0.5, no fan-out",
            "  no draws: 0.5, denominator 0",
        ],
        KeySample::Rejected => [
            "  rejected: fallback to the measured fan-out",
            "  rejected: 0.5, no fan-out",
            "  rejected: 0.5, denominator 0",
        ],
    };
    match (key.measured, key.denominator) {
        (true, true) => lines[0],
        (false, _) => lines[1],
        (true, false) => lines[2],
    }
}
