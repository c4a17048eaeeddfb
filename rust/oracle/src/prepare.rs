//! A query in the Rust's own types, with its sampler.
use crate::ast::{GlobalVarId, LitValVarId, MsetVarId, SeqVarId, SetVarId, VarId};
use crate::index::FanOuts;
use crate::index_sampler::IndexSampler;
use crate::query::{Atom, Operand, Query};
use crate::resolve::{MatchShape, PatVar, PredGuard, RAtom, RMult, RPredExpr, ResolvedQuery};
use crate::schedule::{self, CrossSampler, IndexStats, QueryPlan, SamplerConfig, Trace};
use crate::sheets::Sheets;
use crate::table::Table;
use crate::watched::{Asked, Watched};

/// Operators, sorts and child positions are bytes, literal values four of them.
pub type Plan = QueryPlan<u8, u8, u32>;
pub type Step = schedule::Step<u8, u8, u32>;

/// All that the Rust's planner is given.
pub struct Prepared<'a> {
    query: ResolvedQuery<u8, u8, u32>,
    stats: IndexStats<u8>,
    sampler: Box<dyn CrossSampler<u8> + 'a>,
    settings: Option<SamplerConfig>,
}

/// A traced run with its tallies, and what it asked the sampler.
pub struct Traced {
    pub trace: Trace<u8, u8, u32>,
    pub tallied: u64,
    pub rejected: u64,
    pub asked: Asked,
}

impl<'a> Prepared<'a> {
    /// The table is looked at where frame 24 asks for it; its index is made here.
    pub fn new(query: &Query, table: Option<&'a Table>) -> Self {
        let mut shape = MatchShape::default();
        shape.nodes = vec![String::new(); query.variables.into()];
        let resolved = ResolvedQuery {
            atoms: query.atoms.iter().map(atom).collect(),
            shape,
            var_sorts: Vec::new(),
            seq_sorts: Vec::new(),
            set_sorts: Vec::new(),
            mset_sorts: Vec::new(),
            mult_intervals: Vec::new(),
        };
        let settings = query.settings.map(|s| SamplerConfig {
            k: s.k.into(),
            bootstrap: s.bootstrap.into(),
            cv_threshold: s.cv_threshold,
        });
        Prepared {
            query: resolved,
            stats: stats(query),
            sampler: sampler(query, table),
            settings,
        }
    }

    /// Sets the settings of this thread's plans.
    pub fn switch_sampling(&self) {
        schedule::set_sampled_selectivity(self.settings);
    }

    /// The Rust's plan, under the settings of this thread.
    pub fn schedule(&self) -> Plan {
        schedule::schedule_with_stats_sampled(&self.query, &self.stats, &*self.sampler)
    }

    /// The plan with its tallies.
    pub fn tallied(&self) -> (Plan, u64, u64) {
        self.switch_sampling();
        schedule::reset_sample_tally();
        let plan = self.schedule();
        let (tallied, rejected) = schedule::sample_tally();
        (plan, tallied, rejected)
    }

    pub fn traced(&self) -> Traced {
        self.switch_sampling();
        schedule::reset_sample_tally();
        let watched = Watched::new(&*self.sampler);
        let trace = schedule::schedule_traced(&self.query, &self.stats, &watched);
        let (tallied, rejected) = schedule::sample_tally();
        Traced {
            trace,
            tallied,
            rejected,
            asked: watched.asked(),
        }
    }
}

fn sampler<'a>(query: &Query, table: Option<&'a Table>) -> Box<dyn CrossSampler<u8> + 'a> {
    if query.from_table {
        return Box::new(IndexSampler::new(table.expect("a table for frame 24")));
    }
    Box::new(Sheets::new(query))
}

fn stats(query: &Query) -> IndexStats<u8> {
    let mut stats = IndexStats::new();
    stats.op_card = query.op_card.iter().map(|(op, n)| (*op, *n as usize)).collect();
    stats.atom_card = query.atom_card.iter().map(|(atom, n)| ((*atom).into(), *n as usize)).collect();
    let mut fanouts = FanOuts::default();
    if let Some((by_repr, nodes)) = query.by_repr {
        fanouts.by_repr = by_repr;
        fanouts.nodes = nodes as usize;
    }
    fanouts.by_child_pos = query.by_child_pos.iter().map(|((op, pos), f)| ((*op, (*pos).into()), *f)).collect();
    fanouts.by_contains = query.by_contains.iter().map(|(op, f)| (*op, *f)).collect();
    stats.fanouts = fanouts;
    stats
}

fn var(v: u8) -> VarId {
    VarId::new(v.into())
}

fn operand(operand: &Operand) -> PatVar {
    match operand {
        Operand::Local(v) => PatVar::Local(var(*v)),
        Operand::Global(g) => PatVar::Global(GlobalVarId::new((*g).into())),
    }
}

fn operands(list: &[Operand]) -> Vec<PatVar> {
    list.iter().map(operand).collect()
}

/// A multiplicity's handle travels as an exact number.
fn multiples(list: &[(Operand, u8)]) -> Vec<(PatVar, RMult)> {
    list.iter()
        .map(|(item, multiplicity)| (operand(item), RMult::Exact((*multiplicity).into())))
        .collect()
}

/// A guard's handle travels as the number of a literal value that it would read.
fn guard(handle: u8) -> PredGuard<u8, u32> {
    PredGuard {
        expr: RPredExpr::Val(LitValVarId::new(handle.into())),
        truthy: |_| true,
    }
}

fn atom(atom: &Atom) -> RAtom<u8, u8, u32> {
    match *atom {
        Atom::Plain { node, op, ref children } => {
            let (node, children) = (var(node), operands(children));
            RAtom::Plain { node, op, children }
        }
        Atom::Lit { node, op, sort, value } => {
            let node = var(node);
            RAtom::Lit { node, op, sort, value }
        }
        Atom::LitBind { node, op, literal } => {
            let (node, val) = (var(node), LitValVarId::new(literal.into()));
            RAtom::LitBind { node, op, val }
        }
        Atom::Eq(a, b) => RAtom::Eq(var(a), var(b)),
        Atom::EqGlobal(local, global) => RAtom::EqGlobal(var(local), GlobalVarId::new(global.into())),
        Atom::Pred { guard: handle, ref deps } => {
            let (guard, deps) = (guard(handle), deps.iter().map(|dep| (*dep).into()).collect());
            RAtom::Pred { guard, deps }
        }
        Atom::ACExact { node, op, ref elems } => {
            let (node, elems) = (var(node), multiples(elems));
            RAtom::ACExact { node, op, elems }
        }
        Atom::ACSub { node, op, rest, ref elems } => {
            let (node, elems, rest) = (var(node), multiples(elems), MsetVarId::new(rest.into()));
            RAtom::ACSub { node, op, elems, rest }
        }
        _ => listed(atom),
    }
}

/// The variadic kinds with plain operands.
fn listed(atom: &Atom) -> RAtom<u8, u8, u32> {
    let sequence = |handle: u8| SeqVarId::new(handle.into());
    match *atom {
        Atom::AExact { node, op, ref children } => {
            let (node, children) = (var(node), operands(children));
            RAtom::AExact { node, op, children }
        }
        Atom::APrefix { node, op, pre, ref fixed } => {
            let (node, pre, fixed) = (var(node), sequence(pre), operands(fixed));
            RAtom::APrefix { node, op, pre, fixed }
        }
        Atom::ASuffix { node, op, suf, ref fixed } => {
            let (node, fixed, suf) = (var(node), operands(fixed), sequence(suf));
            RAtom::ASuffix { node, op, fixed, suf }
        }
        Atom::ABoth {
            node,
            op,
            pre,
            suf,
            ref fixed,
        } => {
            let (node, pre, fixed, suf) = (var(node), sequence(pre), operands(fixed), sequence(suf));
            RAtom::ABoth { node, op, pre, fixed, suf }
        }
        Atom::ACIExact { node, op, ref elems } => {
            let (node, elems) = (var(node), operands(elems));
            RAtom::ACIExact { node, op, elems }
        }
        Atom::ACISub { node, op, rest, ref elems } => {
            let (node, elems, rest) = (var(node), operands(elems), SetVarId::new(rest.into()));
            RAtom::ACISub { node, op, elems, rest }
        }
        _ => unreachable!("the other kinds are made above"),
    }
}
