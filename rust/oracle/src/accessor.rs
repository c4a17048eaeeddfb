// ---------------------------------------------------------------------------
// Appended by the build of `oracle`: the same loop through the functions above, with what it saw.
// ---------------------------------------------------------------------------

/// What a run of the loop saw.
pub struct Trace<O, I, V> {
    pub steps: Vec<Step<O, I, V>>,
    /// Of each round, every candidate with its cost.
    pub rounds: Vec<Vec<(usize, f64)>>,
    /// The atom chosen in each round.
    pub chosen: Vec<usize>,
    /// Which atoms were lowered.
    pub lowered: Vec<bool>,
    /// Every bound key that was priced.
    pub keys: Vec<PricedKey>,
    /// Spreads that the guard compared with its threshold.
    pub spreads: Vec<f64>,
}

/// A bound key: what sampling gave for it, and whether a measured fan-out and a denominator above 0 were there.
pub struct PricedKey {
    pub sample: KeySample,
    pub measured: bool,
    pub denominator: bool,
}

#[derive(Clone, Copy, PartialEq, Eq, Debug)]
pub enum KeySample {
    Off,
    NoEmitter,
    NoDraws,
    Rejected,
    Accepted,
}

/// The plan of `schedule_with_stats_sampled`, traced.
pub fn schedule_traced<O: DenseId + Hash + Copy, S: DenseId + Copy, V: Clone, I: IndexLike>(
    rq: &ResolvedQuery<O, S, V>,
    stats: &IndexStats<O>,
    sampler: &dyn CrossSampler<O>,
) -> Trace<O, I, V> {
    let atoms = &rq.atoms;
    let sampling = sampled_selectivity().map(|cfg| Sampling::new(sampler, cfg));
    let emitters = vec![None; rq.shape.num_vars()];
    let mut ctx = Cost { stats, emitters, sampling };
    let mut bound = vec![false; rq.shape.num_vars()];
    let lowered = vec![false; atoms.len()];
    let mut trace = Trace {
        steps: Vec::new(),
        rounds: Vec::new(),
        chosen: Vec::new(),
        lowered,
        keys: Vec::new(),
        spreads: Vec::new(),
    };
    loop {
        let before = trace.lowered.clone();
        lower_eager(atoms, &mut trace.lowered, &mut bound, &mut trace.steps);
        record_emitters(atoms, &before, &trace.lowered, &mut ctx.emitters);
        let before = trace.lowered.clone();
        let round = trace_round(atoms, &bound, &mut ctx, &mut trace);
        let Some((atom, _)) = round.iter().copied().reduce(|best, next| if next.1 < best.1 { next } else { best }) else {
            return trace;
        };
        trace.rounds.push(round);
        trace.chosen.push(atom);
        emit_atom(&atoms[atom], atom, &mut bound, &mut trace.steps);
        trace.lowered[atom] = true;
        record_emitters(atoms, &before, &trace.lowered, &mut ctx.emitters);
    }
}

fn trace_round<O: DenseId + Hash + Copy, S, V, I>(
    atoms: &[RAtom<O, S, V>],
    bound: &[bool],
    ctx: &mut Cost<'_, O>,
    trace: &mut Trace<O, I, V>,
) -> Vec<(usize, f64)> {
    let mut round = Vec::new();
    for (atom, used) in trace.lowered.iter().enumerate() {
        if *used || emitter_op(&atoms[atom]).is_none() {
            continue;
        }
        let measurements = ctx.sampling.as_ref().map_or(0, |sampling| sampling.memo.len());
        round.push((atom, estimate_cost(atoms, atom, bound, ctx)));
        trace_keys(atoms, atom, bound, ctx, &mut trace.keys);
        if let Some(sampling) = ctx.sampling.as_ref().filter(|sampling| sampling.memo.len() > measurements) {
            trace.spreads.extend(last_spread(sampling));
        }
    }
    round
}

/// The keys that the atom's cost went through; asking again is answered from the memo.
fn trace_keys<O: DenseId + Hash + Copy, S, V>(
    atoms: &[RAtom<O, S, V>],
    atom: usize,
    bound: &[bool],
    ctx: &mut Cost<'_, O>,
    out: &mut Vec<PricedKey>,
) {
    let (node, op, keys) = match &atoms[atom] {
        RAtom::Plain { node, op, children } => (node, op, positions(children)),
        RAtom::AExact { node, op, children } => (node, op, contained(children)),
        RAtom::APrefix { node, op, fixed, .. } | RAtom::ASuffix { node, op, fixed, .. } | RAtom::ABoth { node, op, fixed, .. } => {
            (node, op, contained(fixed))
        }
        RAtom::ACExact { node, op, elems } | RAtom::ACSub { node, op, elems, .. } => {
            (node, op, elems.iter().map(|(key, _)| (*key, ProbePath::Contains)).collect())
        }
        RAtom::ACIExact { node, op, elems } | RAtom::ACISub { node, op, elems, .. } => (node, op, contained(elems)),
        _ => return,
    };
    if bound[node.idx()] {
        return;
    }
    for (key, path) in keys.into_iter().filter(|(key, _)| pv_is_bound(key, bound)) {
        let fanouts = &ctx.stats.fanouts;
        let measured = match path {
            ProbePath::ChildPos(pos) => fanouts.by_child_pos.contains_key(&(*op, pos)),
            ProbePath::Contains => fanouts.by_contains.contains_key(op),
        };
        let denominator = ctx.stats.op_card.get(op).is_some_and(|full| *full > 0);
        out.push(PricedKey {
            sample: key_sample(atoms, &key, path, *op, ctx),
            measured,
            denominator,
        });
    }
}

fn positions(children: &[PatVar]) -> Vec<(PatVar, ProbePath)> {
    children
        .iter()
        .enumerate()
        .map(|(pos, key)| (*key, ProbePath::ChildPos(pos)))
        .collect()
}

fn contained(elems: &[PatVar]) -> Vec<(PatVar, ProbePath)> {
    elems.iter().map(|key| (*key, ProbePath::Contains)).collect()
}

fn key_sample<O: DenseId + Hash + Copy, S, V>(
    atoms: &[RAtom<O, S, V>],
    key: &PatVar,
    path: ProbePath,
    op: O,
    ctx: &mut Cost<'_, O>,
) -> KeySample {
    if ctx.sampling.is_none() {
        return KeySample::Off;
    }
    let PatVar::Local(v) = key else {
        return KeySample::NoEmitter;
    };
    let Some((emitter, site)) = ctx.emitters[v.idx()] else {
        return KeySample::NoEmitter;
    };
    let accepted = ctx.sampled(atoms, key, path, op).is_some();
    let drawn = ctx.sampling.as_ref().is_some_and(|sampling| has_draws(sampling, emitter, site));
    match (accepted, drawn) {
        (true, _) => KeySample::Accepted,
        (false, true) => KeySample::Rejected,
        (false, false) => KeySample::NoDraws,
    }
}

fn has_draws<O>(sampling: &Sampling<'_, O>, emitter: usize, site: KeySite) -> bool {
    let nodes = sampling
        .drivers
        .iter()
        .find(|(atom, _)| *atom == emitter)
        .map_or(&[][..], |(_, nodes)| nodes);
    nodes.iter().any(|node| {
        let mut classes = Vec::new();
        sampling.sampler.key_classes(*node, site, &mut classes);
        !classes.is_empty()
    })
}

/// The spread of the last measurement, where the guard looked at one.
fn last_spread<O>(sampling: &Sampling<'_, O>) -> Option<f64> {
    if sampling.cfg.bootstrap == 0 || sampling.means.is_empty() || sampling.draws.is_empty() {
        return None;
    }
    let mean = sampling.draws.iter().sum::<f64>() / sampling.draws.len() as f64;
    let b = sampling.means.len() as f64;
    let bmean = sampling.means.iter().sum::<f64>() / b;
    let var = sampling.means.iter().map(|m| (m - bmean) * (m - bmean)).sum::<f64>() / b;
    let spread = var.sqrt() / mean;
    spread.is_finite().then_some(spread)
}
