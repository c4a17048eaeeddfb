//! Frames 20 to 23.
use super::numbers::fraction;
use super::stats::{arity, operators};
use crate::prepare::Prepared;
use crate::query::{Query, Settings};
use crate::random::Random;
use crate::table::Table;

/// Nodes and classes in use, and how dense the sheets are.
struct Making {
    nodes: Vec<u16>,
    classes: Vec<u16>,
    most_nodes: usize,
    most_classes: usize,
    percent: usize,
    lengths: Lengths,
}

#[derive(Clone, Copy)]
enum Lengths {
    Equal(u32),
    Few,
    Skewed,
    Edges,
}

/// Sampling on mostly, with sheets of any density.
pub fn add(r: &mut Random, query: &mut Query) {
    if r.chance(92) {
        query.settings = Some(settings(r));
    }
    let making = making(r, query.atoms.len() > 20);
    put(r, query, &making);
}

/// Sampling on with every entry there.
pub fn full(r: &mut Random, query: &mut Query, k: u8, bootstrap: u16) {
    query.settings = Some(Settings {
        k,
        bootstrap,
        cv_threshold: 0.25,
    });
    let nodes: Vec<u16> = (0..64).collect();
    let classes: Vec<u16> = (100..112).collect();
    let making = Making {
        nodes,
        classes,
        most_nodes: k.into(),
        most_classes: 1,
        percent: 100,
        lengths: Lengths::Skewed,
    };
    put(r, query, &making);
}

/// A threshold at a spread that the guard meets, or next to it.
pub fn threshold(r: &mut Random, query: &mut Query, table: Option<&Table>) {
    let Some(settings) = query.settings else { return };
    if settings.bootstrap == 0 || !r.chance(40) {
        return;
    }
    let spreads = Prepared::new(query, table).traced().trace.spreads;
    if spreads.is_empty() {
        return;
    }
    let spread = if r.chance(50) { spreads[0] } else { r.pick(&spreads) };
    let cv = r.pick(&[spread, spread, spread.next_up(), spread.next_down()]);
    if cv.is_finite() && cv >= 0.0 {
        query.settings = Some(Settings {
            cv_threshold: cv,
            ..settings
        });
    }
}

/// Frame 20, with its edges.
pub fn settings(r: &mut Random) -> Settings {
    let any = r.below(65) as u8;
    let resamples = r.below(257) as u16;
    let part = fraction(r);
    Settings {
        k: r.pick(&[0, 1, 2, 3, 8, 8, 16, 32, 32, 64, 64, any]),
        bootstrap: r.pick(&[0, 0, 1, 2, 3, 8, 8, 32, 32, 256, resamples]),
        cv_threshold: r.pick(&[
            0.0,
            -0.0,
            f64::from_bits(1),
            1e-3,
            0.05,
            0.1,
            0.2,
            0.5,
            1.0,
            f64::MAX,
            part,
            part * part,
        ]),
    }
}

fn making(r: &mut Random, large: bool) -> Making {
    let most = if large { 40 } else { 10 };
    let nodes = r.between(1, most);
    let classes = r.between(1, 8);
    Making {
        nodes: (0..nodes).map(|_| if r.chance(5) { 0xffff } else { r.next() as u16 }).collect(),
        classes: (0..classes)
            .map(|_| if r.chance(5) { 0xfffe } else { (r.next() as u16).min(0xfffe) })
            .collect(),
        most_nodes: r.pick(&[0, 1, 4, 8, 8, 16, 16, 64, 64]),
        most_classes: r.pick(&[1, 1, 2, 4, 32]),
        percent: r.pick(&[0, 40, 80, 100, 100, 100, 100, 100]),
        lengths: r.pick(&[
            Lengths::Equal(0),
            Lengths::Equal(3),
            Lengths::Few,
            Lengths::Few,
            Lengths::Skewed,
            Lengths::Edges,
        ]),
    }
}

fn put(r: &mut Random, query: &mut Query, making: &Making) {
    for atom in 0..query.atoms.len() as u8 {
        if r.chance(making.percent.max(50)) {
            let n = if r.chance(8) {
                0
            } else {
                r.between(making.most_nodes.min(1), making.most_nodes)
            };
            query.nodes.insert(atom, (0..n).map(|_| r.pick(&making.nodes)).collect());
        }
    }
    let widest = operators(query).into_iter().map(|op| arity(query, op)).max().unwrap_or(0);
    for node in &making.nodes {
        for (site, pos) in sites(widest) {
            if r.chance(making.percent) {
                let n = if r.chance(8) { 0 } else { r.between(1, making.most_classes) };
                query
                    .classes
                    .insert((*node, site, pos), (0..n).map(|_| r.pick(&making.classes)).collect());
            }
        }
    }
    for op in operators(query) {
        let paths = (0..arity(query, op)).map(|pos| (0, pos)).chain([(1, 0)]);
        for (path, pos) in paths {
            put_lengths(r, query, making, (path, pos, op));
        }
    }
}

fn sites(widest: u8) -> impl Iterator<Item = (u8, u8)> {
    [(0, 0), (2, 0)].into_iter().chain((0..widest).map(|pos| (1, pos)))
}

fn put_lengths(r: &mut Random, query: &mut Query, making: &Making, (path, pos, op): (u8, u8, u8)) {
    for class in &making.classes {
        if r.chance(making.percent) {
            query.lengths.insert((*class, path, pos, op), length(r, making.lengths));
        }
    }
}

fn length(r: &mut Random, how: Lengths) -> u32 {
    match how {
        Lengths::Equal(n) => n,
        Lengths::Few => r.between(0, 6) as u32,
        Lengths::Skewed if r.chance(85) => r.between(0, 2) as u32,
        Lengths::Skewed => r.between(100, 100_000) as u32,
        Lengths::Edges => r.pick(&[0, 1, u32::MAX, u32::MAX - 1, 1 << 31]),
    }
}
