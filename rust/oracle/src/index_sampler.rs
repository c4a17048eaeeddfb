//! The sampler over a table, by the formulas of Note 3, and by leaders (Note 5). Nodes are numbers of the rows that stand; a bucket holds rows of all
//! operators, each once, in order.
use crate::index::FastMap;
use crate::schedule::{CrossSampler, KeySite, ProbePath};
use crate::table::{Row, Table};
use std::borrow::Cow;

/// A longer bucket is read at so many places.
const PROBE_SCAN_CAP: usize = 256;

/// The buckets are made once, from the rows that stand.
pub struct IndexSampler<'a> {
    rows: Cow<'a, [Row]>,
    by_op: FastMap<u8, Vec<usize>>,
    by_child_pos: FastMap<(u16, usize), Vec<usize>>,
    by_contains: FastMap<u16, Vec<usize>>,
}

impl<'a> IndexSampler<'a> {
    pub fn new(table: &'a Table) -> Self {
        let rows = table.standing();
        let mut sampler = IndexSampler {
            rows: rows.clone(),
            by_op: FastMap::default(),
            by_child_pos: FastMap::default(),
            by_contains: FastMap::default(),
        };
        rows.iter().enumerate().for_each(|(node, row)| sampler.file(node, row));
        sampler
    }

    /// The rows that stand.
    pub fn rows(&self) -> &[Row] {
        &self.rows
    }

    fn file(&mut self, node: usize, row: &Row) {
        self.by_op.entry(row.op()).or_default().push(node);
        for (pos, class) in row.children().iter().enumerate() {
            self.by_child_pos.entry((*class, pos)).or_default().push(node);
            let bucket = self.by_contains.entry(*class).or_default();
            if bucket.last() != Some(&node) {
                bucket.push(node);
            }
        }
    }

    /// The rows with the class at the position, or among their children.
    pub fn bucket(&self, class: usize, path: ProbePath) -> &[usize] {
        let Ok(class) = u16::try_from(class) else {
            return &[];
        };
        let bucket = match path {
            ProbePath::ChildPos(pos) => self.by_child_pos.get(&(class, pos)),
            ProbePath::Contains => self.by_contains.get(&class),
        };
        bucket.map_or(&[], Vec::as_slice)
    }

    /// How many rows of the bucket are the operator's: counted up to the cap, else told from what is read.
    fn op_restricted(&self, bucket: &[usize], op: u8) -> usize {
        let is_op = |node: &usize| self.rows[*node].op() == op;
        if bucket.len() <= PROBE_SCAN_CAP {
            return bucket.iter().copied().filter(is_op).count();
        }
        let hits = evenly(bucket, PROBE_SCAN_CAP).filter(is_op).count();
        hits * bucket.len() / PROBE_SCAN_CAP
    }
}

/// So many of the nodes, at j times their number over it.
fn evenly(nodes: &[usize], take: usize) -> impl Iterator<Item = usize> {
    (0..take).map(move |j| nodes[j * nodes.len() / take])
}

impl CrossSampler<u8> for IndexSampler<'_> {
    fn driver_sample(&self, _atom: usize, op: u8, k: usize, out: &mut Vec<usize>) {
        out.clear();
        if let Some(nodes) = self.by_op.get(&op) {
            out.extend(evenly(nodes, k.min(nodes.len())));
        }
    }

    fn key_classes(&self, node: usize, site: KeySite, out: &mut Vec<usize>) {
        let row = &self.rows[node];
        match site {
            KeySite::Node => out.push(row.class().into()),
            KeySite::Child(pos) => out.extend(row.children().get(pos).copied().map(usize::from)),
            KeySite::Element => row.children().iter().for_each(|class| push_new(out, (*class).into())),
        }
    }

    fn probe_len(&self, class: usize, path: ProbePath, op: u8) -> usize {
        self.op_restricted(self.bucket(class, path), op)
    }
}

fn push_new(out: &mut Vec<usize>, class: usize) {
    if !out.contains(&class) {
        out.push(class);
    }
}
