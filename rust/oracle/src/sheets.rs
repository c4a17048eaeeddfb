//! The sampler over frames 21 to 23.
use crate::index::FastMap;
use crate::query::Query;
use crate::schedule::{CrossSampler, KeySite, ProbePath};

/// Frames 21 to 23; what is absent is empty, or 0.
pub struct Sheets {
    nodes: Vec<Vec<usize>>,
    classes: FastMap<(usize, u8, usize), Vec<usize>>,
    lengths: FastMap<(usize, u8, usize, u8), usize>,
}

impl Sheets {
    pub fn new(query: &Query) -> Self {
        let wide = |list: &Vec<u16>| list.iter().map(|n| usize::from(*n)).collect::<Vec<_>>();
        let of_atom = |atom: usize| query.nodes.get(&(atom as u8)).map(wide).unwrap_or_default();
        Sheets {
            nodes: (0..query.atoms.len()).map(of_atom).collect(),
            classes: query
                .classes
                .iter()
                .map(|((node, site, pos), list)| (((*node).into(), *site, (*pos).into()), wide(list)))
                .collect(),
            lengths: query
                .lengths
                .iter()
                .map(|((class, path, pos, op), n)| (((*class).into(), *path, (*pos).into(), *op), *n as usize))
                .collect(),
        }
    }
}

impl CrossSampler<u8> for Sheets {
    fn driver_sample(&self, atom: usize, _op: u8, k: usize, out: &mut Vec<usize>) {
        out.extend(self.nodes[atom].iter().take(k));
    }

    fn key_classes(&self, node: usize, site: KeySite, out: &mut Vec<usize>) {
        let (site, pos) = match site {
            KeySite::Node => (0, 0),
            KeySite::Child(pos) => (1, pos),
            KeySite::Element => (2, 0),
        };
        if let Some(classes) = self.classes.get(&(node, site, pos)) {
            out.extend(classes);
        }
    }

    fn probe_len(&self, class: usize, path: ProbePath, op: u8) -> usize {
        let (path, pos) = match path {
            ProbePath::ChildPos(pos) => (0, pos),
            ProbePath::Contains => (1, 0),
        };
        self.lengths.get(&(class, path, pos, op)).copied().unwrap_or(0)
    }
}
