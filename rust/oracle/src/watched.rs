//! A sampler that hands on to another and keeps what was asked.
use crate::schedule::{CrossSampler, KeySite, ProbePath};
use std::cell::RefCell;

/// What a sampler was asked, in the order of asking; the accessor asks for some classes again.
#[derive(Debug, Default)]
pub struct Asked {
    /// Sites of nodes, and how many classes each had.
    pub sites: Vec<(KeySite, usize)>,
    pub probes: Vec<Probe>,
}

/// A length that was asked for.
#[derive(Clone, Copy, Debug, PartialEq, Eq)]
pub struct Probe {
    pub class: usize,
    pub path: ProbePath,
    pub op: u8,
    pub length: usize,
}

pub struct Watched<'a> {
    sampler: &'a dyn CrossSampler<u8>,
    asked: RefCell<Asked>,
}

impl<'a> Watched<'a> {
    pub fn new(sampler: &'a dyn CrossSampler<u8>) -> Self {
        let asked = RefCell::default();
        Watched { sampler, asked }
    }

    pub fn asked(self) -> Asked {
        self.asked.into_inner()
    }
}

impl CrossSampler<u8> for Watched<'_> {
    fn driver_sample(&self, atom: usize, op: u8, k: usize, out: &mut Vec<usize>) {
        self.sampler.driver_sample(atom, op, k, out);
    }

    fn key_classes(&self, node: usize, site: KeySite, out: &mut Vec<usize>) {
        let before = out.len();
        self.sampler.key_classes(node, site, out);
        self.asked.borrow_mut().sites.push((site, out.len() - before));
    }

    fn probe_len(&self, class: usize, path: ProbePath, op: u8) -> usize {
        let length = self.sampler.probe_len(class, path, op);
        self.asked.borrow_mut().probes.push(Probe { class, path, op, length });
        length
    }
}
