//! Stands in for the `IndexStore` of `index`: what `IndexStats::from_index` reads. Nobody builds one here.
use crate::config::EGraphConfig;
use crate::index::FanOuts;

pub struct IndexStore<Cfg: EGraphConfig> {
    pub cardinalities: Vec<(Cfg::O, usize)>,
    pub fanouts: FanOuts<Cfg::O>,
}

impl<Cfg: EGraphConfig> IndexStore<Cfg> {
    pub fn op_cardinalities(&self) -> impl Iterator<Item = (Cfg::O, usize)> + '_ {
        self.cardinalities.iter().copied()
    }
}
