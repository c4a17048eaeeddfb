//! Stands in for `config`: the types that `IndexStats::from_index` names.
use crate::containers::DenseId;
use std::hash::Hash;

pub trait EGraphConfig {
    type O: DenseId + Hash;
    type G;
    type C;
}
