//! Stands in for `canon`: the names in a bound of `IndexStats::from_index`.

pub struct MSetCanon;

pub trait VarCanon<G, C> {}
