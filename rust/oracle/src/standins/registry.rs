//! Stands in for `registry`: a name that ast.rs brings in and does not use.

pub struct OpMeta;
