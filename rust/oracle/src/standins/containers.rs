//! Stands in for `containers`: what the planner asks of an operator and of a child position.
use std::fmt::Debug;

/// A dense identifier: an operator or a sort.
pub trait DenseId: Copy + Eq + Debug {
    fn to_usize(self) -> usize;
}

/// The word of a child position.
pub trait IndexLike: Copy + Eq + Debug {
    fn try_from_usize(n: usize) -> Option<Self>;
}

impl DenseId for u8 {
    fn to_usize(self) -> usize {
        self.into()
    }
}

impl IndexLike for u8 {
    fn try_from_usize(n: usize) -> Option<Self> {
        n.try_into().ok()
    }
}
