//! What the attached files need and the attachment does not hold: the modules, the two kinds of index, the bounds on weights.
pub mod errors;
pub mod hyperedges;
pub(crate) mod hypergraph;
pub mod query;
pub(crate) mod shared;
pub(crate) mod types;
pub mod vertices;

use std::fmt::{Debug, Display};

pub use hypergraph::Hypergraph;
pub use query::{HypergraphQuery, NestednessEntry};

#[derive(Clone, Copy, Debug, PartialEq, Eq, Hash, PartialOrd, Ord)]
pub struct VertexIndex(pub usize);

#[derive(Clone, Copy, Debug, PartialEq, Eq, Hash, PartialOrd, Ord)]
pub struct HyperedgeIndex(pub usize);

pub trait VertexTrait: Copy + Debug + Display + Eq + Send + Sync {}
impl<T: Copy + Debug + Display + Eq + Send + Sync> VertexTrait for T {}

pub trait HyperedgeTrait: Copy + Debug + Display + Eq + Into<usize> + Send + Sync {}
impl<T: Copy + Debug + Display + Eq + Into<usize> + Send + Sync> HyperedgeTrait for T {}
