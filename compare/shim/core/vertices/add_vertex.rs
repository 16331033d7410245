//! Adding a vertex always makes a new one.
use crate::{HyperedgeTrait, Hypergraph, VertexIndex, VertexTrait, core::types::AIndexSet};

impl<V: VertexTrait, HE: HyperedgeTrait> Hypergraph<V, HE> {
    pub fn add_vertex(&mut self, weight: V) -> VertexIndex {
        let index = VertexIndex(self.vertices_count);
        self.vertices_count += 1;
        self.vertices.insert(index, (weight, AIndexSet::default()));
        index
    }
}
