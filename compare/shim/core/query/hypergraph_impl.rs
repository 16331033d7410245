//! The plain reads of the maps, in the maps' order.
use super::HypergraphQuery;
use crate::{HyperedgeIndex, HyperedgeTrait, Hypergraph, VertexIndex, VertexTrait, errors::HypergraphError};

impl<V: VertexTrait, HE: HyperedgeTrait> Hypergraph<V, HE> {
    pub fn vertices_iter(&self) -> impl Iterator<Item = (VertexIndex, &V)> {
        self.vertices.iter().map(|(i, (w, _))| (*i, w))
    }

    pub fn hyperedges_iter(&self) -> impl Iterator<Item = (HyperedgeIndex, &HE)> {
        self.hyperedges.iter().map(|(i, (_, w))| (*i, w))
    }

    /// The two counters that give the next numbers.
    pub fn next_numbers(&self) -> (usize, usize) {
        (self.vertices_count, self.hyperedges_count)
    }

    pub fn get_vertex_weight(&self, v: VertexIndex) -> Result<V, HypergraphError<V, HE>> {
        self.vertices
            .get(&v)
            .map(|(w, _)| *w)
            .ok_or(HypergraphError::VertexIndexNotFound(v))
    }

    pub fn get_hyperedge_weight(&self, e: HyperedgeIndex) -> Result<HE, HypergraphError<V, HE>> {
        self.hyperedges
            .get(&e)
            .map(|(_, w)| *w)
            .ok_or(HypergraphError::HyperedgeIndexNotFound(e))
    }

    pub fn get_vertex_hyperedges(&self, v: VertexIndex) -> Result<Vec<HyperedgeIndex>, HypergraphError<V, HE>> {
        self.vertices
            .get(&v)
            .map(|(_, set)| set.iter().copied().collect())
            .ok_or(HypergraphError::VertexIndexNotFound(v))
    }

    pub fn get_hyperedge_vertices(&self, e: HyperedgeIndex) -> Result<Vec<VertexIndex>, HypergraphError<V, HE>> {
        self.hyperedges
            .get(&e)
            .map(|(list, _)| list.clone())
            .ok_or(HypergraphError::HyperedgeIndexNotFound(e))
    }
}

impl<V: VertexTrait, HE: HyperedgeTrait> HypergraphQuery<V, HE> for Hypergraph<V, HE> {
    fn count_vertices(&self) -> usize {
        self.vertices.len()
    }

    fn count_hyperedges(&self) -> usize {
        self.hyperedges.len()
    }

    fn vertex_indices(&self) -> Result<Vec<VertexIndex>, HypergraphError<V, HE>> {
        Ok(self.vertices.keys().copied().collect())
    }

    fn hyperedge_indices(&self) -> Result<Vec<HyperedgeIndex>, HypergraphError<V, HE>> {
        Ok(self.hyperedges.keys().copied().collect())
    }

    fn get_vertex_weight(&self, v: VertexIndex) -> Result<V, HypergraphError<V, HE>> {
        Hypergraph::get_vertex_weight(self, v)
    }

    fn get_hyperedge_weight(&self, e: HyperedgeIndex) -> Result<HE, HypergraphError<V, HE>> {
        Hypergraph::get_hyperedge_weight(self, e)
    }

    fn get_vertex_hyperedges(&self, v: VertexIndex) -> Result<Vec<HyperedgeIndex>, HypergraphError<V, HE>> {
        Hypergraph::get_vertex_hyperedges(self, v)
    }

    fn get_hyperedge_vertices(&self, e: HyperedgeIndex) -> Result<Vec<VertexIndex>, HypergraphError<V, HE>> {
        Hypergraph::get_hyperedge_vertices(self, e)
    }
}
