//! The query trait: nine plain reads, and every query of the attached files on top of them.
use ahash::AHashMap;

use super::{NestednessEntry, lookups, paths, properties, structural, traversal};
use crate::{HyperedgeIndex, HyperedgeTrait, VertexIndex, VertexTrait, errors::HypergraphError};

type Answer<T, V, HE> = Result<T, HypergraphError<V, HE>>;

pub trait HypergraphQuery<V: VertexTrait, HE: HyperedgeTrait> {
    fn count_vertices(&self) -> usize;
    fn count_hyperedges(&self) -> usize;
    fn vertex_indices(&self) -> Answer<Vec<VertexIndex>, V, HE>;
    fn hyperedge_indices(&self) -> Answer<Vec<HyperedgeIndex>, V, HE>;
    fn get_vertex_weight(&self, v: VertexIndex) -> Answer<V, V, HE>;
    fn get_hyperedge_weight(&self, e: HyperedgeIndex) -> Answer<HE, V, HE>;
    fn get_vertex_hyperedges(&self, v: VertexIndex) -> Answer<Vec<HyperedgeIndex>, V, HE>;
    fn get_hyperedge_vertices(&self, e: HyperedgeIndex) -> Answer<Vec<VertexIndex>, V, HE>;

    fn is_acyclic(&self) -> bool {
        structural::is_acyclic(self)
    }

    fn get_adjacent_vertices_from(&self, from: VertexIndex) -> Answer<Vec<VertexIndex>, V, HE> {
        lookups::get_adjacent_vertices_from(self, from)
    }

    fn get_adjacent_vertices_to(&self, to: VertexIndex) -> Answer<Vec<VertexIndex>, V, HE> {
        lookups::get_adjacent_vertices_to(self, to)
    }

    fn get_full_adjacent_vertices_from(&self, from: VertexIndex) -> Answer<Vec<(VertexIndex, Vec<HyperedgeIndex>)>, V, HE> {
        lookups::get_full_adjacent_vertices_from(self, from)
    }

    fn get_full_adjacent_vertices_to(&self, to: VertexIndex) -> Answer<Vec<(VertexIndex, Vec<HyperedgeIndex>)>, V, HE> {
        lookups::get_full_adjacent_vertices_to(self, to)
    }

    fn get_vertex_degree_in(&self, to: VertexIndex) -> Answer<usize, V, HE> {
        lookups::get_vertex_degree_in(self, to)
    }

    fn get_vertex_degree_out(&self, from: VertexIndex) -> Answer<usize, V, HE> {
        lookups::get_vertex_degree_out(self, from)
    }

    fn get_hyperedges_connecting(&self, from: VertexIndex, to: VertexIndex) -> Answer<Vec<HyperedgeIndex>, V, HE> {
        lookups::get_hyperedges_connecting(self, from, to)
    }

    fn get_hyperedges_intersections(&self, hyperedges: &[HyperedgeIndex]) -> Answer<Vec<VertexIndex>, V, HE> {
        lookups::get_hyperedges_intersections(self, hyperedges)
    }

    fn find_hyperedges_by_weight(&self, weight: HE) -> Answer<Vec<HyperedgeIndex>, V, HE> {
        lookups::find_hyperedges_by_weight(self, weight)
    }

    fn get_full_vertex_hyperedges(&self, v: VertexIndex) -> Answer<Vec<Vec<VertexIndex>>, V, HE> {
        lookups::get_full_vertex_hyperedges(self, v)
    }

    fn contains_vertex(&self, weight: V) -> Answer<bool, V, HE> {
        lookups::contains_vertex(self, weight)
    }

    fn get_vertex_neighborhood(&self, v: VertexIndex) -> Answer<Vec<VertexIndex>, V, HE> {
        lookups::get_vertex_neighborhood(self, v)
    }

    fn get_vertex_index(&self, weight: V) -> Answer<Vec<VertexIndex>, V, HE> {
        lookups::get_vertex_index(self, weight)
    }

    fn random_walk(&self, start: VertexIndex, steps: usize, seed: u64) -> Answer<Vec<VertexIndex>, V, HE> {
        traversal::random_walk(self, start, steps, seed)
    }

    fn get_bfs(&self, from: VertexIndex) -> Answer<Vec<VertexIndex>, V, HE> {
        traversal::get_bfs(self, from)
    }

    fn get_dfs(&self, from: VertexIndex) -> Answer<Vec<VertexIndex>, V, HE> {
        traversal::get_dfs(self, from)
    }

    fn is_reachable(&self, from: VertexIndex, to: VertexIndex) -> Answer<bool, V, HE> {
        traversal::is_reachable(self, from, to)
    }

    fn get_all_paths(&self, from: VertexIndex, to: VertexIndex) -> Answer<Vec<Vec<VertexIndex>>, V, HE> {
        traversal::get_all_paths(self, from, to)
    }

    fn is_connected(&self) -> Answer<bool, V, HE> {
        structural::is_connected(self)
    }

    fn get_transitive_closure(&self) -> Answer<Vec<(VertexIndex, VertexIndex)>, V, HE> {
        structural::get_transitive_closure(self)
    }

    fn topological_sort(&self) -> Answer<Vec<VertexIndex>, V, HE> {
        structural::topological_sort(self)
    }

    fn strongly_connected_components(&self) -> Answer<Vec<Vec<VertexIndex>>, V, HE> {
        structural::strongly_connected_components(self)
    }

    fn connected_components(&self) -> Answer<Vec<Vec<VertexIndex>>, V, HE> {
        structural::connected_components(self)
    }

    fn get_orphan_vertices(&self) -> Answer<Vec<VertexIndex>, V, HE> {
        properties::get_orphan_vertices(self)
    }

    fn get_orphan_hyperedges(&self) -> Answer<Vec<HyperedgeIndex>, V, HE> {
        properties::get_orphan_hyperedges(self)
    }

    fn get_endpoints(&self) -> Answer<(Vec<VertexIndex>, Vec<VertexIndex>), V, HE> {
        properties::get_endpoints(self)
    }

    fn get_inclusions(&self) -> Answer<Vec<(HyperedgeIndex, HyperedgeIndex)>, V, HE> {
        properties::get_inclusions(self)
    }

    fn is_k_uniform(&self, k: usize) -> Answer<bool, V, HE> {
        properties::is_k_uniform(self, k)
    }

    fn find_cut_vertices(&self) -> Answer<Vec<VertexIndex>, V, HE> {
        properties::find_cut_vertices(self)
    }

    fn get_nestedness_profile(&self) -> Answer<Vec<NestednessEntry>, V, HE> {
        properties::get_nestedness_profile(self)
    }

    fn get_dijkstra_connections(
        &self,
        from: VertexIndex,
        to: VertexIndex,
    ) -> Answer<Vec<(VertexIndex, Option<HyperedgeIndex>)>, V, HE> {
        paths::get_dijkstra_connections(self, from, to)
    }

    fn get_dijkstra_connections_with_cost(
        &self,
        from: VertexIndex,
        to: VertexIndex,
    ) -> Answer<(usize, Vec<(VertexIndex, Option<HyperedgeIndex>)>), V, HE> {
        paths::get_dijkstra_connections_with_cost(self, from, to)
    }

    fn get_dijkstra_from(&self, from: VertexIndex) -> Answer<AHashMap<VertexIndex, usize>, V, HE> {
        paths::get_dijkstra_from(self, from)
    }
}
