//! The Rust's answers, as answer number, detail and words: what the rules' domain says they are to be compared by.
use hypergraph::errors::HypergraphError;
use hypergraph::{HyperedgeIndex, Hypergraph, VertexIndex};
use vaultsorrel::{NO_HYPEREDGE, TABLE_WORDS};

pub type Graph = Hypergraph<usize, usize>;
type Error = HypergraphError<usize, usize>;

/// Answer number, detail and the words of a listing.
#[derive(Clone, Debug, PartialEq, Eq)]
pub struct Reply {
    pub number: u32,
    pub detail: u64,
    pub words: Vec<u32>,
}

pub fn done(detail: u64) -> Reply {
    Reply {
        number: 0,
        detail,
        words: Vec::new(),
    }
}

pub fn listed(words: Vec<u32>) -> Reply {
    Reply {
        number: 0,
        detail: words.len() as u64,
        words,
    }
}

pub fn refusal(number: u32, detail: usize) -> Reply {
    Reply {
        number,
        detail: detail as u64,
        words: Vec::new(),
    }
}

fn refused(error: Error) -> Reply {
    let (number, detail) = match error {
        HypergraphError::HyperedgeCreationNoVertices(weight) => (2, weight),
        HypergraphError::HyperedgeUpdateNoVertices(e) => (2, e.0),
        HypergraphError::VertexIndexNotFound(v) => (3, v.0),
        HypergraphError::HyperedgeIndexNotFound(e) => (4, e.0),
        HypergraphError::HyperedgeVerticesUnchanged(e) => (5, e.0),
        HypergraphError::HypergraphContainsCycle => (9, 0),
        HypergraphError::HyperedgesInvalidIntersections => (10, 0),
        other => unreachable!("{other:?}"),
    };
    refusal(number, detail)
}

pub fn reply<T>(answer: Result<T, Error>, make: impl FnOnce(T) -> Reply) -> Reply {
    answer.map_or_else(refused, make)
}

pub fn vertex(v: u32) -> VertexIndex {
    VertexIndex(v as usize)
}

pub fn hyperedge(e: u32) -> HyperedgeIndex {
    HyperedgeIndex(e as usize)
}

pub fn vertices(list: &[u32]) -> Vec<VertexIndex> {
    list.iter().map(|&v| vertex(v)).collect()
}

pub fn numbers(list: Vec<VertexIndex>) -> Vec<u32> {
    list.into_iter().map(|v| v.0 as u32).collect()
}

pub fn sorted(mut list: Vec<u32>) -> Vec<u32> {
    list.sort_unstable();
    list
}

pub fn hyperedge_numbers(list: Vec<HyperedgeIndex>) -> Vec<u32> {
    sorted(list.into_iter().map(|e| e.0 as u32).collect())
}

/// Vertices ascending, each as vertex, count, hyperedges ascending.
pub fn full(list: Vec<(VertexIndex, Vec<HyperedgeIndex>)>) -> Vec<u32> {
    let mut rows: Vec<_> = list.into_iter().map(|(v, es)| (v.0 as u32, hyperedge_numbers(es))).collect();
    rows.sort();
    rows.into_iter()
        .flat_map(|(v, es)| [v, es.len() as u32].into_iter().chain(es))
        .collect()
}

/// Lists as length and members, in the order given.
pub fn lists(rows: Vec<Vec<VertexIndex>>) -> Vec<u32> {
    rows.into_iter()
        .flat_map(|row| std::iter::once(row.len() as u32).chain(numbers(row)))
        .collect()
}

pub fn cost(total: usize) -> [u32; 2] {
    [total as u32, (total as u64 >> 32) as u32]
}

pub fn path((total, entries): (usize, Vec<(VertexIndex, Option<HyperedgeIndex>)>)) -> Vec<u32> {
    let [low, high] = cost(total);
    let mut words = vec![low, high, entries.len() as u32];
    for (v, e) in entries {
        words.extend([v.0 as u32, e.map_or(NO_HYPEREDGE, |e| e.0 as u32)]);
    }
    words
}

/// The table that holds what the Rust holds.
pub fn words(graph: &Graph) -> Vec<u32> {
    let mut table = vec![0; TABLE_WORDS];
    let (next_vertex, next_hyperedge) = graph.next_numbers();
    let mut vs: Vec<_> = graph.vertices_iter().map(|(v, w)| (v.0, *w)).collect();
    let mut es: Vec<_> = graph.hyperedges_iter().map(|(e, w)| (e.0, *w)).collect();
    vs.sort_unstable();
    es.sort_unstable();
    for (place, x) in [next_vertex, next_hyperedge, vs.len(), es.len()].into_iter().enumerate() {
        table[place] = x as u32;
    }
    for (i, (v, w)) in vs.into_iter().enumerate() {
        table[4 + 2 * i] = v as u32;
        table[5 + 2 * i] = w as u32;
    }
    for (j, (e, w)) in es.into_iter().enumerate() {
        let members = numbers(graph.get_hyperedge_vertices(HyperedgeIndex(e)).expect("live"));
        let record = &mut table[516 + 35 * j..][..35];
        record[0] = e as u32;
        record[1] = w as u32;
        record[2] = members.len() as u32;
        record[3..3 + members.len()].copy_from_slice(&members);
    }
    table
}
