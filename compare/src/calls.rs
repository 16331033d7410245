//! The calls that are compared: edits and queries, made on the table and on the Rust.
use hypergraph::HypergraphQuery;
use vaultsorrel::{Answer, Hyperedge, TABLE_WORDS, Vertex, Withdrawal};

use crate::frames;
use crate::oracle::{self, Graph, Reply, done, listed, reply};

/// How many bytes the longest frame text has.
const LONGEST_TEXT: usize = 58_977;

#[derive(Clone, Debug)]
pub enum Edit {
    AddVertex(u32),
    AddHyperedge(Vec<u32>, u32),
    UpdateHyperedgeVertices(u32, Vec<u32>),
    RemoveVertex(u32),
    MergeVertices(u32, u32),
    RemoveHyperedge(u32),
    Clear,
    /// An add or update that is refused here for equal neighbours: the table after it is read from a text.
    ByText(Box<Edit>),
}

#[derive(Clone, Debug)]
pub enum Query {
    IsEmpty,
    GetAdjacentVerticesFrom(u32),
    GetAdjacentVerticesTo(u32),
    GetFullAdjacentVerticesFrom(u32),
    GetFullAdjacentVerticesTo(u32),
    GetVertexDegreeIn(u32),
    GetVertexDegreeOut(u32),
    GetHyperedgesConnecting(u32, u32),
    GetHyperedgesIntersections(Vec<u32>),
    FindHyperedgesByWeight(u32),
    GetFullVertexHyperedges(u32),
    ContainsVertex(u32),
    GetVertexNeighborhood(u32),
    GetVertexIndex(u32),
    GetBfs(u32),
    GetDfs(u32),
    IsReachable(u32, u32),
    IsConnected,
    IsAcyclic,
    GetTransitiveClosure,
    TopologicalSort,
    StronglyConnectedComponents,
    ConnectedComponents,
    GetOrphanVertices,
    GetOrphanHyperedges,
    GetEndpoints,
    GetInclusions,
    FindCutVertices,
    GetNestednessProfile,
    IsKUniform(usize),
    GetDijkstraConnectionsWithCost(u32, u32),
    GetDijkstraFrom(u32),
    RandomWalk(u32, usize, u64),
}

/// The name of a call, without its arguments.
pub fn name(call: &impl std::fmt::Debug) -> String {
    let text = format!("{call:?}");
    let end = text.find('(').unwrap_or(text.len());
    let mut name = String::new();
    for c in text[..end].chars() {
        if c.is_uppercase() && !name.is_empty() {
            name.push('_');
        }
        name.extend(c.to_lowercase());
    }
    name
}

/// A table and the Rust, built by the same edits.
#[derive(Clone)]
pub struct Both {
    pub table: Vec<u32>,
    pub graph: Graph,
    out: Vec<u32>,
}

/// The first member that equals the one after it.
pub fn twice_in_a_row(list: &[u32]) -> Option<u32> {
    list.windows(2).find(|pair| pair[0] == pair[1]).map(|pair| pair[0])
}

fn vertex(number: usize) -> Withdrawal {
    Withdrawal::vertex(Vertex(number as u32))
}

fn hyperedge(number: usize) -> Withdrawal {
    Withdrawal::hyperedge(Hyperedge(number as u32))
}

fn ours(answer: Answer, out: &[u32], lists: bool) -> Reply {
    match answer {
        Ok(detail) if lists => Reply {
            number: 0,
            detail,
            words: out[..detail as usize].to_vec(),
        },
        Ok(detail) => done(detail),
        Err(refusal) => Reply {
            number: refusal.number(),
            detail: refusal.detail(),
            words: Vec::new(),
        },
    }
}

impl Both {
    pub fn new() -> Self {
        Both {
            table: vec![0; TABLE_WORDS],
            graph: Graph::new(),
            out: vec![0; 140_000],
        }
    }

    fn is_live(&self, v: u32) -> bool {
        self.graph.get_vertex_weight(oracle::vertex(v)).is_ok()
    }

    /// How many live hyperedges have the list and the weight.
    fn identical(&self, list: &[u32], weight: u32) -> usize {
        let list = oracle::vertices(list);
        let same = |e| self.graph.get_hyperedge_vertices(e).is_ok_and(|ms| ms == list);
        self.graph
            .hyperedges_iter()
            .filter(|(e, w)| **w == weight as usize && same(*e))
            .count()
    }

    /// The vertex of answer 20, where that is due here: the list handed in has equal neighbours, and no earlier refusal applies.
    pub fn equal_neighbour(&self, edit: &Edit) -> Option<u32> {
        match edit {
            Edit::AddHyperedge(list, _) | Edit::UpdateHyperedgeVertices(_, list)
                if list.len() <= 32 && list.iter().all(|&v| self.is_live(v)) =>
            {
                twice_in_a_row(list)
            }
            _ => None,
        }
    }

    /// Whether the Rust makes another table by the edit, an add or update, and the table is within the limits.
    fn changes_rust(&self, edit: &Edit) -> bool {
        match edit {
            Edit::AddHyperedge(list, weight) => self.graph.count_hyperedges() < 192 && self.identical(list, *weight) == 0,
            Edit::UpdateHyperedgeVertices(e, list) => self
                .graph
                .get_hyperedge_vertices(oracle::hyperedge(*e))
                .is_ok_and(|ms| ms != oracle::vertices(list)),
            _ => false,
        }
    }

    /// Whether the edit is one that the rules compare: within the limits, no list that is refused here for equal neighbours, at most one
    /// hyperedge identical to an added one, and a merge of two vertices after which no list that it changes has equal neighbours, or one
    /// that is refused for a vertex that is not live. By text: an edit that is refused here for equal neighbours and changes the Rust.
    pub fn compared(&self, edit: &Edit) -> bool {
        match edit {
            Edit::AddVertex(_) => self.graph.count_vertices() < 256,
            Edit::AddHyperedge(list, weight) => {
                list.len() <= 32
                    && self.equal_neighbour(edit).is_none()
                    && self.graph.count_hyperedges() < 192
                    && self.identical(list, *weight) < 2
            }
            Edit::UpdateHyperedgeVertices(_, list) => list.len() <= 32 && self.equal_neighbour(edit).is_none(),
            Edit::MergeVertices(v, w) => !self.is_live(*v) || !self.is_live(*w) || (v != w && self.merges_apart(*v, *w)),
            Edit::ByText(edit) => self.equal_neighbour(edit).is_some() && self.changes_rust(edit),
            _ => true,
        }
    }

    /// Whether no list that has w has equal neighbours once each w is v.
    fn merges_apart(&self, v: u32, w: u32) -> bool {
        self.graph.hyperedges_iter().all(|(e, _)| {
            let list = oracle::numbers(self.graph.get_hyperedge_vertices(e).expect("live"));
            let after: Vec<u32> = list.iter().map(|&x| if x == w { v } else { x }).collect();
            !list.contains(&w) || twice_in_a_row(&after).is_none()
        })
    }

    /// Makes the edit on both sides: the two replies, and whether the tables are word by word the same after it.
    pub fn edit(&mut self, edit: &Edit) -> (Reply, Reply, bool) {
        let (ours, rust) = self.replies(edit);
        (ours, rust, self.table == oracle::words(&self.graph))
    }

    /// Makes the edit on both sides: the two replies.
    pub fn replies(&mut self, edit: &Edit) -> (Reply, Reply) {
        (self.ours_edit(edit), self.rust_edit(edit))
    }

    /// Makes the edit here.
    pub fn ours_edit(&mut self, edit: &Edit) -> Reply {
        let t = &mut self.table;
        let answer = match edit {
            Edit::AddVertex(w) => vaultsorrel::add_vertex(t, *w),
            Edit::AddHyperedge(list, w) => vaultsorrel::add_hyperedge(t, list, *w),
            Edit::UpdateHyperedgeVertices(e, list) => vaultsorrel::update_hyperedge_vertices(t, Hyperedge(*e), list),
            Edit::RemoveVertex(v) => vaultsorrel::remove_vertex(t, Vertex(*v)),
            Edit::MergeVertices(v, w) => vaultsorrel::merge_vertices(t, Vertex(*v), Vertex(*w)),
            Edit::RemoveHyperedge(e) => vaultsorrel::remove_hyperedge(t, Hyperedge(*e)),
            Edit::Clear => vaultsorrel::clear(t),
            Edit::ByText(edit) => self.read_after(edit),
        };
        ours(answer, &self.out, false)
    }

    /// Reads the table after an add or update from the text of the table before it, changed by one line and the head.
    fn read_after(&mut self, edit: &Edit) -> Answer {
        let mut bytes = vec![0; LONGEST_TEXT];
        let count = vaultsorrel::write_frames(&self.table, &mut bytes)?;
        let text = std::str::from_utf8(&bytes[..count as usize]).expect("digits and line feeds");
        let after = match edit {
            Edit::AddHyperedge(list, weight) => frames::with_hyperedge(text, list, *weight),
            Edit::UpdateHyperedgeVertices(e, list) => frames::with_list(text, *e, list),
            other => unreachable!("{other:?}"),
        };
        vaultsorrel::read_frames(&mut self.table, after.as_bytes())
    }

    /// Makes the edit on the Rust.
    fn rust_edit(&mut self, edit: &Edit) -> Reply {
        let g = &mut self.graph;
        match edit {
            Edit::AddVertex(w) => done(g.add_vertex(*w as usize).0 as u64),
            Edit::AddHyperedge(list, w) => reply(g.add_hyperedge(oracle::vertices(list), *w as usize), |e| done(e.0 as u64)),
            Edit::UpdateHyperedgeVertices(e, list) => reply(
                g.update_hyperedge_vertices(oracle::hyperedge(*e), oracle::vertices(list)),
                |()| done(0),
            ),
            Edit::RemoveVertex(v) => reply(g.remove_vertex(oracle::vertex(*v)), |()| done(0)),
            Edit::MergeVertices(v, w) => reply(g.merge_vertices(&oracle::vertices(&[*v, *w])), |()| done(0)),
            Edit::RemoveHyperedge(e) => reply(g.remove_hyperedge(oracle::hyperedge(*e)), |()| done(0)),
            Edit::Clear => {
                g.clear();
                done(0)
            }
            Edit::ByText(edit) => self.rust_edit(edit),
        }
    }

    /// What is live, as records of a tray: vertices, then hyperedges, ascending.
    pub fn live(&self) -> Vec<Withdrawal> {
        let mut live: Vec<_> = self
            .graph
            .vertex_indices()
            .expect("a list")
            .iter()
            .map(|v| vertex(v.0))
            .collect();
        live.extend(self.graph.hyperedge_indices().expect("a list").iter().map(|e| hyperedge(e.0)));
        live.sort_unstable();
        live
    }

    /// The position of the first record of another kind, or that the Rust does not have.
    fn faulty(&self, tray: &[Withdrawal]) -> Option<usize> {
        tray.iter().position(|record| match record.kind {
            Withdrawal::VERTEX => !self.is_live(record.number),
            Withdrawal::HYPEREDGE => self.graph.get_hyperedge_weight(oracle::hyperedge(record.number)).is_err(),
            _ => true,
        })
    }

    /// The Rust's table after single removals of the records, one after the other; one of what is gone by then is refused and changes nothing.
    fn removed(&self, tray: &[Withdrawal]) -> Vec<u32> {
        let mut graph = self.graph.clone();
        for record in tray {
            let _ = match record.kind {
                Withdrawal::VERTEX => graph.remove_vertex(oracle::vertex(record.number)),
                _ => graph.remove_hyperedge(oracle::hyperedge(record.number)),
            };
        }
        oracle::words(&graph)
    }

    /// A tray withdrawn here from a copy of the table: our reply, the one that is due by what the Rust has, and whether the table after it
    /// is the Rust's after single removals in each of the orders; where it is refused, whether it is the table before it.
    pub fn tray(&self, tray: &[Withdrawal], orders: &[Vec<Withdrawal>]) -> (Reply, Reply, bool) {
        let mut table = self.table.clone();
        let answer = ours(vaultsorrel::withdraw_tray(&mut table, tray), &self.out, false);
        match self.faulty(tray) {
            None => (answer, done(0), orders.iter().all(|order| table == self.removed(order))),
            Some(position) => (answer, oracle::refusal(15, position), table == self.table),
        }
    }

    pub fn ours(&mut self, query: &Query) -> Reply {
        use vaultsorrel as vs;
        let (t, out) = (&self.table[..], &mut self.out[..]);
        let (answer, lists) = match query {
            Query::IsEmpty => (vs::is_empty(t), false),
            Query::GetAdjacentVerticesFrom(v) => (vs::get_adjacent_vertices_from(t, Vertex(*v), out), true),
            Query::GetAdjacentVerticesTo(v) => (vs::get_adjacent_vertices_to(t, Vertex(*v), out), true),
            Query::GetFullAdjacentVerticesFrom(v) => (vs::get_full_adjacent_vertices_from(t, Vertex(*v), out), true),
            Query::GetFullAdjacentVerticesTo(v) => (vs::get_full_adjacent_vertices_to(t, Vertex(*v), out), true),
            Query::GetVertexDegreeIn(v) => (vs::get_vertex_degree_in(t, Vertex(*v)), false),
            Query::GetVertexDegreeOut(v) => (vs::get_vertex_degree_out(t, Vertex(*v)), false),
            Query::GetHyperedgesConnecting(x, y) => (vs::get_hyperedges_connecting(t, Vertex(*x), Vertex(*y), out), true),
            Query::GetHyperedgesIntersections(es) => (vs::get_hyperedges_intersections(t, es, out), true),
            Query::FindHyperedgesByWeight(w) => (vs::find_hyperedges_by_weight(t, *w, out), true),
            Query::GetFullVertexHyperedges(v) => (vs::get_full_vertex_hyperedges(t, Vertex(*v), out), true),
            Query::ContainsVertex(w) => (vs::contains_vertex(t, *w), false),
            Query::GetVertexNeighborhood(v) => (vs::get_vertex_neighborhood(t, Vertex(*v), out), true),
            Query::GetVertexIndex(w) => (vs::get_vertex_index(t, *w, out), true),
            Query::GetBfs(v) => (vs::get_bfs(t, Vertex(*v), out), true),
            Query::GetDfs(v) => (vs::get_dfs(t, Vertex(*v), out), true),
            Query::IsReachable(x, y) => (vs::is_reachable(t, Vertex(*x), Vertex(*y)), false),
            Query::IsConnected => (vs::is_connected(t), false),
            Query::IsAcyclic => (vs::is_acyclic(t), false),
            Query::GetTransitiveClosure => (vs::get_transitive_closure(t, out), true),
            Query::TopologicalSort => (vs::topological_sort(t, out), true),
            Query::StronglyConnectedComponents => (vs::strongly_connected_components(t, out), true),
            Query::ConnectedComponents => (vs::connected_components(t, out), true),
            Query::GetOrphanVertices => (vs::get_orphan_vertices(t, out), true),
            Query::GetOrphanHyperedges => (vs::get_orphan_hyperedges(t, out), true),
            Query::GetEndpoints => (vs::get_endpoints(t, out), true),
            Query::GetInclusions => (vs::get_inclusions(t, out), true),
            Query::FindCutVertices => (vs::find_cut_vertices(t, out), true),
            Query::GetNestednessProfile => (vs::get_nestedness_profile(t, out), true),
            Query::IsKUniform(k) => (vs::is_k_uniform(t, *k), false),
            Query::GetDijkstraConnectionsWithCost(x, y) => {
                (vs::get_dijkstra_connections_with_cost(t, Vertex(*x), Vertex(*y), out), true)
            }
            Query::GetDijkstraFrom(v) => (vs::get_dijkstra_from(t, Vertex(*v), out), true),
            Query::RandomWalk(v, steps, seed) => (vs::random_walk(t, Vertex(*v), *steps, *seed, out), true),
        };
        ours(answer, &self.out, lists)
    }

    pub fn rust(&self, query: &Query) -> Reply {
        let g = &self.graph;
        let v = |v: &u32| oracle::vertex(*v);
        let numbers = |list| listed(oracle::numbers(list));
        let ascending = |list| listed(oracle::sorted(oracle::numbers(list)));
        let hyperedges = |list| listed(oracle::hyperedge_numbers(list));
        let full = |list| listed(oracle::full(list));
        let lists = |rows| listed(oracle::lists(rows));
        let yes = |b: bool| done(b.into());
        let count = |n: usize| done(n as u64);
        match query {
            Query::IsEmpty => yes(g.is_empty()),
            Query::GetAdjacentVerticesFrom(x) => reply(g.get_adjacent_vertices_from(v(x)), numbers),
            Query::GetAdjacentVerticesTo(x) => reply(g.get_adjacent_vertices_to(v(x)), numbers),
            Query::GetFullAdjacentVerticesFrom(x) => reply(g.get_full_adjacent_vertices_from(v(x)), full),
            Query::GetFullAdjacentVerticesTo(x) => reply(g.get_full_adjacent_vertices_to(v(x)), full),
            Query::GetVertexDegreeIn(x) => reply(g.get_vertex_degree_in(v(x)), count),
            Query::GetVertexDegreeOut(x) => reply(g.get_vertex_degree_out(v(x)), count),
            Query::GetHyperedgesConnecting(x, y) => reply(g.get_hyperedges_connecting(v(x), v(y)), hyperedges),
            Query::GetHyperedgesIntersections(es) => {
                let es: Vec<_> = es.iter().map(|&e| oracle::hyperedge(e)).collect();
                reply(g.get_hyperedges_intersections(&es), numbers)
            }
            Query::FindHyperedgesByWeight(w) => reply(g.find_hyperedges_by_weight(*w as usize), hyperedges),
            Query::GetFullVertexHyperedges(x) => reply(g.get_full_vertex_hyperedges(v(x)), |mut rows| {
                rows.sort();
                lists(rows)
            }),
            Query::ContainsVertex(w) => reply(g.contains_vertex(*w as usize), yes),
            Query::GetVertexNeighborhood(x) => reply(g.get_vertex_neighborhood(v(x)), numbers),
            Query::GetVertexIndex(w) => reply(g.get_vertex_index(*w as usize), ascending),
            Query::GetBfs(x) => reply(g.get_bfs(v(x)), numbers),
            Query::GetDfs(x) => reply(g.get_dfs(v(x)), numbers),
            Query::IsReachable(x, y) => reply(g.is_reachable(v(x), v(y)), yes),
            Query::IsConnected => reply(g.is_connected(), yes),
            Query::IsAcyclic => yes(g.is_acyclic()),
            Query::GetTransitiveClosure => reply(g.get_transitive_closure(), |ps| {
                numbers(ps.into_iter().flat_map(|(x, y)| [x, y]).collect())
            }),
            Query::TopologicalSort => reply(g.topological_sort(), numbers),
            Query::StronglyConnectedComponents => reply(g.strongly_connected_components(), lists),
            Query::ConnectedComponents => reply(g.connected_components(), lists),
            Query::GetOrphanVertices => reply(g.get_orphan_vertices(), ascending),
            Query::GetOrphanHyperedges => reply(g.get_orphan_hyperedges(), hyperedges),
            Query::GetEndpoints => reply(g.get_endpoints(), |(mut sources, mut sinks)| {
                sources.sort();
                sinks.sort();
                lists(vec![sources, sinks])
            }),
            Query::GetInclusions => reply(g.get_inclusions(), |mut pairs| {
                pairs.sort();
                listed(pairs.into_iter().flat_map(|(a, b)| [a.0 as u32, b.0 as u32]).collect())
            }),
            Query::FindCutVertices => reply(g.find_cut_vertices(), numbers),
            Query::GetNestednessProfile => reply(g.get_nestedness_profile(), |rows| {
                listed(
                    rows.into_iter()
                        .flat_map(|r| [r.size as u32, r.included as u32, r.total as u32])
                        .collect(),
                )
            }),
            Query::IsKUniform(k) => reply(g.is_k_uniform(*k), yes),
            Query::GetDijkstraConnectionsWithCost(x, y) => reply(g.get_dijkstra_connections_with_cost(v(x), v(y)), |found| {
                listed(oracle::path(found))
            }),
            Query::GetDijkstraFrom(x) => reply(g.get_dijkstra_from(v(x)), |costs| {
                let mut rows: Vec<_> = costs.into_iter().map(|(y, c)| (y.0 as u32, oracle::cost(c))).collect();
                rows.sort_unstable();
                listed(rows.into_iter().flat_map(|(y, [low, high])| [y, low, high]).collect())
            }),
            Query::RandomWalk(x, steps, seed) => reply(g.random_walk(v(x), *steps, *seed), numbers),
        }
    }

    /// Whether the two replies to the query agree, as the rules compare them.
    pub fn agree(&self, query: &Query, ours: &Reply, rust: &Reply) -> bool {
        match query {
            Query::GetFullVertexHyperedges(_) if ours.number == 0 => {
                ours.number == rust.number && ours.detail == rust.detail && sorted_rows(&ours.words) == sorted_rows(&rust.words)
            }
            Query::GetDijkstraConnectionsWithCost(x, y) if ours.number == 0 && rust.number == 0 => {
                self.same_path(*x, *y, ours, rust)
            }
            _ => ours == rust,
        }
    }

    /// Path entries are compared by validity and cost: the costs are the same, ours is a way of that cost, and it has no more entries
    /// than the Rust's.
    fn same_path(&self, from: u32, to: u32, ours: &Reply, rust: &Reply) -> bool {
        let (a, b) = (&ours.words, &rust.words);
        let entries = a[2] as usize;
        if a[..2] != b[..2] || (entries == 0) != (b[2] == 0) || entries > b[2] as usize || a.len() != 3 + 2 * entries {
            return false;
        }
        if entries == 0 {
            return true;
        }
        let way: Vec<_> = a[3..].chunks(2).map(|c| (c[0], c[1])).collect();
        let mut total = 0;
        for step in way.windows(2) {
            let (x, (y, e)) = (step[0].0, step[1]);
            let e = oracle::hyperedge(e);
            let makes = self
                .graph
                .get_hyperedge_vertices(e)
                .is_ok_and(|ms| ms.windows(2).any(|w| w == [oracle::vertex(x), oracle::vertex(y)]));
            if !makes {
                return false;
            }
            total += self.graph.get_hyperedge_weight(e).expect("live");
        }
        way[0] == (from, vaultsorrel::NO_HYPEREDGE) && way[entries - 1].0 == to && oracle::cost(total) == a[..2]
    }
}

fn sorted_rows(words: &[u32]) -> Vec<&[u32]> {
    let mut rows = Vec::new();
    let mut rest = words;
    while let Some((&n, tail)) = rest.split_first() {
        let (row, after) = tail.split_at(n as usize);
        rows.push(row);
        rest = after;
    }
    rows.sort();
    rows
}
