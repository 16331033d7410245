//! Vaultsorrel from Rust: slices in, the answer or the refusal out.
//!
//! A table is a slice of [`TABLE_WORDS`] words; an answer is written from the front of a slice of the caller's. The states of
//! the release desk are a slice of [`STATES_WORDS`] words. Any slice may be handed in: a call answers or refuses, and a refusal
//! changes no word.

/// How many words a table has.
pub const TABLE_WORDS: usize = 7236;

/// How many words the states of the release desk have.
pub const STATES_WORDS: usize = 256;

/// What a vertex is at the release desk: the detail of [`desk_state`].
pub const WAITING: u32 = 0;
pub const REVIEWED: u32 = 1;
pub const RELEASED: u32 = 2;

/// In place of a hyperedge, in the first entry of a path.
pub const NO_HYPEREDGE: u32 = u32::MAX;

/// The number of a vertex.
#[repr(C)]
#[derive(Clone, Copy, Debug, PartialEq, Eq, PartialOrd, Ord, Hash)]
pub struct Vertex(pub u32);

/// The number of a hyperedge.
#[repr(C)]
#[derive(Clone, Copy, Debug, PartialEq, Eq, PartialOrd, Ord, Hash)]
pub struct Hyperedge(pub u32);

/// A record of a tray: what is to be withdrawn.
#[repr(C)]
#[derive(Clone, Copy, Debug, PartialEq, Eq, PartialOrd, Ord, Hash)]
pub struct Withdrawal {
    /// [`Withdrawal::VERTEX`] or [`Withdrawal::HYPEREDGE`]; any other kind is refused.
    pub kind: u32,
    pub number: u32,
}

impl Withdrawal {
    pub const VERTEX: u32 = 0;
    pub const HYPEREDGE: u32 = 1;

    pub const fn vertex(vertex: Vertex) -> Self {
        Withdrawal {
            kind: Self::VERTEX,
            number: vertex.0,
        }
    }

    pub const fn hyperedge(hyperedge: Hyperedge) -> Self {
        Withdrawal {
            kind: Self::HYPEREDGE,
            number: hyperedge.0,
        }
    }
}

/// Why a call was refused.
#[derive(Clone, Copy, Debug, PartialEq, Eq)]
pub enum Refusal {
    /// The table is not well formed, or the states do not fit it.
    NotWellFormed,
    /// With the weight (add) or the hyperedge (update).
    NoMembers(u32),
    VertexNotLive(Vertex),
    HyperedgeNotLive(Hyperedge),
    SameMembers(Hyperedge),
    /// With the length of the list.
    TooManyMembers(u64),
    Full,
    NumbersSpent,
    ClosedWalk,
    TooFewHyperedges,
    /// With the words or bytes needed.
    NoRoom(u64),
    /// With the faulty line.
    BadText(u64),
    /// A vertex is merged into itself.
    SameVertex(Vertex),
    /// With the lowest hyperedge in which the vertices to merge stand side by side.
    SideBySide(Hyperedge),
    /// With the position, from 0, of the first record that is of another kind or not live.
    BadRecord(u64),
    /// The vertex to release is not reviewed.
    NotReviewed(Vertex),
    /// With the lowest vertex that has a step into the one to release and is not released.
    UpstreamHeld(Vertex),
    /// With the place, from 0, at which the order is at fault, or its length where it stops short.
    BadOrder(u64),
    /// With the first member that equals the one after it.
    EqualNeighbours(Vertex),
}

impl Refusal {
    /// The answer number.
    pub fn number(self) -> u32 {
        match self {
            Refusal::NotWellFormed => 1,
            Refusal::NoMembers(_) => 2,
            Refusal::VertexNotLive(_) => 3,
            Refusal::HyperedgeNotLive(_) => 4,
            Refusal::SameMembers(_) => 5,
            Refusal::TooManyMembers(_) => 6,
            Refusal::Full => 7,
            Refusal::NumbersSpent => 8,
            Refusal::ClosedWalk => 9,
            Refusal::TooFewHyperedges => 10,
            Refusal::NoRoom(_) => 11,
            Refusal::BadText(_) => 12,
            Refusal::SameVertex(_) => 13,
            Refusal::SideBySide(_) => 14,
            Refusal::BadRecord(_) => 15,
            Refusal::NotReviewed(_) => 17,
            Refusal::UpstreamHeld(_) => 18,
            Refusal::BadOrder(_) => 19,
            Refusal::EqualNeighbours(_) => 20,
        }
    }

    /// The answer's detail.
    pub fn detail(self) -> u64 {
        match self {
            Refusal::NoMembers(d) => d.into(),
            Refusal::VertexNotLive(v) | Refusal::SameVertex(v) | Refusal::EqualNeighbours(v) => v.0.into(),
            Refusal::NotReviewed(v) | Refusal::UpstreamHeld(v) => v.0.into(),
            Refusal::HyperedgeNotLive(e) | Refusal::SameMembers(e) | Refusal::SideBySide(e) => e.0.into(),
            Refusal::TooManyMembers(d) | Refusal::NoRoom(d) | Refusal::BadText(d) => d,
            Refusal::BadRecord(d) | Refusal::BadOrder(d) => d,
            _ => 0,
        }
    }
}

/// The detail of a done call, or why it was refused.
pub type Answer = Result<u64, Refusal>;

#[repr(C)]
struct Reply {
    number: u32,
    detail: u64,
}

impl Reply {
    fn answer(self) -> Answer {
        let word = self.detail as u32;
        Err(match self.number {
            0 => return Ok(self.detail),
            1 => Refusal::NotWellFormed,
            2 => Refusal::NoMembers(word),
            3 => Refusal::VertexNotLive(Vertex(word)),
            4 => Refusal::HyperedgeNotLive(Hyperedge(word)),
            5 => Refusal::SameMembers(Hyperedge(word)),
            6 => Refusal::TooManyMembers(self.detail),
            7 => Refusal::Full,
            8 => Refusal::NumbersSpent,
            9 => Refusal::ClosedWalk,
            10 => Refusal::TooFewHyperedges,
            11 => Refusal::NoRoom(self.detail),
            12 => Refusal::BadText(self.detail),
            13 => Refusal::SameVertex(Vertex(word)),
            14 => Refusal::SideBySide(Hyperedge(word)),
            15 => Refusal::BadRecord(self.detail),
            17 => Refusal::NotReviewed(Vertex(word)),
            18 => Refusal::UpstreamHeld(Vertex(word)),
            19 => Refusal::BadOrder(self.detail),
            20 => Refusal::EqualNeighbours(Vertex(word)),
            other => unreachable!("answer number {other}"),
        })
    }
}

mod c {
    use super::{Hyperedge, Reply, Vertex, Withdrawal};

    extern "C" {
        pub fn vs_add_vertex(table: *mut u32, table_words: usize, weight: u32) -> Reply;
        pub fn vs_add_hyperedge(table: *mut u32, table_words: usize, members: *const u32, count: usize, weight: u32) -> Reply;
        pub fn vs_update_hyperedge_vertices(
            table: *mut u32,
            table_words: usize,
            hyperedge: Hyperedge,
            members: *const u32,
            count: usize,
        ) -> Reply;
        pub fn vs_remove_vertex(table: *mut u32, table_words: usize, vertex: Vertex) -> Reply;
        pub fn vs_merge_vertices(table: *mut u32, table_words: usize, v: Vertex, w: Vertex) -> Reply;
        pub fn vs_remove_hyperedge(table: *mut u32, table_words: usize, hyperedge: Hyperedge) -> Reply;
        pub fn vs_withdraw_tray(table: *mut u32, table_words: usize, records: *const Withdrawal, count: usize) -> Reply;
        pub fn vs_clear(table: *mut u32, table_words: usize) -> Reply;
        pub fn vs_is_empty(table: *const u32, table_words: usize) -> Reply;
        pub fn vs_get_adjacent_vertices_from(
            table: *const u32,
            table_words: usize,
            vertex: Vertex,
            out: *mut u32,
            out_words: usize,
        ) -> Reply;
        pub fn vs_get_adjacent_vertices_to(
            table: *const u32,
            table_words: usize,
            vertex: Vertex,
            out: *mut u32,
            out_words: usize,
        ) -> Reply;
        pub fn vs_get_full_adjacent_vertices_from(
            table: *const u32,
            table_words: usize,
            vertex: Vertex,
            out: *mut u32,
            out_words: usize,
        ) -> Reply;
        pub fn vs_get_full_adjacent_vertices_to(
            table: *const u32,
            table_words: usize,
            vertex: Vertex,
            out: *mut u32,
            out_words: usize,
        ) -> Reply;
        pub fn vs_get_vertex_degree_in(table: *const u32, table_words: usize, vertex: Vertex) -> Reply;
        pub fn vs_get_vertex_degree_out(table: *const u32, table_words: usize, vertex: Vertex) -> Reply;
        pub fn vs_get_hyperedges_connecting(
            table: *const u32,
            table_words: usize,
            from: Vertex,
            to: Vertex,
            out: *mut u32,
            out_words: usize,
        ) -> Reply;
        pub fn vs_get_hyperedges_intersections(
            table: *const u32,
            table_words: usize,
            hyperedges: *const u32,
            count: usize,
            out: *mut u32,
            out_words: usize,
        ) -> Reply;
        pub fn vs_find_hyperedges_by_weight(
            table: *const u32,
            table_words: usize,
            weight: u32,
            out: *mut u32,
            out_words: usize,
        ) -> Reply;
        pub fn vs_get_full_vertex_hyperedges(
            table: *const u32,
            table_words: usize,
            vertex: Vertex,
            out: *mut u32,
            out_words: usize,
        ) -> Reply;
        pub fn vs_contains_vertex(table: *const u32, table_words: usize, weight: u32) -> Reply;
        pub fn vs_get_vertex_neighborhood(
            table: *const u32,
            table_words: usize,
            vertex: Vertex,
            out: *mut u32,
            out_words: usize,
        ) -> Reply;
        pub fn vs_get_vertex_index(table: *const u32, table_words: usize, weight: u32, out: *mut u32, out_words: usize) -> Reply;
        pub fn vs_get_vertex_weight(table: *const u32, table_words: usize, vertex: Vertex) -> Reply;
        pub fn vs_get_hyperedge_weight(table: *const u32, table_words: usize, hyperedge: Hyperedge) -> Reply;
        pub fn vs_get_hyperedge_vertices(
            table: *const u32,
            table_words: usize,
            hyperedge: Hyperedge,
            out: *mut u32,
            out_words: usize,
        ) -> Reply;
        pub fn vs_get_vertices(table: *const u32, table_words: usize, out: *mut u32, out_words: usize) -> Reply;
        pub fn vs_get_hyperedges(table: *const u32, table_words: usize, out: *mut u32, out_words: usize) -> Reply;
        pub fn vs_get_bfs(table: *const u32, table_words: usize, vertex: Vertex, out: *mut u32, out_words: usize) -> Reply;
        pub fn vs_get_dfs(table: *const u32, table_words: usize, vertex: Vertex, out: *mut u32, out_words: usize) -> Reply;
        pub fn vs_is_reachable(table: *const u32, table_words: usize, from: Vertex, to: Vertex) -> Reply;
        pub fn vs_get_upstream_vertices(
            table: *const u32,
            table_words: usize,
            vertex: Vertex,
            out: *mut u32,
            out_words: usize,
        ) -> Reply;
        pub fn vs_get_downstream_vertices(
            table: *const u32,
            table_words: usize,
            vertex: Vertex,
            out: *mut u32,
            out_words: usize,
        ) -> Reply;
        pub fn vs_is_connected(table: *const u32, table_words: usize) -> Reply;
        pub fn vs_is_acyclic(table: *const u32, table_words: usize) -> Reply;
        pub fn vs_get_transitive_closure(table: *const u32, table_words: usize, out: *mut u32, out_words: usize) -> Reply;
        pub fn vs_topological_sort(table: *const u32, table_words: usize, out: *mut u32, out_words: usize) -> Reply;
        pub fn vs_strongly_connected_components(table: *const u32, table_words: usize, out: *mut u32, out_words: usize) -> Reply;
        pub fn vs_connected_components(table: *const u32, table_words: usize, out: *mut u32, out_words: usize) -> Reply;
        pub fn vs_get_orphan_vertices(table: *const u32, table_words: usize, out: *mut u32, out_words: usize) -> Reply;
        pub fn vs_get_orphan_hyperedges(table: *const u32, table_words: usize, out: *mut u32, out_words: usize) -> Reply;
        pub fn vs_get_endpoints(table: *const u32, table_words: usize, out: *mut u32, out_words: usize) -> Reply;
        pub fn vs_get_inclusions(table: *const u32, table_words: usize, out: *mut u32, out_words: usize) -> Reply;
        pub fn vs_find_cut_vertices(table: *const u32, table_words: usize, out: *mut u32, out_words: usize) -> Reply;
        pub fn vs_get_nestedness_profile(table: *const u32, table_words: usize, out: *mut u32, out_words: usize) -> Reply;
        pub fn vs_is_k_uniform(table: *const u32, table_words: usize, k: usize) -> Reply;
        pub fn vs_get_dijkstra_connections_with_cost(
            table: *const u32,
            table_words: usize,
            from: Vertex,
            to: Vertex,
            out: *mut u32,
            out_words: usize,
        ) -> Reply;
        pub fn vs_get_dijkstra_from(
            table: *const u32,
            table_words: usize,
            from: Vertex,
            out: *mut u32,
            out_words: usize,
        ) -> Reply;
        pub fn vs_random_walk(
            table: *const u32,
            table_words: usize,
            start: Vertex,
            steps: usize,
            seed: u64,
            out: *mut u32,
            out_words: usize,
        ) -> Reply;
        pub fn vs_write_frames(table: *const u32, table_words: usize, text: *mut u8, text_bytes: usize) -> Reply;
        pub fn vs_read_frames(table: *mut u32, table_words: usize, text: *const u8, text_bytes: usize) -> Reply;
        pub fn vs_desk_add_vertex(
            table: *mut u32,
            table_words: usize,
            states: *mut u32,
            states_words: usize,
            weight: u32,
        ) -> Reply;
        pub fn vs_desk_add_hyperedge(
            table: *mut u32,
            table_words: usize,
            states: *mut u32,
            states_words: usize,
            members: *const u32,
            count: usize,
            weight: u32,
        ) -> Reply;
        pub fn vs_desk_update_hyperedge_vertices(
            table: *mut u32,
            table_words: usize,
            states: *mut u32,
            states_words: usize,
            hyperedge: Hyperedge,
            members: *const u32,
            count: usize,
        ) -> Reply;
        pub fn vs_desk_remove_vertex(
            table: *mut u32,
            table_words: usize,
            states: *mut u32,
            states_words: usize,
            vertex: Vertex,
        ) -> Reply;
        pub fn vs_desk_remove_hyperedge(
            table: *mut u32,
            table_words: usize,
            states: *mut u32,
            states_words: usize,
            hyperedge: Hyperedge,
        ) -> Reply;
        pub fn vs_desk_merge_vertices(
            table: *mut u32,
            table_words: usize,
            states: *mut u32,
            states_words: usize,
            v: Vertex,
            w: Vertex,
        ) -> Reply;
        pub fn vs_desk_withdraw_tray(
            table: *mut u32,
            table_words: usize,
            states: *mut u32,
            states_words: usize,
            records: *const Withdrawal,
            count: usize,
        ) -> Reply;
        pub fn vs_desk_clear(table: *mut u32, table_words: usize, states: *mut u32, states_words: usize) -> Reply;
        pub fn vs_desk_read_frames(
            table: *mut u32,
            table_words: usize,
            states: *mut u32,
            states_words: usize,
            text: *const u8,
            text_bytes: usize,
        ) -> Reply;
        pub fn vs_desk_review(
            table: *const u32,
            table_words: usize,
            states: *mut u32,
            states_words: usize,
            vertex: Vertex,
        ) -> Reply;
        pub fn vs_desk_release(
            table: *const u32,
            table_words: usize,
            states: *mut u32,
            states_words: usize,
            vertex: Vertex,
        ) -> Reply;
        pub fn vs_desk_accept_order(
            table: *const u32,
            table_words: usize,
            states: *const u32,
            states_words: usize,
            order: *const u32,
            count: usize,
        ) -> Reply;
        pub fn vs_desk_state(
            table: *const u32,
            table_words: usize,
            states: *const u32,
            states_words: usize,
            vertex: Vertex,
        ) -> Reply;
        pub fn vs_desk_list(
            table: *const u32,
            table_words: usize,
            states: *const u32,
            states_words: usize,
            state: u32,
            out: *mut u32,
            out_words: usize,
        ) -> Reply;
        pub fn vs_desk_releasable(
            table: *const u32,
            table_words: usize,
            states: *const u32,
            states_words: usize,
            out: *mut u32,
            out_words: usize,
        ) -> Reply;
    }
}

/// A new vertex; its number.
pub fn add_vertex(table: &mut [u32], weight: u32) -> Answer {
    // The pointers and counts are those of slices that live and do not overlap for the time of the call.
    unsafe { c::vs_add_vertex(table.as_mut_ptr(), table.len(), weight) }.answer()
}

/// A new hyperedge, or the identical one that is live; its number. Refused where a member equals the one after it.
pub fn add_hyperedge(table: &mut [u32], members: &[u32], weight: u32) -> Answer {
    // The pointers and counts are those of slices that live and do not overlap for the time of the call.
    unsafe { c::vs_add_hyperedge(table.as_mut_ptr(), table.len(), members.as_ptr(), members.len(), weight) }.answer()
}

/// Another member list; the weight is kept. Refused where a member equals the one after it.
pub fn update_hyperedge_vertices(table: &mut [u32], hyperedge: Hyperedge, members: &[u32]) -> Answer {
    // The pointers and counts are those of slices that live and do not overlap for the time of the call.
    unsafe { c::vs_update_hyperedge_vertices(table.as_mut_ptr(), table.len(), hyperedge, members.as_ptr(), members.len()) }
        .answer()
}

/// The vertex goes out of every list; lists that held it alone go with it.
pub fn remove_vertex(table: &mut [u32], vertex: Vertex) -> Answer {
    // The pointers and counts are those of slices that live and do not overlap for the time of the call.
    unsafe { c::vs_remove_vertex(table.as_mut_ptr(), table.len(), vertex) }.answer()
}

/// Each `w` in every list becomes `v`, then `w` is removed. Refused where they stand side by side.
pub fn merge_vertices(table: &mut [u32], v: Vertex, w: Vertex) -> Answer {
    // The pointers and counts are those of slices that live and do not overlap for the time of the call.
    unsafe { c::vs_merge_vertices(table.as_mut_ptr(), table.len(), v, w) }.answer()
}

/// The hyperedge goes.
pub fn remove_hyperedge(table: &mut [u32], hyperedge: Hyperedge) -> Answer {
    // The pointers and counts are those of slices that live and do not overlap for the time of the call.
    unsafe { c::vs_remove_hyperedge(table.as_mut_ptr(), table.len(), hyperedge) }.answer()
}

/// Every record is withdrawn, or none: each is judged against the table as it stood at the start. A record may be repeated, and a
/// hyperedge whose members are all withdrawn goes with them, named or not.
pub fn withdraw_tray(table: &mut [u32], records: &[Withdrawal]) -> Answer {
    // The pointers and counts are those of slices that live and do not overlap for the time of the call.
    unsafe { c::vs_withdraw_tray(table.as_mut_ptr(), table.len(), records.as_ptr(), records.len()) }.answer()
}

/// Every word becomes 0.
pub fn clear(table: &mut [u32]) -> Answer {
    // The pointers and counts are those of slices that live and do not overlap for the time of the call.
    unsafe { c::vs_clear(table.as_mut_ptr(), table.len()) }.answer()
}

/// 1 where no vertex is live, else 0.
pub fn is_empty(table: &[u32]) -> Answer {
    // The pointers and counts are those of slices that live and do not overlap for the time of the call.
    unsafe { c::vs_is_empty(table.as_ptr(), table.len()) }.answer()
}

/// The vertices to which a step leads from the vertex.
pub fn get_adjacent_vertices_from(table: &[u32], vertex: Vertex, out: &mut [u32]) -> Answer {
    // The pointers and counts are those of slices that live and do not overlap for the time of the call.
    unsafe { c::vs_get_adjacent_vertices_from(table.as_ptr(), table.len(), vertex, out.as_mut_ptr(), out.len()) }.answer()
}

/// The vertices from which a step leads to the vertex.
pub fn get_adjacent_vertices_to(table: &[u32], vertex: Vertex, out: &mut [u32]) -> Answer {
    // The pointers and counts are those of slices that live and do not overlap for the time of the call.
    unsafe { c::vs_get_adjacent_vertices_to(table.as_ptr(), table.len(), vertex, out.as_mut_ptr(), out.len()) }.answer()
}

/// The same as vertex, count, hyperedges.
pub fn get_full_adjacent_vertices_from(table: &[u32], vertex: Vertex, out: &mut [u32]) -> Answer {
    // The pointers and counts are those of slices that live and do not overlap for the time of the call.
    unsafe { c::vs_get_full_adjacent_vertices_from(table.as_ptr(), table.len(), vertex, out.as_mut_ptr(), out.len()) }.answer()
}

/// The same as vertex, count, hyperedges.
pub fn get_full_adjacent_vertices_to(table: &[u32], vertex: Vertex, out: &mut [u32]) -> Answer {
    // The pointers and counts are those of slices that live and do not overlap for the time of the call.
    unsafe { c::vs_get_full_adjacent_vertices_to(table.as_ptr(), table.len(), vertex, out.as_mut_ptr(), out.len()) }.answer()
}

/// How many places step to the vertex.
pub fn get_vertex_degree_in(table: &[u32], vertex: Vertex) -> Answer {
    // The pointers and counts are those of slices that live and do not overlap for the time of the call.
    unsafe { c::vs_get_vertex_degree_in(table.as_ptr(), table.len(), vertex) }.answer()
}

/// How many places step from the vertex.
pub fn get_vertex_degree_out(table: &[u32], vertex: Vertex) -> Answer {
    // The pointers and counts are those of slices that live and do not overlap for the time of the call.
    unsafe { c::vs_get_vertex_degree_out(table.as_ptr(), table.len(), vertex) }.answer()
}

/// The hyperedges that step from one vertex to the other, one for each place.
pub fn get_hyperedges_connecting(table: &[u32], from: Vertex, to: Vertex, out: &mut [u32]) -> Answer {
    // The pointers and counts are those of slices that live and do not overlap for the time of the call.
    unsafe { c::vs_get_hyperedges_connecting(table.as_ptr(), table.len(), from, to, out.as_mut_ptr(), out.len()) }.answer()
}

/// The vertices that every one of the hyperedges lists.
pub fn get_hyperedges_intersections(table: &[u32], hyperedges: &[u32], out: &mut [u32]) -> Answer {
    // The pointers and counts are those of slices that live and do not overlap for the time of the call.
    unsafe {
        c::vs_get_hyperedges_intersections(
            table.as_ptr(),
            table.len(),
            hyperedges.as_ptr(),
            hyperedges.len(),
            out.as_mut_ptr(),
            out.len(),
        )
    }
    .answer()
}

/// The hyperedges of the weight.
pub fn find_hyperedges_by_weight(table: &[u32], weight: u32, out: &mut [u32]) -> Answer {
    // The pointers and counts are those of slices that live and do not overlap for the time of the call.
    unsafe { c::vs_find_hyperedges_by_weight(table.as_ptr(), table.len(), weight, out.as_mut_ptr(), out.len()) }.answer()
}

/// The lists that hold the vertex, each as length and members.
pub fn get_full_vertex_hyperedges(table: &[u32], vertex: Vertex, out: &mut [u32]) -> Answer {
    // The pointers and counts are those of slices that live and do not overlap for the time of the call.
    unsafe { c::vs_get_full_vertex_hyperedges(table.as_ptr(), table.len(), vertex, out.as_mut_ptr(), out.len()) }.answer()
}

/// 1 where a vertex of the weight is live, else 0.
pub fn contains_vertex(table: &[u32], weight: u32) -> Answer {
    // The pointers and counts are those of slices that live and do not overlap for the time of the call.
    unsafe { c::vs_contains_vertex(table.as_ptr(), table.len(), weight) }.answer()
}

/// The other members of the vertex's hyperedges.
pub fn get_vertex_neighborhood(table: &[u32], vertex: Vertex, out: &mut [u32]) -> Answer {
    // The pointers and counts are those of slices that live and do not overlap for the time of the call.
    unsafe { c::vs_get_vertex_neighborhood(table.as_ptr(), table.len(), vertex, out.as_mut_ptr(), out.len()) }.answer()
}

/// The vertices of the weight.
pub fn get_vertex_index(table: &[u32], weight: u32, out: &mut [u32]) -> Answer {
    // The pointers and counts are those of slices that live and do not overlap for the time of the call.
    unsafe { c::vs_get_vertex_index(table.as_ptr(), table.len(), weight, out.as_mut_ptr(), out.len()) }.answer()
}

/// The weight of the vertex.
pub fn get_vertex_weight(table: &[u32], vertex: Vertex) -> Answer {
    // The pointers and counts are those of slices that live and do not overlap for the time of the call.
    unsafe { c::vs_get_vertex_weight(table.as_ptr(), table.len(), vertex) }.answer()
}

/// The weight of the hyperedge.
pub fn get_hyperedge_weight(table: &[u32], hyperedge: Hyperedge) -> Answer {
    // The pointers and counts are those of slices that live and do not overlap for the time of the call.
    unsafe { c::vs_get_hyperedge_weight(table.as_ptr(), table.len(), hyperedge) }.answer()
}

/// The members of the hyperedge, in their order.
pub fn get_hyperedge_vertices(table: &[u32], hyperedge: Hyperedge, out: &mut [u32]) -> Answer {
    // The pointers and counts are those of slices that live and do not overlap for the time of the call.
    unsafe { c::vs_get_hyperedge_vertices(table.as_ptr(), table.len(), hyperedge, out.as_mut_ptr(), out.len()) }.answer()
}

/// Every live vertex, ascending.
pub fn get_vertices(table: &[u32], out: &mut [u32]) -> Answer {
    // The pointers and counts are those of slices that live and do not overlap for the time of the call.
    unsafe { c::vs_get_vertices(table.as_ptr(), table.len(), out.as_mut_ptr(), out.len()) }.answer()
}

/// Every live hyperedge, ascending.
pub fn get_hyperedges(table: &[u32], out: &mut [u32]) -> Answer {
    // The pointers and counts are those of slices that live and do not overlap for the time of the call.
    unsafe { c::vs_get_hyperedges(table.as_ptr(), table.len(), out.as_mut_ptr(), out.len()) }.answer()
}

/// What is reached from the vertex, breadth first.
pub fn get_bfs(table: &[u32], vertex: Vertex, out: &mut [u32]) -> Answer {
    // The pointers and counts are those of slices that live and do not overlap for the time of the call.
    unsafe { c::vs_get_bfs(table.as_ptr(), table.len(), vertex, out.as_mut_ptr(), out.len()) }.answer()
}

/// What is reached from the vertex, depth first in preorder.
pub fn get_dfs(table: &[u32], vertex: Vertex, out: &mut [u32]) -> Answer {
    // The pointers and counts are those of slices that live and do not overlap for the time of the call.
    unsafe { c::vs_get_dfs(table.as_ptr(), table.len(), vertex, out.as_mut_ptr(), out.len()) }.answer()
}

/// 1 where steps lead from one vertex to the other, else 0.
pub fn is_reachable(table: &[u32], from: Vertex, to: Vertex) -> Answer {
    // The pointers and counts are those of slices that live and do not overlap for the time of the call.
    unsafe { c::vs_is_reachable(table.as_ptr(), table.len(), from, to) }.answer()
}

/// Every other vertex from which steps lead to the vertex, ascending.
pub fn get_upstream_vertices(table: &[u32], vertex: Vertex, out: &mut [u32]) -> Answer {
    // The pointers and counts are those of slices that live and do not overlap for the time of the call.
    unsafe { c::vs_get_upstream_vertices(table.as_ptr(), table.len(), vertex, out.as_mut_ptr(), out.len()) }.answer()
}

/// Every other vertex to which steps lead from the vertex, ascending.
pub fn get_downstream_vertices(table: &[u32], vertex: Vertex, out: &mut [u32]) -> Answer {
    // The pointers and counts are those of slices that live and do not overlap for the time of the call.
    unsafe { c::vs_get_downstream_vertices(table.as_ptr(), table.len(), vertex, out.as_mut_ptr(), out.len()) }.answer()
}

/// 1 where the table is empty or all vertices are linked, else 0.
pub fn is_connected(table: &[u32]) -> Answer {
    // The pointers and counts are those of slices that live and do not overlap for the time of the call.
    unsafe { c::vs_is_connected(table.as_ptr(), table.len()) }.answer()
}

/// 1 where the steps form no closed walk, else 0.
pub fn is_acyclic(table: &[u32]) -> Answer {
    // The pointers and counts are those of slices that live and do not overlap for the time of the call.
    unsafe { c::vs_is_acyclic(table.as_ptr(), table.len()) }.answer()
}

/// The pairs x, y with x not y and y reached from x.
pub fn get_transitive_closure(table: &[u32], out: &mut [u32]) -> Answer {
    // The pointers and counts are those of slices that live and do not overlap for the time of the call.
    unsafe { c::vs_get_transitive_closure(table.as_ptr(), table.len(), out.as_mut_ptr(), out.len()) }.answer()
}

/// The smallest order in which every step goes forward.
pub fn topological_sort(table: &[u32], out: &mut [u32]) -> Answer {
    // The pointers and counts are those of slices that live and do not overlap for the time of the call.
    unsafe { c::vs_topological_sort(table.as_ptr(), table.len(), out.as_mut_ptr(), out.len()) }.answer()
}

/// The components by mutual reachability, each as length and members, ascending; ordered by latest finished member, the latest first.
pub fn strongly_connected_components(table: &[u32], out: &mut [u32]) -> Answer {
    // The pointers and counts are those of slices that live and do not overlap for the time of the call.
    unsafe { c::vs_strongly_connected_components(table.as_ptr(), table.len(), out.as_mut_ptr(), out.len()) }.answer()
}

/// The components without direction, each as length and members, ascending; ordered by smallest member.
pub fn connected_components(table: &[u32], out: &mut [u32]) -> Answer {
    // The pointers and counts are those of slices that live and do not overlap for the time of the call.
    unsafe { c::vs_connected_components(table.as_ptr(), table.len(), out.as_mut_ptr(), out.len()) }.answer()
}

/// The vertices in no hyperedge.
pub fn get_orphan_vertices(table: &[u32], out: &mut [u32]) -> Answer {
    // The pointers and counts are those of slices that live and do not overlap for the time of the call.
    unsafe { c::vs_get_orphan_vertices(table.as_ptr(), table.len(), out.as_mut_ptr(), out.len()) }.answer()
}

/// The hyperedges without a member: none.
pub fn get_orphan_hyperedges(table: &[u32], out: &mut [u32]) -> Answer {
    // The pointers and counts are those of slices that live and do not overlap for the time of the call.
    unsafe { c::vs_get_orphan_hyperedges(table.as_ptr(), table.len(), out.as_mut_ptr(), out.len()) }.answer()
}

/// Count, vertices without a step in; count, vertices without a step out.
pub fn get_endpoints(table: &[u32], out: &mut [u32]) -> Answer {
    // The pointers and counts are those of slices that live and do not overlap for the time of the call.
    unsafe { c::vs_get_endpoints(table.as_ptr(), table.len(), out.as_mut_ptr(), out.len()) }.answer()
}

/// The pairs of hyperedges of which the first's set of members is strictly within the second's.
pub fn get_inclusions(table: &[u32], out: &mut [u32]) -> Answer {
    // The pointers and counts are those of slices that live and do not overlap for the time of the call.
    unsafe { c::vs_get_inclusions(table.as_ptr(), table.len(), out.as_mut_ptr(), out.len()) }.answer()
}

/// The vertices without which two others are no longer linked.
pub fn find_cut_vertices(table: &[u32], out: &mut [u32]) -> Answer {
    // The pointers and counts are those of slices that live and do not overlap for the time of the call.
    unsafe { c::vs_find_cut_vertices(table.as_ptr(), table.len(), out.as_mut_ptr(), out.len()) }.answer()
}

/// Rows of size, included, total.
pub fn get_nestedness_profile(table: &[u32], out: &mut [u32]) -> Answer {
    // The pointers and counts are those of slices that live and do not overlap for the time of the call.
    unsafe { c::vs_get_nestedness_profile(table.as_ptr(), table.len(), out.as_mut_ptr(), out.len()) }.answer()
}

/// 1 where every member list has k places, else 0.
pub fn is_k_uniform(table: &[u32], k: usize) -> Answer {
    // The pointers and counts are those of slices that live and do not overlap for the time of the call.
    unsafe { c::vs_is_k_uniform(table.as_ptr(), table.len(), k) }.answer()
}

/// Cost (low word, high word), count, entries of vertex and hyperedge.
pub fn get_dijkstra_connections_with_cost(table: &[u32], from: Vertex, to: Vertex, out: &mut [u32]) -> Answer {
    // The pointers and counts are those of slices that live and do not overlap for the time of the call.
    unsafe { c::vs_get_dijkstra_connections_with_cost(table.as_ptr(), table.len(), from, to, out.as_mut_ptr(), out.len()) }
        .answer()
}

/// Each vertex that is reached, and its cost (low word, high word).
pub fn get_dijkstra_from(table: &[u32], from: Vertex, out: &mut [u32]) -> Answer {
    // The pointers and counts are those of slices that live and do not overlap for the time of the call.
    unsafe { c::vs_get_dijkstra_from(table.as_ptr(), table.len(), from, out.as_mut_ptr(), out.len()) }.answer()
}

/// The start, and a vertex for each step.
pub fn random_walk(table: &[u32], start: Vertex, steps: usize, seed: u64, out: &mut [u32]) -> Answer {
    // The pointers and counts are those of slices that live and do not overlap for the time of the call.
    unsafe { c::vs_random_walk(table.as_ptr(), table.len(), start, steps, seed, out.as_mut_ptr(), out.len()) }.answer()
}

/// The table as text.
pub fn write_frames(table: &[u32], text: &mut [u8]) -> Answer {
    // The pointers and counts are those of slices that live and do not overlap for the time of the call.
    unsafe { c::vs_write_frames(table.as_ptr(), table.len(), text.as_mut_ptr(), text.len()) }.answer()
}

/// The table that the text was written from; on a refusal the table stays as it was.
pub fn read_frames(table: &mut [u32], text: &[u8]) -> Answer {
    // The pointers and counts are those of slices that live and do not overlap for the time of the call.
    unsafe { c::vs_read_frames(table.as_mut_ptr(), table.len(), text.as_ptr(), text.len()) }.answer()
}

/// A new vertex; its number. It waits.
pub fn desk_add_vertex(table: &mut [u32], states: &mut [u32], weight: u32) -> Answer {
    // The pointers and counts are those of slices that live and do not overlap for the time of the call.
    unsafe { c::vs_desk_add_vertex(table.as_mut_ptr(), table.len(), states.as_mut_ptr(), states.len(), weight) }.answer()
}

/// [`add_hyperedge`] through the desk: every vertex keeps its state.
pub fn desk_add_hyperedge(table: &mut [u32], states: &mut [u32], members: &[u32], weight: u32) -> Answer {
    // The pointers and counts are those of slices that live and do not overlap for the time of the call.
    unsafe {
        c::vs_desk_add_hyperedge(
            table.as_mut_ptr(),
            table.len(),
            states.as_mut_ptr(),
            states.len(),
            members.as_ptr(),
            members.len(),
            weight,
        )
    }
    .answer()
}

/// [`update_hyperedge_vertices`] through the desk: every vertex keeps its state.
pub fn desk_update_hyperedge_vertices(table: &mut [u32], states: &mut [u32], hyperedge: Hyperedge, members: &[u32]) -> Answer {
    // The pointers and counts are those of slices that live and do not overlap for the time of the call.
    unsafe {
        c::vs_desk_update_hyperedge_vertices(
            table.as_mut_ptr(),
            table.len(),
            states.as_mut_ptr(),
            states.len(),
            hyperedge,
            members.as_ptr(),
            members.len(),
        )
    }
    .answer()
}

/// [`remove_vertex`] through the desk: it loses its state, and every other vertex keeps its own.
pub fn desk_remove_vertex(table: &mut [u32], states: &mut [u32], vertex: Vertex) -> Answer {
    // The pointers and counts are those of slices that live and do not overlap for the time of the call.
    unsafe { c::vs_desk_remove_vertex(table.as_mut_ptr(), table.len(), states.as_mut_ptr(), states.len(), vertex) }.answer()
}

/// [`remove_hyperedge`] through the desk: every vertex keeps its state.
pub fn desk_remove_hyperedge(table: &mut [u32], states: &mut [u32], hyperedge: Hyperedge) -> Answer {
    // The pointers and counts are those of slices that live and do not overlap for the time of the call.
    unsafe { c::vs_desk_remove_hyperedge(table.as_mut_ptr(), table.len(), states.as_mut_ptr(), states.len(), hyperedge) }.answer()
}

/// [`merge_vertices`] through the desk: `w` loses its state, and `v` keeps its own, as every other vertex.
pub fn desk_merge_vertices(table: &mut [u32], states: &mut [u32], v: Vertex, w: Vertex) -> Answer {
    // The pointers and counts are those of slices that live and do not overlap for the time of the call.
    unsafe { c::vs_desk_merge_vertices(table.as_mut_ptr(), table.len(), states.as_mut_ptr(), states.len(), v, w) }.answer()
}

/// [`withdraw_tray`] through the desk: the vertices withdrawn lose their state, and the others keep their own.
pub fn desk_withdraw_tray(table: &mut [u32], states: &mut [u32], records: &[Withdrawal]) -> Answer {
    // The pointers and counts are those of slices that live and do not overlap for the time of the call.
    unsafe {
        c::vs_desk_withdraw_tray(
            table.as_mut_ptr(),
            table.len(),
            states.as_mut_ptr(),
            states.len(),
            records.as_ptr(),
            records.len(),
        )
    }
    .answer()
}

/// Every word of table and states becomes 0; only lengths are judged.
pub fn desk_clear(table: &mut [u32], states: &mut [u32]) -> Answer {
    // The pointers and counts are those of slices that live and do not overlap for the time of the call.
    unsafe { c::vs_desk_clear(table.as_mut_ptr(), table.len(), states.as_mut_ptr(), states.len()) }.answer()
}

/// The table that the text was written from, and every state 0; on a refusal both stay as they were.
pub fn desk_read_frames(table: &mut [u32], states: &mut [u32], text: &[u8]) -> Answer {
    // The pointers and counts are those of slices that live and do not overlap for the time of the call.
    unsafe {
        c::vs_desk_read_frames(
            table.as_mut_ptr(),
            table.len(),
            states.as_mut_ptr(),
            states.len(),
            text.as_ptr(),
            text.len(),
        )
    }
    .answer()
}

/// A waiting vertex becomes reviewed; a reviewed or released one stays what it is.
pub fn desk_review(table: &[u32], states: &mut [u32], vertex: Vertex) -> Answer {
    // The pointers and counts are those of slices that live and do not overlap for the time of the call.
    unsafe { c::vs_desk_review(table.as_ptr(), table.len(), states.as_mut_ptr(), states.len(), vertex) }.answer()
}

/// The vertex becomes released, or is already. Refused where it is not reviewed, or a vertex with a step into it is not released.
pub fn desk_release(table: &[u32], states: &mut [u32], vertex: Vertex) -> Answer {
    // The pointers and counts are those of slices that live and do not overlap for the time of the call.
    unsafe { c::vs_desk_release(table.as_ptr(), table.len(), states.as_mut_ptr(), states.len(), vertex) }.answer()
}

/// Whether the order lists every live vertex once and every step goes forward; the first place at fault where not.
pub fn desk_accept_order(table: &[u32], states: &[u32], order: &[u32]) -> Answer {
    // The pointers and counts are those of slices that live and do not overlap for the time of the call.
    unsafe {
        c::vs_desk_accept_order(
            table.as_ptr(),
            table.len(),
            states.as_ptr(),
            states.len(),
            order.as_ptr(),
            order.len(),
        )
    }
    .answer()
}

/// [`WAITING`], [`REVIEWED`] or [`RELEASED`].
pub fn desk_state(table: &[u32], states: &[u32], vertex: Vertex) -> Answer {
    // The pointers and counts are those of slices that live and do not overlap for the time of the call.
    unsafe { c::vs_desk_state(table.as_ptr(), table.len(), states.as_ptr(), states.len(), vertex) }.answer()
}

/// The vertices in the state, ascending.
pub fn desk_list(table: &[u32], states: &[u32], state: u32, out: &mut [u32]) -> Answer {
    // The pointers and counts are those of slices that live and do not overlap for the time of the call.
    unsafe {
        c::vs_desk_list(
            table.as_ptr(),
            table.len(),
            states.as_ptr(),
            states.len(),
            state,
            out.as_mut_ptr(),
            out.len(),
        )
    }
    .answer()
}

/// The vertices that a release would release now, ascending.
pub fn desk_releasable(table: &[u32], states: &[u32], out: &mut [u32]) -> Answer {
    // The pointers and counts are those of slices that live and do not overlap for the time of the call.
    unsafe {
        c::vs_desk_releasable(
            table.as_ptr(),
            table.len(),
            states.as_ptr(),
            states.len(),
            out.as_mut_ptr(),
            out.len(),
        )
    }
    .answer()
}
