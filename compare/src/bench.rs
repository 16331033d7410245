//! Times every function beside the Rust's, on the same tables. A time is no test: the table is printed and nothing is judged.
use std::hint::black_box;
use std::time::Duration;

use hypergraph::HypergraphQuery;
use vaultsorrel::{self as vs, Hyperedge, Vertex, Withdrawal};

use crate::calls::{Both, Edit};
use crate::draw::Draw;
use crate::oracle::{self, Graph};

/// What the rounds of one function may take together, how many there are at least and at most, and what a round takes at least.
const SPENT: Duration = Duration::from_millis(300);
const FEWEST: usize = 7;
const MOST: usize = 301;
const ROUND: Duration = Duration::from_micros(100);

#[repr(C)]
struct Timespec {
    seconds: i64,
    nanoseconds: i64,
}

const THREAD_TIME: i32 = 3;

unsafe extern "C" {
    fn clock_gettime(clock: i32, time: *mut Timespec) -> i32;
}

/// The processor time of this thread: what other programs take meanwhile does not count.
fn now() -> Duration {
    let mut time = Timespec {
        seconds: 0,
        nanoseconds: 0,
    };
    // The pointer is to a value of the C library's form on a 64-bit system.
    unsafe { clock_gettime(THREAD_TIME, &mut time) };
    Duration::new(time.seconds as u64, time.nanoseconds as u32)
}

/// The time of so many calls, without what reading the clock takes.
fn timed<T>(calls: u32, clock: Duration, mut call: impl FnMut() -> T) -> Duration {
    let began = now();
    for _ in 0..calls {
        black_box(call());
    }
    (now() - began).saturating_sub(clock)
}

/// What reading the clock takes.
fn clock() -> Duration {
    let mut times: Vec<_> = (0..1001).map(|_| timed(0, Duration::ZERO, || ())).collect();
    times.sort_unstable();
    times[500]
}

/// The sizes of a table, how far its vertex numbers may lie apart, and whether its lists ascend.
#[derive(Clone, Copy)]
struct Kind {
    name: &'static str,
    vertices: u32,
    hyperedges: u32,
    members: usize,
    gap: u32,
    ascending: bool,
}

const FULL: Kind = Kind {
    name: "full",
    vertices: 256,
    hyperedges: 192,
    members: 32,
    gap: 1,
    ascending: false,
};

const KINDS: [Kind; 4] = [
    FULL,
    Kind {
        name: "acyclic",
        ascending: true,
        ..FULL
    },
    Kind {
        name: "gaps",
        gap: 1000,
        ..FULL
    },
    Kind {
        name: "small",
        vertices: 8,
        hyperedges: 6,
        members: 4,
        ..FULL
    },
];

/// Both sides with so many vertices and hyperedges of a kind fewer than its own. Between two numbers that lie apart vertices were
/// added and removed.
fn built(kind: Kind, fewer: u32) -> Both {
    let mut draw = Draw::new(1);
    let mut both = Both::new();
    let mut numbers = Vec::new();
    for v in 0..kind.vertices - fewer {
        for _ in 0..draw.below(kind.gap) {
            let number = both.replies(&Edit::AddVertex(0)).0.detail as u32;
            both.replies(&Edit::RemoveVertex(number));
        }
        numbers.push(both.replies(&Edit::AddVertex(7 * v + 3)).0.detail as u32);
    }
    for _ in 0..kind.hyperedges - fewer {
        let list = draw.members(&numbers, kind.members, kind.ascending);
        both.replies(&Edit::AddHyperedge(list, draw.below(1000)));
    }
    both
}

/// The medians of a call here and in the Rust, in microseconds.
#[derive(Clone, Copy)]
struct Medians {
    ours: f64,
    rust: f64,
}

fn median(mut times: Vec<Duration>) -> f64 {
    times.sort_unstable();
    times[times.len() / 2].as_secs_f64() * 1e6
}

/// Rounds of the two sides in turn, after one that warms up; each gives the time of one call.
fn alternate(mut ours: impl FnMut() -> Duration, mut rust: impl FnMut() -> Duration) -> Medians {
    let began = now();
    let (mut of_ours, mut of_rust) = (Vec::new(), Vec::new());
    (ours(), rust());
    while of_ours.len() < FEWEST || (of_ours.len() < MOST && now() - began < SPENT) {
        of_ours.push(ours());
        of_rust.push(rust());
    }
    Medians {
        ours: median(of_ours),
        rust: median(of_rust),
    }
}

/// A round of a query: the mean of as many calls as the first ones showed to be needed.
fn round<T>(clock: Duration, mut call: impl FnMut() -> T) -> impl FnMut() -> Duration {
    let mut calls = 1;
    while timed(calls, clock, &mut call) < ROUND {
        calls *= 2;
    }
    move || timed(calls, clock, &mut call) / calls
}

fn query<A, B>(clock: Duration, ours: impl FnMut() -> A, rust: impl FnMut() -> B) -> Medians {
    alternate(round(clock, ours), round(clock, rust))
}

/// An edit is made once on a fresh copy; making the copy and dropping it is not timed.
fn edit<A, B>(clock: Duration, from: &Both, ours: impl Fn(&mut [u32]) -> A, rust: impl Fn(&mut Graph) -> B) -> Medians {
    alternate(
        || {
            let mut table = from.table.clone();
            timed(1, clock, || ours(&mut table))
        },
        || {
            let mut graph = from.graph.clone();
            timed(1, clock, || rust(&mut graph))
        },
    )
}

/// Every function that both sides have, on tables of the kind; and a tray of each sixth vertex, 40 at most, beside the Rust's removals of them.
fn of_kind(kind: Kind) -> Vec<(&'static str, Medians)> {
    let (all, room) = (built(kind, 0), built(kind, 1));
    let (t, g) = (&all.table[..], &all.graph);
    let out = &mut vec![0; 140_000][..];
    let mut numbers: Vec<u32> = g.vertex_indices().expect("a list").iter().map(|v| v.0 as u32).collect();
    numbers.sort_unstable();
    let (x, y) = (numbers[numbers.len() / 2], numbers[numbers.len() - 1]);
    let (v, w) = (oracle::vertex(x), oracle::vertex(y));
    let beside = [g.get_adjacent_vertices_from(v), g.get_adjacent_vertices_to(v)]
        .map(|list| list.expect("a list"))
        .concat();
    let apart = |z: &&u32| **z != x && !beside.contains(&oracle::vertex(**z));
    let z = *numbers.iter().rev().find(apart).expect("a vertex that stands apart");
    let list = Draw::new(2).members(&numbers[..numbers.len() - 1], kind.members, false);
    let sixth: Vec<u32> = numbers.iter().copied().step_by(6).take(40).collect();
    let tray: Vec<_> = sixth.iter().map(|&v| Withdrawal::vertex(Vertex(v))).collect();
    let (clock, mut rows) = (clock(), Vec::new());
    macro_rules! edits {
        ($($name:ident $from:ident ($($ours:expr),*) ($($rust:expr),*);)*) => {
            $(rows.push((stringify!($name), edit(clock, &$from, |t| vs::$name(t, $($ours),*), |g| g.$name($($rust),*))));)*
        };
    }
    macro_rules! queries {
        ($($name:ident ($($ours:expr),*) ($($rust:expr),*);)*) => {
            $(rows.push((stringify!($name), query(clock, || vs::$name(t, $($ours),*), || g.$name($($rust),*))));)*
        };
    }
    edits! {
        add_vertex room (7) (7);
        add_hyperedge room (&list, 7) (oracle::vertices(&list), 7);
        update_hyperedge_vertices all (Hyperedge(0), &list) (oracle::hyperedge(0), oracle::vertices(&list));
        remove_vertex all (Vertex(x)) (v);
        merge_vertices all (Vertex(x), Vertex(z)) (&[v, oracle::vertex(z)]);
        remove_hyperedge all (Hyperedge(0)) (oracle::hyperedge(0));
        clear all () ();
    }
    let one_by_one = |g: &mut Graph| sixth.iter().try_for_each(|&v| g.remove_vertex(oracle::vertex(v)));
    rows.push((
        "withdraw_tray",
        edit(clock, &all, |t| vs::withdraw_tray(t, &tray), one_by_one),
    ));
    queries! {
        is_empty () ();
        get_adjacent_vertices_from (Vertex(x), out) (v);
        get_adjacent_vertices_to (Vertex(x), out) (v);
        get_full_adjacent_vertices_from (Vertex(x), out) (v);
        get_full_adjacent_vertices_to (Vertex(x), out) (v);
        get_vertex_degree_in (Vertex(x)) (v);
        get_vertex_degree_out (Vertex(x)) (v);
        get_hyperedges_connecting (Vertex(x), Vertex(y), out) (v, w);
        get_hyperedges_intersections (&[0, 1], out) (&[oracle::hyperedge(0), oracle::hyperedge(1)]);
        find_hyperedges_by_weight (500, out) (500);
        get_full_vertex_hyperedges (Vertex(x), out) (v);
        contains_vertex (2) (2);
        get_vertex_neighborhood (Vertex(x), out) (v);
        get_vertex_index (24, out) (24);
        get_bfs (Vertex(x), out) (v);
        get_dfs (Vertex(x), out) (v);
        is_reachable (Vertex(x), Vertex(y)) (v, w);
        is_connected () ();
        is_acyclic () ();
        get_transitive_closure (out) ();
        topological_sort (out) ();
        strongly_connected_components (out) ();
        connected_components (out) ();
        get_orphan_vertices (out) ();
        get_orphan_hyperedges (out) ();
        get_endpoints (out) ();
        get_inclusions (out) ();
        find_cut_vertices (out) ();
        get_nestedness_profile (out) ();
        is_k_uniform (kind.members) (kind.members);
        get_dijkstra_connections_with_cost (Vertex(x), Vertex(y), out) (v, w);
        get_dijkstra_from (Vertex(x), out) (v);
        random_walk (Vertex(x), 4096, 1, out) (v, 4096, 1);
    }
    rows
}

/// Two or three digits, where there are as many.
fn short(x: f64) -> String {
    let digits = [(0.1, 3), (1.0, 2), (100.0, 1)]
        .iter()
        .find(|(below, _)| x < *below)
        .map_or(0, |(_, digits)| *digits);
    format!("{x:.digits$}")
}

/// The machine's load over the last minute, five and fifteen, where the system tells it.
fn load() -> String {
    std::fs::read_to_string("/proc/loadavg").map_or("unknown".into(), |s| s.split(' ').take(3).collect::<Vec<_>>().join(", "))
}

pub fn run() {
    println!("load before: {}", load());
    let columns: Vec<_> = KINDS.into_iter().map(of_kind).collect();
    print!("| Function |");
    for kind in KINDS {
        print!(" {} | Rust | ratio |", kind.name);
    }
    println!("\n|---|{}", "--:|--:|--:|".repeat(KINDS.len()));
    for (row, (name, _)) in columns[0].iter().enumerate() {
        print!("| `{name}` |");
        for column in &columns {
            let Medians { ours, rust } = column[row].1;
            print!(" {} | {} | {} |", short(ours), short(rust), short(rust / ours));
        }
        println!();
    }
    println!("load after: {}", load());
}
