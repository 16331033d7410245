//! Inputs outside the domain on which the two differ: both sides are run and what each says is printed.
use hypergraph::HypergraphQuery;
use vaultsorrel::{Hyperedge, Vertex, Withdrawal};

use crate::calls::{Both, Edit, Query};
use crate::oracle::{self, Reply};

enum Last {
    Edit(Edit),
    Query(Query),
}

fn say(what: &str, ours: &Reply, rust: &Reply) {
    let text = |r: &Reply| match r.words.len() {
        0..=20 => format!("answer {} {} {:?}", r.number, r.detail, r.words),
        n => format!("answer {} {} of {n} words", r.number, r.detail),
    };
    println!("{what}\n  Rust {}\n  here {}", text(rust), text(ours));
}

fn run_one(what: &str, edits: &[Edit], last: Last) {
    let mut both = Both::new();
    for edit in edits {
        both.replies(edit);
    }
    let (ours, rust) = match last {
        Last::Edit(edit) => both.replies(&edit),
        Last::Query(query) => (both.ours(&query), both.rust(&query)),
    };
    say(what, &ours, &rust);
}

fn vertices(n: u32) -> Vec<Edit> {
    (0..n).map(|v| Edit::AddVertex(v + 1)).collect()
}

/// So many vertices, then hyperedges of a list and a weight each, then further edits.
fn table(n: u32, lists: &[(&[u32], u32)], further: &[Edit]) -> Vec<Edit> {
    let lists = lists.iter().map(|(list, weight)| Edit::AddHyperedge(list.to_vec(), *weight));
    vertices(n).into_iter().chain(lists).chain(further.iter().cloned()).collect()
}

/// Vertices in no hyperedge, in the order in which the Rust has them.
fn orphans_in_order() {
    let mut both = Both::new();
    for edit in table(3, &[], &[Edit::RemoveVertex(0)]) {
        both.replies(&edit);
    }
    let rust = both.graph.get_orphan_vertices().expect("a list");
    let numbers: Vec<_> = rust.iter().map(|v| v.0).collect();
    let ours = both.ours(&Query::GetOrphanVertices).words;
    println!("three vertices, remove 0; orphan vertices\n  Rust {numbers:?}\n  here {ours:?}");
}

fn limits() {
    run_one("the 257th vertex", &vertices(256), Last::Edit(Edit::AddVertex(0)));
    let full: Vec<(&[u32], u32)> = (0..192).map(|weight| (&[0][..], weight)).collect();
    run_one(
        "the 193rd hyperedge",
        &table(1, &full, &[]),
        Last::Edit(Edit::AddHyperedge(vec![0], 192)),
    );
    run_one(
        "a list of 33 members",
        &vertices(1),
        Last::Edit(Edit::AddHyperedge(vec![0; 33], 0)),
    );
    run_one(
        "a walk of 4,097 steps",
        &vertices(1),
        Last::Query(Query::RandomWalk(0, 4097, 1)),
    );
}

/// Where updates and removals change the order of the Rust's maps.
fn map_order() {
    orphans_in_order();
    let moved = [Edit::UpdateHyperedgeVertices(2, vec![0]), Edit::RemoveHyperedge(0)];
    run_one(
        "[1], [0], [0,1], all weight 0, update 2 to [0], remove 0; add [0] weight 0",
        &table(2, &[(&[1], 0), (&[0], 0), (&[0, 1], 0)], &moved),
        Last::Edit(Edit::AddHyperedge(vec![0], 0)),
    );
    let moved = [Edit::UpdateHyperedgeVertices(0, vec![0, 1])];
    run_one(
        "[1], [0,2], both weight 1, update 0 to [0,1]; a walk from 0 of 3 steps, seed 1",
        &table(3, &[(&[1], 1), (&[0, 2], 1)], &moved),
        Last::Query(Query::RandomWalk(0, 3, 1)),
    );
    run_one(
        "[1], [0,1], both weight 1, update 0 to [0,1]; path 0 to 1",
        &table(2, &[(&[1], 1), (&[0, 1], 1)], &moved),
        Last::Query(Query::GetDijkstraConnectionsWithCost(0, 1)),
    );
}

fn paths() {
    run_one(
        "[0,1,3], [0,2,3], both weight 1; path 0 to 3",
        &table(4, &[(&[0, 1, 3], 1), (&[0, 2, 3], 1)], &[]),
        Last::Query(Query::GetDijkstraConnectionsWithCost(0, 3)),
    );
    run_one(
        "[0,2,3] weight 0, [3,1] weight 2, [0,4,1] weight 1; path 0 to 1",
        &table(5, &[(&[0, 2, 3], 0), (&[3, 1], 2), (&[0, 4, 1], 1)], &[]),
        Last::Query(Query::GetDijkstraConnectionsWithCost(0, 1)),
    );
}

/// The live vertices of a table and the lists of its hyperedges.
fn held(table: &[u32]) -> String {
    let (n, m) = (table[2] as usize, table[3] as usize);
    let vertices: Vec<u32> = (0..n).map(|i| table[4 + 2 * i]).collect();
    let lists: Vec<&[u32]> = table[516..]
        .chunks(35)
        .take(m)
        .map(|record| &record[3..][..record[2] as usize])
        .collect();
    format!("vertices {vertices:?}, lists {lists:?}")
}

/// A merge of w into v, after vertices were removed: what each side answers, and what it holds after it.
fn merge(n: u32, list: &[u32], gone: &[u32], v: u32, w: u32) {
    let removals: Vec<Edit> = gone.iter().map(|&x| Edit::RemoveVertex(x)).collect();
    let mut both = Both::new();
    for edit in table(n, &[(list, 0)], &removals) {
        both.replies(&edit);
    }
    let (ours, rust) = both.replies(&Edit::MergeVertices(v, w));
    println!("vertices below {n}, {list:?}, remove {gone:?}; merge {w} into {v}");
    println!(
        "  Rust answer {} {}, {}",
        rust.number,
        rust.detail,
        held(&oracle::words(&both.graph))
    );
    println!("  here answer {} {}, {}", ours.number, ours.detail, held(&both.table));
}

/// Where the Rust takes equal neighbours out of the lists that a merge changes, and a vertex merged into itself.
fn merges() {
    merge(2, &[0, 1], &[], 0, 1);
    merge(2, &[1, 0], &[], 0, 1);
    merge(3, &[1, 2, 1], &[2], 0, 1);
    merge(4, &[2, 3, 2, 1], &[3], 0, 1);
    merge(1, &[0], &[], 0, 0);
    run_one(
        "[1], [0,2], both weight 1, merge 1 into 0; a walk from 0 of 3 steps, seed 1",
        &table(3, &[(&[1], 1), (&[0, 2], 1)], &[Edit::MergeVertices(0, 1)]),
        Last::Query(Query::RandomWalk(0, 3, 1)),
    );
}

/// Where a list that is handed in has equal neighbours.
fn neighbours() {
    let twice = Edit::AddHyperedge(vec![0, 0], 0);
    run_one("one vertex; add [0,0]", &vertices(1), Last::Edit(twice.clone()));
    run_one(
        "one vertex, [0]; update 0 to [0,0]",
        &table(1, &[(&[0], 0)], &[]),
        Last::Edit(Edit::UpdateHyperedgeVertices(0, vec![0, 0])),
    );
    run_one(
        "two vertices, [0,1,0] weight 0, remove 1; add [0,0] weight 0",
        &table(2, &[(&[0, 1, 0], 0)], &[Edit::RemoveVertex(1)]),
        Last::Edit(twice),
    );
}

/// A tray here, and its records removed one after the other by the Rust: what each side answers, and what it holds after it.
fn tray(n: u32, lists: &[(&[u32], u32)], tray: &[Withdrawal]) {
    let mut both = Both::new();
    for edit in table(n, lists, &[]) {
        both.replies(&edit);
    }
    let mut withdrawn = both.table.clone();
    let (number, detail) = match vaultsorrel::withdraw_tray(&mut withdrawn, tray) {
        Ok(detail) => (0, detail),
        Err(refusal) => (refusal.number(), refusal.detail()),
    };
    let mut answers = Vec::new();
    for record in tray {
        let (_, rust) = both.replies(&match record.kind {
            Withdrawal::VERTEX => Edit::RemoveVertex(record.number),
            _ => Edit::RemoveHyperedge(record.number),
        });
        answers.push((rust.number, rust.detail));
    }
    println!("vertices below {n}, {lists:?}; the tray {tray:?}");
    println!("  Rust answers {answers:?}, {}", held(&oracle::words(&both.graph)));
    println!("  here answer {number} {detail}, {}", held(&withdrawn));
}

/// Where a record of a tray is wrong, or names what another one has emptied.
fn trays() {
    let (vertex, hyperedge) = (|v| Withdrawal::vertex(Vertex(v)), Withdrawal::hyperedge(Hyperedge(0)));
    tray(1, &[], &[vertex(0), vertex(1)]);
    tray(1, &[(&[0], 0)], &[vertex(0), hyperedge]);
}

pub fn run() {
    limits();
    neighbours();
    map_order();
    paths();
    merges();
    trays();
}
