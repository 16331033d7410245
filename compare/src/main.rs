//! Runs the proved code and the Rust on the same inputs and prints, for each function, how many answers were compared, how many of them
//! were refusals, how many calls were left out, how many of these for equal neighbours and with the table then read from a text, and how many
//! answers differed; for each difference the smallest input that was found. A tray is held against the Rust's single removals, in several
//! orders, and how many orders there were is printed last.
mod bench;
mod calls;
mod differences;
mod draw;
mod frames;
mod oracle;
mod record;

use std::collections::BTreeMap;
use std::path::Path;

use hypergraph::HypergraphQuery;
use vaultsorrel::{Hyperedge, Vertex, Withdrawal};

use calls::{Both, Edit, Query, name};
use draw::Draw;
use oracle::Reply;

/// How many answers were compared, and how many of these were refusals; how many calls were left out, as ones that the rules do not compare,
/// how many of these for equal neighbours, and after how many of those the table was read from a text; and how many answers or tables differed.
#[derive(Default)]
struct Counts {
    compared: u64,
    refused: u64,
    left_out: u64,
    equal: u64,
    by_text: u64,
    differing: u64,
}

/// The counts of each function, and how many differences were found. Trays are drawn by themselves, so that the edits and queries of a seed are
/// the same without them; `orders` counts the orders in which the Rust removed their records.
struct Run {
    counts: BTreeMap<String, Counts>,
    shown: usize,
    trays: Draw,
    orders: u64,
}

/// The table that the edits build, both sides, without those that the rules do not compare.
fn built(edits: &[Edit]) -> Both {
    let mut both = Both::new();
    for edit in edits {
        if both.compared(edit) {
            both.edit(edit);
        }
    }
    both
}

/// Leaves out edits as long as the query still differs.
fn smallest(mut edits: Vec<Edit>, query: &Query) -> Vec<Edit> {
    let mut at = 0;
    while at < edits.len() {
        let mut fewer = edits.clone();
        fewer.remove(at);
        let mut both = built(&fewer);
        let (a, b) = (both.ours(query), both.rust(query));
        if both.agree(query, &a, &b) {
            at += 1;
        } else {
            edits = fewer;
            at = 0;
        }
    }
    edits
}

impl Run {
    fn count(&mut self, name: String, rust: &Reply, differs: bool) {
        let counts = self.counts.entry(name).or_default();
        counts.compared += 1;
        counts.refused += u64::from(rust.number != 0);
        counts.differing += u64::from(differs);
    }

    fn show(&mut self, text: impl FnOnce() -> String) {
        if self.shown < 20 {
            println!("{}", text());
        }
        self.shown += 1;
    }

    fn edit(&mut self, both: &mut Both, edits: &mut Vec<Edit>, edit: Edit) {
        if !both.compared(&edit) {
            return self.left_out(both, edits, &edit);
        }
        let (a, b, same) = both.edit(&edit);
        let differs = a != b || !same;
        self.count(name(&edit), &b, differs);
        edits.push(edit);
        if differs {
            self.show(|| format!("differs: {edits:?}\n  ours {a:?}\n  Rust {b:?}, tables the same: {same}"));
        }
    }

    /// An edit that the rules do not compare. One with equal neighbours is made here alone: 20 with the first of them is due, and the table
    /// as it was.
    fn left_out(&mut self, both: &mut Both, edits: &[Edit], edit: &Edit) {
        let counts = self.counts.entry(name(edit)).or_default();
        counts.left_out += 1;
        let Some(v) = both.equal_neighbour(edit) else { return };
        counts.equal += 1;
        let before = both.table.clone();
        let a = both.ours_edit(edit);
        let same = both.table == before;
        if (a.number, a.detail) != (20, v.into()) || !same {
            counts.differing += 1;
            self.show(|| format!("not refused: {edit:?} after {edits:?}\n  ours {a:?}, the table as it was: {same}"));
        }
        both.table = before;
    }

    /// The table after an edit that was left out for equal neighbours, on both sides, where the Rust has one: here it is read from a text.
    fn by_text(&mut self, both: &mut Both, edits: &mut Vec<Edit>, edit: Edit) {
        let name = name(&edit);
        let edit = Edit::ByText(Box::new(edit));
        if !both.compared(&edit) {
            return;
        }
        let (a, b, same) = both.edit(&edit);
        let differs = a.number != 0 || b.number != 0 || !same;
        let counts = self.counts.entry(name).or_default();
        counts.by_text += 1;
        counts.differing += u64::from(differs);
        edits.push(edit);
        if differs {
            self.show(|| format!("differs: {edits:?}\n  ours {a:?}\n  Rust {b:?}, tables the same: {same}"));
        }
    }

    fn query(&mut self, both: &mut Both, edits: &[Edit], query: Query) {
        let (a, b) = (both.ours(&query), both.rust(&query));
        let differs = !both.agree(&query, &a, &b);
        self.count(name(&query), &b, differs);
        if differs {
            let least = smallest(edits.to_vec(), &query);
            let mut both = built(&least);
            let (a, b) = (both.ours(&query), both.rust(&query));
            self.show(|| format!("differs: {query:?} after {least:?}\n  ours {a:?}\n  Rust {b:?}"));
        }
    }

    /// Queries of the whole table.
    fn whole(&mut self, both: &mut Both, edits: &[Edit]) {
        for query in [
            Query::IsEmpty,
            Query::IsConnected,
            Query::IsAcyclic,
            Query::TopologicalSort,
            Query::StronglyConnectedComponents,
            Query::ConnectedComponents,
            Query::GetOrphanVertices,
            Query::GetOrphanHyperedges,
            Query::GetEndpoints,
            Query::FindCutVertices,
        ] {
            self.query(both, edits, query);
        }
    }

    /// Queries of the whole table that take the Rust long on a full one.
    fn slow(&mut self, both: &mut Both, edits: &[Edit]) {
        for query in [Query::GetTransitiveClosure, Query::GetInclusions, Query::GetNestednessProfile] {
            self.query(both, edits, query);
        }
    }

    fn of_vertex(&mut self, both: &mut Both, edits: &[Edit], v: u32) {
        for query in [
            Query::GetAdjacentVerticesFrom(v),
            Query::GetAdjacentVerticesTo(v),
            Query::GetFullAdjacentVerticesFrom(v),
            Query::GetFullAdjacentVerticesTo(v),
            Query::GetVertexDegreeIn(v),
            Query::GetVertexDegreeOut(v),
            Query::GetFullVertexHyperedges(v),
            Query::GetVertexNeighborhood(v),
            Query::GetBfs(v),
            Query::GetDfs(v),
            Query::GetDijkstraFrom(v),
        ] {
            self.query(both, edits, query);
        }
    }

    fn of_pair(&mut self, both: &mut Both, edits: &[Edit], x: u32, y: u32) {
        for query in [
            Query::GetHyperedgesConnecting(x, y),
            Query::IsReachable(x, y),
            Query::GetDijkstraConnectionsWithCost(x, y),
        ] {
            self.query(both, edits, query);
        }
    }

    fn of_weight(&mut self, both: &mut Both, edits: &[Edit], w: u32) {
        for query in [
            Query::FindHyperedgesByWeight(w),
            Query::ContainsVertex(w),
            Query::GetVertexIndex(w),
            Query::IsKUniform(w as usize),
        ] {
            self.query(both, edits, query);
        }
    }

    /// Every query, of vertices and hyperedges below the bounds and one beyond.
    fn everything(&mut self, both: &mut Both, edits: &[Edit], vertices: u32, hyperedges: u32) {
        self.whole(both, edits);
        self.slow(both, edits);
        for x in 0..=vertices {
            self.of_vertex(both, edits, x);
            for y in 0..=vertices {
                self.of_pair(both, edits, x, y);
            }
        }
        for w in 0..4 {
            self.of_weight(both, edits, w);
        }
        for a in 0..=hyperedges {
            self.query(both, edits, Query::GetHyperedgesIntersections(vec![a]));
            for b in 0..=hyperedges {
                self.query(both, edits, Query::GetHyperedgesIntersections(vec![a, b]));
            }
        }
        for seed in 0..3 {
            self.query(both, edits, Query::RandomWalk(0, 6, seed));
        }
    }

    /// Every table of up to 3 vertices and up to 2 hyperedges with lists of up to 3 members and weights 0 to 2.
    fn small(&mut self) {
        for n in 0..=3 {
            let lists = all_lists(n, 3);
            let start: Vec<Edit> = (0..n).map(|v| Edit::AddVertex(v + 1)).collect();
            self.small_table(&start, n, 0);
            for a in &lists {
                for weight in [0, 2] {
                    let one: Vec<Edit> = start.iter().cloned().chain([Edit::AddHyperedge(a.clone(), weight)]).collect();
                    self.small_table(&one, n, 1);
                    for b in &lists {
                        let two: Vec<Edit> = one.iter().cloned().chain([Edit::AddHyperedge(b.clone(), 1)]).collect();
                        self.small_table(&two, n, 2);
                    }
                }
            }
        }
    }

    fn small_table(&mut self, edits: &[Edit], vertices: u32, hyperedges: u32) {
        let mut both = Both::new();
        let mut done = Vec::new();
        for edit in edits {
            self.edit(&mut both, &mut done, edit.clone());
            self.by_text(&mut both, &mut done, edit.clone());
        }
        self.everything(&mut both, &done, vertices, hyperedges);
        self.merges(&mut both, &done, vertices);
        self.small_trays(&both, &done, vertices, hyperedges);
    }

    /// Every two vertices below the bound and one beyond merged, each time on the same table.
    fn merges(&mut self, both: &mut Both, edits: &[Edit], vertices: u32) {
        let (table, graph) = (both.table.clone(), both.graph.clone());
        for v in 0..=vertices {
            for w in 0..=vertices {
                self.edit(both, &mut edits.to_vec(), Edit::MergeVertices(v, w));
                both.table.clone_from(&table);
                both.graph = graph.clone();
            }
        }
    }

    /// A tray on the table in hand, which stays as it is.
    fn tray(&mut self, both: &Both, edits: &[Edit], tray: &[Withdrawal]) {
        let orders = orders(tray);
        let (a, b, same) = both.tray(tray, &orders);
        let differs = a != b || !same;
        self.count("withdraw_tray".to_string(), &b, differs);
        if b.number == 0 {
            self.orders += orders.len() as u64;
        }
        if differs {
            self.show(|| format!("differs: {tray:?} after {edits:?}\n  ours {a:?}\n  due {b:?}, tables the same: {same}"));
        }
    }

    fn drawn_tray(&mut self, both: &Both, edits: &[Edit], longest: u32) {
        let tray = self.trays.tray(both, longest);
        self.tray(both, edits, &tray);
    }

    /// Every tray of up to two records with numbers below the bounds and one beyond, and with another kind; and every set of what is live.
    fn small_trays(&mut self, both: &Both, edits: &[Edit], vertices: u32, hyperedges: u32) {
        let mut records: Vec<_> = (0..=vertices).map(|v| Withdrawal::vertex(Vertex(v))).collect();
        records.extend((0..=hyperedges).map(|e| Withdrawal::hyperedge(Hyperedge(e))));
        records.push(Withdrawal { kind: 2, number: 0 });
        self.tray(both, edits, &[]);
        for &a in &records {
            self.tray(both, edits, &[a]);
            for &b in &records {
                self.tray(both, edits, &[a, b]);
            }
        }
        let live = both.live();
        for set in 0..1 << live.len() {
            let tray: Vec<_> = (0..live.len()).filter(|k| set >> k & 1 == 1).map(|k| live[k]).collect();
            if tray.len() > 2 {
                self.tray(both, edits, &tray);
            }
        }
    }

    /// A long sequence of random edits on a table of about n vertices, the tables compared after each; where asked, with some queries.
    fn sequence(&mut self, draw: &mut Draw, n: u32, edits_to_make: usize, queries: bool) {
        let mut both = Both::new();
        let mut edits = Vec::new();
        for weight in 0..n {
            self.edit(&mut both, &mut edits, Edit::AddVertex(1000 + weight));
        }
        let mut fresh = 1000 + n;
        for _ in 0..edits_to_make {
            let edit = draw.edit(&both, &mut fresh);
            self.edit(&mut both, &mut edits, edit.clone());
            if draw.below(2) == 0 {
                self.by_text(&mut both, &mut edits, edit);
            }
            if queries {
                self.drawn(draw, &mut both, &edits);
            }
            if queries || self.trays.below(40) == 0 {
                self.drawn_tray(&both, &edits, 40);
            }
        }
    }

    /// Every query, of vertices, hyperedges and weights that are drawn.
    fn drawn(&mut self, draw: &mut Draw, both: &mut Both, edits: &[Edit]) {
        let v = draw.live_vertex(both);
        let w = draw.live_vertex(both);
        self.of_vertex(both, edits, v);
        self.of_pair(both, edits, v, w);
        self.of_weight(both, edits, draw.below(6));
        let es: Vec<u32> = (0..draw.below(4)).map(|_| draw.live_hyperedge(both)).collect();
        self.query(both, edits, Query::GetHyperedgesIntersections(es));
        self.whole(both, edits);
        self.slow(both, edits);
    }

    /// A table built by additions alone, with walks.
    fn additions(&mut self, draw: &mut Draw, n: u32, m: u32, members: u32, acyclic: bool) {
        let mut both = Both::new();
        let mut edits = Vec::new();
        for v in 0..n {
            self.edit(&mut both, &mut edits, Edit::AddVertex(7 * v + 3));
        }
        while both.graph.count_hyperedges() < m as usize {
            let edit = draw.addition(n, members, acyclic);
            self.edit(&mut both, &mut edits, edit.clone());
            if draw.below(2) == 0 {
                self.by_text(&mut both, &mut edits, edit);
            }
        }
        self.whole(&mut both, &edits);
        for _ in 0..12 {
            let (v, w) = (draw.below(n + 1), draw.below(n + 1));
            self.of_vertex(&mut both, &edits, v);
            self.of_pair(&mut both, &edits, v, w);
            let steps = draw.below(200) as usize;
            self.query(&mut both, &edits, Query::RandomWalk(v, steps, draw.word()));
        }
        self.slow(&mut both, &edits);
        for longest in [1, 2, 3, 40, 40, 1000] {
            self.drawn_tray(&both, &edits, longest);
        }
        self.tray(&both, &edits, &both.live());
    }
}

/// The tray, its records from the last to the first, its vertices first, and its hyperedges first; each order once.
fn orders(tray: &[Withdrawal]) -> Vec<Vec<Withdrawal>> {
    let turned = tray.iter().rev().copied().collect();
    let (vertices, hyperedges): (Vec<_>, Vec<_>) = tray.iter().partition(|record| record.kind == Withdrawal::VERTEX);
    let mut all = vec![
        tray.to_vec(),
        turned,
        [&vertices[..], &hyperedges].concat(),
        [&hyperedges[..], &vertices].concat(),
    ];
    all.sort_unstable();
    all.dedup();
    all
}

/// Every list of one up to `longest` members below n.
fn all_lists(n: u32, longest: usize) -> Vec<Vec<u32>> {
    let mut lists: Vec<Vec<u32>> = Vec::new();
    let mut last = vec![Vec::new()];
    for _ in 0..longest {
        last = last
            .iter()
            .flat_map(|l: &Vec<u32>| (0..n).map(move |v| [l.clone(), vec![v]].concat()))
            .collect();
        lists.extend(last.clone());
    }
    lists
}

fn main() {
    let words: Vec<String> = std::env::args().skip(1).collect();
    let seed_at = |place: usize| words.get(place).and_then(|s| s.parse().ok()).unwrap_or(1);
    match words.first().map(String::as_str) {
        Some("bench") => bench::run(),
        Some("differences") => differences::run(),
        Some("record") => record::write(Path::new(&words[1]), seed_at(2)),
        _ => compare(seed_at(0)),
    }
}

fn row(name: &str, counts: &Counts) {
    println!(
        "{:<42} {:>12} {:>10} {:>10} {:>10} {:>10} {:>10}",
        name, counts.compared, counts.refused, counts.left_out, counts.equal, counts.by_text, counts.differing
    );
}

fn compare(seed: u64) {
    let mut draw = Draw::new(seed);
    let mut run = Run {
        counts: BTreeMap::new(),
        shown: 0,
        trays: Draw::new(seed + 1),
        orders: 0,
    };
    run.small();
    for round in 0..100 {
        run.sequence(&mut draw, 3 + round % 12, 190, true);
    }
    for round in 0..40 {
        run.sequence(&mut draw, 1 + 6 * round, 3450, false);
    }
    for round in 0..300 {
        run.additions(&mut draw, 2 + round % 14, 1 + round % 11, 2 + round % 6, round % 3 == 0);
    }
    for acyclic in [false, true] {
        run.additions(&mut draw, 256, 192, 32, acyclic);
    }
    println!(
        "{:<42} {:>12} {:>10} {:>10} {:>10} {:>10} {:>10}",
        "function", "compared", "refused", "left out", "for 20", "by text", "differing"
    );
    let mut all = Counts::default();
    for (name, counts) in &run.counts {
        row(name, counts);
        all.compared += counts.compared;
        all.refused += counts.refused;
        all.left_out += counts.left_out;
        all.equal += counts.equal;
        all.by_text += counts.by_text;
        all.differing += counts.differing;
    }
    row("all", &all);
    println!(
        "the Rust removed the records of trays one after the other in {} orders",
        run.orders
    );
    std::process::exit(i32::from(all.differing != 0));
}
