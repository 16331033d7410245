//! Records answers of the Rust for the programs `replay_*`, which make the same calls of the proved code without it. `README.md` has the form.
use std::path::Path;

use hypergraph::HypergraphQuery;

use crate::calls::{Both, Edit, Query};
use crate::draw::Draw;
use crate::oracle::{self, Reply};

/// A listing of more words than this is recorded by their sum.
const LONG: usize = 16;

const START: u64 = 11_400_714_819_323_198_485;

/// The sum after one word more.
fn mix(sum: u64, word: u32) -> u64 {
    let x = sum.wrapping_add(word.into());
    let a = x ^ (x << 13);
    let b = a ^ (a >> 7);
    b ^ (b << 17)
}

fn sum(words: &[u32]) -> u64 {
    words.iter().fold(START, |sum, &word| mix(sum, word))
}

/// The sum of the lists' own sums: the order of the lists does not count.
fn sum_of_rows(mut words: &[u32]) -> u64 {
    let mut total = 0u64;
    while let Some(&n) = words.first() {
        let (row, rest) = words.split_at(1 + n as usize);
        total = total.wrapping_add(sum(row));
        words = rest;
    }
    total
}

/// The weight of a vertex that stands between equal neighbours: no other vertex has it.
const BETWEEN: u32 = 0;

/// The list with a vertex put between each two equal neighbours.
fn spaced(list: &[u32], between: u32) -> Vec<u32> {
    let mut wider = Vec::new();
    for &v in list {
        if wider.last() == Some(&v) {
            wider.push(between);
        }
        wider.push(v);
    }
    wider
}

/// What a program asks of a table.
#[derive(Clone, Copy, PartialEq)]
enum Part {
    Edits,
    Lookups,
    Searches,
    Properties,
}

struct Records {
    part: Part,
    bytes: Vec<u8>,
    answers: u32,
    both: Both,
}

impl Records {
    fn new(part: Part) -> Self {
        Records {
            part,
            bytes: Vec::new(),
            answers: 0,
            both: Both::new(),
        }
    }

    fn byte(&mut self, b: u8) {
        self.bytes.push(b);
    }

    fn word(&mut self, w: u32) {
        match w {
            0..254 => self.byte(w as u8),
            254..0x1_0000 => {
                self.byte(254);
                self.bytes.extend((w as u16).to_le_bytes());
            }
            _ => {
                self.byte(255);
                self.bytes.extend(w.to_le_bytes());
            }
        }
    }

    fn eight(&mut self, x: u64) {
        self.bytes.extend(x.to_le_bytes());
    }

    fn list(&mut self, list: &[u32]) {
        self.byte(list.len() as u8);
        for &w in list {
            self.word(w);
        }
    }

    fn answer(&mut self, number: u32, detail: u64) {
        self.answers += 1;
        if number == 0 && detail < 240 {
            self.byte(detail as u8);
        } else {
            self.byte(240 + number as u8);
            self.word(detail as u32);
        }
    }

    fn words(&mut self, words: &[u32]) {
        if words.len() > LONG {
            self.eight(sum(words));
        } else {
            for &w in words {
                self.word(w);
            }
        }
    }

    /// Makes the edit and records what the Rust answers; where its list has equal neighbours, by edits that both sides take.
    fn edit(&mut self, edit: &Edit) {
        if self.both.equal_neighbour(edit).is_some() {
            self.with_vertex_between(edit);
        } else {
            self.call(edit);
        }
    }

    /// A vertex is added, stands in the list between each two equal neighbours, and is removed. It is the last that was added, so that the
    /// removal changes no order of the Rust's.
    fn with_vertex_between(&mut self, edit: &Edit) {
        let between = self.both.graph.next_numbers().0 as u32;
        let wider = match edit {
            Edit::AddHyperedge(list, w) => Edit::AddHyperedge(spaced(list, between), *w),
            Edit::UpdateHyperedgeVertices(e, list) => Edit::UpdateHyperedgeVertices(*e, spaced(list, between)),
            other => unreachable!("{other:?}"),
        };
        let vertex = Edit::AddVertex(BETWEEN);
        if self.both.compared(&vertex) && self.both.compared(&wider) {
            self.call(&vertex);
            self.call(&wider);
            self.call(&Edit::RemoveVertex(between));
        }
    }

    /// Makes the edit, if it is one that the rules compare, and records what the Rust answers.
    fn call(&mut self, edit: &Edit) {
        if !self.both.compared(edit) {
            return;
        }
        let (_, Reply { number, detail, .. }, _) = self.both.edit(edit);
        match edit {
            Edit::AddVertex(w) => {
                self.byte(1);
                self.word(*w);
            }
            Edit::AddHyperedge(list, w) => {
                self.byte(2);
                self.list(list);
                self.word(*w);
            }
            Edit::UpdateHyperedgeVertices(e, list) => {
                self.byte(3);
                self.word(*e);
                self.list(list);
            }
            Edit::RemoveVertex(v) => {
                self.byte(4);
                self.word(*v);
            }
            Edit::RemoveHyperedge(e) => {
                self.byte(5);
                self.word(*e);
            }
            Edit::Clear => self.byte(6),
            Edit::MergeVertices(v, w) => {
                self.byte(9);
                self.word(*v);
                self.word(*w);
            }
            Edit::ByText(_) => unreachable!("no record is of a text"),
        }
        self.answer(number, detail);
    }

    /// The whole table, as the Rust holds it.
    fn table(&mut self) {
        let words = oracle::words(&self.both.graph);
        self.byte(7);
        self.answers += 1;
        self.eight(sum(&words));
    }

    fn ask(&mut self, query: &Query) {
        let reply = self.both.rust(query);
        if reply.number != 0 {
            return self.answer(reply.number, reply.detail);
        }
        match query {
            Query::GetFullVertexHyperedges(_) => {
                self.answer(0, reply.detail);
                self.eight(sum_of_rows(&reply.words));
            }
            Query::GetDijkstraConnectionsWithCost(..) => {
                self.answer(0, reply.words[2].into());
                self.word(reply.words[0]);
                self.word(reply.words[1]);
            }
            _ => {
                self.answer(0, reply.detail);
                self.words(&reply.words);
            }
        }
    }

    fn ask_all(&mut self, queries: &[Query]) {
        for query in queries {
            self.ask(query);
        }
    }

    /// What the part asks of the whole table.
    fn whole(&mut self) {
        match self.part {
            Part::Edits => {
                self.byte(8);
                self.ask(&Query::IsEmpty);
            }
            Part::Lookups => {}
            Part::Searches => {
                self.byte(32);
                self.ask_all(&[
                    Query::IsConnected,
                    Query::IsAcyclic,
                    Query::TopologicalSort,
                    Query::StronglyConnectedComponents,
                    Query::ConnectedComponents,
                    Query::GetTransitiveClosure,
                ]);
            }
            Part::Properties => {
                self.byte(48);
                self.ask_all(&[
                    Query::GetOrphanVertices,
                    Query::GetOrphanHyperedges,
                    Query::GetEndpoints,
                    Query::GetInclusions,
                    Query::FindCutVertices,
                    Query::GetNestednessProfile,
                ]);
            }
        }
    }

    fn of_vertex(&mut self, v: u32) {
        match self.part {
            Part::Lookups => {
                self.byte(16);
                self.word(v);
                self.ask_all(&[
                    Query::GetAdjacentVerticesFrom(v),
                    Query::GetAdjacentVerticesTo(v),
                    Query::GetFullAdjacentVerticesFrom(v),
                    Query::GetFullAdjacentVerticesTo(v),
                    Query::GetVertexDegreeIn(v),
                    Query::GetVertexDegreeOut(v),
                    Query::GetFullVertexHyperedges(v),
                    Query::GetVertexNeighborhood(v),
                ]);
            }
            Part::Searches => {
                self.byte(33);
                self.word(v);
                self.ask_all(&[Query::GetBfs(v), Query::GetDfs(v), Query::GetDijkstraFrom(v)]);
            }
            Part::Edits | Part::Properties => {}
        }
    }

    fn of_pair(&mut self, x: u32, y: u32) {
        match self.part {
            Part::Lookups => {
                self.byte(17);
                self.word(x);
                self.word(y);
                self.ask(&Query::GetHyperedgesConnecting(x, y));
            }
            Part::Searches => {
                self.byte(34);
                self.word(x);
                self.word(y);
                self.ask_all(&[Query::IsReachable(x, y), Query::GetDijkstraConnectionsWithCost(x, y)]);
            }
            Part::Edits | Part::Properties => {}
        }
    }

    /// By a weight, or a count of members.
    fn of_weight(&mut self, w: u32) {
        match self.part {
            Part::Lookups => {
                self.byte(18);
                self.word(w);
                self.ask_all(&[
                    Query::FindHyperedgesByWeight(w),
                    Query::ContainsVertex(w),
                    Query::GetVertexIndex(w),
                ]);
            }
            Part::Properties => {
                self.byte(49);
                self.word(w);
                self.ask(&Query::IsKUniform(w as usize));
            }
            Part::Edits | Part::Searches => {}
        }
    }

    fn of_hyperedges(&mut self, list: &[u32]) {
        if self.part == Part::Lookups {
            self.byte(19);
            self.list(list);
            self.ask(&Query::GetHyperedgesIntersections(list.to_vec()));
        }
    }

    fn walk(&mut self, v: u32, steps: u32, seed: u64) {
        if self.part == Part::Searches {
            self.byte(35);
            self.word(v);
            self.word(steps);
            self.eight(seed);
            self.ask(&Query::RandomWalk(v, steps as usize, seed));
        }
    }

    /// Every query of a small table, of vertices and hyperedges below the bounds and one beyond.
    fn everything(&mut self, vertices: u32, hyperedges: u32) {
        self.whole();
        for x in 0..=vertices {
            self.of_vertex(x);
            for y in 0..=vertices {
                self.of_pair(x, y);
            }
        }
        for w in 0..4 {
            self.of_weight(w);
        }
        for a in 0..=hyperedges {
            self.of_hyperedges(&[a]);
            for b in 0..=hyperedges {
                self.of_hyperedges(&[a, b]);
            }
        }
        self.walk(0, 6, u64::from(hyperedges));
    }

    /// A drawn table of up to 3 vertices and 2 hyperedges of up to 3 members.
    fn small(&mut self, draw: &mut Draw) {
        let (n, m) = (draw.below(10).min(3), draw.below(8).min(2));
        self.edit(&Edit::Clear);
        for v in 0..n {
            self.edit(&Edit::AddVertex(v + 1));
        }
        for _ in 0..m {
            let members = draw.below(3) + 1;
            let list = (0..members).map(|_| draw.below(n)).collect();
            self.edit(&Edit::AddHyperedge(list, draw.below(3)));
        }
        self.everything(n, m);
    }

    /// Random edits on a table of about n vertices, with some queries after each; the whole table after every fourth.
    fn sequence(&mut self, draw: &mut Draw, n: u32, edits: u32) {
        self.edit(&Edit::Clear);
        for weight in 0..n {
            self.edit(&Edit::AddVertex(10 + weight));
        }
        let mut fresh = 10 + n;
        for k in 0..edits {
            let edit = draw.edit(&self.both, &mut fresh);
            self.edit(&edit);
            if k % 4 == 3 {
                self.table();
                self.whole();
            }
            if self.part == Part::Edits {
                continue;
            }
            let (v, w) = (draw.live_vertex(&self.both), draw.live_vertex(&self.both));
            self.of_vertex(v);
            self.of_pair(v, w);
            self.of_pair(w, v);
            self.of_weight(draw.below(6));
            let es: Vec<u32> = (0..draw.below(4)).map(|_| draw.live_hyperedge(&self.both)).collect();
            self.of_hyperedges(&es);
        }
        self.table();
    }

    /// A table built by additions alone, with walks.
    fn additions(&mut self, draw: &mut Draw, n: u32, m: u32, members: u32, acyclic: bool) {
        self.edit(&Edit::Clear);
        for v in 0..n {
            self.edit(&Edit::AddVertex(7 * v + 3));
        }
        while self.both.graph.count_hyperedges() < m as usize {
            let edit = draw.addition(n, members, acyclic);
            self.edit(&edit);
        }
        self.table();
        self.whole();
        for _ in 0..12 {
            let (v, w) = (draw.below(n + 1), draw.below(n + 1));
            self.of_vertex(v);
            self.of_pair(v, w);
            self.walk(v, draw.below(200), draw.word());
        }
        for _ in 0..4 {
            self.of_weight(draw.below(2 * members));
            self.of_hyperedges(&[draw.below(m + 1), draw.below(m + 1)]);
        }
    }

    /// The last record: how many answers there are, and the sum of all bytes before that sum.
    fn end(mut self) -> (Vec<u8>, u32) {
        self.byte(255);
        self.bytes.extend(self.answers.to_le_bytes());
        let bytes: Vec<u32> = self.bytes.iter().map(|&b| b.into()).collect();
        self.eight(sum(&bytes));
        (self.bytes, self.answers)
    }
}

/// How many tables of each sort a part draws: small ones, sequences and the edits of each, and tables built by additions.
fn sizes(part: Part) -> (u32, u32, u32, u32) {
    match part {
        Part::Edits => (0, 50, 400, 12),
        Part::Lookups => (160, 16, 112, 30),
        Part::Searches => (250, 16, 112, 100),
        Part::Properties => (400, 32, 112, 60),
    }
}

fn records(part: Part, seed: u64) -> (Vec<u8>, u32) {
    let (small, sequences, edits, additions) = sizes(part);
    let mut draw = Draw::new(seed);
    let mut records = Records::new(part);
    for _ in 0..small {
        records.small(&mut draw);
    }
    for round in 0..sequences {
        records.sequence(&mut draw, 3 + round % 12, edits);
    }
    for round in 0..additions {
        records.additions(&mut draw, 2 + round % 14, 1 + round % 11, 2 + round % 6, round % 3 == 0);
    }
    for acyclic in [false, true] {
        records.additions(&mut draw, 256, 192, 32, acyclic);
    }
    records.end()
}

/// Writes `data/cases` of each program below the folder.
pub fn write(folder: &Path, seed: u64) {
    let (mut all, mut size) = (0, 0);
    for (name, part) in [
        ("replay_edits", Part::Edits),
        ("replay_lookups", Part::Lookups),
        ("replay_searches", Part::Searches),
        ("replay_properties", Part::Properties),
    ] {
        let (bytes, answers) = records(part, seed);
        let place = folder.join(name).join("data");
        std::fs::create_dir_all(&place).expect("a folder");
        std::fs::write(place.join("cases"), &bytes).expect("written");
        println!("{name:<20} {answers:>8} answers {:>8} bytes", bytes.len());
        all += answers;
        size += bytes.len();
    }
    println!("{:<20} {all:>8} answers {size:>8} bytes", "all");
}
