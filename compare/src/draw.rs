//! Random edits, from a seed.
use hypergraph::HypergraphQuery;
use vaultsorrel::Withdrawal;

use crate::calls::{Both, Edit};

pub struct Draw {
    state: u64,
}

impl Draw {
    pub fn new(seed: u64) -> Self {
        Draw {
            state: seed.wrapping_mul(0x9e37_79b9_7f4a_7c15) | 1,
        }
    }

    pub fn word(&mut self) -> u64 {
        self.state ^= self.state << 13;
        self.state ^= self.state >> 7;
        self.state ^= self.state << 17;
        self.state
    }

    pub fn below(&mut self, n: u32) -> u32 {
        if n == 0 {
            0
        } else {
            ((self.word() >> 16) % u64::from(n)) as u32
        }
    }

    /// Mostly a live vertex, now and then any number.
    pub fn live_vertex(&mut self, both: &Both) -> u32 {
        let mut live = both.graph.vertex_indices().expect("a list");
        live.sort();
        if live.is_empty() || self.below(12) == 0 {
            return self.below(20);
        }
        live[self.below(live.len() as u32) as usize].0 as u32
    }

    pub fn live_hyperedge(&mut self, both: &Both) -> u32 {
        let mut live = both.graph.hyperedge_indices().expect("a list");
        live.sort();
        if live.is_empty() || self.below(12) == 0 {
            return self.below(20);
        }
        live[self.below(live.len() as u32) as usize].0 as u32
    }

    fn live_members(&mut self, both: &Both, longest: u32) -> Vec<u32> {
        let n = if self.below(20) == 0 { 0 } else { 1 + self.below(longest) };
        (0..n).map(|_| self.live_vertex(both)).collect()
    }

    /// Two vertices to merge, mostly such as the rules compare.
    fn merge(&mut self, both: &Both) -> Edit {
        let mut edit = Edit::MergeVertices(self.live_vertex(both), self.live_vertex(both));
        for _ in 0..self.below(6) {
            if both.compared(&edit) {
                break;
            }
            edit = Edit::MergeVertices(self.live_vertex(both), self.live_vertex(both));
        }
        edit
    }

    pub fn edit(&mut self, both: &Both, fresh: &mut u32) -> Edit {
        match self.below(24) {
            0..=7 => Edit::AddHyperedge(self.live_members(both, 6), self.below(5)),
            8..=10 => {
                let members = self.live_members(both, 6);
                Edit::UpdateHyperedgeVertices(self.live_hyperedge(both), members)
            }
            11..=13 => Edit::RemoveHyperedge(self.live_hyperedge(both)),
            14..=15 => Edit::RemoveVertex(self.live_vertex(both)),
            16..=17 => self.merge(both),
            18..=22 => {
                *fresh += 1;
                Edit::AddVertex(*fresh)
            }
            _ if self.below(30) == 0 => Edit::Clear,
            _ => Edit::AddHyperedge(self.live_members(both, 32), self.below(3)),
        }
    }

    /// A tray of up to so many live records, some of them more than once; in half of the trays with one or two more that may be of another
    /// kind or not live.
    pub fn tray(&mut self, both: &Both, longest: u32) -> Vec<Withdrawal> {
        let live = both.live();
        let some = if live.is_empty() { 0 } else { self.below(longest + 1) };
        let mut tray: Vec<_> = (0..some).map(|_| live[self.below(live.len() as u32) as usize]).collect();
        let (next_vertex, next_hyperedge) = both.graph.next_numbers();
        for _ in 0..[0, 0, 1, 2][self.below(4) as usize] {
            let (kind, numbers) = match self.below(3) {
                0 => (Withdrawal::VERTEX, next_vertex + 2),
                1 => (Withdrawal::HYPEREDGE, next_hyperedge + 2),
                _ => ([2, 3, 256, u32::MAX][self.below(4) as usize], next_vertex),
            };
            let number = self.below(numbers as u32);
            tray.insert(self.below(some + 1) as usize, Withdrawal { kind, number });
        }
        tray
    }

    /// So many of the numbers, no two equal ones in a row; where the list is to ascend, each at most once.
    pub fn members(&mut self, numbers: &[u32], count: usize, ascending: bool) -> Vec<u32> {
        let mut list = Vec::new();
        while list.len() < count {
            let number = numbers[self.below(numbers.len() as u32) as usize];
            let taken = if ascending {
                list.contains(&number)
            } else {
                list.last() == Some(&number)
            };
            if !taken {
                list.push(number);
            }
        }
        if ascending {
            list.sort_unstable();
        }
        list
    }

    /// A hyperedge of exactly that many members; ascending ones where no closed walk may come.
    pub fn addition(&mut self, n: u32, members: u32, acyclic: bool) -> Edit {
        let mut list: Vec<u32> = (0..members).map(|_| self.below(n)).collect();
        if acyclic {
            list.sort_unstable();
            list.dedup();
        }
        Edit::AddHyperedge(list, self.below(1000))
    }
}
