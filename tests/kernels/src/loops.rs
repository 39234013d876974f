//! The loops of a function.
//!
//! A loop is a set of instructions each of which can lead to each other, wherever they stand: the
//! compiler moves parts of a loop behind its last jump. What is left of one without the instruction
//! at which it is entered has the loops inside of it. These count for themselves: a loop has only
//! the instructions that are in none of them.

use crate::listing::{Function, Instruction};

/// A loop.
pub struct Loop<'a> {
    /// Its instructions.
    pub code: Vec<&'a Instruction>,
    /// Whether it is in no function that the check of a file reaches.
    pub own: bool,
}

/// The loops of a function, each without those inside of it. A call that copies is one.
pub fn of(function: &Function, own: bool) -> Vec<Loop<'_>> {
    let flow = Flow::new(function.flow());
    let mut found = flow.loops(&vec![true; function.code.len()]);
    let calls = (0..function.code.len()).filter(|&at| function.code[at].copies());
    found.extend(calls.map(|at| vec![at]));
    let code = |places: Vec<usize>| places.into_iter().map(|at| &function.code[at]).collect();
    let all = found.into_iter().map(code);
    all.map(|code| Loop { code, own }).collect()
}

/// Which instruction can follow which, and precede which.
struct Flow {
    after: Vec<Vec<usize>>,
    before: Vec<Vec<usize>>,
}

impl Flow {
    fn new(after: Vec<Vec<usize>>) -> Flow {
        let mut before = vec![Vec::new(); after.len()];
        for (from, to) in after.iter().enumerate() {
            to.iter().for_each(|&to| before[to].push(from));
        }
        Flow { after, before }
    }

    /// The loops among some of the instructions, each without those inside of it.
    fn loops(&self, among: &[bool]) -> Vec<Vec<usize>> {
        let mut found = Vec::new();
        for mut cycle in self.cycles(among) {
            let mut inside = vec![false; among.len()];
            cycle.iter().for_each(|&at| inside[at] = true);
            let entry = self.entry(&cycle, &inside);
            inside[entry] = false;
            let inner = self.loops(&inside);
            cycle.retain(|at| inner.iter().all(|other| !other.contains(at)));
            found.push(cycle);
            found.extend(inner);
        }
        found
    }

    /// The largest sets of instructions each of which can lead to each other.
    fn cycles(&self, among: &[bool]) -> Vec<Vec<usize>> {
        let mut found: Vec<Vec<usize>> = Vec::new();
        let mut left = among.to_vec();
        for at in 0..among.len() {
            if left[at] {
                let ahead = reach(&self.after, at, among);
                let behind = reach(&self.before, at, among);
                let both = (0..among.len()).filter(|&other| ahead[other] && behind[other]);
                let cycle: Vec<usize> = both.collect();
                cycle.iter().for_each(|&other| left[other] = false);
                found.push(cycle);
            }
        }
        found.retain(|cycle| !cycle.is_empty());
        found
    }

    /// The first instruction of a loop that one outside of it leads to.
    fn entry(&self, cycle: &[usize], inside: &[bool]) -> usize {
        let from_outside = |at: &&usize| self.before[**at].iter().any(|&from| !inside[from]);
        let entered = cycle.iter().find(from_outside);
        *entered.unwrap_or(&cycle[0])
    }
}

/// What can be reached from an instruction by one step or more.
fn reach(edges: &[Vec<usize>], start: usize, among: &[bool]) -> Vec<bool> {
    let mut reached = vec![false; edges.len()];
    let mut open = vec![start];
    while let Some(at) = open.pop() {
        for &next in &edges[at] {
            if among[next] && !reached[next] {
                reached[next] = true;
                open.push(next);
            }
        }
    }
    reached
}
