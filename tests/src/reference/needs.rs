//! The needs as a graph: circles (question 11), windows by formulas (1) and (2), width (question 12).

use super::sets::{Set, ALL_WORDS};

/// For each job its givers and its takers.
pub struct Graph {
    pub givers: Vec<Vec<usize>>,
    pub takers: Vec<Vec<usize>>,
}

/// Releases and deadlines of all jobs.
pub struct Windows {
    pub releases: Vec<i32>,
    pub deadlines: Vec<i32>,
}

/// Where a search depth first has met a job.
#[derive(Clone, Copy)]
enum Met {
    Not,
    OnTheWay,
    LeftBehind,
}

impl Graph {
    pub fn new(jobs: usize, needs: &[(usize, usize)]) -> Graph {
        let mut graph = Graph { givers: vec![Vec::new(); jobs], takers: vec![Vec::new(); jobs] };
        for &(giver, taker) in needs {
            graph.givers[taker].push(giver);
            graph.takers[giver].push(taker);
        }
        graph
    }

    pub fn jobs(&self) -> usize {
        self.givers.len()
    }

    /// Does a chain of needs lead from some job back to it?
    pub fn has_circle(&self) -> bool {
        let mut met = vec![Met::Not; self.jobs()];
        (0..self.jobs()).any(|job| self.comes_back(job, &mut met))
    }

    /// Does a chain from this job come back to one on the way to it? Depth first, past the jobs that are left behind.
    fn comes_back(&self, job: usize, met: &mut [Met]) -> bool {
        match met[job] {
            Met::OnTheWay => true,
            Met::LeftBehind => false,
            Met::Not => {
                met[job] = Met::OnTheWay;
                let found = self.takers[job].iter().any(|&taker| self.comes_back(taker, met));
                met[job] = Met::LeftBehind;
                found
            }
        }
    }

    /// For each job those that a chain of needs leads to, by Warshall: after round `middle`, `reach` has the chains
    /// whose inner jobs are at most `middle`.
    pub fn closure(&self) -> Vec<Set<ALL_WORDS>> {
        let mut reach: Vec<Set<ALL_WORDS>> = self.takers.iter().map(|takers| Set::of(takers.iter().copied())).collect();
        for middle in 0..reach.len() {
            let onward = reach[middle];
            for from in &mut reach {
                if from.has(middle) {
                    *from = from.or(&onward);
                }
            }
        }
        reach
    }

    /// The windows for an upper bound on slots. Only for needs without a circle.
    pub fn windows(&self, bound: i32) -> Windows {
        let mut releases = vec![None; self.jobs()];
        let mut deadlines = vec![None; self.jobs()];
        Windows {
            releases: (0..self.jobs()).map(|job| self.release(job, &mut releases)).collect(),
            deadlines: (0..self.jobs()).map(|job| self.deadline(job, bound, &mut deadlines)).collect(),
        }
    }

    /// Formula (1).
    fn release(&self, job: usize, known: &mut [Option<i32>]) -> i32 {
        if let Some(release) = known[job] {
            return release;
        }
        let mut before: Vec<i32> = self.givers[job].iter().map(|&giver| self.release(giver, known)).collect();
        before.sort_by(|a, b| b.cmp(a));
        let release = match before[..] {
            [] => 0,
            [first, second, ..] if first == second => first + 2,
            [first, ..] => first + 1,
        };
        known[job] = Some(release);
        release
    }

    /// Formula (2).
    fn deadline(&self, job: usize, bound: i32, known: &mut [Option<i32>]) -> i32 {
        if let Some(deadline) = known[job] {
            return deadline;
        }
        let mut after: Vec<i32> = self.takers[job].iter().map(|&taker| self.deadline(taker, bound, known)).collect();
        after.sort();
        let deadline = match after[..] {
            [] => bound,
            [first, second, ..] if first == second => first - 2,
            [first, ..] => first - 1,
        };
        known[job] = Some(deadline);
        deadline
    }

    /// The fewest slots that leave no window empty: deadlines move with the bound, and 0 is one.
    pub fn least_slots(&self) -> i32 {
        let windows = self.windows(0);
        (0..self.jobs()).map(|job| windows.releases[job] + 1 - windows.deadlines[job]).max().unwrap_or(1)
    }

    /// The largest number of windows that hold one slot from 0 to limit - 1.
    pub fn width(&self, limit: i32) -> usize {
        let windows = self.windows(limit);
        (0..limit).map(|slot| (0..self.jobs()).filter(|&job| windows.holds(job, slot)).count()).max().unwrap_or(0)
    }
}

impl Windows {
    pub fn holds(&self, job: usize, slot: i32) -> bool {
        self.releases[job] <= slot && slot < self.deadlines[job]
    }
}
