//! The search for the shortest and preferred start list: dynamic programming over slots. For each number of slots from
//! the least up, all states that can be reached before each slot; then, from the last slot back, those from which every
//! job can still be run; then, from the first slot on, the preferred set of jobs that leads to such a state.

use super::needs::{Graph, Windows};
use super::sets::{Set, ALL_WORDS};
use std::collections::HashSet;
use std::hash::{BuildHasherDefault, Hasher};

/// What a slot must know of the slots before it.
#[derive(Clone, Copy, PartialEq, Eq, Hash)]
struct State<const WORDS: usize> {
    /// The jobs that have run.
    done: Set<WORDS>,
    /// Those with takers that ran in the slot right before.
    last: Set<WORDS>,
}

type States<const WORDS: usize> = HashSet<State<WORDS>, BuildHasherDefault<Mix>>;

/// The shortest start list within the limit that keeps the rules and has no more jobs in any slot than there are boards,
/// and of those the preferred one.
pub fn best(graph: &Graph, limit: i32, most_boards: u8) -> Option<Vec<usize>> {
    match graph.jobs() {
        ..=64 => best_in::<1>(graph, limit, most_boards),
        _ => best_in::<ALL_WORDS>(graph, limit, most_boards),
    }
}

fn best_in<const WORDS: usize>(graph: &Graph, limit: i32, most_boards: u8) -> Option<Vec<usize>> {
    (graph.least_slots()..=limit)
        .find_map(|slots| Search::<WORDS>::new(graph, slots, graph.windows(slots), most_boards).run())
}

/// The same list of up to 64 jobs, found without formulas (1) and (2): every job may run in every slot.
pub fn best_without_windows(graph: &Graph, limit: i32, most_boards: u8) -> Option<Vec<usize>> {
    (1..=limit).find_map(|slots| {
        let open = Windows { releases: vec![0; graph.jobs()], deadlines: vec![slots; graph.jobs()] };
        Search::<1>::new(graph, slots, open, most_boards).run()
    })
}

/// How many states the search meets: a measure of how hard the needs are.
pub fn effort(graph: &Graph, limit: i32, most_boards: u8) -> usize {
    let mut states = 0;
    for slots in graph.least_slots()..=limit {
        let search = Search::<ALL_WORDS>::new(graph, slots, graph.windows(slots), most_boards);
        if search.has_room() {
            states += search.reached().iter().map(|layer| layer.len()).sum::<usize>();
            if search.run().is_some() {
                break;
            }
        }
    }
    states
}

struct Search<const WORDS: usize> {
    jobs: usize,
    slots: usize,
    windows: Windows,
    /// For each slot the jobs whose windows hold it.
    open: Vec<Vec<usize>>,
    givers: Vec<Set<WORDS>>,
    /// The jobs that have a taker.
    giving: Set<WORDS>,
    most_boards: usize,
}

impl<const WORDS: usize> Search<WORDS> {
    fn new(graph: &Graph, slots: i32, windows: Windows, most_boards: u8) -> Search<WORDS> {
        let jobs = graph.jobs();
        Search {
            jobs,
            slots: slots as usize,
            open: (0..slots).map(|slot| (0..jobs).filter(|&job| windows.holds(job, slot)).collect()).collect(),
            windows,
            givers: graph.givers.iter().map(|givers| Set::of(givers.iter().copied())).collect(),
            giving: Set::of((0..jobs).filter(|&job| !graph.takers[job].is_empty())),
            most_boards: most_boards as usize,
        }
    }

    /// The preferred list of exactly this many slots, if there is none of fewer.
    fn run(&self) -> Option<Vec<usize>> {
        if !self.has_room() {
            return None;
        }
        let mut good = self.reached();
        let all = Set::of(0..self.jobs);
        good[self.slots].retain(|state| state.done == all);
        for slot in (0..self.slots).rev() {
            let (here, later) = good.split_at_mut(slot + 1);
            here[slot]
                .retain(|state| self.sets(state, slot).iter().any(|set| later[0].contains(&self.next(state, set))));
        }
        self.walk(&good)
    }

    /// Is no window empty, and is there a slot and a board for each job?
    fn has_room(&self) -> bool {
        self.jobs <= self.slots * self.most_boards
            && (0..self.jobs).all(|job| self.windows.releases[job] < self.windows.deadlines[job])
    }

    /// For each slot the states before it that can be reached.
    fn reached(&self) -> Vec<States<WORDS>> {
        let mut layers = vec![States::default(); self.slots + 1];
        layers[0].insert(State { done: Set::EMPTY, last: Set::EMPTY });
        for slot in 0..self.slots {
            let (here, later) = layers.split_at_mut(slot + 1);
            for state in &here[slot] {
                later[0].extend(self.sets(state, slot).iter().map(|set| self.next(state, set)));
            }
        }
        layers
    }

    /// From the first slot on, the preferred set after which the rest can still be run.
    fn walk(&self, good: &[States<WORDS>]) -> Option<Vec<usize>> {
        let mut starts = vec![0; self.jobs];
        let mut state = State { done: Set::EMPTY, last: Set::EMPTY };
        for slot in 0..self.slots {
            let sets = self.sets(&state, slot);
            let leading = sets.into_iter().filter(|set| good[slot + 1].contains(&self.next(&state, set)));
            let set = leading.reduce(|one, other| if precedes(&one, &other) { one } else { other })?;
            for &job in self.open[slot].iter().filter(|&&job| set.has(job)) {
                starts[job] = slot;
            }
            state = self.next(&state, &set);
        }
        Some(starts)
    }

    fn next(&self, state: &State<WORDS>, set: &Set<WORDS>) -> State<WORDS> {
        State { done: state.done.or(set), last: set.and(&self.giving) }
    }

    /// Every set of jobs, no more than there are boards, that may run in a slot, the jobs for which it is the last chance
    /// among them.
    fn sets(&self, state: &State<WORDS>, slot: usize) -> Vec<Set<WORDS>> {
        let mut sets = vec![(Set::EMPTY, Set::EMPTY)];
        for &job in self.open[slot].iter().filter(|&&job| !state.done.has(job)) {
            let tied = self.givers[job].and(&state.last);
            let may = self.givers[job].without(&state.done).is_empty() && tied.count() <= 1;
            let must = self.windows.deadlines[job] <= slot as i32 + 1;
            if must && !may {
                return Vec::new();
            }
            if may {
                let with: Vec<(Set<WORDS>, Set<WORDS>)> = sets
                    .iter()
                    .filter(|(set, used)| set.count() < self.most_boards && used.and(&tied).is_empty())
                    .map(|(set, used)| (set.with(job), used.or(&tied)))
                    .collect();
                if must {
                    sets = with;
                } else {
                    sets.extend(with);
                }
            }
        }
        sets.into_iter().map(|(set, _)| set).collect()
    }
}

/// Of two different sets in one slot: does the first have the lowest job that is in just one of them?
fn precedes<const WORDS: usize>(one: &Set<WORDS>, other: &Set<WORDS>) -> bool {
    match (one.without(other).first(), other.without(one).first()) {
        (Some(of_one), Some(of_other)) => of_one < of_other,
        (of_one, _) => of_one.is_some(),
    }
}

/// A quick hash for states.
#[derive(Default)]
struct Mix(u64);

impl Hasher for Mix {
    fn write(&mut self, bytes: &[u8]) {
        bytes.iter().for_each(|&byte| self.write_u64(byte as u64));
    }
    fn write_u64(&mut self, word: u64) {
        let mixed = (self.0 ^ word).wrapping_mul(0x9e37_79b9_7f4a_7c15);
        self.0 = mixed ^ mixed >> 32;
    }
    fn finish(&self) -> u64 {
        self.0
    }
}
