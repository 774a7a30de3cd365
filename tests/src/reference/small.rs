//! Every set of needs of 1 to 4 jobs without a circle, as request 14 of document 02 has them, with its number and its
//! fewest slots, found by trying every start list.

use super::lists::{keeps_rules, slots};
use super::needs::Graph;

/// A need: giver and taker.
type Need = (usize, usize);

const MOST_JOBS: usize = 4;

/// A set of needs without a circle.
pub struct SmallGate {
    pub jobs: usize,
    pub number: usize,
    /// In rising order of giver, then taker.
    pub needs: Vec<Need>,
    pub fewest_slots: usize,
}

/// All of them, ordered by jobs and then by number.
pub fn small_gates() -> Vec<SmallGate> {
    let mut gates: Vec<SmallGate> = (1..=MOST_JOBS).flat_map(gates_of).collect();
    gates.sort_by_key(|gate| (gate.jobs, gate.number));
    gates
}

/// Those of so many jobs, from all sets of pairs of jobs; a job is paired with itself too, which is a circle.
fn gates_of(jobs: usize) -> Vec<SmallGate> {
    let pairs: Vec<Need> = (0..jobs).flat_map(|giver| (0..jobs).map(move |taker| (giver, taker))).collect();
    let lists = lists_below(jobs, jobs);
    let orders: Vec<&Vec<usize>> = lists.iter().filter(|list| all_differ(list)).collect();
    let mut sets = sets_of(&pairs);
    sets.retain(|needs| orders.iter().any(|places| givers_first(needs, places)));
    let gate = |needs: Vec<Need>| SmallGate {
        jobs,
        number: number(jobs, &needs),
        fewest_slots: fewest_slots(&Graph::new(jobs, &needs), &lists),
        needs,
    };
    sets.into_iter().map(gate).collect()
}

/// All sets of these pairs, each in their order: those of the others with the first pair and without it.
fn sets_of(pairs: &[Need]) -> Vec<Vec<Need>> {
    let [first, others @ ..] = pairs else { return vec![Vec::new()] };
    let without = sets_of(others);
    let with: Vec<Vec<Need>> = without.iter().map(|set| [&[*first], &set[..]].concat()).collect();
    [with, without].concat()
}

/// All lists of so many numbers below a bound.
fn lists_below(bound: usize, length: usize) -> Vec<Vec<usize>> {
    if length == 0 {
        return vec![Vec::new()];
    }
    let shorter = lists_below(bound, length - 1);
    shorter.iter().flat_map(|list| (0..bound).map(move |last| [&list[..], &[last]].concat())).collect()
}

/// Is no number in the list twice? Then it gives the jobs' places in an order of all of them.
fn all_differ(list: &[usize]) -> bool {
    (0..list.len()).all(|at| !list[..at].contains(&list[at]))
}

/// Does each giver have a place before its taker's? There is no circle exactly where some order of the jobs does this.
fn givers_first(needs: &[Need], places: &[usize]) -> bool {
    needs.iter().all(|&(giver, taker)| places[giver] < places[taker])
}

/// The number with one bit for each need. Jobs are counted from 0 here.
fn number(jobs: usize, needs: &[Need]) -> usize {
    needs.iter().map(|&(giver, taker)| 2usize.pow((giver * jobs + taker) as u32)).sum()
}

/// The fewest slots of those lists that keep the rules.
fn fewest_slots(graph: &Graph, lists: &[Vec<usize>]) -> usize {
    let kept = lists.iter().filter(|starts| keeps_rules(graph, starts));
    kept.map(|starts| slots(starts)).min().expect("one job in each slot, givers first, keeps the rules")
}
