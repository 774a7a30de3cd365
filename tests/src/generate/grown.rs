//! Files that have grown over the years: among the needs of a shape stand some that others already force.

use super::drafts::{self, Draft};
use super::limits;
use super::random::Random;
use super::shapes::{self, room_for_needs};
use crate::reference::reading::MOST_BOARDS;

/// All needs between so many jobs in a row fit a file, whatever the jobs' names.
const MOST_FULL: usize = 137;

/// A sound draft of any size with none, some or many needs planted; now and then with all there can be.
pub fn draft(random: &mut Random) -> Draft {
    if random.percent(5) {
        return full(random);
    }
    let mut draft = Draft::any(random);
    let planted: usize = random.pick(&[0, 1, 2, 3, 5, 10, 50, 300]);
    for _ in 0..planted.min(room_for_needs(draft.jobs.len()) - draft.needs.len()) {
        plant(random, &mut draft.needs);
    }
    random.shuffle(&mut draft.needs);
    draft
}

/// Jobs that each need all jobs before them, often 64 or as many as a file has room for.
fn full(random: &mut Random) -> Draft {
    let most = random.pick(&[64, 64, MOST_FULL]);
    let jobs = if random.percent(50) { most } else { random.between(1, most) };
    let boards = drafts::boards(random);
    let shape = shapes::full(random, jobs);
    let limit = limits::near_an_edge(random, &shape, boards.unwrap_or(MOST_BOARDS));
    Draft::of_shape(random, &shape, limit, boards)
}

/// Adds a need from the first to the last job of some chain, unless it is there already.
fn plant(random: &mut Random, needs: &mut Vec<(u16, u16)>) {
    if let Some(ends) = chain_ends(random, needs).filter(|ends| !needs.contains(ends)) {
        needs.push(ends);
    }
}

/// Adds a need from the last to the first job of some chain, if there is one.
pub fn close_circle(random: &mut Random, draft: &mut Draft) {
    if let Some((first, last)) = chain_ends(random, &draft.needs) {
        draft.needs.push((last, first));
    }
}

/// The first and the last job of a chain of one or more needs, planted ones among them.
fn chain_ends(random: &mut Random, needs: &[(u16, u16)]) -> Option<(u16, u16)> {
    if needs.is_empty() {
        return None;
    }
    let (first, mut last) = random.pick(needs);
    for _ in 1..random.pick(&[2, 2, 2, 3, 4, 6, 64]) {
        let onward: Vec<u16> = needs.iter().filter(|need| need.0 == last).map(|need| need.1).collect();
        if onward.is_empty() {
            break;
        }
        last = random.pick(&onward);
    }
    Some((first, last))
}
