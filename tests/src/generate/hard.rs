//! Hard files: needs changed step by step so that the search meets more and more states.

use super::limits::{too_wide, widest};
use super::random::Random;
use super::shapes::Shape;
use crate::reference::needs::Graph;
use crate::reference::search;

/// Shapes with as many jobs as this one, each at least as hard for this many boards as the one before, found in so many steps.
pub fn shapes(random: &mut Random, first: Shape, most_boards: u8, steps: usize) -> Vec<Shape> {
    let mut found = vec![first];
    let mut effort = effort_of(&found[0], most_boards);
    for _ in 0..steps {
        let mut changed = found[found.len() - 1].clone();
        for _ in 0..random.between(1, 3) {
            change(random, &mut changed);
        }
        let effort_now = effort_of(&changed, most_boards);
        if effort_now >= effort.max(1) {
            effort = effort_now;
            found.push(changed);
        }
    }
    found
}

/// Takes a need away, or adds one that is not there.
fn change(random: &mut Random, shape: &mut Shape) {
    let need = (random.below(shape.jobs), random.below(shape.jobs));
    if random.percent(50) && !shape.needs.is_empty() {
        shape.needs.swap_remove(random.below(shape.needs.len()));
    } else if need.0 != need.1 && !shape.needs.contains(&need) {
        shape.needs.push(need);
    }
}

/// 0 for needs that have a circle or are too wide.
fn effort_of(shape: &Shape, most_boards: u8) -> usize {
    let graph = Graph::new(shape.jobs, &shape.needs);
    if graph.has_circle() || too_wide(shape, most_boards) {
        return 0;
    }
    search::effort(&graph, widest(&graph, most_boards), most_boards)
}
