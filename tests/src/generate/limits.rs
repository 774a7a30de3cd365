//! Limits and most boards for a shape: tight, loose, just too tight, just too wide.

use super::random::Random;
use super::shapes::{self, Shape};
use crate::reference::lists;
use crate::reference::needs::Graph;
use crate::reference::reading::MOST_BOARDS;
use crate::reference::search;

/// The fewest slots that leave no window empty and have a board for each job.
fn least_slots(graph: &Graph, most_boards: u8) -> i32 {
    graph.least_slots().max(graph.jobs().div_ceil(most_boards as usize) as i32)
}

/// The most slots at which the shape is not too wide, or the least if there are none.
pub fn widest(graph: &Graph, most_boards: u8) -> i32 {
    let least = least_slots(graph, most_boards);
    (least..=64).take_while(|&limit| graph.width(limit) <= 8).last().unwrap_or(least)
}

/// A shape that is not too wide, if one turns up in this many tries.
pub fn narrow_shape(random: &mut Random, jobs: usize, most_boards: u8, tries: usize) -> Shape {
    let mut shape = shapes::any(random, jobs);
    for _ in 0..tries {
        if !too_wide(&shape, most_boards) {
            break;
        }
        shape = shapes::any(random, jobs);
    }
    shape
}

/// Is the shape too wide at every limit at which it might be planned?
pub fn too_wide(shape: &Shape, most_boards: u8) -> bool {
    let graph = Graph::new(shape.jobs, &shape.needs);
    let least = least_slots(&graph, most_boards);
    least > 64 || graph.width(least) > 8
}

/// A limit at or near one of the points where the answer changes.
pub fn near_an_edge(random: &mut Random, shape: &Shape, most_boards: u8) -> u8 {
    let graph = Graph::new(shape.jobs, &shape.needs);
    let (least, widest) = (least_slots(&graph, most_boards), widest(&graph, most_boards));
    let limit = match random.below(20) {
        0..=4 => least,
        5..=7 => least + random.between(1, 3) as i32,
        8 => least - 1,
        9..=12 => widest,
        13 => widest + 1,
        14 => random.between(1, 64) as i32,
        _ => match fewest_slots(shape, most_boards) {
            Some(fewest) => fewest as i32 - random.below(2) as i32,
            None => widest,
        },
    };
    limit.clamp(1, 64) as u8
}

/// The fewest slots in which the shape can be planned; none if it is too wide or takes more than there may be.
pub fn fewest_slots(shape: &Shape, most_boards: u8) -> Option<u8> {
    best(&Graph::new(shape.jobs, &shape.needs), most_boards).map(|starts| lists::slots(&starts) as u8)
}

/// As many boards as the shape takes where there are eight, or one or two fewer; none where it takes one or two, or is too
/// wide.
pub fn few_boards(random: &mut Random, shape: &Shape) -> Option<u8> {
    let taken = lists::boards(&best(&Graph::new(shape.jobs, &shape.needs), MOST_BOARDS)?) as u8;
    (taken > 2).then(|| taken - random.pick(&[0, 1, 1, 1, 2]))
}

/// The list for the most slots at which the shape is not too wide, if there is one.
fn best(graph: &Graph, most_boards: u8) -> Option<Vec<usize>> {
    let widest = widest(graph, most_boards);
    if widest > 64 || graph.width(widest) > 8 {
        return None;
    }
    search::best(graph, widest, most_boards)
}
