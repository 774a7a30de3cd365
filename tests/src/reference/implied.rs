//! Needs that follow from others, as request 5 of document 02 has them: the giver reaches the taker by a path of two or
//! more other needs.

use super::entries::sound_graph;
use super::needs::Graph;
use super::reading::{need_numbers, read, take_field};

/// A need: giver and taker.
type Need = (usize, usize);

/// The needs of a file that follow from others, in rising order; or the question that refuses it, 2 to 11 or 21.
pub fn implied_needs(file: &[u8]) -> Result<Vec<Need>, u8> {
    Ok(by_closure(&sound_graph(&read(file)?)?))
}

/// The needs whose giver has a taker that reaches their taker. Only for needs without a circle, so that no such path
/// comes back to the giver.
fn by_closure(graph: &Graph) -> Vec<Need> {
    let closure = graph.closure();
    let follows = |giver: usize, taker: usize| graph.takers[giver].iter().any(|&next| closure[next].has(taker));
    let mut found = Vec::new();
    for giver in 0..graph.jobs() {
        let mut takers = graph.takers[giver].clone();
        takers.sort();
        found.extend(takers.into_iter().filter(|&taker| follows(giver, taker)).map(|taker| (giver, taker)));
    }
    found
}

/// The same list by its definition: each need is passed over, and a path searched among the others.
pub fn by_search(jobs: usize, needs: &[Need]) -> Vec<Need> {
    let graph = Graph::new(jobs, needs);
    let follows = |&&need: &&Need| {
        let mut seen = vec![false; jobs];
        others(&graph, need, need.0).any(|next| reaches(&graph, need, next, &mut seen))
    };
    let mut found: Vec<Need> = needs.iter().filter(follows).copied().collect();
    found.sort();
    found
}

/// Does a path of one or more needs other than this one lead from a job to this one's taker? Depth first, past the jobs seen.
fn reaches(graph: &Graph, need: Need, from: usize, seen: &mut [bool]) -> bool {
    let fresh = !std::mem::replace(&mut seen[from], true);
    fresh && others(graph, need, from).any(|next| next == need.1 || reaches(graph, need, next, seen))
}

/// The takers of a job by needs other than this one.
fn others(graph: &Graph, need: Need, giver: usize) -> impl Iterator<Item = usize> + '_ {
    graph.takers[giver].iter().copied().filter(move |&taker| (giver, taker) != need)
}

/// The bytes of a readable file without the fields, of either tag, of these needs, which are in rising order.
pub fn struck(file: &[u8], needs: &[Need]) -> Vec<u8> {
    let (mut kept, mut rest) = (Vec::new(), file);
    while let Some((tag, value, behind)) = take_field(rest) {
        let need = need_numbers(tag, value).map(|(giver, taker)| (giver - 1, taker - 1));
        if need.is_none_or(|need| needs.binary_search(&need).is_err()) {
            kept.extend(&rest[..rest.len() - behind.len()]);
        }
        rest = behind;
    }
    kept
}
