//! Boards for a start list, slot by slot.

use super::needs::Graph;

/// The board of each job. The starts keep the rules, and no slot has more than eight jobs.
pub fn place(graph: &Graph, starts: &[usize]) -> Vec<u8> {
    let mut boards = vec![0; starts.len()];
    for slot in 0..=starts.iter().copied().max().unwrap_or(0) {
        let (mut free, mut others): (Vec<u8>, Vec<usize>) = ((1..=8).collect(), Vec::new());
        for job in (0..starts.len()).filter(|&job| starts[job] == slot) {
            match graph.givers[job].iter().find(|&&giver| starts[giver] + 1 == slot) {
                Some(&giver) => {
                    boards[job] = boards[giver];
                    free.retain(|&board| board != boards[giver]);
                }
                None => others.push(job),
            }
        }
        for (job, board) in others.into_iter().zip(free) {
            boards[job] = board;
        }
    }
    boards
}
