//! Start lists taken one by one: what document 01 says of a list, of two lists, and the search through all lists.

use super::needs::Graph;

/// The rules of program P as document 01 says them.
pub fn keeps_rules(graph: &Graph, starts: &[usize]) -> bool {
    (0..graph.jobs()).all(|job| {
        let next = |&&taker: &&usize| starts[taker] == starts[job] + 1;
        let before = |&&giver: &&usize| starts[giver] + 1 == starts[job];
        graph.takers[job].iter().all(|&taker| starts[job] < starts[taker])
            && graph.takers[job].iter().filter(next).count() <= 1
            && graph.givers[job].iter().filter(before).count() <= 1
    })
}

/// Program P as document 000 prints it, for given starts and a given C: is there a list of delays, one for each need,
/// that satisfies (1) to (4)? Goes through all of them.
pub fn satisfies_p(jobs: usize, needs: &[(usize, usize)], starts: &[usize], slots: usize) -> bool {
    (0..1 << needs.len()).any(|delays: u64| {
        let delay = |need: usize| (delays >> need & 1) as usize;
        let enough = |of: &dyn Fn((usize, usize)) -> usize| {
            (0..jobs).all(|job| {
                let own: Vec<usize> = (0..needs.len()).filter(|&need| of(needs[need]) == job).collect();
                own.iter().map(|&need| delay(need)).sum::<usize>() + 1 >= own.len()
            })
        };
        needs.iter().enumerate().all(|(need, &(giver, taker))| starts[giver] + 1 + delay(need) <= starts[taker])
            && starts.iter().all(|start| start + 1 <= slots)
            && enough(&|(giver, _)| giver)
            && enough(&|(_, taker)| taker)
    })
}

/// How many jobs run in the fullest slot.
pub fn boards(starts: &[usize]) -> usize {
    (0..slots(starts)).map(|slot| starts.iter().filter(|&&start| start == slot).count()).max().unwrap_or(0)
}

pub fn slots(starts: &[usize]) -> usize {
    starts.iter().max().map_or(0, |last| last + 1)
}

/// Of two lists that differ: is the first preferred? The earliest slot whose jobs differ, and there the lowest job
/// that runs in just one of them, decide.
pub fn preferred(one: &[usize], other: &[usize]) -> bool {
    for slot in 0..slots(one).max(slots(other)) {
        for job in 0..one.len() {
            match (one[job] == slot, other[job] == slot) {
                (true, false) => return true,
                (false, true) => return false,
                _ => (),
            }
        }
    }
    false
}

/// The shortest and then preferred of all start lists within the limit that have no more jobs in any slot than there are
/// boards.
pub fn best_of_all(graph: &Graph, limit: usize, most_boards: u8) -> Option<Vec<usize>> {
    let mut best: Option<Vec<usize>> = None;
    let mut starts = vec![0; graph.jobs()];
    loop {
        if keeps_rules(graph, &starts) && boards(&starts) <= most_boards as usize {
            let better = match &best {
                None => true,
                Some(best) if slots(&starts) != slots(best) => slots(&starts) < slots(best),
                Some(best) => preferred(&starts, best),
            };
            if better {
                best = Some(starts.clone());
            }
        }
        let Some(job) = (0..starts.len()).find(|&job| starts[job] + 1 < limit) else { return best };
        starts[..job].fill(0);
        starts[job] += 1;
    }
}
