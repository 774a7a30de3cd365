//! Shapes of needs without a circle. Jobs are counted from 0, and numbered anew at the end. All needs between a few jobs,
//! circles among them, are counted from 1.

use super::random::Random;
use crate::reference::reading::LONGEST_FILE;

#[derive(Clone, Debug)]
pub struct Shape {
    pub jobs: usize,
    pub needs: Vec<(usize, usize)>,
}

/// A shape of any kind with this many jobs, its jobs numbered in any order.
pub fn any(random: &mut Random, jobs: usize) -> Shape {
    let needs = match random.below(20) {
        0 => chain(jobs),
        1 => parallel_chains(random, jobs),
        2 | 3 => layers(random, jobs),
        4 => out_tree(random, jobs),
        5 => mirrored(jobs, out_tree(random, jobs)),
        6 => series_parallel(random, jobs),
        7 | 8 => banded(random, jobs),
        9 => fork_join(random, jobs),
        10 => chain_with_helpers(random, jobs),
        11 => grid(random, jobs),
        12 | 13 => woven(random, jobs),
        14 | 15 => with_loose_jobs(random, jobs),
        16..=18 => crowded_chain(random, jobs),
        _ => sparse(random, jobs),
    };
    renumbered(random, Shape { jobs, needs })
}

/// All needs that jobs in a row can have, the jobs numbered in any order.
pub fn full(random: &mut Random, jobs: usize) -> Shape {
    let needs = (0..jobs).flat_map(|taker| (0..taker).map(move |giver| (giver, taker))).collect();
    renumbered(random, Shape { jobs, needs })
}

/// All needs between up to so many jobs, numbered from 1, with and without circles: how many jobs, and the needs.
pub fn all_needs(most: u8) -> impl Iterator<Item = (u8, Vec<(u16, u16)>)> {
    (1..=most).flat_map(|jobs| {
        let numbers = 1..=jobs as u16;
        let pairs: Vec<(u16, u16)> = numbers
            .clone()
            .flat_map(|giver| numbers.clone().map(move |taker| (giver, taker)))
            .filter(|(giver, taker)| giver != taker)
            .collect();
        (0..1u64 << pairs.len()).map(move |chosen| {
            (jobs, (0..pairs.len()).filter(|at| chosen >> at & 1 == 1).map(|at| pairs[at]).collect())
        })
    })
}

/// How many needs a file of so many jobs has room for, whatever their names: with tag 4, or with tag 6 where that does not reach
/// all jobs.
pub fn room_for_needs(jobs: usize) -> usize {
    let left = LONGEST_FILE - 12 - 17 * jobs;
    if jobs <= 255 {
        left / 5
    } else {
        left / 7
    }
}

fn chain(jobs: usize) -> Vec<(usize, usize)> {
    (1..jobs).map(|job| (job - 1, job)).collect()
}

/// Some chains side by side, with needs across now and then.
fn parallel_chains(random: &mut Random, jobs: usize) -> Vec<(usize, usize)> {
    let chains = random.between(2, 8);
    let across = random.pick(&[0, 10, 30]);
    let mut needs = Vec::new();
    for taker in chains..jobs {
        needs.push((taker - chains, taker));
        let other = taker / chains * chains - random.between(1, chains);
        if other != taker - chains && random.percent(across) {
            needs.push((other, taker));
        }
    }
    needs
}

/// Layers of a few jobs; each job has some givers in the layer before, seldom in an earlier one.
fn layers(random: &mut Random, jobs: usize) -> Vec<(usize, usize)> {
    let most = random.between(1, 6);
    let density = random.pick(&[15, 30, 50, 80, 100]);
    let (mut needs, mut before, mut first) = (Vec::new(), 0..0, 0);
    while first < jobs {
        let layer = first..jobs.min(first + random.between(1, most));
        for taker in layer.clone() {
            needs.extend(before.clone().filter(|_| random.percent(density)).map(|giver| (giver, taker)));
            let own = needs.iter().filter(|need| need.1 == taker).count();
            if own == 0 && !before.is_empty() {
                needs.push((random.between(before.start, before.end - 1), taker));
            }
            if before.start > 0 && random.percent(10) {
                needs.push((random.below(before.start), taker));
            }
        }
        first = layer.end;
        before = layer;
    }
    needs
}

/// Each job but the first has one giver, among the few jobs before it.
fn out_tree(random: &mut Random, jobs: usize) -> Vec<(usize, usize)> {
    let reach = random.between(1, 8);
    (1..jobs).map(|job| (job - 1 - random.below(reach.min(job)), job)).collect()
}

/// The same needs with time reversed.
fn mirrored(jobs: usize, needs: Vec<(usize, usize)>) -> Vec<(usize, usize)> {
    needs.into_iter().map(|(giver, taker)| (jobs - 1 - taker, jobs - 1 - giver)).collect()
}

/// Parts put one after the other or side by side, down to single jobs.
fn series_parallel(random: &mut Random, jobs: usize) -> Vec<(usize, usize)> {
    let mut needs = Vec::new();
    series_parallel_part(random, 0, jobs, 0, &mut needs);
    needs
}

/// Adds the needs of the part from `first` to `end`; answers its sources and sinks.
fn series_parallel_part(
    random: &mut Random,
    first: usize,
    end: usize,
    side_by_side: usize,
    needs: &mut Vec<(usize, usize)>,
) -> (Vec<usize>, Vec<usize>) {
    if end - first <= 1 {
        return ((first..end).collect(), (first..end).collect());
    }
    let cut = random.between(first + 1, end - 1);
    if side_by_side < 2 && random.percent(40) {
        let (mut sources, mut sinks) = series_parallel_part(random, first, cut, side_by_side + 1, needs);
        let (more_sources, more_sinks) = series_parallel_part(random, cut, end, side_by_side + 1, needs);
        sources.extend(more_sources);
        sinks.extend(more_sinks);
        (sources, sinks)
    } else {
        let (sources, middle) = series_parallel_part(random, first, cut, side_by_side, needs);
        let (next, sinks) = series_parallel_part(random, cut, end, side_by_side, needs);
        needs.extend(middle.iter().flat_map(|&giver| next.iter().map(move |&taker| (giver, taker))));
        (sources, sinks)
    }
}

/// Random needs between jobs that stand near each other, or between all, as far as there is room.
fn banded(random: &mut Random, jobs: usize) -> Vec<(usize, usize)> {
    let reach = if random.percent(15) { jobs.min(room_for_needs(jobs) / jobs) } else { random.between(1, 10) };
    let density = random.pick(&[15, 25, 40, 70, 100]);
    let near = |giver: usize| (giver + 1..jobs.min(giver + 1 + reach)).map(move |taker| (giver, taker));
    (0..jobs).flat_map(near).filter(|_| random.percent(density)).collect()
}

/// One job, several that need it, one that needs them all, and again.
fn fork_join(random: &mut Random, jobs: usize) -> Vec<(usize, usize)> {
    let (mut needs, mut at) = (Vec::new(), 0);
    while at + 1 < jobs {
        let join = (at + 1 + random.between(1, 5)).min(jobs - 1);
        for middle in at + 1..join {
            needs.extend([(at, middle), (middle, join)]);
        }
        if join == at + 1 {
            needs.push((at, join));
        }
        at = join;
    }
    needs
}

/// A chain, and beside it jobs that are tied to it at one end, at both or not at all.
fn chain_with_helpers(random: &mut Random, jobs: usize) -> Vec<(usize, usize)> {
    let helpers = random.between(0, jobs.min(16) / 2);
    let length = jobs - helpers;
    let mut needs = chain(length);
    for helper in length..jobs {
        let at = random.below(length);
        let kind = random.below(8);
        if kind != 0 {
            needs.push((at, helper));
        }
        if kind > 2 && at + 2 < length {
            needs.push((helper, random.between(at + 2, length.min(at + 6) - 1)));
        }
    }
    needs
}

/// A narrow shape, and a few jobs without a need: many jobs may run in one slot, and later as well.
fn with_loose_jobs(random: &mut Random, jobs: usize) -> Vec<(usize, usize)> {
    let tied = jobs - random.below(jobs.min(8));
    match random.below(4) {
        0 => chain(tied),
        1 => fork_join(random, tied),
        2 => out_tree(random, tied),
        _ => mirrored(tied, out_tree(random, tied)),
    }
}

/// A chain, and beside it one or two times as many jobs, each between two jobs of the chain that are a few slots apart.
fn crowded_chain(random: &mut Random, jobs: usize) -> Vec<(usize, usize)> {
    let length = jobs.div_ceil(random.between(2, 3));
    let apart = random.between(2, 5);
    let mut needs = chain(length);
    for beside in length..jobs {
        let after = random.below(length);
        let before = after + random.between(2, apart);
        if random.percent(80) {
            needs.push((after, beside));
        }
        if before < length {
            needs.push((beside, before));
        }
    }
    needs
}

/// Rows of equal length; each job needs the one before it in its row and the one above.
fn grid(random: &mut Random, jobs: usize) -> Vec<(usize, usize)> {
    let columns = random.between(1, 6);
    let left = (0..jobs).filter(|job| job % columns > 0).map(|job| (job - 1, job));
    let above = (columns..jobs).map(|job| (job - columns, job));
    left.chain(above.filter(|_| columns > 1)).collect()
}

/// Layers of one size; each job has the same number of givers, all in the layer before.
fn woven(random: &mut Random, jobs: usize) -> Vec<(usize, usize)> {
    let size = random.between(2, 6);
    let givers = random.between(1, size.min(3));
    let mut needs = Vec::new();
    for taker in size..jobs {
        let first = taker / size * size - size;
        let mut layer: Vec<usize> = (first..first + size).collect();
        random.shuffle(&mut layer);
        needs.extend(layer[..givers].iter().map(|&giver| (giver, taker)));
    }
    needs
}

/// A few needs between any jobs, or none.
fn sparse(random: &mut Random, jobs: usize) -> Vec<(usize, usize)> {
    let mut needs = Vec::new();
    for _ in 0..random.below(2 * jobs) {
        let taker = random.below(jobs);
        if taker > 0 {
            needs.push((random.below(taker), taker));
        }
    }
    needs.sort();
    needs.dedup();
    needs
}

/// The numbers as they are, turned round, or in any order; the needs in any order too.
pub fn renumbered(random: &mut Random, shape: Shape) -> Shape {
    let mut numbers: Vec<usize> = (0..shape.jobs).collect();
    match random.below(5) {
        0 | 1 => (),
        2 => numbers.reverse(),
        _ => random.shuffle(&mut numbers),
    }
    let mut needs: Vec<(usize, usize)> =
        shape.needs.iter().map(|&(giver, taker)| (numbers[giver], numbers[taker])).collect();
    if random.percent(70) {
        random.shuffle(&mut needs);
    }
    Shape { jobs: shape.jobs, needs }
}
