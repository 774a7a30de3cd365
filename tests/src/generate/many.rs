//! Shapes of many jobs: hardly ever fewer than 65, and up to as many as a file may have. Most are narrow enough to be planned in
//! 64 slots, which takes needs that leave most jobs just a slot or two.

use super::limits::too_wide;
use super::random::Random;
use super::shapes::{self, renumbered, room_for_needs, Shape};
use crate::reference::reading::{MOST_BOARDS, MOST_JOBS};
use std::collections::HashSet;
use std::ops::Range;

const FEWEST: usize = 65;
const MOST_SLOTS: usize = 64;
const MOST_IN_SLOT: usize = MOST_BOARDS as usize;

/// A shape that is not too wide, if one turns up in this many tries, its jobs numbered in any order.
pub fn narrow_shape(random: &mut Random, tries: usize) -> Shape {
    let mut shape = any(random);
    for _ in 0..tries {
        if !too_wide(&shape, MOST_BOARDS) {
            break;
        }
        shape = any(random);
    }
    renumbered(random, shape)
}

fn any(random: &mut Random) -> Shape {
    match random.below(12) {
        0 => any_jobs(random, shapes::any),
        1..=6 => any_jobs(random, laid_out),
        7 | 8 => bundles(random),
        _ => in_series(random),
    }
}

/// A shape of up to 100, 200, 300 or all jobs that there may be, often of just so many.
fn any_jobs(random: &mut Random, shape: fn(&mut Random, usize) -> Shape) -> Shape {
    let most = random.pick(&[100, 200, 300, MOST_JOBS, MOST_JOBS]);
    let jobs = if random.percent(20) { most } else { random.between(FEWEST, most) };
    shape(random, jobs)
}

/// Jobs laid out in up to 64 slots, now and then with as many needs as there is room for.
fn laid_out(random: &mut Random, jobs: usize) -> Shape {
    let count = random.between(jobs.div_ceil(MOST_IN_SLOT), MOST_SLOTS);
    let moves = random.pick(&[0, 0, 4, 20, 100]);
    let slots = slots_of(random, 0..jobs, count, moves);
    let needs = kept_needs(random, &slots);
    let mut shape = loosened(random, Shape { jobs, needs });
    let room = room_for_needs(jobs) - shape.needs.len();
    for _ in 0..room.min(random.pick(&[0, jobs / 8, jobs / 2, 2 * jobs, room])) {
        shape.needs.push(far_need(random, &slots));
    }
    shape.needs.sort();
    shape.needs.dedup();
    shape
}

/// So many slots, each with those of the jobs that run in it: about as many in one as in another, but for some that are moved.
fn slots_of(random: &mut Random, jobs: Range<usize>, count: usize, moves: usize) -> Vec<Range<usize>> {
    let share = |slots: usize| jobs.len() * slots / count;
    let mut sizes: Vec<usize> = (0..count).map(|slot| share(slot + 1) - share(slot)).collect();
    for _ in 0..moves {
        let (from, to) = (random.below(count), random.below(count));
        if sizes[from] > 1 && sizes[to] < MOST_IN_SLOT {
            sizes[from] -= 1;
            sizes[to] += 1;
        }
    }
    let next = |end: &mut usize, size| {
        *end += size;
        Some(*end - size..*end)
    };
    sizes.into_iter().scan(jobs.start, next).collect()
}

/// Needs that jobs in these slots keep, and that leave hardly any of them another slot: chains through slots in a row, and
/// where a chain begins or ends, needs of two jobs that run two slots away.
fn kept_needs(random: &mut Random, slots: &[Range<usize>]) -> Vec<(usize, usize)> {
    let mut needs = chains(random, slots);
    let (giving, taking): (HashSet<usize>, HashSet<usize>) = needs.iter().copied().unzip();
    for (at, jobs) in slots.iter().enumerate() {
        for job in jobs.clone() {
            if at >= 2 && !taking.contains(&job) {
                needs.extend(two_of(random, &slots[at - 2]).map(|giver| (giver, job)));
            }
            if at + 2 < slots.len() && !giving.contains(&job) {
                needs.extend(two_of(random, &slots[at + 2]).map(|taker| (job, taker)));
            }
        }
    }
    needs.sort();
    needs.dedup();
    needs
}

/// Needs from jobs of one slot to jobs of the next, at most one for each of them.
fn chains(random: &mut Random, slots: &[Range<usize>]) -> Vec<(usize, usize)> {
    let tied = random.pick(&[100, 100, 97, 90, 75]);
    let mut needs = Vec::new();
    for pair in slots.windows(2) {
        let (mut givers, mut takers): (Vec<usize>, Vec<usize>) = (pair[0].clone().collect(), pair[1].clone().collect());
        random.shuffle(&mut givers);
        random.shuffle(&mut takers);
        needs.extend(givers.into_iter().zip(takers).filter(|_| random.percent(tied)));
    }
    needs
}

/// Two jobs of a slot; the same twice where it has just one.
fn two_of(random: &mut Random, jobs: &Range<usize>) -> [usize; 2] {
    let (first, apart) = (random.below(jobs.len()), random.between(1, jobs.len().max(2) - 1));
    [jobs.start + first, jobs.start + (first + apart) % jobs.len()]
}

/// A need between jobs that run two or more slots apart.
fn far_need(random: &mut Random, slots: &[Range<usize>]) -> (usize, usize) {
    let giver = random.below(slots.len() - 2);
    let taker = random.between(giver + 2, slots.len() - 1);
    let mut job_of = |slot: usize| random.between(slots[slot].start, slots[slot].end - 1);
    (job_of(giver), job_of(taker))
}

/// Takes some needs away, one by one, that do not make the shape too wide.
fn loosened(random: &mut Random, mut shape: Shape) -> Shape {
    for _ in 0..random.pick(&[0, 5, 20, 80]) {
        let at = random.below(shape.needs.len());
        let need = shape.needs.swap_remove(at);
        if too_wide(&shape, MOST_BOARDS) {
            shape.needs.push(need);
        }
    }
    shape
}

/// Bundles of two chains one after the other: a job, two chains that need it, a job that needs both, and again from that job
/// on; all this once or twice side by side. Seldom a bundle has another number of chains.
fn bundles(random: &mut Random) -> Shape {
    let (mut needs, mut first, mut left) = (Vec::new(), 0, random.between(40, MOST_SLOTS));
    while left > 3 {
        let (chains, length) = (random.pick(&[1, 2, 2, 2, 2, 2, 2, 3]), random.between(1, 12.min(left - 3)));
        let join = first + chains * length + 1;
        for head in (0..chains).map(|at| first + 1 + at * length) {
            needs.push((first, head));
            needs.extend((head + 1..head + length).map(|job| (job - 1, job)));
            needs.push((head + length - 1, join));
        }
        left -= length + 2;
        first = join;
    }
    let jobs = first + 1;
    if jobs < FEWEST || random.percent(50) {
        needs.extend(needs.clone().into_iter().map(|(giver, taker)| (jobs + giver, jobs + taker)));
        return Shape { jobs: 2 * jobs, needs };
    }
    Shape { jobs, needs }
}

/// Parts that are laid out in a few slots each, one after the other: each job of a part that has no giver in it needs all jobs of
/// the part before that have no taker in theirs.
fn in_series(random: &mut Random) -> Shape {
    let (mut jobs, mut needs, mut left, mut before) = (0, Vec::new(), random.between(40, MOST_SLOTS), Vec::new());
    while left > 0 {
        let count = random.between(1, left.min(8));
        let part = jobs..jobs + count * random.between(2, MOST_IN_SLOT);
        if part.end > MOST_JOBS {
            break;
        }
        let part_slots = slots_of(random, part.clone(), count, 0);
        let own = kept_needs(random, &part_slots);
        let (giving, taking): (HashSet<usize>, HashSet<usize>) = own.iter().copied().unzip();
        for taker in part.clone().filter(|job| !taking.contains(job)) {
            needs.extend(before.iter().map(|&giver| (giver, taker)));
        }
        needs.extend(own);
        before = part.clone().filter(|job| !giving.contains(job)).collect();
        left = left.saturating_sub(count + 1);
        jobs = part.end;
    }
    loosened(random, Shape { jobs, needs })
}
