//! Job files in the making: parts that are still apart, and their bytes.

use super::limits;
use super::many;
use super::random::Random;
use super::shapes::{room_for_needs, Shape};
use crate::reference::reading::{LONGEST_FILE, MOST_BOARDS};

/// Limit, most boards, jobs and needs of a file. Needs have job numbers from 1.
#[derive(Clone, Debug)]
pub struct Draft {
    pub limit: u8,
    pub boards: Option<u8>,
    pub jobs: Vec<(i16, Vec<u8>)>,
    pub needs: Vec<(u16, u16)>,
}

/// How many files in a hundred have many jobs.
const MANY: usize = 20;
/// Of the needs of a file, how many in a hundred have tag 6 although tag 4 reaches their jobs.
const WIDE: [usize; 5] = [0, 0, 20, 50, 100];

/// A field with its head.
pub fn field(tag: u8, value: &[u8]) -> Vec<u8> {
    let length = (value.len() as u16).to_le_bytes();
    [&[tag], &length[..], value].concat()
}

pub fn job_field(level: i16, name: &[u8]) -> Vec<u8> {
    field(3, &[&level.to_le_bytes(), name].concat())
}

/// A need with tag 4 where it reaches both jobs, else with tag 6.
pub fn need_field(giver: u16, taker: u16) -> Vec<u8> {
    match (u8::try_from(giver), u8::try_from(taker)) {
        (Ok(giver), Ok(taker)) => field(4, &[giver, taker]),
        _ => wide_need_field(giver, taker),
    }
}

/// A need with tag 6.
pub fn wide_need_field(giver: u16, taker: u16) -> Vec<u8> {
    field(6, &[giver.to_le_bytes(), taker.to_le_bytes()].concat())
}

/// A need with tag 6 in so many of a hundred cases, and where tag 4 does not reach.
pub fn some_need_field(random: &mut Random, wide: usize, (giver, taker): (u16, u16)) -> Vec<u8> {
    if random.percent(wide) {
        wide_need_field(giver, taker)
    } else {
        need_field(giver, taker)
    }
}

pub fn boards_field(boards: u8) -> Vec<u8> {
    field(9, &[boards])
}

impl Draft {
    /// Jobs named a, b, .. with levels 10, 20, .., for files written by hand.
    pub fn plain(limit: u8, jobs: usize, needs: &[(u16, u16)]) -> Draft {
        let job = |number: usize| (10 * number as i16, vec![b'a' + ((number - 1) % 26) as u8]);
        Draft { limit, boards: None, jobs: (1..=jobs).map(job).collect(), needs: needs.to_vec() }
    }

    /// A chain of needs through all jobs.
    pub fn chain(limit: u8, jobs: u16) -> Draft {
        let needs: Vec<(u16, u16)> = (1..jobs).map(|giver| (giver, giver + 1)).collect();
        Draft::plain(limit, jobs as usize, &needs)
    }

    /// So many chains side by side, their first jobs numbered first, then their second ones, and so on.
    pub fn side_by_side(limit: u8, chains: u16, length: u16) -> Draft {
        let jobs = chains * length;
        let needs: Vec<(u16, u16)> = (chains + 1..=jobs).map(|taker| (taker - chains, taker)).collect();
        Draft::plain(limit, jobs as usize, &needs)
    }

    /// A sound draft of any size: mostly of up to 64 jobs, now and then of many.
    pub fn any(random: &mut Random) -> Draft {
        if random.percent(MANY) {
            Draft::many(random)
        } else {
            Draft::sound(random, 64)
        }
    }

    /// A sound shape of up to this many jobs, with limit and most boards near an edge, and any levels and names.
    pub fn sound(random: &mut Random, most: usize) -> Draft {
        let jobs = if random.percent(15) { most } else { random.between(1, most) };
        let tries = random.below(12);
        let mut boards = boards(random);
        let shape = limits::narrow_shape(random, jobs, boards.unwrap_or(MOST_BOARDS), tries);
        if boards.is_some() && random.percent(60) {
            boards = limits::few_boards(random, &shape).or(boards);
        }
        Draft::near_an_edge(random, &shape, boards)
    }

    /// The same of more than 64 jobs. Most boards, where given, are always near an edge, and the limit is often the fewest slots:
    /// with others most of these shapes are refused.
    pub fn many(random: &mut Random) -> Draft {
        let tries = random.below(9);
        let shape = many::narrow_shape(random, tries);
        let boards = if random.percent(50) { limits::few_boards(random, &shape) } else { None };
        let fewest = limits::fewest_slots(&shape, boards.unwrap_or(MOST_BOARDS));
        match fewest.filter(|_| random.percent(40)) {
            Some(limit) => Draft::of_shape(random, &shape, limit, boards),
            None => Draft::near_an_edge(random, &shape, boards),
        }
    }

    fn near_an_edge(random: &mut Random, shape: &Shape, boards: Option<u8>) -> Draft {
        let limit = limits::near_an_edge(random, shape, boards.unwrap_or(MOST_BOARDS));
        Draft::of_shape(random, shape, limit, boards)
    }

    /// A shape with any levels and names.
    pub fn of_shape(random: &mut Random, shape: &Shape, limit: u8, boards: Option<u8>) -> Draft {
        let jobs = (0..shape.jobs).map(|_| (level(random), name(random))).collect();
        let needs = shape.needs.iter().map(|&(giver, taker)| (giver as u16 + 1, taker as u16 + 1)).collect();
        Draft { limit, boards, jobs, needs }
    }

    /// The same with the jobs of `extras` behind its own, and their needs, numbered on.
    pub fn with_extras(&self, extras: &Draft) -> Draft {
        let first = self.jobs.len() as u16;
        let needs = extras.needs.iter().map(|&(giver, taker)| (first + giver, first + taker));
        Draft {
            limit: self.limit,
            boards: self.boards,
            jobs: [&self.jobs[..], &extras.jobs].concat(),
            needs: self.needs.iter().copied().chain(needs).collect(),
        }
    }

    /// The fields: header, limit, jobs, needs, most boards.
    pub fn fields(&self) -> Vec<Vec<u8>> {
        self.fields_by(|(giver, taker)| need_field(giver, taker))
    }

    /// The same fields with tag 6 for some needs that tag 4 reaches, for all or for none.
    pub fn mixed_fields(&self, random: &mut Random) -> Vec<Vec<u8>> {
        let wide = random.pick(&WIDE);
        self.fields_by(|need| some_need_field(random, wide, need))
    }

    fn fields_by(&self, need_field: impl FnMut((u16, u16)) -> Vec<u8>) -> Vec<Vec<u8>> {
        let mut fields = self.front();
        fields.extend(self.needs.iter().copied().map(need_field));
        fields.extend(self.boards.map(boards_field));
        fields
    }

    /// Header, limit and jobs.
    fn front(&self) -> Vec<Vec<u8>> {
        let mut fields = vec![field(1, &[1]), field(2, &[self.limit])];
        fields.extend(self.jobs.iter().map(|(level, name)| job_field(*level, name)));
        fields
    }

    pub fn bytes(&self) -> Vec<u8> {
        self.fields().concat()
    }

    /// The same with some of its needs given again, in up to six fields more; now and then with all of them, one to four times
    /// more; as far as there is room.
    pub fn with_copies(&self, random: &mut Random) -> Draft {
        let copies = match random.below(4) {
            _ if self.needs.is_empty() => Vec::new(),
            0 => self.needs.repeat(random.between(1, 4)),
            _ => (0..random.between(1, 6)).map(|_| random.pick(&self.needs)).collect(),
        };
        let mut needs = [&self.needs[..], &copies].concat();
        needs.truncate(room_for_needs(self.jobs.len()));
        Draft { needs, ..self.clone() }
    }

    /// The same jobs and needs, each need anywhere behind its two jobs and by either tag that reaches them, and most boards
    /// and comments anywhere; in a quarter of the files with copies of needs. The plain bytes where these are too many.
    pub fn mixed_bytes(&self, random: &mut Random) -> Vec<u8> {
        let needs = if random.percent(25) { self.with_copies(random).needs } else { self.needs.clone() };
        let wide = random.pick(&WIDE);
        let mut fields = self.front();
        // job number k stands at place k + 1; a need may stand at any place behind both of its jobs
        let mut places: Vec<Vec<Vec<u8>>> = vec![Vec::new(); fields.len()];
        for need in needs {
            let place = random.between(need.0.max(need.1) as usize + 1, fields.len() - 1);
            places[place].push(some_need_field(random, wide, need));
        }
        if let Some(boards) = self.boards {
            let (last, any) = (fields.len() - 1, random.between(1, fields.len() - 1));
            let place = random.pick(&[1, any, last]);
            let at = random.between(0, places[place].len());
            places[place].insert(at, boards_field(boards));
        }
        for place in 1..fields.len() {
            if random.percent(10) {
                let length = random.pick(&[0, 0, 1, 2, 5, 30, 200]);
                let at = random.between(0, places[place].len());
                places[place].insert(at, field(5, &random.bytes(length)));
            }
            fields[place].extend(places[place].concat());
        }
        let bytes = fields.concat();
        if bytes.len() <= LONGEST_FILE {
            bytes
        } else {
            self.bytes()
        }
    }
}

/// Most boards, in about half of the files; few boards often.
pub fn boards(random: &mut Random) -> Option<u8> {
    random.percent(50).then(|| random.pick(&[1, 1, 2, 2, 2, 3, 3, 3, 4, 4, 5, 6, 7, 8]))
}

/// A level, often one at which rounding turns or a byte ends.
pub fn level(random: &mut Random) -> i16 {
    match random.below(5) {
        0 => random.pick(&[
            0, 4, 5, 6, 14, 15, 16, -4, -5, -6, -14, -15, -16, 255, 256, -255, -256, 32764, 32765, 32767, -32765,
            -32768,
        ]),
        1 => random.between(0, 4000) as i16 - 2000,
        2 => 10 * (random.between(0, 6552) as i16 - 3276) + 5,
        _ => random.word() as i16,
    }
}

/// A name of 1 to 12 bytes; short ones often meet each other.
pub fn name(random: &mut Random) -> Vec<u8> {
    let (length, least, greatest) = match random.below(3) {
        0 => (1, b'a', b'e'),
        1 => (random.between(1, 12), b'A', b'z'),
        _ => (random.pick(&[1, 2, 11, 12]), 33, 126),
    };
    let mut byte = || match random.below(8) {
        0 => random.pick(&[least, greatest]),
        _ => random.between(least as usize, greatest as usize) as u8,
    };
    (0..length).map(|_| byte()).collect()
}
