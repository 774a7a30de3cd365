//! Damage to job files: one field or one byte at a time, for each question on its own, or anywhere.

use super::drafts::{boards_field, field, job_field, level, name, some_need_field, Draft};
use super::random::Random;
use crate::reference::reading::MOST_JOBS;

/// A file in which one thing that a question asks is wrong, or a need is given once more, at a place of its own choosing; now and then two.
pub fn fields(random: &mut Random, draft: &Draft) -> Vec<u8> {
    let mut fields = draft.mixed_fields(random);
    for _ in 0..random.pick(&[1, 1, 1, 2]) {
        match random.below(5) {
            0 => head_fields(random, &mut fields),
            1 => jobs(random, draft, &mut fields),
            2 => needs(random, draft, &mut fields),
            3 => boards(random, &mut fields),
            _ => order(random, &mut fields),
        }
    }
    fields.concat()
}

/// Header and limit: wrong values, lengths, places.
fn head_fields(random: &mut Random, fields: &mut Vec<Vec<u8>>) {
    let head = fields.len().min(2);
    if head == 0 {
        return;
    }
    let at = random.below(head);
    match random.below(6) {
        0 => fields[at] = field(1, &[random.pick(&[0, 2, 255])]),
        1 => fields[at] = field(2, &[random.pick(&[0, 1, 64, 65, 255])]),
        2 => fields[at] = field(at as u8 + 1, random.pick(&[&[][..], &[1, 1]])),
        3 => fields.truncate(at),
        4 => drop(fields.remove(at)),
        _ => fields.insert(at, field(5, &[])),
    }
}

/// Jobs: wrong lengths, wrong bytes in a name, too many of them.
fn jobs(random: &mut Random, draft: &Draft, fields: &mut Vec<Vec<u8>>) {
    let at = anywhere(random, fields);
    let fresh = (level(random), name(random));
    match random.below(6) {
        0 => fields.insert(at, field(3, random.pick(&[&[][..], &[7], &[7, 0]]))),
        1 => fields.insert(at, job_field(fresh.0, &vec![b'x'; random.pick(&[0, 1, 12, 13, 14, 300])])),
        2 => {
            let mut name = fresh.1;
            let place = random.below(name.len());
            name[place] = random.pick(&[0, 10, 32, 33, 126, 127, 128, 255]);
            fields.insert(at, job_field(fresh.0, &name));
        }
        3 => {
            let more = MOST_JOBS + 1 - draft.jobs.len();
            fields.extend((0..more).map(|_| job_field(fresh.0, &fresh.1)));
        }
        4 => {
            let more = MOST_JOBS - draft.jobs.len();
            fields.extend((0..more).map(|_| job_field(fresh.0, &fresh.1)));
            fields.push(job_field(fresh.0, random.pick(&[&b"ok"[..], b"", b"not ok"])));
        }
        _ => fields.retain(|field| ![3, 4, 6].contains(&field[0])),
    }
}

/// Needs of either tag: wrong lengths, numbers of no job, back again, round in a circle; and the same twice, which is no
/// damage.
fn needs(random: &mut Random, draft: &Draft, fields: &mut Vec<Vec<u8>>) {
    let jobs = draft.jobs.len() as u16;
    let job = random.below(jobs as usize) as u16 + 1;
    let wrong = random.pick(&[0, jobs + 1, jobs + 2, 128, 255, 256, 257, 256 + job, job.swap_bytes(), 65_535, job]);
    let at = anywhere(random, fields);
    let known = (!draft.needs.is_empty()).then(|| draft.needs[random.below(draft.needs.len())]);
    let (kind, unfit) = (random.below(7), need_of_wrong_length(random));
    let mut need_field = |giver, taker| some_need_field(random, 50, (giver, taker));
    match (kind, known) {
        (0, _) => fields.insert(at, unfit),
        (1, _) => fields.insert(at, need_field(job, wrong)),
        (2, _) => fields.insert(at, need_field(wrong, job)),
        (3, Some((giver, taker))) => fields.push(need_field(giver, taker)),
        (4, Some((giver, taker))) => fields.push(need_field(taker, giver)),
        (5, Some((giver, taker))) => fields.extend([need_field(taker, job), need_field(job, giver)]),
        _ => fields.insert(2.min(fields.len()), need_field(job, jobs)),
    }
}

/// Among them a need of each tag with the length of the other's.
fn need_of_wrong_length(random: &mut Random) -> Vec<u8> {
    let short = [&[][..], &[1], &[1, 2, 3], &[1, 0, 2, 0]];
    let wide = [&[][..], &[1], &[1, 2], &[1, 0, 2], &[1, 0, 2, 0, 0]];
    if random.percent(50) {
        field(4, random.pick(&short))
    } else {
        field(6, random.pick(&wide))
    }
}

/// Most boards: wrong values and lengths, given twice, as the first or second field; and tags around 9.
fn boards(random: &mut Random, fields: &mut Vec<Vec<u8>>) {
    let at = anywhere(random, fields);
    let given = boards_field(random.between(1, 8) as u8);
    match random.below(6) {
        0 => fields.insert(at, boards_field(random.pick(&[0, 9, 255]))),
        1 => fields.insert(at, field(9, random.pick(&[&[][..], &[2, 2]]))),
        2 => {
            fields.insert(at, given);
            let again = random.between(at, fields.len());
            fields.insert(again, boards_field(random.pick(&[0, 1, 2, 3, 8, 9])));
        }
        3 => fields.insert(random.below(2).min(fields.len()), given),
        4 if fields.len() > 1 => fields[random.below(2)] = given,
        _ => fields.insert(at, field(random.pick(&[7, 8, 10]), &[2])),
    }
}

/// Fields moved, doubled, lost or with another tag.
fn order(random: &mut Random, fields: &mut Vec<Vec<u8>>) {
    if fields.is_empty() {
        return;
    }
    let (at, other) = (random.below(fields.len()), random.below(fields.len()));
    match random.below(5) {
        0 => fields.swap(at, other),
        1 => fields.insert(other, fields[at].clone()),
        2 => drop(fields.remove(at)),
        3 => fields[at][0] = random.pick(&[0, 1, 2, 3, 4, 5, 6, 7, 8, 9, 10, 16, 17, 255]),
        _ => fields[at][1] = fields[at][1].wrapping_add(random.pick(&[1, 2, 255, 254, 128])),
    }
}

fn anywhere(random: &mut Random, fields: &[Vec<u8>]) -> usize {
    random.between(fields.len().min(2), fields.len())
}

/// Some bytes changed, lost or added anywhere.
pub fn bytes(random: &mut Random, file: &mut Vec<u8>) {
    for _ in 0..random.pick(&[1, 1, 1, 2, 3, 8]) {
        let at = random.between(0, file.len());
        match random.below(6) {
            0 => file.insert(at, random.byte()),
            1 => file.insert(at, random.pick(&[0, 1, 2, 3, 4, 5, 6, 9])),
            _ if at == file.len() => drop(file.pop()),
            2 => drop(file.remove(at)),
            3 => file[at] ^= 1 << random.below(8),
            4 => file[at] = random.pick(&[0, 1, 2, 3, 4, 5, 6, 8, 9, 16, 17, 32, 33, 64, 65, 126, 127, 128, 255]),
            _ => file[at] = random.byte(),
        }
    }
}

/// The file filled up by comments to exactly this length, if there is room for a field.
pub fn filled(random: &mut Random, file: &[u8], length: usize) -> Vec<u8> {
    let mut file = file.to_vec();
    while file.len() + 3 <= length {
        let room = length - file.len() - 3;
        // never leave one or two bytes, which hold no field
        let comment = if room < 6 || random.percent(20) { room } else { random.below(room - 3) };
        file.extend(field(5, &random.bytes(comment)));
    }
    file
}
