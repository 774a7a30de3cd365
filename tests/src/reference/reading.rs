//! Reading a job file: questions 2 to 8, 10, and 21.

use std::collections::HashSet;

/// A job as the file has it.
#[derive(Clone, Debug, PartialEq)]
pub struct Job {
    /// In millimetres.
    pub level: i16,
    pub name: Vec<u8>,
}

/// A readable job file. Needs are pairs of giver and taker, counted from 0, each pair once.
#[derive(Clone, Debug, PartialEq)]
pub struct JobFile {
    pub limit: u8,
    /// What tag 9 says, where it stands in the file.
    pub boards: Option<u8>,
    pub jobs: Vec<Job>,
    pub needs: Vec<(usize, usize)>,
}

pub const LONGEST_FILE: usize = 49_152;
pub const MOST_JOBS: usize = 400;
pub const MOST_BOARDS: u8 = 8;

impl JobFile {
    /// The most boards that a table for the file may use.
    pub fn most_boards(&self) -> u8 {
        self.boards.unwrap_or(MOST_BOARDS)
    }
}

/// May this byte stand in a name?
pub fn in_name(byte: u8) -> bool {
    (33..=126).contains(&byte)
}

/// The file, or the number of the first question with a "no".
pub fn read(bytes: &[u8]) -> Result<JobFile, u8> {
    if bytes.len() > LONGEST_FILE {
        return Err(2);
    }
    let mut file = JobFile { limit: 0, boards: None, jobs: Vec::new(), needs: Vec::new() };
    let mut fields = 0;
    let mut rest = bytes;
    while !rest.is_empty() {
        let (tag, value, behind) = take_field(rest).ok_or(3)?;
        if !matches!(tag, 1..=6 | 9) {
            return Err(4);
        }
        let in_place = match fields {
            0 => tag == 1,
            1 => tag == 2,
            _ => tag > 2,
        };
        if !in_place {
            return Err(5);
        }
        match tag {
            1 => read_header(value)?,
            2 => file.limit = read_limit(value)?,
            3 => read_job(value, &mut file)?,
            4 | 6 => read_need(tag, value, &mut file)?,
            9 => read_boards(value, &mut file)?,
            _ => (),
        }
        fields += 1;
        rest = behind;
    }
    if fields < 2 || file.jobs.is_empty() {
        return Err(10);
    }
    let mut pairs = HashSet::new();
    file.needs.retain(|need| pairs.insert(*need));
    Ok(file)
}

/// Tag and value of the first field, and the bytes behind it; none if head or value is not whole.
pub fn take_field(bytes: &[u8]) -> Option<(u8, &[u8], &[u8])> {
    let [tag, low, high, rest @ ..] = bytes else { return None };
    let length = u16::from_le_bytes([*low, *high]) as usize;
    if length > rest.len() {
        return None;
    }
    let (value, behind) = rest.split_at(length);
    Some((*tag, value, behind))
}

fn read_header(value: &[u8]) -> Result<(), u8> {
    if value == [1] {
        Ok(())
    } else {
        Err(6)
    }
}

fn read_limit(value: &[u8]) -> Result<u8, u8> {
    match value {
        [limit @ 1..=64] => Ok(*limit),
        _ => Err(6),
    }
}

fn read_boards(value: &[u8], file: &mut JobFile) -> Result<(), u8> {
    let [boards @ 1..=MOST_BOARDS] = value else { return Err(6) };
    match file.boards.replace(*boards) {
        None => Ok(()),
        Some(_) => Err(21),
    }
}

fn read_job(value: &[u8], file: &mut JobFile) -> Result<(), u8> {
    let [low, high, name @ ..] = value else { return Err(6) };
    if name.is_empty() || name.len() > 12 || !name.iter().all(|&byte| in_name(byte)) {
        return Err(6);
    }
    if file.jobs.len() == MOST_JOBS {
        return Err(7);
    }
    file.jobs.push(Job { level: i16::from_le_bytes([*low, *high]), name: name.to_vec() });
    Ok(())
}

fn read_need(tag: u8, value: &[u8], file: &mut JobFile) -> Result<(), u8> {
    let (giver, taker) = need_numbers(tag, value).ok_or(6)?;
    let known = 1..=file.jobs.len();
    if !known.contains(&giver) || !known.contains(&taker) || giver == taker {
        return Err(8);
    }
    file.needs.push((giver - 1, taker - 1));
    Ok(())
}

/// The numbers of giver and taker in a field: one byte each with tag 4, two with tag 6. None for another tag or length.
pub fn need_numbers(tag: u8, value: &[u8]) -> Option<(usize, usize)> {
    match (tag, value) {
        (4, &[giver, taker]) => Some((giver as usize, taker as usize)),
        (6, &[giver_low, giver_high, taker_low, taker_high]) => {
            let number = |low, high| u16::from_le_bytes([low, high]) as usize;
            Some((number(giver_low, giver_high), number(taker_low, taker_high)))
        }
        _ => None,
    }
}
