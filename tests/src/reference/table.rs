//! The table file: its bytes, and question 14.

use super::reading::{in_name, take_field};
use std::ops::Range;

/// A job's row as the table has it.
#[derive(Clone, Debug, PartialEq)]
pub struct Row {
    pub start: u8,
    pub board: u8,
    /// In centimetres.
    pub level: i16,
    pub name: Vec<u8>,
}

#[derive(Clone, Debug, PartialEq)]
pub struct Table {
    pub slots: u8,
    pub boards: u8,
    pub rows: Vec<Row>,
}

pub const LONGEST_TABLE: usize = 7_606;

/// Millimetres to the nearest centimetre, of two nearest the even one: the first by distance, then even before odd.
pub fn centimetres(millimetres: i16) -> i16 {
    let wide = millimetres as i32;
    let close = (wide / 10 - 1)..=(wide / 10 + 1);
    close.min_by_key(|c| ((wide - 10 * c).abs(), c % 2 != 0)).expect("three numbers") as i16
}

/// As document 01 had it: a half away from zero. Tables made before request 4 have these levels.
pub fn half_away(millimetres: i16) -> i16 {
    let wide = millimetres as i32;
    ((wide.abs() + 5) / 10 * wide.signum()) as i16
}

impl Table {
    pub fn bytes(&self) -> Vec<u8> {
        let mut bytes = vec![16, 3, 0, 1, self.slots, self.boards];
        for row in &self.rows {
            let length = 4 + row.name.len() as u16;
            bytes.push(17);
            bytes.extend(length.to_le_bytes());
            bytes.extend([row.start, row.board]);
            bytes.extend(row.level.to_le_bytes());
            bytes.extend(&row.name);
        }
        bytes
    }

    /// The table that the bytes hold, with any number of rows; none where question 14 says "no".
    pub fn read(bytes: &[u8]) -> Option<Table> {
        let (16, [1, slots, boards], mut rest) = take_field(bytes)? else { return None };
        let mut table = Table { slots: *slots, boards: *boards, rows: Vec::new() };
        while !rest.is_empty() {
            let (17, [start, board, low, high, name @ ..], behind) = take_field(rest)? else { return None };
            if !(1..=12).contains(&name.len()) || !name.iter().all(|&byte| in_name(byte)) {
                return None;
            }
            let level = i16::from_le_bytes([*low, *high]);
            table.rows.push(Row { start: *start, board: *board, level, name: name.to_vec() });
            rest = behind;
        }
        Some(table)
    }

    /// Makes the two counts fit the rows, as far as a byte can.
    pub fn recount(&mut self) {
        self.slots = self.rows.iter().map(|row| row.start.wrapping_add(1)).max().unwrap_or(0);
        self.boards = self.rows.iter().map(|row| row.board).max().unwrap_or(0);
    }

    /// Where in the bytes the name of a row stands.
    pub fn name_range(&self, row: usize) -> Range<usize> {
        let end = 6 + self.rows[..=row].iter().map(|row| 7 + row.name.len()).sum::<usize>();
        end - self.rows[row].name.len()..end
    }

    /// Question 16, for a limit and the most boards.
    pub fn counts_are_right(&self, limit: u8, most_boards: u8) -> bool {
        let slots = self.rows.iter().map(|row| row.start as u32 + 1).max();
        let boards = self.rows.iter().map(|row| row.board).max();
        slots == Some(self.slots as u32)
            && self.slots <= limit
            && self.rows.iter().all(|row| row.board >= 1)
            && boards == Some(self.boards)
            && self.boards <= most_boards
    }

    /// Question 17.
    pub fn places_differ(&self) -> bool {
        let mut places: Vec<(u8, u8)> = self.rows.iter().map(|row| (row.start, row.board)).collect();
        places.sort();
        places.windows(2).all(|pair| pair[0] != pair[1])
    }
}
