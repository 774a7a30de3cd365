//! What the programs print.

use super::small::SmallGate;
use super::table::Table;

/// The text for an answer of the planner.
pub fn printed(planned: &Result<Vec<u8>, u8>) -> String {
    match planned {
        Ok(bytes) => Table::read(bytes).map_or(String::new(), |table| listed(&table)),
        Err(number) => refusal(*number),
    }
}

fn listed(table: &Table) -> String {
    let mut text = format!("slots {} boards {}\n", table.slots, table.boards);
    for (at, row) in table.rows.iter().enumerate() {
        let name = String::from_utf8_lossy(&row.name);
        text += &format!("{} {name} {} {} {}\n", at + 1, row.start, row.board, row.level);
    }
    text
}

/// The text for the needs that follow from others, a pair a line, or for the refusal.
pub fn printed_needs(implied: &Result<Vec<(usize, usize)>, u8>) -> String {
    match implied {
        Ok(needs) => needs.iter().map(|(giver, taker)| format!("{} {}\n", giver + 1, taker + 1)).collect(),
        Err(number) => refusal(*number),
    }
}

/// The text for the state numbers of a planned file, one a line, or for the refusal.
pub fn printed_states(states: &Result<Vec<u16>, u8>) -> String {
    match states {
        Ok(numbers) => printed_numbers(numbers),
        Err(number) => refusal(*number),
    }
}

/// The text for numbers, one a line.
pub fn printed_numbers(numbers: &[u16]) -> String {
    numbers.iter().map(|number| format!("{number}\n")).collect()
}

/// The text for small gates: jobs, number and fewest slots, a line each.
pub fn printed_gates(gates: &[SmallGate]) -> String {
    gates.iter().map(|gate| format!("{} {} {}\n", gate.jobs, gate.number, gate.fewest_slots)).collect()
}

fn refusal(number: u8) -> String {
    format!("refused {number}\n")
}
