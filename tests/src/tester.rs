//! Tries inputs on the stage and counts them in the report.

use crate::generate::random::Random;
use crate::generate::tables::{all_questions, questions};
use crate::reference::entries::{self, Plan, WORK_BYTES};
use crate::reference::states::STATES_BYTES;
use crate::reference::table::{Table, LONGEST_TABLE};
use crate::report::{shown, Of, Report};
use crate::screen;
use crate::stage::{Stage, Written, LONGEST_STATES, LONGEST_WORK};

/// Lengths of the buffers: none, one byte, one byte short, exactly long enough, one byte longer, longer; and, of the table buffer,
/// the length of the longest table before request 8.
const WORK_LENGTHS: [usize; 6] = [0, 1, WORK_BYTES - 1, WORK_BYTES, WORK_BYTES + 1, LONGEST_WORK];
const TABLE_LENGTHS: [usize; 7] = [0, 1, 1_222, LONGEST_TABLE - 1, LONGEST_TABLE, LONGEST_TABLE + 1, 9000];
const STATES_LENGTHS: [usize; 6] = [0, 1, STATES_BYTES - 1, STATES_BYTES, STATES_BYTES + 1, LONGEST_STATES];

pub struct Tester {
    pub stage: Stage,
    pub report: Report,
    pub random: Random,
    /// Names the present input where a case fails.
    pub label: String,
}

impl Tester {
    pub fn new() -> Tester {
        Tester { stage: Stage::new(), report: Report::default(), random: Random::new(0, 0), label: String::new() }
    }

    /// Plans a file with buffers that are large enough; gives what the library answered.
    pub fn plan(&mut self, group: &'static str, file: &[u8]) -> Result<Vec<u8>, u8> {
        let work = self.random.pick(&[WORK_BYTES, WORK_BYTES, WORK_BYTES + 1, LONGEST_WORK]);
        let table = self.random.pick(&[LONGEST_TABLE, LONGEST_TABLE, LONGEST_TABLE + 1, 9000]);
        self.plan_in(group, file, work, table)
    }

    /// Plans a file with buffers of any length: exactly large enough, larger, one byte short, empty.
    pub fn plan_in_any(&mut self, group: &'static str, file: &[u8]) {
        let (work, table) = (self.random.pick(&WORK_LENGTHS), self.random.pick(&TABLE_LENGTHS));
        let _ = self.plan_in(group, file, work, table);
    }

    fn plan_in(&mut self, group: &'static str, file: &[u8], work: usize, table: usize) -> Result<Vec<u8>, u8> {
        let planned = entries::plan(file);
        let (answered, verdict) = self.stage.plan(&mut self.random, file, &planned, work, table);
        let answer = answered.as_ref().map_or_else(|number| format!("refused {number:>2}"), |table| kind_of(table));
        self.report.answer("plan", answer);
        let label = &self.label;
        self.report
            .case(Of::Call, group, verdict, || format!("{label}, buffers {work} and {table}, file {}", shown(file)));
        self.states_too(file, &planned, work, table);
        answered
    }

    /// Gives a file that gate_plan got to gate_states too, with one buffer more, too short now and then. What is drawn here
    /// changes nothing of what is drawn later.
    fn states_too(&mut self, file: &[u8], planned: &Result<Plan, u8>, work: usize, table: usize) {
        let mut random = self.random.beside();
        let enough = random.pick(&STATES_LENGTHS[3..]);
        let states = if random.percent(20) { random.pick(&STATES_LENGTHS[..3]) } else { enough };
        let drawn = std::mem::replace(&mut self.random, random);
        let _ = self.states_in("states: each file that gate_plan got", file, planned, [work, table, states]);
        self.random = drawn;
    }

    /// Gives a file to gate_states with buffers that are exactly long enough; gives what the library answered.
    pub fn states(&mut self, group: &'static str, file: &[u8]) -> Result<Written, u8> {
        self.states_in(group, file, &entries::plan(file), [WORK_BYTES, LONGEST_TABLE, STATES_BYTES])
    }

    /// The same with buffers of every length.
    pub fn states_in_all(&mut self, group: &'static str, file: &[u8]) {
        let planned = entries::plan(file);
        for (work, table) in WORK_LENGTHS.into_iter().flat_map(|work| TABLE_LENGTHS.map(|table| (work, table))) {
            for states in STATES_LENGTHS {
                let _ = self.states_in(group, file, &planned, [work, table, states]);
            }
        }
    }

    /// Gives a file to gate_states with buffers of these lengths: working buffer, table, state numbers. The numbers that it
    /// writes are read back.
    fn states_in(
        &mut self,
        group: &'static str,
        file: &[u8],
        planned: &Result<Plan, u8>,
        lengths: [usize; 3],
    ) -> Result<Written, u8> {
        let (answered, verdict) = self.stage.states(&mut self.random, file, planned, lengths);
        let kind = |written: &Written| kind_of(&written.table);
        let answer = answered.as_ref().map_or_else(|number| format!("refused {number:>2}"), kind);
        self.report.answer("states", answer);
        let label = &self.label;
        let input = || format!("{label}, buffers {lengths:?}, file {}", shown(file));
        self.report.case(Of::Call, group, verdict, input);
        if let Ok(written) = &answered {
            self.report.case(Of::Answer, "states: read back", screen::read_back(file, written), input);
        }
        answered
    }

    /// Checks a table for a file; gives what the library answered.
    pub fn check(&mut self, group: &'static str, file: &[u8], table: &[u8]) -> Result<(), u8> {
        let (answered, verdict) = self.stage.check(&mut self.random, file, table);
        let answer = answered.map_or_else(|number| format!("refused {number:>2}"), |()| "passes".to_string());
        self.report.answer("check", answer);
        let label = &self.label;
        self.report.case(Of::Call, group, verdict, || format!("{label}, file {}, table {}", shown(file), shown(table)));
        answered
    }

    /// Looks up slots and boards around the table's edges.
    pub fn lookups(&mut self, group: &'static str, table: &[u8]) {
        for (slot, board) in questions(&mut self.random, table) {
            let _ = self.lookup(group, table, slot, board);
        }
    }

    /// Looks up every slot and board of a table, and one beyond.
    pub fn all_lookups(&mut self, group: &'static str, table: &[u8]) {
        for (slot, board) in Table::read(table).as_ref().map_or(Vec::new(), all_questions) {
            let _ = self.lookup(group, table, slot, board);
        }
    }

    /// Looks up one slot and board; answers what document 01 says.
    pub fn lookup(
        &mut self,
        group: &'static str,
        table: &[u8],
        slot: usize,
        board: usize,
    ) -> Result<Option<usize>, u8> {
        let (expected, verdict) = self.stage.lookup(&mut self.random, table, slot, board);
        let answer = match expected {
            Ok(Some(_)) => "job".to_string(),
            Ok(None) => "idle".to_string(),
            Err(number) => format!("refused {number:>2}"),
        };
        self.report.answer("lookup", answer);
        let label = &self.label;
        self.report.case(Of::Call, group, verdict, || format!("{label}, table {}", shown(table)));
        expected
    }
}

/// How many jobs a table has: so many as were allowed before request 8, so many as tag 4 reaches, or more.
fn kind_of(table: &[u8]) -> String {
    let jobs = Table::read(table).map_or(0, |table| table.rows.len());
    let range = match jobs {
        ..=64 => "up to 64",
        65..=255 => "65 to 255",
        _ => "256 to 400",
    };
    format!("table of {range} jobs")
}
