//! Tries the programs: what they print for named and generated files, each on their standard input, and what those
//! without input print.

use crate::generate::drafts::Draft;
use crate::generate::random::Random;
use crate::generate::{damage, grown, shapes};
use crate::paper;
use crate::reference::entries;
use crate::reference::implied;
use crate::reference::reading::LONGEST_FILE;
use crate::reference::small;
use crate::reference::states;
use crate::reference::text::{printed, printed_gates, printed_needs, printed_numbers, printed_states};
use crate::report::{shown, Of};
use crate::stage::Verdict;
use crate::tester::Tester;
use std::io::{Error, Result, Write};
use std::path::PathBuf;
use std::process::{Command, Stdio};

const SAMPLES: &str = concat!(env!("CARGO_MANIFEST_DIR"), "/../samples");

/// The planning program.
pub fn plan(tester: &mut Tester, program: &str, seed: u64, count: u64) {
    for index in 0..count {
        let mut random = Random::new(seed ^ 0x706c_616e, index);
        let draft = Draft::any(&mut random);
        tester.label = format!("seed {seed} program file {index}");
        let file = varied_bytes(&mut random, &draft);
        let expected = printed(&entries::table(&file));
        prints(tester, "program plan", program, &file, &expected);
    }
}

/// The program that lists the needs that follow from others: the named files, all needs between up to so many jobs, and
/// files that have grown, of which some have a circle or damage.
pub fn implied_needs(tester: &mut Tester, program: &str, most: u8, seed: u64, count: u64) {
    for (name, file, expected) in paper::implied_cases() {
        tester.label = name.to_string();
        prints(tester, "program implied_needs: named", program, &file, &expected);
    }
    for (jobs, needs) in shapes::all_needs(most) {
        tester.label = format!("{jobs} jobs, needs {needs:?}");
        let file = Draft::plain(1, jobs as usize, &needs).bytes();
        lists(tester, "program implied_needs: all needs between few jobs", program, &file);
    }
    for index in 0..count {
        let mut random = Random::new(seed ^ 0x696d_706c, index);
        let mut draft = grown::draft(&mut random);
        if random.percent(10) {
            grown::close_circle(&mut random, &mut draft);
        }
        tester.label = format!("seed {seed} program file {index}");
        let file = varied_bytes(&mut random, &draft);
        lists(tester, "program implied_needs: grown files", program, &file);
    }
}

/// The program that prints the state numbers of a file's table: the named files, the samples, and generated ones.
pub fn states(tester: &mut Tester, program: &str, seed: u64, count: u64) {
    for (name, file, expected) in paper::states_cases() {
        tester.label = name.to_string();
        prints(tester, "program states: named", program, &file, &printed_states(&expected));
    }
    for (name, file) in samples() {
        tester.label = name;
        shows(tester, "program states: samples", program, &file);
    }
    for index in 0..count {
        let mut random = Random::new(seed ^ 0x7374_6174, index);
        let draft = Draft::any(&mut random);
        tester.label = format!("seed {seed} program file {index}");
        let file = varied_bytes(&mut random, &draft);
        shows(tester, "program states: generated files", program, &file);
    }
}

/// The program that prints the table of 256 numbers.
pub fn state_table(tester: &mut Tester, program: &str) {
    let groups = ["program state_table: lines", "program state_table: nothing else"];
    prints_lines(tester, groups, program, &printed_numbers(&states::entries()));
}

/// The program that prints every small gate.
pub fn small_gates(tester: &mut Tester, program: &str) {
    let groups = ["program small_gates: lines", "program small_gates: nothing else"];
    prints_lines(tester, groups, program, &printed_gates(&small::small_gates()));
}

/// The program, which has no input, prints each of these lines, and nothing else.
fn prints_lines(tester: &mut Tester, [group, nothing_else]: [&'static str; 2], program: &str, text: &str) {
    let found = match output(program, &[]) {
        Ok(found) => String::from_utf8_lossy(&found).into_owned(),
        Err(error) => {
            return tester.report.case(Of::Program, nothing_else, Err(error.to_string()), || program.to_string())
        }
    };
    let mut lines = found.split_inclusive('\n');
    for (at, expected) in text.split_inclusive('\n').enumerate() {
        let verdict = same(lines.next().unwrap_or_default(), expected);
        tester.report.case(Of::Program, group, verdict, || format!("line {}", at + 1));
    }
    let behind: String = lines.collect();
    tester.report.case(Of::Program, nothing_else, same(&behind, ""), || "behind the last line".to_string());
}

/// The program prints the reference's state numbers.
fn shows(tester: &mut Tester, group: &'static str, program: &str, file: &[u8]) {
    let states = entries::plan(file).map(|plan| plan.states);
    let kind = states.as_ref().map_or_else(|number| format!("refused {number:>2}"), |_| "numbers".to_string());
    tester.report.answer("program states", kind);
    prints(tester, group, program, file, &printed_states(&states));
}

/// The job files in the repository's folder `samples`, by name.
fn samples() -> Vec<(String, Vec<u8>)> {
    let entries = std::fs::read_dir(SAMPLES).into_iter().flatten().flatten().map(|entry| entry.path());
    let files = entries.filter(|path| path.extension().is_some_and(|extension| extension == "jobs"));
    let named = |path: PathBuf| Some((path.file_name()?.to_string_lossy().into_owned(), std::fs::read(path).ok()?));
    let mut samples: Vec<(String, Vec<u8>)> = files.filter_map(named).collect();
    samples.sort();
    samples
}

/// The program prints the needs that the reference lists.
fn lists(tester: &mut Tester, group: &'static str, program: &str, file: &[u8]) {
    let implied = implied::implied_needs(file);
    let kind = match &implied {
        Ok(needs) if needs.is_empty() => "nothing".to_string(),
        Ok(_) => "needs".to_string(),
        Err(number) => format!("refused {number:>2}"),
    };
    tester.report.answer("implied_needs", kind);
    prints(tester, group, program, file, &printed_needs(&implied));
}

fn prints(tester: &mut Tester, group: &'static str, program: &str, file: &[u8], expected: &str) {
    let verdict = output(program, file)
        .map_err(|error| error.to_string())
        .and_then(|found| same(&String::from_utf8_lossy(&found), expected));
    let label = &tester.label;
    tester.report.case(Of::Program, group, verdict, || format!("{label}, file {}", shown(file)));
}

fn same(found: &str, expected: &str) -> Verdict {
    if found == expected {
        Ok(())
    } else {
        Err(format!("printed {found:?}, not {expected:?}"))
    }
}

/// The draft's bytes, now and then damaged or filled up to the longest file that is read, or beyond.
fn varied_bytes(random: &mut Random, draft: &Draft) -> Vec<u8> {
    let mut file = draft.mixed_bytes(random);
    let length = random.pick(&[LONGEST_FILE, LONGEST_FILE, LONGEST_FILE + 1, 20_000, 70_000]);
    match random.below(8) {
        0 => damage::bytes(random, &mut file),
        1 => file = damage::fields(random, draft),
        2 => file = damage::filled(random, &file, length),
        _ => (),
    }
    file
}

/// What the program writes to its standard output; it must end by itself, with success, and with nothing on its standard
/// error. It may leave a file that is too long unread, so a failed write is no error.
fn output(program: &str, file: &[u8]) -> Result<Vec<u8>> {
    let mut child =
        Command::new(program).stdin(Stdio::piped()).stdout(Stdio::piped()).stderr(Stdio::piped()).spawn()?;
    if let Some(mut input) = child.stdin.take() {
        let _ = input.write_all(file);
    }
    let ended = child.wait_with_output()?;
    let said = String::from_utf8_lossy(&ended.stderr);
    if !said.is_empty() {
        Err(Error::other(format!("{}, {said:?} on standard error", ended.status)))
    } else if ended.status.success() {
        Ok(ended.stdout)
    } else {
        Err(Error::other(ended.status.to_string()))
    }
}
