//! compare [SEED] [COUNT] [FIRST]: the named cases, all needs between few jobs, every small gate, and the generated files of a seed from index FIRST
//! on; and, if GATE_PLAN, GATE_IMPLIED, GATE_SMALL, GATE_STATES and GATE_STATE_TABLE name them, the planning program, the one that
//! lists the needs that follow from others, the one that prints every small gate, the one that prints a file's state numbers and
//! the one that prints the table that they are made with. The last two lines say how many of each kind passed, and
//! 'N passed, M failed'.

use gate_tests::{cases, paper, program, tester::Tester};
use std::process::ExitCode;

/// At most so many files that have grown are given to the program, each in a process of its own.
const MOST_GROWN: u64 = 5_000;

fn main() -> ExitCode {
    let mut numbers = std::env::args().skip(1).map(|word| word.parse::<u64>().expect("a number"));
    let seed = numbers.next().unwrap_or(1);
    let count = numbers.next().unwrap_or(100_000);
    let first = numbers.next().unwrap_or(0);
    let most = if count < 50_000 { 3 } else { 4 };

    let mut tester = Tester::new();
    paper::run(&mut tester);
    cases::all_small(&mut tester, most);
    cases::every_small_gate(&mut tester);
    cases::program_p(&mut tester, seed, count / 20);
    for index in first..first + count {
        cases::run(&mut tester, seed, index);
    }
    match std::env::var("GATE_PLAN") {
        Ok(name) => program::plan(&mut tester, &name, seed, count / 20),
        Err(_) => println!("the program plan is not there: not tried"),
    }
    match std::env::var("GATE_IMPLIED") {
        Ok(name) => program::implied_needs(&mut tester, &name, most, seed, (count / 20).min(MOST_GROWN)),
        Err(_) => println!("the program implied_needs is not there: not tried"),
    }
    match std::env::var("GATE_SMALL") {
        Ok(name) => program::small_gates(&mut tester, &name),
        Err(_) => println!("the program small_gates is not there: not tried"),
    }
    match std::env::var("GATE_STATES") {
        Ok(name) => program::states(&mut tester, &name, seed, count / 40),
        Err(_) => println!("the program states is not there: not tried"),
    }
    match std::env::var("GATE_STATE_TABLE") {
        Ok(name) => program::state_table(&mut tester, &name),
        Err(_) => println!("the program state_table is not there: not tried"),
    }
    tester.report.print();
    if tester.report.failed == 0 {
        ExitCode::SUCCESS
    } else {
        ExitCode::FAILURE
    }
}
