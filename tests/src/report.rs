//! Counts cases by kind and group and answers by entry, and prints the first failures.

use crate::stage::Verdict;
use std::collections::BTreeMap;

const SHOWN: u64 = 10;

/// What a comparison is of.
#[derive(Clone, Copy, PartialEq, Eq, PartialOrd, Ord)]
pub enum Of {
    /// A call of the library: its answer and every byte of what was lent.
    Call,
    /// An answer that a call gave, judged once more: by another search, by another answer, by reading it back, or by what is
    /// written out.
    Answer,
    /// What a program prints.
    Program,
    /// What the reference says, against another way to find it or what is written out.
    Reference,
}

const KINDS: [(Of, &str); 4] = [
    (Of::Call, "called the library"),
    (Of::Answer, "judged an answer of it once more"),
    (Of::Program, "read what a program printed"),
    (Of::Reference, "tried the reference alone"),
];

#[derive(Default)]
pub struct Report {
    pub failed: u64,
    passed: BTreeMap<Of, u64>,
    groups: BTreeMap<(Of, &'static str), u64>,
    answers: BTreeMap<String, u64>,
}

impl Report {
    /// Counts a case. `input` shows what it was tried on.
    pub fn case(&mut self, of: Of, group: &'static str, verdict: Verdict, input: impl FnOnce() -> String) {
        *self.groups.entry((of, group)).or_default() += 1;
        match verdict {
            Ok(()) => *self.passed.entry(of).or_default() += 1,
            Err(what) => {
                self.failed += 1;
                if self.failed <= SHOWN {
                    println!("FAILED {group}: {what}\n    {}", input());
                }
            }
        }
    }

    /// Counts an answer, so that one can see what was tried.
    pub fn answer(&mut self, entry: &str, answer: String) {
        self.count(format!("{entry}: {answer}"), 1);
    }

    /// Counts what was met, so many times at once.
    pub fn count(&mut self, met: String, times: u64) {
        *self.answers.entry(met).or_default() += times;
    }

    /// The groups of each kind, what was met, how many of each kind passed, and how many of all.
    pub fn print(&self) {
        for (of, kind) in KINDS {
            println!("{kind}:");
            for ((_, group), count) in self.groups.iter().filter(|((group_of, _), _)| *group_of == of) {
                println!("{count:>9} cases   {group}");
            }
        }
        println!("met:");
        for (answer, count) in &self.answers {
            println!("{count:>9} times   {answer}");
        }
        let passed = KINDS.map(|(of, kind)| format!("{} {kind}", self.passed.get(&of).unwrap_or(&0)));
        println!("{}", passed.join(", "));
        println!("{} passed, {} failed", self.passed.values().sum::<u64>(), self.failed);
    }
}

/// Bytes as numbers, as document 01 prints them.
pub fn shown(bytes: &[u8]) -> String {
    let numbers: Vec<String> = bytes.iter().map(u8::to_string).collect();
    numbers.join(" ")
}
