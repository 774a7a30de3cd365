//! The cases that document 01 names, with their answers written out, and others whose answer its text settles, or that
//! of requests 4, 5, 6, 8, 11, 12, 13 and 14 in document 02.

use crate::generate::drafts::{boards_field, field, job_field, need_field, wide_need_field, Draft};
use crate::reference::entries::table_of;
use crate::reference::implied::implied_needs;
use crate::reference::needs::Graph;
use crate::reference::reading::read;
use crate::reference::small::small_gates;
use crate::reference::states;
use crate::reference::table::{half_away, Row, Table};
use crate::reference::text::{printed, printed_gates, printed_needs};
use crate::report::{shown, Of};
use crate::tester::Tester;

/// What the planner answers: a refusal, or starts and boards.
enum Answer {
    Refused(u8),
    Planned(Vec<u8>, Vec<u8>),
}

use Answer::{Planned, Refused};

/// The needs of Figure 1.
const FIGURE_1: [(u16, u16); 8] = [(1, 3), (1, 4), (1, 5), (2, 5), (3, 6), (4, 6), (5, 7), (5, 8)];

/// The needs of five jobs, which two boards run in three slots if job 1 is held back.
const FIVE_JOBS: [(u16, u16); 3] = [(2, 3), (3, 4), (5, 4)];

/// The bytes of the printed example, and what the planning program prints for them.
const PRINTED_FILE: [u8; 36] = [
    1, 1, 0, 1, 2, 1, 0, 3, 3, 3, 0, 15, 0, 97, 3, 3, 0, 241, 255, 98, 3, 3, 0, 4, 0, 99, 4, 2, 0, 1, 3, 4, 2, 0, 2, 3,
];
const PRINTED: &str = "slots 3 boards 2\n1 a 0 1 2\n2 b 0 2 -2\n3 c 2 1 0\n";

pub fn run(tester: &mut Tester) {
    for (name, file, answer) in named_cases() {
        planned(tester, name, &file, answer);
    }
    for (name, draft, width) in widths() {
        let read = read(&draft.bytes()).expect("a sound file");
        let found = Graph::new(read.jobs.len(), &read.needs).width(read.limit as i32);
        let verdict = if found == width { Ok(()) } else { Err(format!("width {found}, not {width}")) };
        tester.report.case(Of::Reference, "named: width", verdict, || name.to_string());
    }
    for (name, file, listed) in implied_cases() {
        let found = printed_needs(&implied_needs(&file));
        let verdict = if found == listed { Ok(()) } else { Err(found) };
        tester.report.case(Of::Reference, "named: the reference's list", verdict, || name.to_string());
    }
    named_small_gates(tester);
    printed_example(tester);
    state_numbers(tester);
    every_state(tester);
    checked(tester);
    checked_with_many_jobs(tester);
    checked_with_most_boards(tester);
    rounded(tester);
    every_level(tester);
    looked_up(tester);
}

fn named_cases() -> Vec<(&'static str, Vec<u8>, Answer)> {
    [planned_cases(), repeated_cases(), many_jobs_cases(), wide_need_cases(), most_boards_cases(), extras_cases()]
        .into_iter()
        .flatten()
        .collect()
}

fn planned_cases() -> Vec<(&'static str, Vec<u8>, Answer)> {
    let plain = |limit, jobs, needs: &[(u16, u16)]| Draft::plain(limit, jobs, needs).bytes();
    let chain = |limit, jobs| Draft::chain(limit, jobs).bytes();
    let (header, limit) = (field(1, &[1]), field(2, &[5]));
    let job = job_field(0, b"a");
    let sound = plain(3, 3, &[(1, 3), (2, 3)]);
    let filled = |length: usize| [sound.clone(), field(5, &vec![0; length - sound.len() - 3])].concat();
    vec![
        ("one job, limit 1", plain(1, 1, &[]), Planned(vec![0], vec![1])),
        ("one job, limit 64", plain(64, 1, &[]), Planned(vec![0], vec![1])),
        ("two takers, limit 3", plain(3, 3, &[(1, 2), (1, 3)]), Planned(vec![0, 1, 2], vec![1, 1, 1])),
        ("two takers, limit 2", plain(2, 3, &[(1, 2), (1, 3)]), Refused(13)),
        ("two givers, limit 3", sound.clone(), Planned(vec![0, 0, 2], vec![1, 2, 1])),
        (
            "figure 1, limit 6",
            plain(6, 8, &FIGURE_1),
            Planned(vec![0, 0, 1, 2, 2, 3, 3, 4], vec![1, 2, 1, 1, 2, 1, 2, 1]),
        ),
        ("figure 1, limit 4", plain(4, 8, &FIGURE_1), Refused(13)),
        ("eight jobs, limit 1", plain(1, 8, &[]), Planned(vec![0; 8], (1..=8).collect())),
        ("nine jobs, limit 1", plain(1, 9, &[]), Refused(12)),
        ("chain of 9, limit 16", chain(16, 9), Planned((0..9).collect(), vec![1; 9])),
        ("chain of 9, limit 17", chain(17, 9), Refused(12)),
        ("chain of 9, limit 8", chain(8, 9), Refused(13)),
        ("empty file", Vec::new(), Refused(10)),
        ("header and comment only", [header.clone(), field(5, b"x")].concat(), Refused(5)),
        ("tag 9 first", boards_field(1), Refused(5)),
        ("tag 3 first", job.clone(), Refused(5)),
        ("chain of 64, limit 64", chain(64, 64), Planned((0..64).collect(), vec![1; 64])),
        ("a 401st job", [chain(64, 400), job.clone()].concat(), Refused(7)),
        ("needs 1-2, 2-1", plain(5, 2, &[(1, 2), (2, 1)]), Refused(11)),
        ("comment of length 0 last", [sound.clone(), field(5, &[])].concat(), Planned(vec![0, 0, 2], vec![1, 2, 1])),
        // settled by the text
        ("16,385 bytes", filled(16_385), Planned(vec![0, 0, 2], vec![1, 2, 1])),
        ("49,152 bytes", filled(49_152), Planned(vec![0, 0, 2], vec![1, 2, 1])),
        ("49,153 bytes", filled(49_153), Refused(2)),
        ("49,153 bytes that are no file", vec![9; 49_153], Refused(2)),
        ("header only", header.clone(), Refused(10)),
        ("header and limit only", [header.clone(), limit.clone()].concat(), Refused(10)),
        ("limit first", [limit.clone(), header.clone()].concat(), Refused(5)),
        ("a second header", [sound.clone(), header.clone()].concat(), Refused(5)),
        ("one byte left over", [sound.clone(), vec![9]].concat(), Refused(3)),
        ("two bytes left over", [sound.clone(), vec![5, 0]].concat(), Refused(3)),
        ("a value cut short", [sound.clone(), vec![5, 1, 0]].concat(), Refused(3)),
        ("a bad 401st job", [chain(64, 400), job_field(0, b"a b")].concat(), Refused(6)),
        ("the first bad field decides", [sound.clone(), need_field(1, 1), field(10, &[])].concat(), Refused(8)),
        ("a need before its job", [header, limit, job.clone(), need_field(1, 2), job].concat(), Refused(8)),
        ("a need with number 0", [sound.clone(), need_field(0, 1)].concat(), Refused(8)),
        ("a need turned round", [sound, need_field(3, 1)].concat(), Refused(11)),
        ("too wide and impossible", plain(1, 11, &[(1, 2)]), Refused(12)),
        (
            "a release raised by 1 only, givers not tied",
            plain(4, 4, &[(1, 2), (2, 3), (4, 3)]),
            Planned(vec![0, 1, 2, 0], vec![1, 1, 1, 2]),
        ),
    ]
}

/// Needs given twice. Counted twice, most of those that are planned would get 13 or another table.
fn repeated_cases() -> Vec<(&'static str, Vec<u8>, Answer)> {
    let plain = |limit, jobs, needs: &[(u16, u16)]| Draft::plain(limit, jobs, needs).bytes();
    let twice = |draft: Draft| Draft { needs: draft.needs.repeat(2), ..draft }.bytes();
    let then = |giver, taker| [plain(2, 2, &[(1, 2)]), need_field(giver, taker)].concat();
    let two_jobs = || Planned(vec![0, 1], vec![1, 1]);
    let two_givers = || Planned(vec![0, 0, 2], vec![1, 2, 1]);
    let one_by_one = || Planned(vec![0, 1, 2], vec![1, 1, 1]);
    let third_job = Planned(vec![0, 1, 0], vec![1, 1, 2]);
    let figure_1 = Planned(vec![0, 0, 1, 2, 2, 3, 3, 4], vec![1, 2, 1, 1, 2, 1, 2, 1]);
    vec![
        ("a need twice", then(1, 2), two_jobs()),
        ("a need twice, limit 1", plain(1, 2, &[(1, 2), (1, 2)]), Refused(13)),
        ("a need 9,800 times", plain(2, 2, &[(1, 2); 9_800]), two_jobs()),
        ("a need three times, a comment between", [then(1, 2), field(5, b"x"), need_field(1, 2)].concat(), two_jobs()),
        ("a need again behind one more job", [then(1, 2), job_field(0, b"c"), need_field(1, 2)].concat(), third_job),
        ("the later of two givers twice", plain(3, 3, &[(1, 2), (1, 3), (2, 3), (2, 3)]), one_by_one()),
        ("the first of two needs twice", plain(3, 3, &[(1, 3), (2, 3), (1, 3)]), two_givers()),
        ("two givers, each need twice", twice(Draft::plain(3, 3, &[(1, 3), (2, 3)])), two_givers()),
        ("two takers, each need twice", twice(Draft::plain(3, 3, &[(1, 2), (1, 3)])), one_by_one()),
        ("figure 1, each need twice", twice(Draft::plain(6, 8, &FIGURE_1)), figure_1),
        ("chain of 64, each need twice", twice(Draft::chain(64, 64)), Planned((0..64).collect(), vec![1; 64])),
        ("a pair the other way round", then(2, 1), Refused(11)),
        ("both ways, each twice", plain(64, 2, &[(1, 2), (2, 1), (2, 1), (1, 2)]), Refused(11)),
        ("a need of no job twice", plain(64, 2, &[(1, 3), (1, 3)]), Refused(8)),
        ("a need of job 0 beside one of job 1", then(0, 2), Refused(8)),
        ("a need for job 0 beside one for job 1", [plain(2, 2, &[(2, 1)]), need_field(2, 0)].concat(), Refused(8)),
        ("a need twice before a bad field", [then(1, 2), field(10, &[])].concat(), Refused(4)),
        ("a need twice, the second too long", [plain(2, 2, &[(1, 2)]), field(4, &[1, 2, 0])].concat(), Refused(6)),
    ]
}

/// Files of more than 64 jobs: chains, and chains of diamonds, each of which has two jobs that could go first.
fn many_jobs_cases() -> Vec<(&'static str, Vec<u8>, Answer)> {
    let chain = |limit, jobs| Draft::chain(limit, jobs).bytes();
    let chains = |limit| Draft::side_by_side(limit, 8, 50);
    let eight_boards =
        || Planned((0..50).flat_map(|slot| [slot; 8]).collect(), (1..=8).collect::<Vec<u8>>().repeat(50));
    let turned_round = |draft: Draft| {
        let needs = draft.needs.iter().map(|&(giver, taker)| (401 - giver, 401 - taker)).collect();
        Draft { needs, ..draft }
    };
    let longest_names =
        |draft: Draft| Draft { jobs: draft.jobs.iter().map(|(level, _)| (*level, vec![b'n'; 12])).collect(), ..draft };
    let and_need = |giver, taker| [chains(50).bytes(), need_field(giver, taker)].concat();
    let mut cases = vec![
        ("65 jobs without needs, limit 1", Draft::plain(1, 65, &[]).bytes(), Refused(12)),
        ("65 jobs without needs, limit 64", Draft::plain(64, 65, &[]).bytes(), Refused(12)),
        ("400 jobs without needs", Draft::plain(50, 400, &[]).bytes(), Refused(12)),
        ("eight chains of 50", chains(50).bytes(), eight_boards()),
        ("eight chains of 50, limit 49", chains(49).bytes(), Refused(13)),
        ("eight chains of 50, limit 51", chains(51).bytes(), Refused(12)),
        ("eight chains of 50, most boards 7", Draft { boards: Some(7), ..chains(50) }.bytes(), Refused(13)),
        ("eight chains of 50, names of 12 bytes", longest_names(chains(50)).bytes(), eight_boards()),
        (
            "eight chains of 50 from the last job to the first",
            turned_round(chains(50)).bytes(),
            Planned((0..50).rev().flat_map(|slot| [slot; 8]).collect(), (1..=8).collect::<Vec<u8>>().repeat(50)),
        ),
        ("eight chains of 50 and a need over two slots", and_need(377, 400), eight_boards()),
        ("eight chains of 50 and a need over one slot", and_need(385, 400), Refused(13)),
        ("eight chains of 50 and a circle", and_need(400, 8), Refused(11)),
        ("chain of 400, limit 64", chain(64, 400), Refused(13)),
        (
            "three chains of diamonds and two chains",
            diamonds(64, |job| job + 1).bytes(),
            Planned((0..64).flat_map(|row| [row; 5]).collect(), (1..=5).collect::<Vec<u8>>().repeat(64)),
        ),
        (
            "the same from the last job to the first",
            diamonds(64, |job| 320 - job).bytes(),
            Planned((0..320).rev().map(lower_number_first).collect(), (1..=5).collect::<Vec<u8>>().repeat(64)),
        ),
        ("the same, limit 63", diamonds(63, |job| 320 - job).bytes(), Refused(13)),
    ];
    cases.extend((1..=64).map(|limit| ("chain of 65", chain(limit, 65), Refused(13))));
    cases
}

/// Five jobs a row, 64 rows: three chains of diamonds (a job, two that need it, one that needs both, and again from that one on) and
/// two chains. The jobs, counted from 0 row by row, get these numbers.
fn diamonds(limit: u8, number: fn(u16) -> u16) -> Draft {
    let mut needs = Vec::new();
    for job in 0..315 {
        let (row, chain) = (job / 5, job % 5);
        let rows_on: &[u16] = match (chain, row % 3) {
            (3 | 4, _) => &[1],
            (_, 0) => &[1, 2],
            (_, 1) => &[2],
            _ => &[1],
        };
        needs.extend(rows_on.iter().map(|rows| (number(job), number(job + 5 * rows))));
    }
    Draft::plain(limit, 320, &needs)
}

/// The start of a job, counted from 0 row by row, where the second of the two in the middle of a diamond has the lower number.
fn lower_number_first(job: u16) -> u8 {
    let (row, chain) = ((job / 5) as u8, job % 5);
    match (chain, row % 3) {
        (0..=2, 1) => row + 1,
        (0..=2, 2) => row - 1,
        _ => row,
    }
}

/// Needs with tag 6. Read by one byte a number, or with the high byte first, most of those with numbers beyond 255 would name
/// other jobs.
fn wide_need_cases() -> Vec<(&'static str, Vec<u8>, Answer)> {
    let plain = |limit, jobs, needs: &[(u16, u16)]| Draft::plain(limit, jobs, needs).bytes();
    let (header, limit, job) = (field(1, &[1]), field(2, &[2]), job_field(0, b"a"));
    let two = plain(2, 2, &[]);
    let then = |value: &[u8]| [&two[..], &field(6, value)].concat();
    let wide = |giver, taker| [&two[..], &wide_need_field(giver, taker)].concat();
    let two_jobs = || Planned(vec![0, 1], vec![1, 1]);
    vec![
        ("a need with tag 6", wide(1, 2), two_jobs()),
        ("a need with tag 6, its bytes", then(&[1, 0, 2, 0]), two_jobs()),
        ("a need with tag 6 the other way", wide(2, 1), Planned(vec![1, 0], vec![1, 1])),
        ("a need by tag 4 and then 6", [&plain(2, 2, &[(1, 2)])[..], &wide_need_field(1, 2)].concat(), two_jobs()),
        ("a need by tag 6 and then 4", [wide(1, 2), need_field(1, 2)].concat(), two_jobs()),
        ("a need by tag 6 twice", [wide(1, 2), wide_need_field(1, 2)].concat(), two_jobs()),
        (
            "two givers, each by both tags",
            [&plain(3, 3, &[(1, 3), (2, 3)])[..], &wide_need_field(1, 3), &wide_need_field(2, 3)].concat(),
            Planned(vec![0, 0, 2], vec![1, 2, 1]),
        ),
        ("a circle of both tags", [wide(1, 2), need_field(2, 1)].concat(), Refused(11)),
        ("tag 6 first", wide_need_field(1, 2), Refused(5)),
        ("tag 6 first, of no byte", field(6, &[]), Refused(5)),
        ("tag 6 second", [&header[..], &wide_need_field(1, 2), &limit, &job, &job].concat(), Refused(5)),
        ("tag 6 before its jobs", [&header[..], &limit, &wide_need_field(1, 2), &job, &job].concat(), Refused(8)),
        ("tag 6 between its jobs", [&header[..], &limit, &job, &wide_need_field(1, 2), &job].concat(), Refused(8)),
        ("tag 6 of no byte", then(&[]), Refused(6)),
        ("tag 6 of two bytes", then(&[1, 2]), Refused(6)),
        ("tag 6 of three bytes", then(&[1, 0, 2]), Refused(6)),
        ("tag 6 of five bytes", then(&[1, 0, 2, 0, 0]), Refused(6)),
        ("tag 4 of four bytes", [&two[..], &field(4, &[1, 0, 2, 0])].concat(), Refused(6)),
        ("tag 6 with number 0", wide(0, 2), Refused(8)),
        ("tag 6 with one job twice", wide(2, 2), Refused(8)),
        ("giver 257 of two jobs", then(&[1, 1, 2, 0]), Refused(8)),
        ("taker 258 of two jobs", then(&[1, 0, 2, 1]), Refused(8)),
        ("giver 256 of two jobs", then(&[0, 1, 2, 0]), Refused(8)),
        ("taker 512 of two jobs", then(&[1, 0, 0, 2]), Refused(8)),
        ("taker 65,535 of two jobs", wide(1, 65_535), Refused(8)),
        ("a bad length before bad numbers", then(&[0, 0, 0]), Refused(6)),
        ("giver 401 of 400 jobs", [Draft::side_by_side(50, 8, 50).bytes(), need_field(401, 1)].concat(), Refused(8)),
        ("taker 401 of 400 jobs", [Draft::side_by_side(50, 8, 50).bytes(), need_field(1, 401)].concat(), Refused(8)),
    ]
}

/// Extra jobs behind a gate's: boards move; with extras longer than the gate, and with 2 to 7 boards, starts move too; two
/// groups that are planned are too wide together.
fn extras_cases() -> Vec<(&'static str, Vec<u8>, Answer)> {
    let branch = Draft::plain(3, 4, &[(1, 2), (2, 3), (1, 4)]);
    let late = Draft::plain(4, 4, &[(1, 2), (1, 3), (3, 4)]);
    let mut cases = vec![
        ("a gate alone", branch.bytes(), Planned(vec![0, 1, 2, 2], vec![1, 1, 1, 2])),
        (
            "the gate with a chain of 3",
            branch.with_extras(&Draft::chain(3, 3)).bytes(),
            Planned(vec![0, 1, 2, 2, 0, 1, 2], vec![1, 1, 1, 3, 2, 2, 2]),
        ),
        ("a start later than its window's first slot", late.bytes(), Planned(vec![0, 2, 1, 2], vec![1, 2, 1, 1])),
        (
            "the gate of three slots with a chain of 4",
            late.with_extras(&Draft::chain(4, 4)).bytes(),
            Planned(vec![0, 1, 2, 3, 0, 1, 2, 3], vec![1, 1, 1, 1, 2, 2, 2, 2]),
        ),
        (
            "eight jobs and one, limit 1",
            Draft::plain(1, 8, &[]).with_extras(&Draft::plain(1, 1, &[])).bytes(),
            Refused(12),
        ),
    ];
    let names = ["2 boards", "3 boards", "4 boards", "5 boards", "6 boards", "7 boards"];
    for (name, boards) in names.into_iter().zip(2..) {
        let gate = Draft { boards: Some(boards), ..Draft::plain(3, 3, &[(1, 3), (2, 3)]) };
        let none = Draft { boards: Some(boards), ..Draft::plain(3, 0, &[]) };
        let chains = |front: Draft| (1..boards).fold(front, |front, _| front.with_extras(&Draft::chain(3, 3)));
        let beside = |first, last| (first..=last).flat_map(|board| [board; 3]).collect();
        let starts = |count: u8| [0, 1, 2].repeat(count as usize);
        cases.push((name, gate.bytes(), Planned(vec![0, 0, 2], vec![1, 2, 1])));
        cases.push((name, chains(none).bytes(), Planned(starts(boards - 1), beside(1, boards - 1))));
        cases.push((name, chains(gate).bytes(), Planned(starts(boards), beside(1, boards))));
    }
    cases
}

/// Files with tag 9.
fn most_boards_cases() -> Vec<(&'static str, Vec<u8>, Answer)> {
    let plain = |limit, boards, jobs, needs: &[(u16, u16)]| {
        Draft { boards: Some(boards), ..Draft::plain(limit, jobs, needs) }.bytes()
    };
    let five = |limit, boards| plain(limit, boards, 5, &FIVE_JOBS);
    let (header, limit, job) = (field(1, &[1]), field(2, &[5]), job_field(0, b"a"));
    let last = |value: &[u8]| [Draft::plain(5, 5, &FIVE_JOBS).bytes(), field(9, value)].concat();
    let again = |value: &[u8]| [five(5, 2), field(9, value)].concat();
    let other_tag = |tag| [five(5, 2), field(tag, &[2])].concat();
    vec![
        ("five jobs, most boards 1", five(5, 1), Planned(vec![0, 1, 2, 4, 3], vec![1; 5])),
        ("five jobs, most boards 1, limit 4", five(4, 1), Refused(13)),
        ("five jobs, most boards 2", five(5, 2), Planned(vec![1, 0, 1, 2, 0], vec![2, 1, 1, 1, 2])),
        ("five jobs, most boards 2, limit 2", five(2, 2), Refused(13)),
        ("five jobs, most boards 3", five(5, 3), Planned(vec![0, 0, 1, 2, 0], vec![1, 2, 2, 2, 3])),
        ("eight jobs, most boards 8", plain(1, 8, 8, &[]), Planned(vec![0; 8], (1..=8).collect())),
        ("eight jobs, most boards 7", plain(1, 7, 8, &[]), Refused(13)),
        ("nine jobs, most boards 1", plain(1, 1, 9, &[]), Refused(12)),
        ("a circle, most boards 1", plain(5, 1, 2, &[(1, 2), (2, 1)]), Refused(11)),
        (
            "most boards before all jobs",
            [&header[..], &limit, &boards_field(1), &job, &job].concat(),
            Planned(vec![0, 1], vec![1, 1]),
        ),
        (
            "most boards between jobs",
            [&header[..], &limit, &job, &boards_field(1), &job].concat(),
            Planned(vec![0, 1], vec![1, 1]),
        ),
        ("most boards and no job", [&header[..], &limit, &boards_field(1)].concat(), Refused(10)),
        ("tag 9 second", [&header[..], &boards_field(2), &limit, &job].concat(), Refused(5)),
        ("tag 9 first, with a bad value", boards_field(0), Refused(5)),
        ("most boards 0", last(&[0]), Refused(6)),
        ("most boards 9", last(&[9]), Refused(6)),
        ("most boards 255", last(&[255]), Refused(6)),
        ("most boards of no byte", last(&[]), Refused(6)),
        ("most boards of two bytes", last(&[2, 2]), Refused(6)),
        ("most boards twice", again(&[3]), Refused(21)),
        ("the same most boards twice", again(&[2]), Refused(21)),
        ("most boards again, with a bad value", again(&[9]), Refused(6)),
        ("most boards again, of two bytes", again(&[2, 2]), Refused(6)),
        ("most boards twice before a bad field", [again(&[2]), field(10, &[])].concat(), Refused(21)),
        ("most boards twice and no job", [header, limit, boards_field(2), boards_field(2)].concat(), Refused(21)),
        ("most boards twice in a circle", [plain(5, 1, 2, &[(1, 2), (2, 1)]), boards_field(1)].concat(), Refused(21)),
        ("tag 7", other_tag(7), Refused(4)),
        ("tag 8", other_tag(8), Refused(4)),
        ("tag 10", other_tag(10), Refused(4)),
    ]
}

/// Files, and what the list of needs that follow from others prints for them; among them each file above that the
/// questions up to 11, or 21, refuse.
pub fn implied_cases() -> Vec<(&'static str, Vec<u8>, String)> {
    let refused = named_cases().into_iter().filter_map(|(name, file, answer)| match answer {
        Refused(number @ (2..=11 | 21)) => Some((name, file, format!("refused {number}\n"))),
        _ => None,
    });
    let listed = listed_cases().into_iter().map(|(name, draft, text)| (name, draft.bytes(), text.to_string()));
    let both_tags = [Draft::plain(9, 3, &[(1, 2), (2, 3), (1, 3)]).bytes(), wide_need_field(1, 3)].concat();
    let others = [
        all_pairs("all pairs of 64 jobs", 64),
        all_pairs("all pairs of 139 jobs, as many as a file has room for", 139),
        ("a need that follows, by both tags", both_tags, "1 3\n".to_string()),
    ];
    listed.chain(others).chain(refused).collect()
}

fn listed_cases() -> Vec<(&'static str, Draft, &'static str)> {
    let plain = |jobs, needs: &[(u16, u16)]| Draft::plain(9, jobs, needs);
    let chain = |jobs, more: &[(u16, u16)]| {
        let draft = Draft::chain(64, jobs);
        Draft { needs: [more, &draft.needs].concat(), ..draft }
    };
    let shortcut = [(1, 2), (2, 3), (1, 3)];
    vec![
        ("1-2, 2-3 and also 1-3", plain(3, &shortcut), "1 3\n"),
        ("the need that follows first", plain(3, &[(1, 3), (2, 3), (1, 2)]), "1 3\n"),
        ("the jobs the other way round", plain(3, &[(3, 2), (3, 1), (2, 1)]), "3 1\n"),
        ("no needs", plain(1, &[]), ""),
        ("1-2, 2-3", plain(3, &shortcut[..2]), ""),
        ("one other need from the giver", plain(3, &[(1, 2), (1, 3)]), ""),
        ("one other need to the taker", plain(3, &[(2, 3), (1, 3)]), ""),
        ("two other needs that do not meet", plain(4, &[(1, 2), (3, 4), (1, 4)]), ""),
        ("figure 1", plain(8, &FIGURE_1), ""),
        ("two paths", plain(4, &[(1, 2), (2, 4), (1, 3), (3, 4)]), ""),
        ("two paths and a need beside them", plain(4, &[(1, 2), (2, 4), (1, 3), (3, 4), (1, 4)]), "1 4\n"),
        ("a need over three steps", chain(4, &[(1, 4)]), "1 4\n"),
        ("a need over 63 steps", chain(64, &[(1, 64)]), "1 64\n"),
        ("a path through a need that is listed", chain(4, &[(1, 4), (1, 3)]), "1 3\n1 4\n"),
        ("a path of listed needs alone", chain(5, &[(3, 5), (1, 5), (1, 3)]), "1 3\n1 5\n3 5\n"),
        ("givers before takers", plain(6, &[(2, 6), (6, 3), (2, 3), (1, 5), (5, 4), (1, 4)]), "1 4\n2 3\n"),
        ("takers of one giver", plain(4, &[(4, 3), (3, 2), (2, 1), (4, 2), (3, 1), (4, 1)]), "3 1\n4 1\n4 2\n"),
        ("9 before 10, 2 before 10", chain(12, &[(10, 12), (2, 10), (2, 9)]), "2 9\n2 10\n10 12\n"),
        (
            "needs of jobs beyond 255",
            chain(400, &[(255, 257), (1, 400), (256, 258), (254, 256)]),
            "1 400\n254 256\n255 257\n256 258\n",
        ),
        ("most boards", Draft { boards: Some(1), ..plain(3, &shortcut) }, "1 3\n"),
        ("too wide to plan", Draft::plain(9, 12, &shortcut), "1 3\n"),
        ("more slots than the limit", Draft::plain(1, 3, &shortcut), "1 3\n"),
        ("each of the three needs twice", plain(3, &shortcut.repeat(2)), "1 3\n"),
        ("a need twice, and no other", plain(2, &[(1, 2), (1, 2)]), ""),
        ("a circle of three", plain(3, &[(1, 2), (2, 3), (3, 1)]), "refused 11\n"),
        ("a circle beside a need that follows", plain(5, &[&shortcut[..], &[(4, 5), (5, 4)]].concat()), "refused 11\n"),
    ]
}

/// Files, and the state numbers of their slots; among them each file above that the planner refuses.
pub fn states_cases() -> Vec<(&'static str, Vec<u8>, Result<Vec<u16>, u8>)> {
    let refused = named_cases().into_iter().filter_map(|(name, file, answer)| match answer {
        Refused(number) => Some((name, file, Err(number))),
        Planned(..) => None,
    });
    let shown = shown_cases().into_iter().map(|(name, draft, numbers)| (name, draft.bytes(), Ok(numbers)));
    shown.chain(refused).collect()
}

/// The numbers are worked out by hand: behind each the windows of the jobs, first slot to last.
fn shown_cases() -> Vec<(&'static str, Draft, Vec<u16>)> {
    let plain = Draft::plain;
    let (takers, givers) = ([(1, 2), (1, 3)], [(1, 3), (2, 3)]);
    let late = [(1, 2), (1, 3), (3, 4)];
    let most = |boards, draft: Draft| Draft { boards: Some(boards), ..draft };
    vec![
        ("one job, limit 1", plain(1, 1, &[]), vec![2]),
        ("one job, limit 64", plain(64, 1, &[]), vec![2]),
        ("two givers, limit 3: 0-1 0-1 2-2", plain(3, 3, &givers), vec![8, 4, 2]),
        ("two givers, limit 4: 0-2 0-2 2-3", plain(4, 3, &givers), vec![8, 4, 1 + 3 + 18]),
        ("two takers, limit 3: 0-0 1-2 1-2", plain(3, 3, &takers), vec![2, 2, 1 + 6]),
        ("two takers, limit 4: 0-1 1-3 1-3", plain(4, 3, &takers), vec![2, 1 + 6, 1 + 6]),
        (
            "figure 1, limit 6: 0-2 0-2 1-4 1-4 2-3 3-5 3-5 3-5",
            plain(6, 8, &FIGURE_1),
            vec![8, 1 + 3 + 18, 1 + 3 + 9 + 54 + 162, 1 + 3 + 9 + 54 + 162, 1 + 3 + 9 + 27 + 162],
        ),
        (
            "figure 1, limit 5, the same table: 0-1 0-1 1-3 1-3 2-2 3-4 3-4 3-4",
            plain(5, 8, &FIGURE_1),
            vec![8, 1 + 3 + 18, 1 + 6 + 18, 1 + 3 + 18 + 54, 1 + 3 + 18],
        ),
        ("a job after one with a higher number: 0-1 1-3 1-2 2-3", plain(4, 4, &late), vec![2, 1 + 18, 2 + 3 + 18]),
        ("a chain of 3, limit 3", Draft::chain(3, 3), vec![2, 2, 2]),
        ("a chain of 3, limit 5: 0-2 1-3 2-4", Draft::chain(5, 3), vec![2, 1 + 6, 1 + 3 + 18]),
        (
            "a chain from job 3 to job 1, limit 5: 2-4 1-3 0-2",
            plain(5, 3, &[(3, 2), (2, 1)]),
            vec![2, 2 + 3, 2 + 3 + 9],
        ),
        (
            "a chain of 9, limit 16: each window is 8 long",
            Draft::chain(16, 9),
            vec![2, 7, 22, 67, 202, 607, 1_822, 5_467, 5_467],
        ),
        ("a chain of 64, limit 64", Draft::chain(64, 64), vec![2; 64]),
        ("eight jobs, limit 1", plain(1, 8, &[]), vec![6_560]),
        ("eight jobs, limit 64: none is left to do", plain(64, 8, &[]), vec![6_560]),
        ("eight jobs, most boards 4, limit 2", most(4, plain(2, 8, &[])), vec![80, 40 + 80 * 81]),
        ("eight jobs, most boards 3, limit 3", most(3, plain(3, 8, &[])), vec![26, 13 + 26 * 27, 364 + 8 * 729]),
        ("eight jobs, most boards 1, limit 8", most(1, plain(8, 8, &[])), vec![2, 7, 22, 67, 202, 607, 1_822, 5_467]),
        ("eight chains of 50, limit 50", Draft::side_by_side(50, 8, 50), vec![6_560; 50]),
    ]
}

/// The library's numbers for these files; and buffers of every length for some that are planned and some that are not.
fn state_numbers(tester: &mut Tester) {
    for (name, file, numbers) in states_cases() {
        tester.label = name.to_string();
        let found = tester.states("named: states", &file).map(|written| written.states);
        let right = found == numbers.map(|numbers| states::bytes(&numbers));
        let verdict = if right { Ok(()) } else { Err(format!("{found:?}")) };
        tester.report.case(Of::Answer, "named: the state numbers", verdict, || name.to_string());
    }
    let refused = [Draft::chain(17, 9), Draft::chain(8, 9)].map(|draft| draft.bytes());
    let planned = [Draft::plain(6, 8, &FIGURE_1), Draft::chain(64, 64), Draft::side_by_side(50, 8, 50)];
    for file in planned.map(|draft| draft.bytes()).into_iter().chain(refused).chain([Vec::new(), vec![9; 49_153]]) {
        tester.label = format!("{} bytes", file.len());
        tester.states_in_all("named: states, buffers of every length", &file);
    }
}

/// Of the reference: the entry for each byte is the number whose digits are the byte's bits; and every state of eight jobs has a
/// number of its own, below 6,561, which is the entry for those that are done or running plus the entry for those that are running.
fn every_state(tester: &mut Tester) {
    let group = "named: the reference's state numbers";
    let entries = states::entries();
    let by_bits: Vec<u16> = (0..256).map(|byte| states::number(&bits(byte))).collect();
    let right = entries == by_bits && entries[2] == 3 && entries[255] == 3_280;
    let verdict = if right { Ok(()) } else { Err(format!("{entries:?}")) };
    tester.report.case(Of::Reference, group, verdict, || "the entries".to_string());
    let pairs = (0..256).flat_map(|begun| (0..256).map(move |running| (begun, running)));
    let mut numbers = Vec::new();
    let mut wrong = Vec::new();
    for (begun, running) in pairs.filter(|(begun, running)| running & !begun == 0) {
        let digits: Vec<u16> = bits(begun).iter().zip(bits(running)).map(|(begun, running)| begun + running).collect();
        numbers.push(states::number(&digits));
        if numbers.last() != Some(&(entries[begun as usize] + entries[running as usize])) {
            wrong.push(digits);
        }
    }
    numbers.sort();
    let right = wrong.is_empty() && numbers.into_iter().eq(0..6_561);
    let verdict = if right { Ok(()) } else { Err(format!("{wrong:?}, or numbers that come twice")) };
    tester.report.case(Of::Reference, group, verdict, || "all states of eight jobs".to_string());
}

/// The bits of a byte, the lowest first.
fn bits(byte: u16) -> Vec<u16> {
    (0..8).map(|bit| byte >> bit & 1).collect()
}

/// Of the reference's small gates: how many there are of 1 to 4 jobs, the first four lines and the last; and lines that
/// stand there once, each for these needs.
fn named_small_gates(tester: &mut Tester) {
    let group = "named: the reference's small gates";
    let gates = small_gates();
    let text = printed_gates(&gates);
    let lines: Vec<&str> = text.lines().collect();
    let counts = [1, 2, 3, 4].map(|jobs| gates.iter().filter(|gate| gate.jobs == jobs).count());
    let ends = [1, 2, 3, 4, 572].map(|line| lines.get(line - 1).copied().unwrap_or_default());
    let right = counts == [1, 3, 25, 543] && ends == ["1 0 1", "2 0 1", "2 2 2", "2 4 2", "4 29456 4"];
    let verdict = if right { Ok(()) } else { Err(format!("{counts:?}, {ends:?}")) };
    tester.report.case(Of::Reference, group, verdict, || "how many, and the lines at the ends".to_string());
    let cases: [(&str, &[(usize, usize)]); 10] = [
        ("1 0 1", &[]),
        ("2 2 2", &[(1, 2)]),
        ("2 4 2", &[(2, 1)]),
        ("3 6 3", &[(1, 2), (1, 3)]),
        ("3 34 3", &[(1, 2), (2, 3)]),
        ("3 36 3", &[(1, 3), (2, 3)]),
        ("4 14 3", &[(1, 2), (1, 3), (1, 4)]),
        ("4 204 3", &[(1, 3), (1, 4), (2, 3), (2, 4)]),
        ("4 2050 2", &[(1, 2), (3, 4)]),
        ("4 2182 4", &[(1, 2), (1, 3), (2, 4), (3, 4)]),
    ];
    for (line, needs) in cases {
        let at_line = gates.iter().zip(&lines).filter(|(_, found)| **found == line);
        let found: Vec<Vec<(usize, usize)>> = at_line.map(|(gate, _)| numbered_from_1(&gate.needs)).collect();
        let verdict = if found == [needs] { Ok(()) } else { Err(format!("{found:?}, not {needs:?}")) };
        tester.report.case(Of::Reference, group, verdict, || line.to_string());
    }
}

/// Needs as files have them.
fn numbered_from_1(needs: &[(usize, usize)]) -> Vec<(usize, usize)> {
    needs.iter().map(|(giver, taker)| (giver + 1, taker + 1)).collect()
}

/// Each job needs all before it: all but those for the job right before follow.
fn all_pairs(name: &'static str, jobs: u16) -> (&'static str, Vec<u8>, String) {
    let pairs = |apart: u16| (1..=jobs).flat_map(move |giver| (giver + apart..=jobs).map(move |taker| (giver, taker)));
    let needs: Vec<(u16, u16)> = pairs(1).collect();
    let text = pairs(2).map(|(giver, taker)| format!("{giver} {taker}\n")).collect();
    (name, Draft::plain(64, jobs as usize, &needs).bytes(), text)
}

/// Files with the width that document 01 gives.
fn widths() -> Vec<(&'static str, Draft, usize)> {
    vec![
        ("figure 1, limit 6", Draft::plain(6, 8, &FIGURE_1), 6),
        ("chain of 9, limit 16", Draft::chain(16, 9), 8),
        ("chain of 9, limit 8", Draft::chain(8, 9), 0),
    ]
}

/// Plans a file; the answer must be the one written here and the reference's.
fn planned(tester: &mut Tester, name: &str, file: &[u8], answer: Answer) {
    tester.label = name.to_string();
    let found = tester.plan("named: plan", file);
    let table = found.as_ref().ok().and_then(|bytes| Table::read(bytes));
    let right = match (&answer, &found, &table) {
        (Refused(number), Err(found), _) => found == number,
        (Planned(starts, boards), _, Some(table)) => {
            table.rows.iter().map(|row| row.start).eq(starts.iter().copied())
                && table.rows.iter().map(|row| row.board).eq(boards.iter().copied())
        }
        _ => false,
    };
    let verdict = if right { Ok(()) } else { Err(format!("{found:?}")) };
    tester.report.case(Of::Answer, "named: the planner's answer", verdict, || name.to_string());
}

/// The answer for the printed example, printed as the planning program does.
fn printed_example(tester: &mut Tester) {
    tester.label = "printed example".to_string();
    let text = printed(&tester.plan("named: plan", &PRINTED_FILE));
    let verdict = if text == PRINTED { Ok(()) } else { Err(text) };
    tester.report.case(Of::Answer, "named: the planner's answer", verdict, || "printed example".to_string());
}

/// Tables for needs 1-3, 2-3, limit 4: starts and boards of the three jobs, and what the check says.
fn checked(tester: &mut Tester) {
    let draft = Draft::plain(4, 3, &[(1, 3), (2, 3)]);
    let cases: [(&'static str, [u8; 3], [u8; 3], Passes); 9] = [
        ("the planned table", [0, 0, 2], [1, 2, 1], Ok(())),
        ("as short, not preferred", [0, 1, 2], [1, 2, 2], Ok(())),
        ("longer than needed", [0, 1, 3], [3, 1, 8], Ok(())),
        ("beyond the limit", [0, 1, 4], [1, 1, 1], Err(16)),
        ("board 9", [0, 0, 2], [1, 9, 1], Err(16)),
        ("board 0", [0, 0, 2], [1, 0, 1], Err(16)),
        ("two jobs in one place", [0, 0, 2], [1, 1, 1], Err(17)),
        ("one slot across boards", [0, 0, 1], [1, 2, 1], Err(18)),
        ("before its giver", [1, 1, 0], [1, 2, 1], Err(18)),
    ];
    let read = read(&draft.bytes()).expect("a sound file");
    for (name, starts, boards, answer) in cases {
        let table = table_of(&read, &starts.map(usize::from), &boards).bytes();
        checks(tester, name, &draft.bytes(), &table, answer);
    }
    let wide = Draft::plain(64, 9, &[]);
    let wide_read = self::read(&wide.bytes()).expect("a sound file");
    let table = table_of(&wide_read, &[0, 1, 2, 3, 4, 5, 6, 7, 8], &[1; 9]).bytes();
    checks(tester, "a table for a file that is too wide to plan", &wide.bytes(), &table, Ok(()));
    checks(tester, "an empty table", &wide.bytes(), &[], Err(14));
    checks(tester, "a circle comes before the table", &Draft::plain(4, 2, &[(1, 2), (2, 1)]).bytes(), &[], Err(11));
}

/// Changes to the table of eight chains of 50, and what the check says.
fn checked_with_many_jobs(tester: &mut Tester) {
    let file = Draft::side_by_side(50, 8, 50).bytes();
    let (starts, boards): (Vec<usize>, Vec<u8>) =
        (0..50).flat_map(|slot| (1..=8).map(move |board| (slot, board))).unzip();
    let planned = table_of(&read(&file).expect("a sound file"), &starts, &boards);
    let cases: [(&'static str, fn(&mut Vec<Row>), Passes); 7] = [
        ("400 rows", |_| (), Ok(())),
        ("399 rows", |rows| drop(rows.pop()), Err(14)),
        ("401 rows", |rows| rows.push(rows[399].clone()), Err(14)),
        ("the last two of 400 rows exchanged", |rows| rows.swap(398, 399), Err(15)),
        ("the last of 400 jobs beyond the limit", |rows| rows[399].start = 50, Err(16)),
        ("the last two of 400 jobs in one place", |rows| rows[399].board = 7, Err(17)),
        (
            "the last two of 400 jobs on each other's boards",
            |rows| (rows[398].board, rows[399].board) = (8, 7),
            Err(18),
        ),
    ];
    for (name, change, answer) in cases {
        let mut table = planned.clone();
        change(&mut table.rows);
        table.recount();
        checks(tester, name, &file, &table.bytes(), answer);
    }
}

/// Tables for needs 1-3, 2-3, limit 4 with most boards: how many, starts and boards of the three jobs, and what the check says.
fn checked_with_most_boards(tester: &mut Tester) {
    let draft = Draft::plain(4, 3, &[(1, 3), (2, 3)]);
    let cases: [(&'static str, u8, [u8; 3], [u8; 3], Passes); 7] = [
        ("as many boards as most boards", 2, [0, 0, 2], [1, 2, 1], Ok(())),
        ("more boards than most boards", 1, [0, 0, 2], [1, 2, 1], Err(16)),
        ("few jobs, and a board beyond most boards", 2, [0, 1, 3], [1, 1, 3], Err(16)),
        ("one board", 1, [0, 1, 2], [1, 1, 1], Ok(())),
        ("one board, beyond the limit", 1, [0, 1, 4], [1, 1, 1], Err(16)),
        ("board 9, most boards 8", 8, [0, 0, 2], [1, 9, 1], Err(16)),
        ("one slot across boards, most boards 2", 2, [0, 1, 2], [1, 1, 2], Err(18)),
    ];
    for (name, most_boards, starts, boards, answer) in cases {
        let file = Draft { boards: Some(most_boards), ..draft.clone() }.bytes();
        let read = read(&file).expect("a sound file");
        let table = table_of(&read, &starts.map(usize::from), &boards).bytes();
        checks(tester, name, &file, &table, answer);
    }
    let twice = [draft.bytes(), boards_field(3), boards_field(3)].concat();
    checks(tester, "most boards twice comes before the table", &twice, &[], Err(21));
}

/// A job with each of these levels in millimetres: the centimetres of its planned table, and what the check says of that
/// table and of the one from before request 4.
fn rounded(tester: &mut Tester) {
    let cases: [(i16, i16, Passes); 18] = [
        (25, 2, Err(15)),
        (35, 4, Ok(())),
        (-25, -2, Err(15)),
        (-35, -4, Ok(())),
        (15, 2, Ok(())),
        (-15, -2, Ok(())),
        (5, 0, Err(15)),
        (-5, 0, Err(15)),
        (4, 0, Ok(())),
        (6, 1, Ok(())),
        (45, 4, Err(15)),
        (24, 2, Ok(())),
        (26, 3, Ok(())),
        (32755, 3276, Ok(())),
        (32765, 3276, Err(15)),
        (-32765, -3276, Err(15)),
        (32767, 3277, Ok(())),
        (-32768, -3277, Ok(())),
    ];
    for (level, centimetres, before) in cases {
        let name = format!("{level} millimetres");
        let file = Draft { jobs: vec![(level, b"a".to_vec())], ..Draft::plain(1, 1, &[]) }.bytes();
        let table =
            |level| Table { slots: 1, boards: 1, rows: vec![Row { start: 0, board: 1, level, name: b"a".to_vec() }] };
        tester.label = name.clone();
        let found = tester.plan("named: plan", &file);
        let right = found == Ok(table(centimetres).bytes());
        let verdict = if right { Ok(()) } else { Err(format!("{found:?}")) };
        tester.report.case(Of::Answer, "named: the planner's answer", verdict, || name.clone());
        checks(tester, &name, &file, &table(centimetres).bytes(), Ok(()));
        checks(tester, &format!("{name}, a table from before"), &file, &table(half_away(level)).bytes(), before);
    }
}

/// Every level that two bytes hold, eight in a file: its table, and the check of that and of the one from before request 4.
fn every_level(tester: &mut Tester) {
    for first in (i16::MIN..=i16::MAX).step_by(8) {
        let plain = Draft::plain(1, 8, &[]);
        let jobs = plain.jobs.iter().zip(first..=first + 7).map(|((_, name), level)| (level, name.clone())).collect();
        let file = Draft { jobs, ..plain }.bytes();
        tester.label = format!("levels from {first}");
        let planned = tester.plan("named: every level", &file).unwrap_or_default();
        let _ = tester.check("named: every level", &file, &planned);
        if let Some(mut table) = Table::read(&planned) {
            table.rows.iter_mut().zip(first..=first + 7).for_each(|(row, level)| row.level = half_away(level));
            let _ = tester.check("named: every level", &file, &table.bytes());
        }
    }
}

/// What check and lookup answer.
type Passes = Result<(), u8>;
type Found = Result<Option<usize>, u8>;

fn checks(tester: &mut Tester, name: &str, file: &[u8], table: &[u8], answer: Passes) {
    tester.label = name.to_string();
    let found = tester.check("named: check", file, table);
    let verdict = if found == answer { Ok(()) } else { Err(format!("{found:?}")) };
    tester
        .report
        .case(Of::Answer, "named: the library's answer", verdict, || format!("{name}, table {}", shown(table)));
}

/// Tables by the starts and boards of their rows, their counts made to fit, and what the lookup says of one place.
fn looked_up(tester: &mut Tester) {
    let row = |start, board| Row { start, board, level: 0, name: b"a".to_vec() };
    let chain: Vec<Row> = (0..64).map(|start| row(start, 8)).collect();
    let most: Vec<Row> = (0..50).flat_map(|start| (1..=8).map(move |board| row(start, board))).collect();
    let too_many = [&most[..], &[row(50, 1)]].concat();
    let cases: [(&'static str, Vec<Row>, (usize, usize), Found); 19] = [
        ("its job", vec![row(0, 1), row(63, 8)], (63, 8), Ok(Some(2))),
        ("another board", vec![row(63, 8)], (63, 7), Ok(None)),
        ("another slot", vec![row(63, 8)], (62, 8), Ok(None)),
        ("board 0", vec![row(63, 8)], (63, 0), Ok(None)),
        ("beyond the slots", vec![row(63, 8)], (64, 8), Ok(None)),
        ("beyond the boards", vec![row(63, 8)], (63, 9), Ok(None)),
        ("a slot that would wrap", vec![row(63, 8)], (63 + 256, 8), Ok(None)),
        ("64 rows", chain.clone(), (63, 8), Ok(Some(64))),
        ("65 rows", [&chain[..], &[row(0, 1)]].concat(), (0, 1), Ok(Some(65))),
        ("the 256th of 400 rows", most.clone(), (31, 8), Ok(Some(256))),
        ("the 257th of 400 rows", most.clone(), (32, 1), Ok(Some(257))),
        ("the last of 400 rows", most, (49, 8), Ok(Some(400))),
        ("401 rows", too_many, (0, 1), Err(14)),
        ("no row", Vec::new(), (0, 0), Err(14)),
        ("65 slots", vec![row(64, 8)], (0, 1), Err(16)),
        ("a start of 255", vec![row(255, 8)], (0, 1), Err(16)),
        ("board 9 in the table", vec![row(0, 9)], (0, 1), Err(16)),
        ("board 0 in the table", vec![row(0, 1), row(1, 0)], (0, 0), Err(16)),
        ("two jobs in one place", vec![row(0, 1), row(0, 1)], (5, 5), Err(17)),
    ];
    for (name, rows, (slot, board), answer) in cases {
        let mut table = Table { slots: 0, boards: 0, rows };
        table.recount();
        let table = table.bytes();
        tester.label = name.to_string();
        let found = tester.lookup("named: lookup", &table, slot, board);
        let verdict = if found == answer { Ok(()) } else { Err(format!("{found:?}")) };
        tester.report.case(Of::Reference, "named: the reference's answer", verdict, || name.to_string());
        tester.lookups("named: lookup", &table);
        tester.all_lookups("named: lookup", &table);
    }
}
