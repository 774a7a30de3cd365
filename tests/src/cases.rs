//! The generated cases. Each index of a seed gives one file, always the same one, and what is tried with it.

use crate::generate::drafts::{self, boards_field, field, Draft};
use crate::generate::random::Random;
use crate::generate::shapes::{self, Shape};
use crate::generate::{damage, grown, hard, limits, many, tables};
use crate::reference::entries;
use crate::reference::implied::{self, implied_needs};
use crate::reference::lists;
use crate::reference::needs::Graph;
use crate::reference::reading::{need_numbers, read, take_field, JobFile, LONGEST_FILE, MOST_BOARDS, MOST_JOBS};
use crate::reference::search;
use crate::reference::small::small_gates;
use crate::reference::table::Table;
use crate::report::{shown, Of};
use crate::stage::Verdict;
use crate::tester::Tester;
use std::collections::HashSet;
use std::fmt::Debug;

/// Small files are tried against the search through all lists where there are at most this many.
const MOST_LISTS: usize = 50_000;
/// At one index in so many a file is cut at every offset and changed at every byte, and hard files are looked for.
const RARE: u64 = 1_000;

pub fn run(tester: &mut Tester, seed: u64, index: u64) {
    tester.random = Random::new(seed, index);
    tester.label = format!("seed {seed} index {index}");
    match index % 23 {
        0..=7 => sound(tester),
        8 => eight_boards(tester),
        9..=11 => small(tester),
        12 => without_windows(tester),
        13..=15 => damaged_fields(tester),
        16 | 17 => damaged_bytes(tester),
        18 => lengths(tester),
        19 => extra_jobs(tester),
        20 => grown_files(tester),
        21 => repeated_needs(tester),
        _ => many_tables(tester),
    }
    if index % RARE == 0 {
        every_offset(tester);
        hard(tester);
    }
}

/// Sound files of every shape and size, with tables for them.
fn sound(tester: &mut Tester) {
    let draft = Draft::any(&mut tester.random);
    let file = draft.mixed_bytes(&mut tester.random);
    let planned = tester.plan("plan: sound shapes", &file);
    if tester.random.percent(10) {
        tester.plan_in_any("plan: buffers of any length", &file);
    }
    try_tables(tester, &file, &planned);
    let other = Draft { boards: drafts::boards(&mut tester.random), ..draft };
    let _ = tester.check("check: tables planned for other most boards", &file, &some_table(&other));
}

/// Files that give eight as most boards, which get the answers of the same files without that field.
fn eight_boards(tester: &mut Tester) {
    let draft = Draft { boards: None, ..Draft::any(&mut tester.random) };
    let mut fields = draft.fields();
    let without = fields.concat();
    fields.insert(tester.random.between(2, fields.len()), boards_field(8));
    let with = fields.concat();
    let planned = tester.plan("plan: without most boards", &without);
    let same = planned == tester.plan("plan: most boards 8", &with);
    same_answer(tester, same, &with);
    let mut tried = vec![planned.unwrap_or_default()];
    if let Ok(read) = read(&without) {
        if let Some(table) = tables::valid(&mut tester.random, &read) {
            tried.extend([table.bytes(), tables::broken(&mut tester.random, &read, &table)]);
        }
    }
    for table in tried {
        let checked = tester.check("check: without most boards", &without, &table);
        let same = checked == tester.check("check: most boards 8", &with, &table);
        same_answer(tester, same, &with);
    }
}

/// Files of a gate, of extra jobs, and of both with no need between them, under one limit and with eight boards.
fn extra_jobs(tester: &mut Tester) {
    let (mut gate, mut extras) = match tester.random.below(8) {
        0 | 1 => gate_and_longer_chain(&mut tester.random),
        2 => many_and_chain(&mut tester.random),
        _ => (Draft::sound(&mut tester.random, 16), Draft::sound(&mut tester.random, 4)),
    };
    gate.limit = gate.limit.max(tester.random.pick(&[1, extras.limit]));
    extras.limit = gate.limit;
    gate.boards = tester.random.pick(&[None, Some(8)]);
    extras.boards = tester.random.pick(&[None, Some(8)]);
    let files = [&gate, &extras, &gate.with_extras(&extras)].map(|draft| draft.mixed_bytes(&mut tester.random));
    let planned = files.each_ref().map(|file| tester.plan("plan: extra jobs", file));
    let (kind, verdict) = extras_verdict(&planned);
    tester.report.answer("extra jobs", kind.to_string());
    if let Some(verdict) = verdict {
        let shown = || files.each_ref().map(|file| shown(file)).join(", ");
        let label = &tester.label;
        tester
            .report
            .case(Of::Answer, "extra jobs: what request 12 says", verdict, || format!("{label}, files {}", shown()));
    }
}

/// A job with some takers, of which the last begins a chain, and extras that need as many slots as the gate or a few more:
/// with more slots the gate takes its lower takers first.
fn gate_and_longer_chain(random: &mut Random) -> (Draft, Draft) {
    let (takers, chain) = (random.between(2, 3) as u16, random.between(1, 3) as u16);
    let jobs = 1 + takers + chain;
    let needs: Vec<(u16, u16)> =
        (2..=1 + takers).map(|taker| (1, taker)).chain((1 + takers..jobs).map(|job| (job, job + 1))).collect();
    let slots = takers.max(chain + 1) + 1;
    let longer = slots + random.below(3) as u16;
    (Draft::plain(longer as u8, jobs as usize, &needs), Draft::chain(longer as u8, longer))
}

/// Many jobs, but not the most there may be, and a chain as long as the limit or a little shorter, which has few slots to choose
/// from.
fn many_and_chain(random: &mut Random) -> (Draft, Draft) {
    let gate = loop {
        let gate = Draft::many(random);
        if gate.jobs.len() < MOST_JOBS {
            break gate;
        }
    };
    let longest = (MOST_JOBS - gate.jobs.len()).min(gate.limit as usize);
    let length = longest.saturating_sub(random.below(3)).max(1) as u16;
    (gate, Draft::chain(1, length))
}

/// Of the tables of a gate, of extra jobs and of both: how they stand, and whether what request 12 says of that is so.
fn extras_verdict(planned: &[Result<Vec<u8>, u8>; 3]) -> (&'static str, Option<Verdict>) {
    match planned {
        [Ok(gate), Ok(extras), Ok(both)] => {
            let (Some(alone), Some(others), Some(together)) = (starts_of(gate), starts_of(extras), starts_of(both))
            else {
                return ("a table that does not read", Some(Err("a table that does not read".to_string())));
            };
            let kept = agree(together.get(..alone.len()).unwrap_or_default(), &alone[..]);
            match (lists::slots(&others) <= lists::slots(&alone), kept) {
                (true, kept) => ("no longer than the gate", Some(kept)),
                (false, Ok(())) => ("longer than the gate, its starts kept", None),
                (false, Err(_)) => ("longer than the gate, its starts moved", None),
            }
        }
        [Ok(_), Ok(_), Err(number)] => ("each group planned, not both", Some(agree(number, &12))),
        [_, _, Ok(_)] => ("both planned, not each group", Some(Err("a group alone is refused".to_string()))),
        _ => ("a group refused, and both", None),
    }
}

/// Files that have grown, and the same files without the needs that follow from others.
fn grown_files(tester: &mut Tester) {
    let file = grown::draft(&mut tester.random).mixed_bytes(&mut tester.random);
    let implied = try_list(tester, &file);
    tester.report.count("striking: needs that follow".to_string(), implied.len() as u64);
    if implied.is_empty() {
        return tester.report.answer("striking", "files without such needs".to_string());
    }
    tester.report.answer("striking", "files with such needs".to_string());
    let struck = implied::struck(&file, &implied);
    let Some(planned) = same_plan(tester, &file, &struck) else { return };
    let kind = planned.as_ref().map_or_else(|number| format!("both refused {number}"), |_| "same table".to_string());
    tester.report.answer("striking", kind);
    for table in drawn_tables(&mut tester.random, &file, implied, planned.ok()) {
        same_check(tester, &file, &struck, &table);
    }
}

/// Files with needs given twice, sound or damaged, and the same files with a comment as long in place of each later field:
/// planner and check answer the same, byte for byte.
fn repeated_needs(tester: &mut Tester) {
    let draft = Draft::any(&mut tester.random).with_copies(&mut tester.random);
    let file = match tester.random.below(4) {
        0 => damage::fields(&mut tester.random, &draft),
        _ => draft.mixed_bytes(&mut tester.random),
    };
    let (commented, count) = repeats_as_comments(&mut tester.random, &file);
    tester.report.count("a need twice: fields".to_string(), count);
    let planned = tester.plan("plan: a need twice", &file);
    let without = tester.plan("plan: comments for needs given twice", &commented);
    let kind = planned.as_ref().map_or_else(|number| format!("both refused {number}"), |_| "same table".to_string());
    repeated_case(tester, "a need twice", kind, agree(&without, &planned), &file);
    let needs = read(&file).map_or(Vec::new(), |read| read.needs);
    let tables = match needs.is_empty() {
        true => vec![some_table(&draft)],
        false => drawn_tables(&mut tester.random, &file, needs, planned.ok()),
    };
    for table in tables {
        let checked = tester.check("check: a need twice", &file, &table);
        let without = tester.check("check: comments for needs given twice", &commented, &table);
        let kind = checked.map_or_else(|number| format!("both refused {number}"), |()| "both pass".to_string());
        repeated_case(tester, "a need twice, the check", kind, agree(&without, &checked), &file);
    }
}

/// Counts what both files got, where they agree.
fn repeated_case(tester: &mut Tester, group: &'static str, kind: String, verdict: Verdict, file: &[u8]) {
    if verdict.is_ok() {
        tester.report.answer(group, kind);
    }
    file_case(tester, Of::Answer, group, verdict, file);
}

/// The bytes with a comment of any bytes in place of each need field whose pair was in one before, of either tag; and how
/// many.
fn repeats_as_comments(random: &mut Random, file: &[u8]) -> (Vec<u8>, u64) {
    let (mut kept, mut rest, mut pairs, mut count) = (Vec::new(), file, HashSet::new(), 0);
    while let Some((tag, value, behind)) = take_field(rest) {
        if need_numbers(tag, value).is_some_and(|pair| !pairs.insert(pair)) {
            kept.extend(field(5, &random.bytes(value.len())));
            count += 1;
        } else {
            kept.extend(&rest[..rest.len() - behind.len()]);
        }
        rest = behind;
    }
    kept.extend(rest);
    (kept, count)
}

/// The needs of a sound file that follow from others, found in two ways by the reference. Without them none is left, and
/// its windows and width are the same.
fn try_list(tester: &mut Tester, file: &[u8]) -> Vec<(usize, usize)> {
    let read_file = read(file).expect("a sound file");
    let implied = implied_needs(file).expect("a file without a circle");
    let searched = implied::by_search(read_file.jobs.len(), &read_file.needs);
    file_case(tester, Of::Reference, "reference: closure and search", agree(&implied, &searched), file);
    let struck = implied::struck(file, &implied);
    file_case(tester, Of::Reference, "reference: none is left", agree(&implied_needs(&struck), &Ok(Vec::new())), file);
    let windows = agree(&read(&struck).map(|struck| windows_and_width(&struck)), &Ok(windows_and_width(&read_file)));
    file_case(tester, Of::Reference, "reference: windows and width", windows, file);
    implied
}

/// Releases, deadlines and width under the file's limit.
fn windows_and_width(file: &JobFile) -> (Vec<i32>, Vec<i32>, usize) {
    let (graph, limit) = (Graph::new(file.jobs.len(), &file.needs), file.limit as i32);
    let windows = graph.windows(limit);
    (windows.releases, windows.deadlines, graph.width(limit))
}

/// Plans a file and the struck one: the same bytes or the same refusal, which is given; and the table of the one passes
/// for the other.
fn same_plan(tester: &mut Tester, file: &[u8], struck: &[u8]) -> Option<Result<Vec<u8>, u8>> {
    let planned = tester.plan("plan: grown files", file);
    let without = tester.plan("plan: struck files", struck);
    file_case(tester, Of::Answer, "striking: the planner's answer", agree(&without, &planned), file);
    for (checked, answer) in [(file, &without), (struck, &planned)] {
        if let Ok(table) = answer {
            let passes = tester.check("check: planned for the other file", checked, table);
            file_case(tester, Of::Answer, "striking: planned tables pass", agree(&passes, &Ok(())), file);
        }
    }
    (planned == without).then_some(planned)
}

/// Checks a table for a file and for the struck one.
fn same_check(tester: &mut Tester, file: &[u8], struck: &[u8], table: &[u8]) {
    let checked = tester.check("check: grown files", file, table);
    let without = tester.check("check: struck files", struck, table);
    let verdict = agree(&without, &checked);
    if verdict.is_ok() {
        let kind = checked.map_or_else(|number| format!("both refused {number}"), |()| "both pass".to_string());
        tester.report.answer("striking, the check", kind);
    }
    file_case(tester, Of::Answer, "striking: the check's answer", verdict, file);
}

/// The planned table of a sound file, tables that are valid or valid for other most boards, and of each some that are
/// wrong, one of them at one of these needs.
fn drawn_tables(
    random: &mut Random,
    file: &[u8],
    needs: Vec<(usize, usize)>,
    planned: Option<Vec<u8>>,
) -> Vec<Vec<u8>> {
    let file = read(file).expect("a sound file");
    let other = JobFile { boards: drafts::boards(random), ..file.clone() };
    let valid = [tables::valid(random, &file), tables::valid(random, &other)];
    let only = JobFile { needs, ..file.clone() };
    let mut drawn = Vec::new();
    for table in planned.and_then(|bytes| Table::read(&bytes)).into_iter().chain(valid.into_iter().flatten()) {
        drawn.extend([table.bytes(), tables::broken(random, &file, &table), tables::damaged(random, &table)]);
        let mut too_close = table;
        tables::broken_need(random, &only, &mut too_close);
        drawn.push(too_close.bytes());
    }
    drawn
}

fn file_case(tester: &mut Tester, of: Of, group: &'static str, verdict: Verdict, file: &[u8]) {
    let label = &tester.label;
    tester.report.case(of, group, verdict, || format!("{label}, file {}", shown(file)));
}

fn agree<T: PartialEq + Debug + ?Sized>(found: &T, expected: &T) -> Verdict {
    if found == expected {
        Ok(())
    } else {
        Err(format!("{found:?}, not {expected:?}"))
    }
}

fn same_answer(tester: &mut Tester, same: bool, file: &[u8]) {
    let verdict = if same { Ok(()) } else { Err("another answer without most boards".to_string()) };
    let label = &tester.label;
    tester.report.case(Of::Answer, "most boards 8 are as none", verdict, || format!("{label}, file {}", shown(file)));
}

/// Files that get harder and harder to search, with limits at and near the fewest slots.
fn hard(tester: &mut Tester) {
    let (first, boards, steps) = hard_start(&mut tester.random);
    let most_boards = boards.unwrap_or(MOST_BOARDS);
    for shape in hard::shapes(&mut tester.random, first, most_boards, steps) {
        let widest = limits::widest(&Graph::new(shape.jobs, &shape.needs), most_boards);
        let mut draft = Draft::of_shape(&mut tester.random, &shape, widest.clamp(1, 64) as u8, boards);
        let planned = tester.plan("plan: hard files", &draft.bytes());
        let slots = planned.map_or(draft.limit, |table| table[4]);
        for limit in [slots, slots.saturating_sub(1).max(1)] {
            draft.limit = limit;
            let _ = tester.plan("plan: hard files", &draft.bytes());
        }
    }
}

/// A shape to begin with, most boards, and how many steps to go; with many jobs fewer steps lead on.
fn hard_start(random: &mut Random) -> (Shape, Option<u8>, usize) {
    if random.percent(30) {
        let shape = many::narrow_shape(random, 20);
        let boards = limits::few_boards(random, &shape);
        return (shape, random.pick(&[None, boards]), 300);
    }
    let (jobs, boards) = (random.between(8, 64), drafts::boards(random));
    (limits::narrow_shape(random, jobs, boards.unwrap_or(MOST_BOARDS), 50), boards, 100)
}

/// Files of up to 6 jobs, whose answer the search through all start lists must give too.
fn small(tester: &mut Tester) {
    let mut draft = Draft::sound(&mut tester.random, 6);
    let jobs = draft.jobs.len() as u32;
    let most = (1..=64).take_while(|limit| limit_fits(*limit, jobs)).last().unwrap_or(1);
    draft.limit = draft.limit.min(most);
    let file = draft.mixed_bytes(&mut tester.random);
    let planned = tester.plan("plan: small files", &file);
    if planned != Err(12) {
        let starts = planned.ok().and_then(|table| starts_of(&table));
        all_lists(tester, &file, starts);
    }
}

/// Files of 7 and 8 jobs, whose answer the search without windows must give too.
fn without_windows(tester: &mut Tester) {
    let jobs = tester.random.between(7, 8);
    let shape = shapes::any(&mut tester.random, jobs);
    let boards = drafts::boards(&mut tester.random);
    let most_boards = boards.unwrap_or(MOST_BOARDS);
    let limit = limits::near_an_edge(&mut tester.random, &shape, most_boards).min(jobs as u8 + 1);
    let file = Draft::of_shape(&mut tester.random, &shape, limit, boards).bytes();
    let planned = tester.plan("plan: small files", &file);
    let found = search::best_without_windows(&Graph::new(jobs, &shape.needs), limit as i32, most_boards);
    let starts = planned.ok().and_then(|table| starts_of(&table));
    let verdict = if starts == found { Ok(()) } else { Err(format!("planned {starts:?}, without windows {found:?}")) };
    let label = &tester.label;
    tester.report.case(Of::Answer, "search without windows", verdict, || format!("{label}, file {}", shown(&file)));
}

fn limit_fits(limit: u8, jobs: u32) -> bool {
    (limit as usize).checked_pow(jobs).is_some_and(|lists| lists <= MOST_LISTS)
}

fn starts_of(table: &[u8]) -> Option<Vec<usize>> {
    let table = Table::read(table)?;
    Some(table.rows.iter().map(|row| row.start as usize).collect())
}

/// The best of all start lists, one by one, is the one planned.
fn all_lists(tester: &mut Tester, file: &[u8], planned: Option<Vec<usize>>) {
    let Ok(read) = read(file) else { return };
    let graph = Graph::new(read.jobs.len(), &read.needs);
    let best = lists::best_of_all(&graph, read.limit as usize, read.most_boards());
    let verdict = if planned == best { Ok(()) } else { Err(format!("planned {planned:?}, best of all {best:?}")) };
    let label = &tester.label;
    tester.report.case(Of::Answer, "all start lists", verdict, || format!("{label}, file {}", shown(file)));
}

/// Files with a wrong field or two.
fn damaged_fields(tester: &mut Tester) {
    let draft = few_jobs_or_any(&mut tester.random);
    let file = damage::fields(&mut tester.random, &draft);
    let planned = tester.plan("plan: wrong fields", &file);
    try_tables(tester, &file, &planned);
    let _ = tester.check("check: wrong fields in the file", &file, &some_table(&draft));
}

/// Files with a few bytes changed, lost or added.
fn damaged_bytes(tester: &mut Tester) {
    let draft = few_jobs_or_any(&mut tester.random);
    let mut file = draft.mixed_bytes(&mut tester.random);
    damage::bytes(&mut tester.random, &mut file);
    let planned = tester.plan("plan: damaged bytes", &file);
    if tester.random.percent(10) {
        tester.plan_in_any("plan: buffers of any length", &file);
    }
    let _ = tester.check("check: damaged bytes in the file", &file, planned.as_deref().unwrap_or(&some_table(&draft)));
}

/// Mostly few jobs, of which damage hits each more often.
fn few_jobs_or_any(random: &mut Random) -> Draft {
    if random.percent(80) {
        Draft::sound(random, 20)
    } else {
        Draft::any(random)
    }
}

/// A table for the draft that may be right or wrong.
fn some_table(draft: &Draft) -> Vec<u8> {
    entries::table(&draft.bytes()).unwrap_or_default()
}

/// Files around the longest that is read, and bytes that are no file at all.
fn lengths(tester: &mut Tester) {
    let draft = Draft::any(&mut tester.random);
    let sound = draft.mixed_bytes(&mut tester.random);
    let length = tester.random.pick(&[LONGEST_FILE - 1, LONGEST_FILE, LONGEST_FILE + 1, 20_000, 70_000, 300]);
    let mut file = match tester.random.below(4) {
        0 | 1 => damage::filled(&mut tester.random, &sound, length),
        2 => sound[..tester.random.below(sound.len())].to_vec(),
        _ => tester.random.bytes(length % 1000),
    };
    if tester.random.percent(20) {
        file.truncate(LONGEST_FILE);
    }
    let planned = tester.plan("plan: lengths", &file);
    let _ = tester.check("check: lengths", &file, planned.as_deref().unwrap_or(&some_table(&draft)));
}

/// Tables of all kinds for one file: the planned one, valid ones, broken ones; more of them where there are many jobs.
fn try_tables(tester: &mut Tester, file: &[u8], planned: &Result<Vec<u8>, u8>) {
    if let Ok(table) = planned {
        let checked = tester.check("check: planned tables", file, table);
        tester
            .report
            .case(Of::Answer, "planned tables pass", checked.map_err(|number| number.to_string()), || shown(file));
        tester.lookups("lookup: planned tables", table);
    }
    let Ok(read) = read(file) else { return };
    let times = if read.jobs.len() > 64 { 4 } else { 1 };
    for _ in 0..times {
        other_tables(tester, file, &read, planned);
    }
}

/// A table for other most boards, a valid table and some that are wrong.
fn other_tables(tester: &mut Tester, file: &[u8], read: &JobFile, planned: &Result<Vec<u8>, u8>) {
    let other = JobFile { boards: drafts::boards(&mut tester.random), ..read.clone() };
    if let Some(table) = tables::valid(&mut tester.random, &other) {
        let _ = tester.check("check: tables for other most boards", file, &table.bytes());
    }
    let Some(table) = tables::valid_or_planned(&mut tester.random, read, planned) else { return };
    let _ = tester.check("check: other valid tables", file, &table.bytes());
    let broken = tables::broken(&mut tester.random, read, &table);
    let _ = tester.check("check: a rule broken", file, &broken);
    let damaged = tables::damaged(&mut tester.random, &table);
    let _ = tester.check("check: damaged tables", file, &damaged);
    let chosen = tester.random.pick(&[&broken, &damaged]);
    tester.lookups("lookup: broken and damaged tables", chosen);
}

/// Any limit, so files that are too wide to plan too, and many tables.
fn many_tables(tester: &mut Tester) {
    let mut draft = Draft::any(&mut tester.random);
    if tester.random.percent(50) {
        draft.limit = tester.random.between(1, 64) as u8;
    }
    let file = draft.mixed_bytes(&mut tester.random);
    let planned = tester.plan("plan: any limit", &file);
    try_tables(tester, &file, &planned);
    let Ok(read) = read(&file) else { return };
    for _ in 0..4 {
        other_tables(tester, &file, &read, &planned);
    }
    if let Some(table) = tables::valid_or_planned(&mut tester.random, &read, &planned) {
        tester.all_lookups("lookup: every slot and board", &table.bytes());
    }
}

/// A file and its table cut at every offset, and each byte of them changed.
fn every_offset(tester: &mut Tester) {
    let draft = Draft::sound(&mut tester.random, 30);
    let file = draft.mixed_bytes(&mut tester.random);
    for end in 0..file.len() {
        let _ = tester.plan("plan: cut at every offset", &file[..end]);
        let mut changed = file.clone();
        damage_at(&mut tester.random, &mut changed, end);
        let _ = tester.plan("plan: every byte changed", &changed);
    }
    let table = some_table(&draft);
    for end in 0..table.len() {
        let _ = tester.check("check: table cut at every offset", &file, &table[..end]);
        let _ = tester.lookup("lookup: table cut at every offset", &table[..end], 0, 1);
        let mut changed = table.clone();
        damage_at(&mut tester.random, &mut changed, end);
        let _ = tester.check("check: every byte of the table changed", &file, &changed);
        let _ = tester.lookup("lookup: every byte of the table changed", &changed, 0, 1);
    }
}

fn damage_at(random: &mut Random, bytes: &mut [u8], at: usize) {
    bytes[at] = match random.below(3) {
        0 => bytes[at].wrapping_add(random.pick(&[1, 255])),
        1 => bytes[at] ^ 1 << random.below(8),
        _ => random.byte(),
    };
}

/// All needs between up to so many jobs, with every limit up to one more than the jobs, without most boards and with 1 to
/// 4: against all start lists, and with the needs struck that follow from others.
pub fn all_small(tester: &mut Tester, most: u8) {
    for (jobs, needs) in shapes::all_needs(most) {
        let boards = [None, Some(1), Some(2), Some(3), Some(4)];
        for (limit, boards) in (1..=jobs + 1).flat_map(|limit| boards.map(|boards| (limit, boards))) {
            let file = Draft { boards, ..Draft::plain(limit, jobs as usize, &needs) }.bytes();
            tester.label = format!("{jobs} jobs, needs {needs:?}, limit {limit}, most boards {boards:?}");
            let planned = tester.plan("plan: all needs between few jobs", &file);
            let Ok(implied) = implied_needs(&file) else { break };
            all_lists(tester, &file, planned.ok().and_then(|table| starts_of(&table)));
            if limit == 1 && boards.is_none() {
                let _ = try_list(tester, &file);
            }
            if !implied.is_empty() {
                let _ = same_plan(tester, &file, &implied::struck(&file, &implied));
            }
        }
    }
}

/// Every small gate of request 14, with the number of its jobs for the limit, its needs in rising and in falling order: the
/// table's slots are the fewest that trying every start list finds.
pub fn every_small_gate(tester: &mut Tester) {
    for gate in small_gates() {
        let rising: Vec<(u16, u16)> =
            gate.needs.iter().map(|&(giver, taker)| (giver as u16 + 1, taker as u16 + 1)).collect();
        let mut orders = vec![rising.clone(), rising.into_iter().rev().collect()];
        orders.dedup();
        for needs in orders {
            let file = Draft::plain(gate.jobs as u8, gate.jobs, &needs).bytes();
            tester.label = format!("small gate {} {}, needs {needs:?}", gate.jobs, gate.number);
            let planned = tester.plan("plan: every small gate", &file);
            let slots = planned.ok().and_then(|table| Table::read(&table)).map(|table| table.slots as usize);
            let label = &tester.label;
            let verdict = agree(&slots, &Some(gate.fewest_slots));
            tester.report.case(Of::Answer, "every small gate: fewest slots", verdict, || {
                format!("{label}, file {}", shown(&file))
            });
        }
    }
}

/// The rules in words and program P with all its lists of delays say the same of a few start lists.
pub fn program_p(tester: &mut Tester, seed: u64, count: u64) {
    for index in 0..count {
        let mut random = Random::new(seed ^ 0x5050, index);
        let draft = Draft::sound(&mut random, 5);
        let needs: Vec<(usize, usize)> =
            draft.needs.iter().map(|&(giver, taker)| (giver as usize - 1, taker as usize - 1)).collect();
        let graph = Graph::new(draft.jobs.len(), &needs);
        let starts = match random.below(3) {
            0 => (0..draft.jobs.len()).map(|_| random.below(6)).collect(),
            _ => search::best(&graph, 64, MOST_BOARDS).unwrap_or_default(),
        };
        let starts: Vec<usize> = starts.iter().map(|start| start + random.below(6) / 5).collect();
        let slots = lists::slots(&starts);
        let (words, program) =
            (lists::keeps_rules(&graph, &starts), lists::satisfies_p(draft.jobs.len(), &needs, &starts, slots));
        let verdict = if words == program { Ok(()) } else { Err(format!("in words {words}, as printed {program}")) };
        tester.report.case(Of::Reference, "program P", verdict, || format!("needs {needs:?}, starts {starts:?}"));
    }
}
