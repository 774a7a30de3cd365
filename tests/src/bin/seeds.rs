//! seeds DIR: writes the inputs that the fuzz runs start from, one folder for each kind of run, in the form that
//! `fuzzing/target.rs` reads.

use gate_tests::generate::drafts::Draft;
use gate_tests::generate::random::Random;
use gate_tests::generate::{damage, tables};
use gate_tests::reference::entries;
use gate_tests::reference::reading::{read, JobFile};

const COUNT: u64 = 100;
/// The longest input that `tests/fuzz` allows.
const LONGEST: usize = 16_384;

fn main() -> std::io::Result<()> {
    let folder = std::env::args().nth(1).expect("a folder");
    for kind in ["plan", "check", "lookup", "changed"] {
        std::fs::create_dir_all(format!("{folder}/{kind}"))?;
        for index in 0..COUNT {
            let mut random = Random::new(0, index);
            let seeds = std::iter::repeat_with(|| seed(&mut random, kind));
            let seed = seeds.into_iter().find(|seed| seed.len() <= LONGEST).expect("short ones come again and again");
            std::fs::write(format!("{folder}/{kind}/{index:02}"), seed)?;
        }
    }
    Ok(())
}

fn seed(random: &mut Random, kind: &str) -> Vec<u8> {
    let draft = match random.pick(&[3, 8, 20, 64, 400]) {
        400 => Draft::many(random),
        most => Draft::sound(random, most),
    };
    let file = draft.mixed_bytes(random);
    match kind {
        "plan" if random.percent(30) => [&[0, 0], &damage::fields(random, &draft)[..]].concat(),
        "plan" => [&[random.byte(), random.pick(&[0, 0, 63])], &file[..]].concat(),
        "check" => {
            let length = (file.len() as u16).to_le_bytes();
            let table = read(&file).ok().and_then(|read| {
                let boards = random.pick(&[read.boards, None]);
                tables::valid(random, &JobFile { boards, ..read })
            });
            [&length[..], &file, &table.map_or(Vec::new(), |table| table.bytes())].concat()
        }
        "lookup" => {
            let table = entries::table(&file).unwrap_or_default();
            [&[random.below(4) as u8, random.below(4) as u8], &table[..]].concat()
        }
        _ => [&[random.pick(&[1, 9, 17, 25]), random.byte()], &random.bytes(3)[..], &file].concat(),
    }
}
