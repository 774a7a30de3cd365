//! Plans a file of three jobs, a and b before c, and asks what board 1 does in slot 2, and for the slots' state numbers.

fn main() -> Result<(), gate::Refusal> {
    let file = b"\x01\x01\0\x01\x02\x01\0\x03\x03\x03\0\x0f\0a\x03\x03\0\xf1\xffb\x03\x03\0\x04\0c\x04\x02\0\x01\x03\x04\x02\0\x02\x03";
    let (mut work, mut buffer, mut states) = ([0; gate::WORK_BYTES], [0; gate::TABLE_BYTES], [0; gate::STATES_BYTES]);
    let length = gate::plan(file, &mut work, &mut buffer)?;
    gate::states(file, &mut work, &mut buffer, &mut states)?;
    let table = &buffer[..length];
    gate::check(file, table)?;
    let job = gate::lookup(table, 2, 1)?.unwrap_or(0);
    print!("check 0, job {job}, name {}, states", String::from_utf8_lossy(gate::name(table, 2, 1)));
    states.chunks(2).take(table[4] as usize).for_each(|word| print!(" {}", u16::from_le_bytes([word[0], word[1]])));
    println!();
    Ok(())
}
