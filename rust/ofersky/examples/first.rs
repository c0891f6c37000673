use ofersky::{checked::Checked, power_up, registers::SP_RDLEN, run, write_register};

fn main() -> Result<(), Box<dyn std::error::Error>> {
    let (mut rdram, mut dmem, mut imem, mut out) = ([0; 32768], [0; 4096], [0; 4096], [0; 64]);
    rdram[7] = 42;
    // RDLEN 0x0F loads two words from RDRAM into DMEM; the run moves them.
    let s = write_register(power_up(), SP_RDLEN, 0x0F).checked()?.state;
    let ran = run(s, 100, 100, 100, &mut rdram, &mut dmem, &mut imem, &mut out).checked()?;
    let moved = ran.outcome.answer.count;
    println!("{moved} words moved, byte 7 of DMEM is {}", dmem[7]);
    Ok(())
}
