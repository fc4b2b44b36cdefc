use std::time::Duration;

fn main() -> rusb::Result<()> {
    let meter = rusb::open_device_with_vid_pid(0x1209, 0x0002).ok_or(rusb::Error::NoDevice)?;
    meter.claim_interface(0)?;
    let (mut answer, second) = ([0u8; 8], Duration::from_secs(1));
    println!("sent {}", meter.write_bulk(0x02, &[0x10], second)?);
    println!("read {}: {}", meter.read_bulk(0x81, &mut answer, second)?, u64::from_le_bytes(answer));
    println!("then {}", meter.read_bulk(0x81, &mut answer, second).unwrap_err());
    Ok(())
}
