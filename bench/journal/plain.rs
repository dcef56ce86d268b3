// The same calls by std alone: 28 bytes behind the last byte, a sync, that last byte, and a sync, a thousand times.
use std::fs::OpenOptions;
use std::os::unix::fs::FileExt;
use std::time::Instant;

const APPENDS: u32 = 1000;

fn main() -> std::io::Result<()> {
    let file = OpenOptions::new().read(true).write(true).create(true).open("a")?;
    let mut used = 147u64;
    file.write_all_at(&[0; 147], 0)?;
    file.sync_data()?;
    let mut written = Vec::new();
    written.extend_from_slice(&23u32.to_le_bytes());
    written.extend_from_slice(&18u32.to_le_bytes());
    written.extend_from_slice(br#"["set","a",[],"2"]"#);
    written.extend_from_slice(&[0, 0]);
    let start = Instant::now();
    for _ in 0..APPENDS {
        file.write_all_at(&written, used)?;
        file.sync_data()?;
        file.write_all_at(&[1], used - 1)?;
        file.sync_data()?;
        used += written.len() as u64;
    }
    println!("{}", start.elapsed().as_nanos() / 1000);
    Ok(())
}
