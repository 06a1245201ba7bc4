//! Counts the processors, by the tables in 64 KiB of memory from the RSDP at 0x70000000 on.
use std::io::Read;
use zacpi::handler::MappedRegion;
use zacpi::{AcpiError, AcpiResult, AcpiTables};

fn count(bytes: &[u8]) -> AcpiResult<usize> {
    let memory = MappedRegion::new(0x70000000, bytes).map_err(|_| AcpiError::MapFailed)?;
    let platform = AcpiTables::from_rsdp(&memory, 0x70000000)?.platform_info()?;
    Ok(platform.processor_info.map_or(0, |info| 1 + info.application_processors.len()))
}

fn main() {
    let mut bytes = Vec::new();
    std::io::stdin().take(65536).read_to_end(&mut bytes).expect("the tables");
    match count(&bytes) {
        Ok(count) => println!("{count} processors"),
        Err(error) => println!("{error}"),
    }
}
