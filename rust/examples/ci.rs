//! ci < FILE: ends in 1 where a rule is broken, and in 2 where the bytes are no descriptors.
use std::{error::Error, io::Read, process::ExitCode};

fn main() -> Result<ExitCode, Box<dyn Error>> {
    let mut bytes = Vec::new();
    std::io::stdin().read_to_end(&mut bytes)?;
    let found = match nozzlegorse::check(&bytes) {
        Ok(found) => found,
        Err(fault) => {
            println!("{fault}");
            return Ok(ExitCode::from(2));
        }
    };
    found.iter().for_each(|it| println!("{it}"));
    Ok(ExitCode::from(u8::from(!found.is_empty())))
}
