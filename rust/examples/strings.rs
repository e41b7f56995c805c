//! strings < FILE: all strings.
use nozzlegorse::{descriptors, Role};
use std::{error::Error, io::Read};

fn main() -> Result<(), Box<dyn Error>> {
    let mut bytes = Vec::new();
    std::io::stdin().read_to_end(&mut bytes)?;
    for it in descriptors(&bytes).filter(|it| it.role() == Role::String) {
        println!("{:04x} {}: {}", it.language(), it.index(), it.text()?);
    }
    Ok(())
}
