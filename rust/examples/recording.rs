//! recording < FILE: the control transfers of a recording of a bus, and what USB 2.0 forbids in them. It ends in 1 where something is
//! found, and in 2 where the file is no recording to its end.
use nozzlegorse::{Capture, Ending, Forbidden, Recorded, Request};
use std::{error::Error, io::Read, process::ExitCode};

fn show(it: &Request) {
    let ending = match it.ending {
        Ending::Unseen => "no end",
        Ending::Done => "done",
        Ending::Stall => "stall",
        Ending::Failed(_) => "error",
        _ => "refused",
    };
    let setup: String = it.setup.iter().map(|byte| format!(" {byte:02x}")).collect();
    println!("{}.{}{setup}: {} bytes, {ending}", it.device.bus, it.device.device, it.length);
}

fn show_all(shown: &[Recorded]) -> usize {
    let tell = |it: &Forbidden| println!("  ! {}", it.message);
    let mut count = 0;
    for it in shown {
        let found = match it {
            Recorded::Request(request) => {
                show(request);
                &request.found[..]
            }
            Recorded::Packet(found) => std::slice::from_ref(found),
            _ => &[],
        };
        found.iter().for_each(tell);
        count += found.len();
    }
    count
}

fn main() -> Result<ExitCode, Box<dyn Error>> {
    let (mut capture, mut piece, mut count) = (Capture::new()?, [0; 4096], 0);
    let fault = loop {
        let length = std::io::stdin().read(&mut piece)?;
        match capture.feed(&piece[..length]) {
            Ok(shown) => count += show_all(&shown),
            Err(fault) => break Some(fault),
        }
        if length == 0 {
            break None;
        }
    };
    capture.unended().iter().for_each(show);
    match (&fault, capture.cut()) {
        (Some(fault), _) => println!("fault {} at {}", fault.number, fault.place),
        (None, Some((place, length))) => println!("cut: {length} bytes at {place}"),
        _ => {}
    }
    Ok(ExitCode::from(if fault.is_some() { 2 } else { u8::from(count > 0) }))
}
