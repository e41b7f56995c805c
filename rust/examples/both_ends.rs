//! both_ends FATES < FILE: a host reads a device at full speed over a bus that loses, a letter of FATES a transaction: d it
//! is lost, u its reply, a the host's ACK; n the device is busy. Prints the line of `usbdesc enumerate` where all is read.
use nozzlegorse::{Action, Device, Fault, Host, Reply, Speed};
use std::io::{stdin, Read};

fn main() -> Result<(), Fault> {
    let (fates, mut file, mut count) = (std::env::args().nth(1).unwrap_or_default(), Vec::new(), 0);
    stdin().read_to_end(&mut file).unwrap();
    let (mut device, mut host) = (Device::open(&file, Speed::Full)?, Host::open(1, 16, 3, Speed::Full)?);
    loop {
        let due = match host.due() {
            Action::Ended => break,
            Action::Reset => {
                device.reset();
                host.reset_done();
                continue;
            }
            Action::Send(due) => due,
        };
        let fate = fates.as_bytes().get(count).unwrap_or(&b'.');
        count += 1;
        let reply = if *fate == b'd' { Reply::Silence } else { device.serve(&due, *fate != b'n') };
        if matches!(reply, Reply::Data(..)) && !b"ua".contains(fate) {
            device.acked();
        }
        host.take(if *fate == b'u' { &Reply::Silence } else { &reply });
    }
    assert_eq!(host.outcome()?, Some(file));
    let (attempts, state) = (host.attempts(), device.state());
    println!("success attempts {attempts} transactions {count} address {} value {}", state.address, state.selected);
    Ok(())
}
