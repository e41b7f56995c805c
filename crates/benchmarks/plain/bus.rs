//! Whole enumerations over a bus that loses nothing.

use crate::device::{Answer, Description, Device, Speed};
use crate::file::DescriptorFile;
use crate::host::{Action, Host, Limits, Why};

pub struct Run {
    pub outcome: Option<Result<DescriptorFile, Why>>,
    pub attempts: u8,
    pub transactions: u64,
}

pub fn enumerate(description: &Description, limits: Limits, speed: Speed) -> Run {
    let mut device = Device::new(description);
    let mut host = Host::new(limits, speed, false);
    let mut transactions = 0;
    loop {
        match host.next() {
            Action::Reset => {
                device.reset();
                host.reset_done();
            }
            Action::Send(transaction) => {
                let answer = device.serve(&transaction, true);
                let has_data = matches!(answer, Answer::Data(..));
                host.take(answer);
                if has_data {
                    device.acked();
                }
                transactions += 1;
            }
            Action::Ended => break,
        }
    }
    Run { attempts: host.attempts(), outcome: host.into_outcome(), transactions }
}
