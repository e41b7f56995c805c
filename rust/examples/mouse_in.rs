//! mouse_in < FILE: the interrupt IN endpoint of the mouse.
use nozzlegorse::{descriptors, Endpoint, TransferType};
use std::io::{stdin, Read};

fn main() {
    let mut bytes = Vec::new();
    stdin().read_to_end(&mut bytes).unwrap();
    let mut endpoints = descriptors(&bytes).filter_map(|it| it.endpoint());
    let is_sought =
        |it: &Endpoint| it.transfer_type() == TransferType::Interrupt && it.is_in() && matches!(it.codes(), (3, _, 2));
    let e = endpoints.find(is_sought).expect("a mouse has one");
    print!("interface {} endpoint {:02x}, ", e.interface(), e.address());
    println!("{} bytes, interval {}", e.max_packet_size(), e.interval());
}
