//! The works that are measured, by the names that they have in the proved program.

use crate::assembly::assemble;
use crate::bus::enumerate;
use crate::device::{Answer, Description, Device, Setup, Speed, Token, Transaction};
use crate::explain::{Input, explain};
use crate::file::{self, DescriptorFile, Qualifier, read_file, write_file};
use crate::hexadecimal;
use crate::host::{Action, Heard, Host, Limits, Transfer, Write};
use crate::listing::{list, list_set};
use crate::packet;
use crate::recording::tell;
use crate::rules::check;
use crate::set::{CONFIGURATION, Configuration, Decoder, OTHER_SPEED, SetFault, encode, read_set};
use crate::walk;
use std::hint::black_box;

/// How many bytes of a recording are read at once.
pub const PIECE: usize = 4096;

type Result<T> = std::result::Result<T, String>;

fn told<E: std::fmt::Debug>(fault: E) -> String {
    format!("{fault:?}")
}

/// Does a work so many times over, and answers how many bytes it is of.
pub fn run(name: &str, input: &[u8], copies: u32, rounds: u32) -> Result<usize> {
    match name {
        "decode-whole" => decode(input, input.len(), rounds),
        "decode-pieces" => decode(input, 64, rounds),
        "decode-bytes" => decode(input, 1, rounds),
        "encode" => {
            let set = decoded(input, input.len()).map_err(told)?;
            again(rounds, || black_box(encode(&set)).map_or(0, |it| it.len()))
        }
        "list" => {
            let set = decoded(input, input.len()).map_err(told)?;
            again(rounds, || {
                let mut text = Vec::new();
                list_set(&set, &mut text);
                black_box(text);
                input.len()
            })
        }
        "read-file" => {
            let bytes = write_file(&file_of(input, copies)?).ok_or("no file")?;
            again(rounds, || black_box(read_file(&bytes)).map_or(0, |_| bytes.len()))
        }
        "write-file" => write(&file_of(input, copies)?, rounds),
        "write-given" => write(&read_file(input).map_err(told)?, rounds),
        "list-given" => {
            let file = read_file(input).map_err(told)?;
            again(rounds, || {
                let mut text = Vec::new();
                list(&file, &mut text);
                black_box(text).len()
            })
        }
        "describe" => again(rounds, || {
            let description = read_file(input).map(|file| Description::new(file, Speed::Full));
            black_box(description.is_ok_and(|it| it.is_ok()));
            input.len()
        }),
        "find-last" => find_last(input, rounds),
        "check-sets" => {
            let file = file_of(input, copies)?;
            check_again(&file, rounds)?;
            Ok(write_file(&file).map_or(0, |bytes| bytes.len()))
        }
        "check-file" => {
            check_again(&read_file(input).map_err(told)?, rounds)?;
            Ok(input.len())
        }
        "assemble" => again(rounds, || black_box(assemble(input)).map_or(0, |_| input.len())),
        "explain" => {
            let whole = read_input(input)?;
            again(rounds, || {
                black_box(explain(input, &whole));
                input.len()
            })
        }
        "hexadecimal" => again(rounds, || black_box(hexadecimal::read(input)).map_or(0, |_| input.len())),
        "capture" => again(rounds, || black_box(tell(input, PIECE)).map_or(0, |_| input.len())),
        "crc" => crc_again(input, rounds),
        "packet-written" => write_packets(input, false, rounds),
        "packet-read" => write_packets(input, true, rounds),
        "walk" => again(rounds, || walk_once(input)),
        "enumerate" => enumerate_again(input, rounds),
        "host-setup" => drive_again(input, 1, rounds),
        "host-data" => drive_again(input, 2, rounds),
        "host-status" => drive_again(input, 3, rounds),
        "host-packets" => take_again(input, rounds, Some(&[0; 64])),
        "host-naks" => take_again(input, rounds, None),
        "enumeration-header" => again(rounds, || host_once(input, 1)),
        "enumeration-setup" => again(rounds, || host_once(input, 2)),
        "enumeration-packets" => again(rounds, || host_once(input, 3)),
        "enumeration-strings" => again(rounds, || host_once(input, 4)),
        "enumeration-naks" => host_naks(input, rounds),
        "setup" => transfer_again(input, 0, false, rounds),
        "one-packet" => transfer_again(input, 1, false, rounds),
        "ten-packets" => transfer_again(input, 10, false, rounds),
        "status" => transfer_again(input, 1, true, rounds),
        "nak" => refuse_again(input, rounds),
        "answered" => answer_again(input, rounds),
        "written" => take_writes(input, rounds),
        _ => Err(format!("no work is named {name}")),
    }
}

/// The set, file or dump that bytes are.
pub fn read_input(input: &[u8]) -> Result<Input> {
    if !matches!(input, [_, CONFIGURATION | OTHER_SPEED, ..]) {
        return file::read_input(input).map_err(told);
    }
    let (set, used) = read_set(input).map_err(told)?;
    if used < input.len() { Err("trailing bytes".into()) } else { Ok(Input::Set(set)) }
}

/// A step of a walk, which is a call as it is in C.
#[inline(never)]
fn next(bytes: &[u8], descriptor: &mut walk::Descriptor) -> bool {
    descriptor.next(bytes)
}

fn walk_once(bytes: &[u8]) -> usize {
    let (mut descriptor, mut count) = (walk::Descriptor::default(), 0);
    while next(bytes, black_box(&mut descriptor)) {
        count += 1;
    }
    count
}

/// The most data of a packet. Their first byte is another in each round.
fn data_of(input: &[u8]) -> Result<Vec<u8>> {
    Ok(input.get(..packet::MOST_DATA).ok_or("too few bytes")?.to_vec())
}

fn crc_again(input: &[u8], rounds: u32) -> Result<usize> {
    let mut data = data_of(input)?;
    again(rounds, || {
        data[0] = packet::crc16(&data).to_be_bytes()[0];
        data.len()
    })
}

fn write_packets(input: &[u8], is_read: bool, rounds: u32) -> Result<usize> {
    let (mut data, mut out) = (data_of(input)?, [0; packet::MOST_DATA + 3]);
    for _ in 0..rounds {
        let length = packet::write(&data, &mut out).ok_or("no room")?;
        if is_read && packet::parse(&out[..length]).is_none() {
            return Err("no packet".into());
        }
        data[0] = out[length - 1];
    }
    Ok(data.len())
}

fn again(rounds: u32, mut work: impl FnMut() -> usize) -> Result<usize> {
    Ok((0..rounds).fold(0, |_, _| work()))
}

/// The set, decoded from pieces of this length.
pub fn decoded(bytes: &[u8], length: usize) -> std::result::Result<Configuration, SetFault> {
    let mut decoder = Decoder::new();
    for piece in bytes.chunks(length.max(1)) {
        decoder.feed(piece)?;
    }
    decoder.finish()
}

fn decode(bytes: &[u8], length: usize, rounds: u32) -> Result<usize> {
    for _ in 0..rounds {
        black_box(decoded(bytes, length).map_err(told)?);
    }
    Ok(bytes.len())
}

fn write(file: &DescriptorFile, rounds: u32) -> Result<usize> {
    again(rounds, || black_box(write_file(file)).map_or(0, |bytes| bytes.len()))
}

fn check_again(file: &DescriptorFile, rounds: u32) -> Result<usize> {
    again(rounds, || black_box(check(file)).len())
}

/// A file with so many copies of the set: up to 255 at one speed, and the others at the other.
fn file_of(set: &[u8], copies: u32) -> Result<DescriptorFile> {
    let copies_of = |count: u32, kind: u8| {
        let copy = |_| read_set(set).map(|(it, _)| Configuration { kind, ..it });
        (0..count.min(255)).map(copy).collect::<std::result::Result<Vec<_>, _>>().map_err(told)
    };
    let (usb, class, packet) = (0x0200, [0; 3], 64);
    let sets = copies_of(copies, CONFIGURATION)?;
    let others = copies_of(copies.saturating_sub(255), OTHER_SPEED)?;
    let configurations = sets.len() as u8;
    let device = file::Device { usb, class, packet, numbers: [0; 3], texts: [0; 3], configurations };
    let configurations = others.len() as u8;
    let qualifier = Qualifier { usb, class, packet, configurations, reserved: 0 };
    let other = (!others.is_empty()).then_some(file::Other { qualifier, sets: others });
    Ok(DescriptorFile { device, sets, other, strings: None })
}

fn describe_set(set: &[u8], packet: u8) -> Result<Description> {
    let mut file = file_of(set, 1)?;
    file.device.packet = packet;
    Description::new(file, Speed::Full).map_err(told)
}

fn find_last(input: &[u8], rounds: u32) -> Result<usize> {
    let file = read_file(input).map_err(told)?;
    let index = *file::named(&file).to_vec().last().ok_or("no string")?;
    let strings = file.strings.as_ref().ok_or("no string")?;
    let language = *strings.languages.last().ok_or("no language")?;
    let description = Description::new(file, Speed::Full).map_err(told)?;
    again(rounds, || {
        black_box(description.find(3, index, black_box(language))).map_or(0, |place| description.bytes(place).len())
    })
}

/// Answers how many transactions an enumeration has.
fn enumerate_again(input: &[u8], rounds: u32) -> Result<usize> {
    let file = read_file(input).map_err(told)?;
    let description = Description::new(file, Speed::Full).map_err(told)?;
    let limits = Limits { address: 1, naks: 16, attempts: 3 };
    let mut count = 0;
    for _ in 0..rounds {
        let run = enumerate(&description, limits, Speed::Full);
        if !matches!(&run.outcome, Some(Ok(_))) {
            return Err("the enumeration fails".into());
        }
        count = run.transactions as usize;
        black_box(run.outcome);
    }
    Ok(count)
}

/// GET_DESCRIPTOR of the first configuration set.
const GET_SET: [u8; 8] = [0x80, 6, 0, 2, 0, 0, 0xff, 0xff];

fn sum_of(transaction: &Transaction) -> u64 {
    match transaction.token {
        Token::Setup(bytes) => u64::from_le_bytes(bytes),
        Token::In => u64::from(transaction.address),
        Token::Out(_, bytes) => bytes.len() as u64,
    }
}

/// One transaction at the host's end, which is counted.
#[inline(never)]
fn transact_transfer(transfer: &mut Transfer, answer: Answer) -> u64 {
    let sent = transfer.next().map_or(0, |it| sum_of(&it));
    match transfer.take(answer) {
        Heard::Again => sent,
        Heard::Bytes(bytes) => sent ^ bytes.len() as u64,
        Heard::Complete => !sent,
        Heard::Failed(_) => 0,
    }
}

fn transfer_of(set: &[u8]) -> Transfer {
    let mut request = Setup::read(GET_SET);
    request.index = (set.len() % 0x1_0000) as u16;
    Transfer::new(1, 64, u16::MAX, request)
}

/// A transfer: its SETUP, then perhaps an empty data packet, and then perhaps its status stage.
fn drive_again(set: &[u8], transactions: u8, rounds: u32) -> Result<usize> {
    let answers = [Answer::Ack, Answer::Data(true, &[]), Answer::Ack];
    again(rounds, || {
        let mut transfer = transfer_of(set);
        for answer in &answers[..usize::from(transactions)] {
            black_box(transact_transfer(&mut transfer, *answer));
        }
        set.len()
    })
}

/// One transfer with so many packets or NAKs.
fn take_again(set: &[u8], rounds: u32, packet: Option<&[u8]>) -> Result<usize> {
    let (mut transfer, mut is_data1) = (transfer_of(set), true);
    black_box(transact_transfer(&mut transfer, Answer::Ack));
    again(rounds, || {
        let answer = packet.map_or(Answer::Nak, |bytes| Answer::Data(is_data1, bytes));
        black_box(transact_transfer(&mut transfer, answer));
        is_data1 = !is_data1;
        set.len()
    })
}

fn step(host: &mut Host, answer: Answer) -> u64 {
    let sent = match host.next() {
        Action::Send(transaction) => sum_of(&transaction),
        Action::Reset | Action::Ended => 0,
    };
    host.take(answer);
    sent
}

/// One transaction of an enumerating host, which is counted.
#[inline(never)]
fn transact_host(host: &mut Host, answer: Answer) -> u64 {
    step(host, answer)
}

/// One that isn't.
#[inline(never)]
fn lead(host: &mut Host, answer: Answer) -> u64 {
    step(host, answer).rotate_left(1)
}

const DEVICE: [u8; 18] = [0x12, 1, 0x10, 1, 0, 0, 0, 8, 0x34, 0x12, 0x78, 0x56, 0, 1, 0, 0, 0, 1];

fn packets(host: &mut Host, bytes: &[u8], transact: fn(&mut Host, Answer) -> u64) {
    let mut is_data1 = true;
    for packet in bytes.chunks(8) {
        black_box(transact(host, Answer::Data(is_data1, packet)));
        is_data1 = !is_data1;
    }
}

/// Reads the rest of the set and the language list, and stalls each string.
fn stall_strings(host: &mut Host, set: &[u8]) {
    for bytes in [set, &[4, 3, 9, 4]] {
        lead(host, Answer::Ack);
        packets(host, bytes, lead);
        lead(host, Answer::Ack);
    }
    while host.is_at_string() {
        black_box(lead(host, Answer::Ack) ^ transact_host(host, Answer::Stall));
    }
    black_box(host.forgiven());
}

/// A host to which the status stage is due that ends the read of the set's header, and for which strings may be missing or not.
fn host_at_header(set: &[u8], may_lack: bool) -> Host {
    let limits = Limits { address: 1, naks: u16::MAX, attempts: 1 };
    let mut host = Host::new(limits, Speed::Full, may_lack);
    host.reset_done();
    for bytes in [&DEVICE[..8], &[], &DEVICE, &set[..9]] {
        lead(&mut host, Answer::Ack);
        if bytes.is_empty() {
            lead(&mut host, Answer::Data(true, &[]));
            continue;
        }
        packets(&mut host, bytes, lead);
        if bytes.len() != 9 {
            lead(&mut host, Answer::Ack);
        }
    }
    host
}

/// Counts the status stage of a header, the SETUP of the set, its packets, or the STALL of each string that it names.
fn host_once(set: &[u8], counted: u8) -> usize {
    let mut host = host_at_header(set, counted == 4);
    let by = |number| if counted == number { transact_host } else { lead };
    black_box(by(1)(&mut host, Answer::Ack));
    if counted == 4 {
        stall_strings(&mut host, set);
    } else if counted > 1 {
        black_box(by(2)(&mut host, Answer::Ack));
    }
    if counted == 3 {
        packets(&mut host, set, transact_host);
    }
    usize::from(matches!(host.next(), Action::Send(_))) * set.len()
}

fn host_naks(set: &[u8], rounds: u32) -> Result<usize> {
    let mut host = host_at_header(set, false);
    lead(&mut host, Answer::Ack);
    lead(&mut host, Answer::Ack);
    again(rounds, || {
        black_box(transact_host(&mut host, Answer::Nak));
        set.len()
    })
}

const IN: Transaction = Transaction { address: 0, token: Token::In };
const STATUS: Transaction = Transaction { address: 0, token: Token::Out(true, &[]) };

#[inline(never)]
fn sent(device: &mut Device, transaction: &Transaction, is_ready: bool) -> usize {
    match device.serve(transaction, is_ready) {
        Answer::Data(_, bytes) => bytes.len(),
        _ => 0,
    }
}

#[inline(always)]
fn read_packets(device: &mut Device, packets: u32) -> usize {
    let mut count = 0;
    for _ in 0..packets {
        count += sent(device, &IN, true);
        device.acked();
    }
    count
}

/// A read of the set: its SETUP, so many packets, and perhaps the status stage.
fn transfer_again(set: &[u8], packets: u32, has_status: bool, rounds: u32) -> Result<usize> {
    let description = describe_set(set, 64)?;
    let mut device = Device::new(&description);
    let setup = Transaction { address: 0, token: Token::Setup(GET_SET) };
    again(rounds, || {
        let mut count = sent(&mut device, &setup, true) + read_packets(&mut device, packets);
        if has_status {
            count += sent(&mut device, &STATUS, true);
        }
        count
    })
}

fn refuse_again(set: &[u8], rounds: u32) -> Result<usize> {
    let description = describe_set(set, 64)?;
    let mut device = Device::new(&description);
    again(rounds, || sent(&mut device, &IN, false))
}

#[inline(never)]
fn respond(device: &mut Device) {
    if device.refused().is_some() {
        let _ = black_box(device.answer_with(&[0x5a; 63]));
    }
}

/// A read that the device rejects and its owner answers, in packets of 8 bytes.
fn answer_again(set: &[u8], rounds: u32) -> Result<usize> {
    let description = describe_set(set, 8)?;
    let mut device = Device::new(&description);
    let read = Transaction { address: 0, token: Token::Setup([0xc0, 1, 0, 0, 0, 0, 63, 0]) };
    again(rounds, || {
        sent(&mut device, &read, true);
        respond(&mut device);
        read_packets(&mut device, 8) + sent(&mut device, &STATUS, true)
    })
}

/// SET_REPORT of 64 bytes, and its data.
const WRITE: [u8; 8] = [0x21, 9, 0, 2, 0, 0, 64, 0];
const REPORT: [u8; 64] = [0x5a; 64];

/// A transaction of both ends.
#[inline(never)]
fn exchange(device: &mut Device, write: &mut Write) {
    let Some(transaction) = write.next(&REPORT) else {
        return;
    };
    let answer = device.serve(&transaction, true);
    let has_data = matches!(answer, Answer::Data(..));
    let _ = black_box(write.take(answer));
    if has_data {
        device.acked();
    }
}

/// The owner takes what is refused, and accepts the data once all have come.
#[inline(never)]
fn take(device: &mut Device) -> usize {
    let count = device.written().map_or(0, |(_, bytes)| bytes.len());
    if count > 0 || device.refused().is_some() {
        let _ = black_box(device.accept());
    }
    count
}

/// A write that the device rejects and its owner takes, in packets of 8 bytes, by both ends.
fn take_writes(set: &[u8], rounds: u32) -> Result<usize> {
    let description = describe_set(set, 8)?;
    let mut device = Device::new(&description);
    again(rounds, || {
        let mut write = Write::new(0, 8, 16, Setup::read(WRITE));
        (0..10).fold(0, |count, _| {
            exchange(&mut device, &mut write);
            count + take(&mut device)
        })
    })
}
