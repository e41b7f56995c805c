//! The packets of a bus, and the control transfers whose stages they are.

use crate::conversation::{Ending, Transfer};
use crate::packet::crc16;

#[derive(Clone, Copy, PartialEq)]
pub enum Token {
    Out,
    In,
    Setup,
    Ping,
}

pub enum Packet<'a> {
    Token(Token, u8, u8),
    Data(u8, &'a [u8]),
    Handshake(u8),
    Pre,
    Split,
    Other,
}

/// What is wrong in a packet, by its number in the words.
pub const DAMAGES: [&str; 6] = [
    "a packet without a byte (8.3.1)",
    "wrong check bits of a PID (8.3.1)",
    "a reserved PID (8.3.1)",
    "a length that its PID doesn't have (8.4)",
    "a wrong 5-bit CRC (8.3.5.1)",
    "a wrong 16-bit CRC (8.3.5.2)",
];
pub const TRANSACTIONS: [&str; 7] = [
    "no handshake (8.5)",
    "SETUP without eight bytes of DATA0 (8.5.3)",
    "NAK, STALL or NYET of SETUP (8.4.6.4)",
    "a wrong data toggle (8.5.3, 8.6)",
    "a packet over bMaxPacketSize0 (5.5.3, 9.6.1)",
    "no short packet at the end (5.5.3, 8.5.3.2)",
    "a status stage of the wrong way (8.5.3)",
];
const DATA0: u8 = 0b0011;
const DATA1: u8 = 0b1011;
const ACK: u8 = 0b0010;
const STALL: u8 = 0b1110;
const NYET: u8 = 0b0110;

fn crc5(number: u32, width: u32) -> u32 {
    let mut crc = 31;
    for bit in 0..width {
        crc = if (crc ^ number >> bit) & 1 == 1 { crc >> 1 ^ 0b10100 } else { crc >> 1 };
    }
    !crc & 31
}

const fn table() -> [u8; 2048] {
    let (mut table, mut number) = ([0; 2048], 0);
    while number < 2048 {
        let (mut crc, mut bit) = (31u8, 0);
        while bit < 11 {
            crc = if (crc ^ (number >> bit) as u8) & 1 == 1 { crc >> 1 ^ 0b10100 } else { crc >> 1 };
            bit += 1;
        }
        table[number] = !crc & 31;
        number += 1;
    }
    table
}

static OF_TOKENS: [u8; 2048] = table();

/// The packet that bytes are, or the number of its damage.
pub fn read(bytes: &[u8]) -> Result<Packet<'_>, usize> {
    let (head, body) = bytes.split_first().ok_or(0usize)?;
    let pid = head & 15;
    if pid != !(head >> 4) & 15 {
        return Err(1);
    }
    match pid {
        0 => Err(2),
        0b0001 | 0b1001 | 0b1101 | 0b0100 | 0b0101 => {
            let [low, high] = body else { return Err(3) };
            let word = u16::from_le_bytes([*low, *high]);
            let fields = word & 2047;
            if OF_TOKENS[usize::from(fields)] != (word >> 11) as u8 {
                return Err(4);
            }
            let kind = match pid {
                0b0001 => Token::Out,
                0b1001 => Token::In,
                0b1101 => Token::Setup,
                0b0100 => Token::Ping,
                _ => return Ok(Packet::Other),
            };
            Ok(Packet::Token(kind, (fields & 127) as u8, (fields >> 7) as u8))
        }
        0b1000 => {
            let [low, middle, high] = body else { return Err(3) };
            let word = u32::from_le_bytes([*low, *middle, *high, 0]);
            if crc5(word & 0x7_ffff, 19) == word >> 19 { Ok(Packet::Split) } else { Err(4) }
        }
        _ if pid & 3 == 3 => {
            if !(2..=1026).contains(&body.len()) {
                return Err(3);
            }
            let (data, crc) = body.split_at(body.len() - 2);
            if crc16(data).to_le_bytes() == crc { Ok(Packet::Data(pid, data)) } else { Err(5) }
        }
        _ if !body.is_empty() => Err(3),
        0b1100 => Ok(Packet::Pre),
        _ => Ok(Packet::Handshake(pid)),
    }
}

/// The place of a frame: its number and its time.
pub type Place = (u64, Option<u64>);

/// Kept of a data packet are the first bytes, of which a setup packet has eight.
pub struct Transaction {
    token: Token,
    pub address: u8,
    pub place: Place,
    data: Option<(u8, Vec<u8>)>,
    handshake: Option<u8>,
}

impl Transaction {
    /// The setup packet, where it begins a transfer.
    fn request(&self) -> Option<[u8; 8]> {
        match &self.data {
            Some((DATA0, bytes)) if self.token == Token::Setup => bytes.as_slice().try_into().ok(),
            _ => None,
        }
    }

    fn is_accepted(&self) -> bool {
        matches!(self.handshake, Some(ACK | NYET))
    }
}

struct Going {
    transfer: Transfer,
    toggle: u8,
    may_repeat: bool,
    last: usize,
}

impl Going {
    fn reads(&self) -> bool {
        self.transfer.setup[0] >= 128 && self.transfer.asked() > 0
    }

    fn is_status(&self, it: &Transaction) -> bool {
        let is_data1 = matches!(it.data, Some((DATA1, _)));
        is_data1 && if self.reads() { it.token == Token::Out && it.is_accepted() } else { it.token == Token::In }
    }

    fn has_wrong_toggle(&self, it: &Transaction) -> bool {
        match &it.data {
            Some((kind, _)) if matches!(it.token, Token::In | Token::Out) => {
                if (it.token == Token::In) == self.reads() {
                    *kind != self.toggle && !(it.token == Token::In && self.may_repeat)
                } else {
                    *kind != DATA1
                }
            }
            _ => false,
        }
    }

    /// Whether it brings the next packet of the data stage.
    fn is_next(&self, it: &Transaction) -> bool {
        let is_of_data =
            (it.token == Token::In && self.reads()) || (it.token == Token::Out && !self.reads() && it.is_accepted());
        let has_toggle = it.data.as_ref().is_some_and(|(kind, _)| *kind == self.toggle);
        is_of_data && has_toggle && it.handshake != Some(STALL)
    }

    /// Whether the data stage is over, where whole packets have this size.
    fn is_complete(&self, size: usize) -> bool {
        let is_short = self.reads() && self.transfer.length > 0 && self.last < size;
        is_short || self.transfer.length >= self.transfer.asked().into()
    }

    fn takes(&mut self, it: &Transaction) {
        let is_next = self.is_next(it);
        let Some((_, bytes)) = &it.data else { return };
        if is_next {
            self.toggle ^= DATA0 ^ DATA1;
            self.transfer.length += bytes.len() as u32;
            self.last = bytes.len();
            if self.transfer.data.len() + bytes.len() <= 65_535 {
                self.transfer.data.extend_from_slice(bytes);
            } else {
                self.transfer.is_cut = true;
            }
        }
        self.may_repeat = it.handshake != Some(ACK);
    }
}

pub struct Bus {
    current: Option<Transaction>,
    is_split: bool,
    open: Vec<Going>,
    sizes: [u8; 128],
}

impl Bus {
    pub fn new() -> Bus {
        Bus { current: None, is_split: false, open: Vec::new(), sizes: [0; 128] }
    }

    /// Takes a packet, or one that is damaged or cut: the transaction that is over with it.
    pub fn take(&mut self, place: Place, packet: Option<&Packet>) -> Option<Transaction> {
        match (packet, &mut self.current) {
            (Some(Packet::Pre), _) => return None,
            (Some(Packet::Data(pid, data)), Some(current))
                if current.token != Token::Ping && current.data.is_none() =>
            {
                current.data = Some((*pid, data.to_vec()));
                return None;
            }
            _ => {}
        }
        let over = self.current.take();
        if let Some(Packet::Token(token, address, 0)) = packet
            && !self.is_split
        {
            self.current = Some(Transaction { token: *token, address: *address, place, data: None, handshake: None });
        }
        if !matches!(packet, Some(Packet::Data(..))) {
            self.is_split = matches!(packet, Some(Packet::Split));
        }
        let handshake = match packet {
            Some(Packet::Handshake(pid)) => Some(*pid),
            _ => None,
        };
        over.map(|it| Transaction { handshake, ..it })
    }

    fn going(&self, address: u8) -> Option<usize> {
        self.open.iter().position(|it| it.transfer.device.1 == address.into())
    }

    /// What is wrong in a transaction before it is taken, a bit for each.
    pub fn found_in(&self, it: &Transaction) -> u8 {
        let is_request = it.request().is_some();
        let going = self.going(it.address).filter(|_| !is_request).map(|at| &self.open[at]);
        let size = if it.address == 0 { 0 } else { usize::from(self.sizes[usize::from(it.address)]) };
        let is_long = matches!(it.token, Token::In | Token::Out)
            && size > 0
            && it.data.as_ref().is_some_and(|(_, bytes)| bytes.len() > size);
        let is_early = going.is_some_and(|going| {
            let is_short = going.reads() && going.transfer.length < going.transfer.asked().into();
            is_short && size > 0 && size <= going.last && it.handshake != Some(STALL) && going.is_status(it)
        });
        let is_misdirected = going.is_some_and(|going| going.is_complete(size) && going.is_next(it));
        u8::from(it.handshake.is_none())
            | u8::from(it.token == Token::Setup && !is_request) << 1
            | u8::from(it.token == Token::Setup && it.handshake.is_some_and(|shake| shake != ACK)) << 2
            | u8::from(going.is_some_and(|going| going.has_wrong_toggle(it))) << 3
            | u8::from(is_long) << 4
            | u8::from(is_early) << 5
            | u8::from(is_misdirected) << 6
    }

    /// The transfer that is over with a transaction.
    pub fn end_of(&mut self, it: &Transaction) -> Option<Transfer> {
        let at = self.going(it.address);
        let going = at.map(|at| self.open.remove(at));
        if let Some(setup) = it.request() {
            let transfer = Transfer {
                device: (0, it.address.into()),
                time: it.place.1,
                setup,
                data: Vec::new(),
                length: 0,
                is_cut: false,
                ending: Ending::Unseen,
            };
            self.open.push(Going { transfer, toggle: DATA1, may_repeat: false, last: 0 });
            return going.map(|it| it.transfer);
        }
        let mut going = going?;
        if it.handshake == Some(STALL) {
            going.transfer.ending = Ending::Stall;
        } else if going.is_status(it) {
            going.transfer.ending = Ending::Done;
        }
        if going.transfer.ending != Ending::Unseen {
            going.transfer.time = it.place.1.or(going.transfer.time);
            self.learn(&going.transfer);
            return Some(going.transfer);
        }
        going.takes(it);
        self.open.push(going);
        None
    }

    /// bMaxPacketSize0 of the device of an address. SET_ADDRESS brings another one there.
    fn learn(&mut self, it: &Transfer) {
        if it.is_reading() && it.setup[3] == 1 {
            self.sizes[usize::from(it.device.1)] = it.data.get(7).copied().unwrap_or(0);
        } else if it.is_set_address() && it.ending == Ending::Done && it.setup[2] < 128 {
            self.sizes[usize::from(it.setup[2])] = 0;
        }
    }

    /// The transfers without an end.
    pub fn open(&self) -> impl Iterator<Item = &Transfer> {
        self.open.iter().map(|it| &it.transfer)
    }
}
