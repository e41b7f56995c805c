//! Packets of the bus, from their PID to their CRC, and both CRCs.
use crate::fault::{done, Fault};
use crate::into;
use crate::sys::{self, nzg_packet_fields};
use std::{error, fmt};

/// The tokens with an address. The numbers are those of the PIDs, as of the other packets.
#[derive(Clone, Copy, Debug, PartialEq, Eq, Hash)]
pub enum TokenKind {
    /// Data follow, from the host.
    Out = 0xe1,
    /// The host asks for data.
    In = 0x69,
    /// A setup packet follows.
    Setup = 0x2d,
    /// The host asks whether there is room, at high speed alone.
    Ping = 0xb4,
}

/// The data packets.
#[derive(Clone, Copy, Debug, PartialEq, Eq, Hash)]
pub enum DataKind {
    /// The toggle is 0.
    Data0 = 0xc3,
    /// The toggle is 1.
    Data1 = 0x4b,
    /// Of an isochronous endpoint with three transactions in a microframe.
    Data2 = 0x87,
    /// Of such an endpoint, or of a split transaction.
    MData = 0x0f,
}

/// The handshakes.
#[derive(Clone, Copy, Debug, PartialEq, Eq, Hash)]
pub enum Handshake {
    /// The data were taken.
    Ack = 0xd2,
    /// Not now.
    Nak = 0x5a,
    /// The endpoint is halted, or the request is not supported.
    Stall = 0x1e,
    /// The data were taken, and there is no room for more; or a split transaction isn't done yet.
    Nyet = 0x96,
}

/// A packet, from its PID to its CRC (USB 2.0, 8.3 and 8.4).
///
/// ```
/// use nozzlegorse::{Damage, Handshake, Packet, TokenKind};
///
/// let setup = Packet::Token { kind: TokenKind::Setup, address: 0x15, endpoint: 0xe };
/// assert_eq!(setup.to_bytes()?, [0x2d, 0x15, 0xef]);
/// assert_eq!(Packet::parse(&[0xd2]), Ok(Packet::Handshake(Handshake::Ack)));
/// assert_eq!(Packet::parse(&[0x2d, 0x15, 0xee]), Err(Damage::Crc5));
/// assert!(Packet::StartOfFrame(2048).to_bytes().is_err());
/// # Ok::<(), nozzlegorse::Fault>(())
/// ```
#[derive(Clone, Copy, Debug, PartialEq, Eq, Hash)]
pub enum Packet<'a> {
    /// OUT, IN, SETUP or PING.
    Token {
        /// Which of them.
        kind: TokenKind,
        /// The device's address, 0 to 127.
        address: u8,
        /// The number of the endpoint, 0 to 15.
        endpoint: u8,
    },
    /// SOF with the number of its frame, below 2,048.
    StartOfFrame(u16),
    /// Data, at most 1,024 bytes.
    Data(DataKind, &'a [u8]),
    /// ACK, NAK, STALL or NYET.
    Handshake(Handshake),
    /// SPLIT with its 19 bits.
    Split(u32),
    /// PRE of a host, or ERR of a hub.
    Pre,
}

impl<'a> Packet<'a> {
    /// The packet that these bytes are.
    pub fn parse(bytes: &'a [u8]) -> Result<Packet<'a>, Damage> {
        let mut it = nzg_packet_fields::default();
        match Damage::of(unsafe { sys::nzg_packet_parse(bytes.as_ptr(), bytes.len(), &mut it) }) {
            Some(damage) => Err(damage),
            None => Ok(Packet::of(&it, &bytes[it.place.into()..][..it.length.into()])),
        }
    }

    fn of(it: &nzg_packet_fields, data: &'a [u8]) -> Packet<'a> {
        let token = |kind| Packet::Token { kind, address: it.address, endpoint: it.endpoint };
        match it.pid {
            0xe1 => token(TokenKind::Out),
            0x69 => token(TokenKind::In),
            0x2d => token(TokenKind::Setup),
            0xb4 => token(TokenKind::Ping),
            0xa5 => Packet::StartOfFrame(it.frame),
            0xc3 => Packet::Data(DataKind::Data0, data),
            0x4b => Packet::Data(DataKind::Data1, data),
            0x87 => Packet::Data(DataKind::Data2, data),
            0x0f => Packet::Data(DataKind::MData, data),
            0xd2 => Packet::Handshake(Handshake::Ack),
            0x5a => Packet::Handshake(Handshake::Nak),
            0x1e => Packet::Handshake(Handshake::Stall),
            0x96 => Packet::Handshake(Handshake::Nyet),
            0x78 => Packet::Split(it.split),
            _ => Packet::Pre,
        }
    }

    /// Its bytes with their CRC, in the order in which they are sent; a bad argument where a field does not fit into its bits, or
    /// the data into a packet.
    ///
    /// ```
    /// use nozzlegorse::{Damage, Packet};
    ///
    /// // What is read is written again.
    /// for head in 0..=255 {
    ///     for body in [&[][..], &[0, 0x10], &[0, 0], &[0, 0, 0xe8]] {
    ///         let bytes = [&[head], body].concat();
    ///         match Packet::parse(&bytes) {
    ///             Ok(packet) => assert_eq!(packet.to_bytes()?, bytes),
    ///             Err(damage) => assert_ne!(damage, Damage::Empty),
    ///         }
    ///     }
    /// }
    /// # Ok::<(), nozzlegorse::Fault>(())
    /// ```
    pub fn to_bytes(&self) -> Result<Vec<u8>, Fault> {
        let mut it = nzg_packet_fields::default();
        let mut data: &[u8] = &[];
        it.pid = match *self {
            Packet::Token { kind, address, endpoint } => {
                (it.address, it.endpoint) = (address, endpoint);
                kind as u8
            }
            Packet::StartOfFrame(number) => {
                it.frame = number;
                0xa5
            }
            Packet::Data(kind, bytes) => {
                data = bytes;
                kind as u8
            }
            Packet::Handshake(kind) => kind as u8,
            Packet::Split(fields) => {
                it.split = fields;
                0x78
            }
            Packet::Pre => 0x3c,
        };
        let (answer, out) = into(|out, room| unsafe { sys::nzg_packet_write(&it, data.as_ptr(), data.len(), out, room) });
        done(answer).map(|_| out)
    }
}

/// Why bytes are no packet: the first that holds. A receiver ignores such bytes (USB 2.0, 8.7.1).
#[derive(Clone, Copy, Debug, PartialEq, Eq, Hash)]
pub enum Damage {
    /// There is no byte.
    Empty = 1,
    /// The upper four bits of the first byte aren't the complement of the lower ones.
    Pid,
    /// The PID is 0000, which is reserved.
    Reserved,
    /// A packet with this PID has another number of bytes.
    Length,
    /// The 5-bit CRC isn't that of the bits before it.
    Crc5,
    /// The 16-bit CRC isn't that of the data before it.
    Crc16,
}

impl Damage {
    fn of(number: u8) -> Option<Damage> {
        Some(match number {
            0 => return None,
            1 => Damage::Empty,
            2 => Damage::Pid,
            3 => Damage::Reserved,
            4 => Damage::Length,
            5 => Damage::Crc5,
            _ => Damage::Crc16,
        })
    }
}

impl fmt::Display for Damage {
    fn fmt(&self, f: &mut fmt::Formatter<'_>) -> fmt::Result {
        write!(f, "damage {} ({self:?})", *self as u8)
    }
}

impl error::Error for Damage {}

/// The 5-bit CRC of the lowest bits of a number, at most 32 of them: 11 in a token and in SOF, 19 in SPLIT. It stands above them in
/// the packet.
///
/// ```
/// assert_eq!(nozzlegorse::crc5(0x15 | 0xe << 7, 11), 0x1d);
/// ```
pub fn crc5(fields: u32, width: u32) -> u8 {
    unsafe { sys::nzg_crc5(fields, width) }
}

/// The 16-bit CRC of data, after which it is sent, the low byte first.
///
/// ```
/// assert_eq!(nozzlegorse::crc16(b"123456789"), 0xb4c8);
/// ```
pub fn crc16(data: &[u8]) -> u16 {
    unsafe { sys::nzg_crc16(data.as_ptr(), data.len()) }
}
