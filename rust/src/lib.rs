#![doc = include_str!("../README.md")]
#![warn(missing_docs)]
mod capture;
mod descriptor;
mod ends;
mod fault;
mod find;
mod packet;
mod sys;
mod tree;

pub use capture::{Capture, DeviceAddress, Ending, Forbidden, Recorded, Request};
pub use descriptor::{
    check, descriptors, judge, remarks, Descriptor, Descriptors, Endpoint, Field, Finding, Input, Part, Remark, Role,
    TransferType,
};
pub use ends::{
    Action, Choice, Decoder, Device, Difference, Host, NamedStrings, OpenTransfer, Reply, Stage, State, Toggle, Transaction,
    Transfer, Write,
};
use fault::done;
pub use fault::{Fault, Kind, Step};
pub use find::{find, Finds, Found, FoundKind};
pub use packet::{crc16, crc5, Damage, DataKind, Handshake, Packet, TokenKind};
use std::fmt;
use sys::{nzg_answer, nzg_outcome};
pub use tree::{configurations, Configuration, Interface, Setting};

// SAFETY, of each call in this crate: a slice is a pointer that is not null and its length, lent for the call; a `&mut`
// overlaps nothing else; a handle is null or what the library put there, has one owner and is in one call at a time. The library
// asks for nothing else.

/// Calls with a buffer that grows to what is wanted.
fn into<T: Clone + Default>(mut call: impl FnMut(*mut T, usize) -> nzg_answer) -> (nzg_answer, Vec<T>) {
    let mut out = vec![T::default(); 256];
    loop {
        let answer = call(out.as_mut_ptr(), out.len());
        if answer.status != 7 {
            out.truncate(answer.length);
            return (answer, out);
        }
        out.resize(answer.length, T::default());
    }
}

fn text_of((answer, out): (nzg_answer, Vec<u8>)) -> Result<String, Fault> {
    done(answer)?;
    Ok(String::from_utf8(out).expect("a text is UTF-8"))
}

/// The speed of a bus.
#[derive(Clone, Copy, Debug, PartialEq, Eq, Hash)]
#[non_exhaustive]
pub enum Speed {
    /// 1.5 Mb/s.
    Low = 1,
    /// 12 Mb/s.
    Full,
    /// 480 Mb/s.
    High,
    /// 5 Gb/s and more: for `explain` and `remarks` alone.
    Super,
}

/// How `explain` writes.
#[derive(Clone, Copy, Debug, Default, PartialEq, Eq, Hash)]
pub struct Options {
    /// A line for each descriptor, without its fields.
    pub brief: bool,
    /// No place behind each heading.
    pub no_places: bool,
    /// Strings as UTF-8, and not in ASCII with escapes.
    pub utf8: bool,
    /// Size and interval in the headings of video frames, and rates in those of audio formats.
    pub formats: bool,
    /// Descriptors one after another, of which no owner is asked for, or a setup packet: no fault is found.
    pub loose: bool,
    /// The bytes are hexadecimal text.
    pub hex: bool,
    /// The speed at which the device runs, where that is known.
    pub speed: Option<Speed>,
}

/// The listing of a set, a descriptor file or a dump: a line for each descriptor.
pub fn show(bytes: &[u8]) -> Result<String, Fault> {
    text_of(into(|out, room| unsafe { sys::nzg_show(bytes.as_ptr(), bytes.len(), true, out, room) })).map_err(|it| it.of(bytes))
}

/// The bytes that a text lists. With `comments` empty lines, lines that begin with # and carriage returns are dropped.
pub fn build(listing: &[u8], comments: bool) -> Result<Vec<u8>, Fault> {
    let (answer, out) = into(|out, room| unsafe { sys::nzg_build(listing.as_ptr(), listing.len(), comments, out, room) });
    done(answer).map(|_| out)
}

/// The bytes of hexadecimal text: digits, a dump with its columns, an array of a program. A text that is none, or that two readings
/// would take differently, is a fault with its line and column.
pub fn from_text(text: &[u8]) -> Result<Vec<u8>, Fault> {
    let (answer, out) = into(|out, room| unsafe { sys::nzg_from_text(text.as_ptr(), text.len(), out, room) });
    done(answer).map(|_| out)
}

/// A dump as a descriptor file, with the strings that `usbdesc enumerate --with-strings` puts.
pub fn with_strings(dump: &[u8]) -> Result<Vec<u8>, Fault> {
    let (answer, out) = into(|out, room| unsafe { sys::nzg_with_strings(dump.as_ptr(), dump.len(), out, room) });
    done(answer).map(|_| out).map_err(|it| it.of(dump))
}

/// What bytes mean, in words, as far as they go, and the fault where they are broken.
pub fn explain(bytes: &[u8], how: Options) -> (String, Option<Fault>) {
    let written = u32::from(how.brief) | u32::from(!how.no_places) << 1 | u32::from(how.utf8) << 2;
    let options = written | u32::from(how.formats) << 3 | u32::from(how.loose) << 4 | u32::from(how.hex) << 5;
    let speed = how.speed.map_or(0, |it| it as u8);
    let (answer, out) = into(|out, room| unsafe { sys::nzg_explain(bytes.as_ptr(), bytes.len(), options, speed, out, room) });
    match done(answer) {
        Err(fault) if fault.kind == Kind::Text => (String::new(), Some(fault)),
        other => (String::from_utf8(out).expect("a text is UTF-8"), other.err().map(|it| it.of(bytes))),
    }
}

/// What came of an enumeration. It is shown as the line of `usbdesc enumerate`.
#[derive(Clone, Debug, PartialEq, Eq, Hash)]
pub struct Enumeration {
    /// How often the host began.
    pub attempts: u8,
    /// How many transactions there were.
    pub transactions: u64,
    /// The device's address at the end.
    pub address: u8,
    /// bConfigurationValue of the configuration that was selected.
    pub selected: u8,
    /// The listing of what was read, or the trouble and its step.
    pub read: Result<String, Fault>,
}

impl fmt::Display for Enumeration {
    fn fmt(&self, f: &mut fmt::Formatter<'_>) -> fmt::Result {
        let Enumeration { attempts, transactions, address, selected, .. } = self;
        match &self.read {
            Ok(_) => write!(f, "success attempts {attempts} transactions {transactions} address {address} value {selected}"),
            Err(Fault { number, step: Some(step), .. }) => {
                write!(f, "trouble {number} {step} attempts {attempts} transactions {transactions}")
            }
            Err(fault) => write!(f, "{fault}"),
        }
    }
}

/// A host enumerates a device with these descriptors, over a bus with these fates, a letter a transaction.
pub fn enumerate(bytes: &[u8], speed: Speed, naks: u16, attempts: u8, fates: &[u8]) -> Result<Enumeration, Fault> {
    let mut it = nzg_outcome::default();
    let (data, len, fates, fates_len) = (bytes.as_ptr(), bytes.len(), fates.as_ptr(), fates.len());
    let read = text_of(into(|out, room| unsafe {
        sys::nzg_enumerate(data, len, speed as u8, naks, attempts, fates, fates_len, &mut it, out, room)
    }));
    let read = match read {
        Err(fault) if fault.kind != Kind::Trouble => return Err(fault.of(bytes)),
        read => read.map_err(|fault| fault.at(it.step, it.index, it.language)),
    };
    let (attempts, transactions, address, selected) = (it.attempts, it.transactions, it.address, it.selected);
    Ok(Enumeration { attempts, transactions, address, selected, read })
}

/// The log of that enumeration: what `usbdesc enumerate --log` writes before its last lines.
pub fn enumerate_log(bytes: &[u8], speed: Speed, naks: u16, attempts: u8, fates: &[u8]) -> Result<String, Fault> {
    let (data, len, fates, fates_len) = (bytes.as_ptr(), bytes.len(), fates.as_ptr(), fates.len());
    text_of(into(|out, room| unsafe {
        sys::nzg_enumerate_log(data, len, speed as u8, naks, attempts, fates, fates_len, out, room)
    }))
    .map_err(|it| it.of(bytes))
}
