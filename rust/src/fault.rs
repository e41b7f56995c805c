//! What the library refuses.
use crate::into;
use crate::sys::{self, nzg_answer, nzg_trouble};
use std::{error, fmt};

/// What kind of fault it is.
#[derive(Clone, Copy, Debug, PartialEq, Eq, Hash)]
#[non_exhaustive]
pub enum Kind {
    /// The bytes are no set: 1 to 9, at a place.
    Set,
    /// They are no descriptor file and no dump: 1 to 7, at a place.
    File,
    /// The text is no listing: 1 to 6, in a line from 1.
    Listing,
    /// No device of the speed has these descriptors: 1, 2, 3 or 5.
    Description,
    /// The text isn't hexadecimal: from a line and a column on, both from 1.
    Text,
    /// The set ends at the place, and the bytes go on.
    Trailing,
    /// Out of memory.
    Memory,
    /// A number or a letter has no meaning, data and fields don't fit, or nothing is there that is asked for: 1 to 14.
    Argument,
    /// A transfer or an enumeration failed: 1 to 7.
    Trouble,
    /// The device doesn't take this answer to a request: 1 to 4.
    Unanswered,
    /// The bytes are no recording: 1 to 11, in the part at a place.
    Capture,
    /// Of a device of a recording there came: 1 no device descriptor, 2 no configuration with the index that is the place.
    Lacking,
    /// The file of a host has no bytes, or a handle holds nothing: it doesn't come.
    Other,
}

/// A step of an enumeration.
#[derive(Clone, Copy, Debug, PartialEq, Eq, Hash)]
#[non_exhaustive]
pub enum Step {
    /// The first bytes of the device descriptor.
    First,
    /// SET_ADDRESS.
    Address,
    /// The device descriptor.
    Device,
    /// The first bytes of the configuration set of this index.
    Header(u8),
    /// The configuration set of this index.
    Set(u8),
    /// The device qualifier.
    Qualifier,
    /// The first bytes of a set of the other speed.
    OtherHeader(u8),
    /// A set of the other speed.
    OtherSet(u8),
    /// The list of languages.
    Languages,
    /// A string, by language and index.
    Text(u16, u8),
    /// SET_CONFIGURATION.
    Configure,
}

impl Step {
    pub(crate) fn of(step: u8, index: u8, language: u16) -> Option<Step> {
        Some(match step {
            1 => Step::First,
            2 => Step::Address,
            3 => Step::Device,
            4 => Step::Header(index),
            5 => Step::Set(index),
            6 => Step::Qualifier,
            7 => Step::OtherHeader(index),
            8 => Step::OtherSet(index),
            9 => Step::Languages,
            10 => Step::Text(language, index),
            11 => Step::Configure,
            _ => return None,
        })
    }
}

impl fmt::Display for Step {
    fn fmt(&self, f: &mut fmt::Formatter<'_>) -> fmt::Result {
        match self {
            Step::First => write!(f, "first"),
            Step::Address => write!(f, "address"),
            Step::Device => write!(f, "device"),
            Step::Header(index) => write!(f, "header {index}"),
            Step::Set(index) => write!(f, "set {index}"),
            Step::Qualifier => write!(f, "qualifier"),
            Step::OtherHeader(index) => write!(f, "other_header {index}"),
            Step::OtherSet(index) => write!(f, "other_set {index}"),
            Step::Languages => write!(f, "languages"),
            Step::Text(language, index) => write!(f, "text {language:04x} {index:02x}"),
            Step::Configure => write!(f, "configure"),
        }
    }
}

/// Why the library refused. It is shown with its place, and with what is wrong in words, where the library has them.
#[derive(Clone, Debug, PartialEq, Eq, Hash)]
#[non_exhaustive]
pub struct Fault {
    /// What kind of fault it is.
    pub kind: Kind,
    /// Its number among those of its kind, or 0.
    pub number: u32,
    /// Where, in bytes, or in which line.
    pub place: usize,
    /// Of a text in which column of its line; else 0.
    pub column: usize,
    /// At which step of an enumeration.
    pub step: Option<Step>,
    /// Where a set in a file is at fault the number of the set's fault, else 0.
    pub inner: u32,
    message: String,
}

impl Fault {
    /// What is wrong with bytes, or why an enumeration failed, in words; empty of other faults.
    pub fn message(&self) -> &str {
        &self.message
    }
    /// It with its words, where these are the bytes at fault.
    pub(crate) fn of(self, bytes: &[u8]) -> Fault {
        let (meant, words) = into(|out, room| unsafe { sys::nzg_fault_text(bytes.as_ptr(), bytes.len(), out, room) });
        let is_this = match self.kind {
            Kind::Set => meant.number == self.number,
            Kind::File => (meant.number > 0) == (self.number == 2),
            kind => kind == Kind::Trailing,
        };
        if meant.status > 0 || meant.place != self.place || !is_this {
            return self;
        }
        let inner = if self.kind == Kind::File { meant.number } else { 0 };
        Fault { inner, ..self.saying(words) }
    }
    /// A trouble with its step.
    pub(crate) fn trouble(it: &nzg_trouble) -> Fault {
        let (kind, number, message) = (Kind::Trouble, it.why.into(), String::new());
        let fault = Fault { kind, number, place: 0, column: 0, step: None, inner: 0, message };
        fault.at(it.step, it.index, it.language)
    }
    /// It with the step of an enumeration that failed, where it is such a trouble.
    pub(crate) fn at(self, step: u8, index: u8, language: u16) -> Fault {
        if self.kind != Kind::Trouble {
            return self;
        }
        let it = nzg_trouble { why: self.number as u8, step, index, language };
        let (_, words) = into(|out, room| unsafe { sys::nzg_trouble_text(&it, out, room) });
        Fault { step: Step::of(step, index, language), ..self.saying(words) }
    }
    fn saying(self, words: Vec<u8>) -> Fault {
        Fault { message: String::from_utf8(words).expect("a text is UTF-8"), ..self }
    }
    /// What the documents call it; empty where they have no name.
    pub fn name(&self) -> &'static str {
        let names: &[&str] = match self.kind {
            Kind::Set => {
                &["HeaderLength", "HeaderKind", "Total", "ItemLength", "Over", "Nested", "ItemShort", "Stray", "Truncated"]
            }
            Kind::File => &["Device", "Set", "SetKind", "Qualifier", "Text", "Truncated", "Trailing"],
            Kind::Listing => &["Line", "Word", "Place", "Field", "TooLong", "Missing"],
            Kind::Description => &["Finding", "Texts", "Speed", "Memory", "Unwritable"],
            Kind::Argument => &[
                "address", "attempts", "speed", "fate", "rule", "string", "packet", "reply", "request", "data", "transfer",
                "fields", "text", "strings",
            ],
            Kind::Trouble => &["NoAnswer", "Busy", "Stalled", "TooLong", "Unexpected", "Malformed", "Memory"],
            Kind::Unanswered => &["Nothing", "Closed", "Shape", "Room"],
            Kind::Capture => &[
                "Magic",
                "Order",
                "Length",
                "Trailer",
                "Version",
                "Long",
                "Interfaces",
                "Options",
                "Interface",
                "Data",
                "Line",
            ],
            Kind::Lacking => &["device", "configuration"],
            Kind::Text | Kind::Trailing | Kind::Memory | Kind::Other => &[],
        };
        names.get((self.number as usize).wrapping_sub(1)).unwrap_or(&"")
    }
}

impl fmt::Display for Fault {
    fn fmt(&self, f: &mut fmt::Formatter<'_>) -> fmt::Result {
        let words = match self.kind {
            Kind::Set => "set fault",
            Kind::File => "file fault",
            Kind::Listing => "listing fault",
            Kind::Description => "description fault",
            Kind::Text => "hexadecimal fault",
            Kind::Trailing => "trailing bytes",
            Kind::Memory => return write!(f, "out of memory"),
            Kind::Argument => "bad argument",
            Kind::Trouble => "trouble",
            Kind::Unanswered => "unanswered",
            Kind::Capture => "capture fault",
            Kind::Lacking => "lacking",
            Kind::Other => "nothing held",
        };
        write!(f, "{words}")?;
        if self.number > 0 {
            write!(f, " {} ({})", self.number, self.name())?;
        }
        match (self.kind, self.step) {
            (Kind::Set | Kind::File | Kind::Trailing | Kind::Capture, _) => write!(f, " at {}", self.place)?,
            (Kind::Listing, _) => write!(f, " line {}", self.place)?,
            (Kind::Text, _) => write!(f, " line {} column {}", self.place, self.column)?,
            (_, Some(step)) if self.message.is_empty() => write!(f, " in {step}")?,
            _ => {}
        }
        match self.message() {
            "" => Ok(()),
            words => write!(f, ": {words}"),
        }
    }
}

impl error::Error for Fault {}

/// The answer, where nothing was refused.
pub(crate) fn done(answer: nzg_answer) -> Result<nzg_answer, Fault> {
    let kind = match answer.status {
        0 | 1 => return Ok(answer),
        2 => Kind::Set,
        3 => Kind::File,
        4 => Kind::Listing,
        5 => Kind::Description,
        6 => Kind::Trailing,
        8 => Kind::Memory,
        10 => Kind::Argument,
        11 => Kind::Trouble,
        12 => Kind::Unanswered,
        14 => Kind::Text,
        15 => Kind::Capture,
        16 => Kind::Lacking,
        _ => Kind::Other,
    };
    let column = if kind == Kind::Text { answer.length } else { 0 };
    Err(Fault { kind, number: answer.number, place: answer.place, column, step: None, inner: 0, message: String::new() })
}
