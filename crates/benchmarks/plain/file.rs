//! Descriptor files: a device descriptor, its sets, those of another speed, and strings.

use crate::explain::Input;
use crate::numbers::Numbers;
use crate::set::{CONFIGURATION, Configuration, Extra, OTHER_SPEED, QUALIFIER, STRING, SetFault, SetWhy};
use crate::set::{encode_onto, read_set};

pub struct Device {
    pub usb: u16,
    pub class: [u8; 3],
    pub packet: u8,
    /// idVendor, idProduct, bcdDevice.
    pub numbers: [u16; 3],
    /// iManufacturer, iProduct, iSerialNumber.
    pub texts: [u8; 3],
    pub configurations: u8,
}

pub struct Qualifier {
    pub usb: u16,
    pub class: [u8; 3],
    pub packet: u8,
    pub configurations: u8,
    pub reserved: u8,
}

pub struct Other {
    pub qualifier: Qualifier,
    pub sets: Vec<Configuration>,
}

pub struct Strings {
    pub languages: Vec<u16>,
    pub texts: Vec<Vec<u16>>,
}

pub struct DescriptorFile {
    pub device: Device,
    pub sets: Vec<Configuration>,
    pub other: Option<Other>,
    pub strings: Option<Strings>,
}

#[derive(Clone, Copy, Debug)]
#[repr(u8)]
pub enum FileWhy {
    Device = 1,
    Set,
    SetKind,
    Qualifier,
    Text,
    Truncated,
    Trailing,
}

#[derive(Clone, Copy, Debug)]
pub struct FileFault {
    pub at: usize,
    pub why: FileWhy,
}

fn fault<T>(at: usize, why: FileWhy) -> Result<T, FileFault> {
    Err(FileFault { at, why })
}

fn word(bytes: &[u8], at: usize) -> u16 {
    u16::from_le_bytes([bytes[at], bytes[at + 1]])
}

impl Device {
    pub fn read(bytes: &[u8]) -> Option<Device> {
        let b: &[u8; 18] = bytes.try_into().ok()?;
        (b[0] == 18 && b[1] == 1).then(|| Device {
            usb: word(b, 2),
            class: [b[4], b[5], b[6]],
            packet: b[7],
            numbers: [word(b, 8), word(b, 10), word(b, 12)],
            texts: [b[14], b[15], b[16]],
            configurations: b[17],
        })
    }

    pub fn bytes(&self) -> [u8; 18] {
        let mut b = [0; 18];
        (b[0], b[1]) = (18, 1);
        b[2..4].copy_from_slice(&self.usb.to_le_bytes());
        b[4..7].copy_from_slice(&self.class);
        b[7] = self.packet;
        for (place, number) in b[8..14].chunks_exact_mut(2).zip(self.numbers) {
            place.copy_from_slice(&number.to_le_bytes());
        }
        b[14..17].copy_from_slice(&self.texts);
        b[17] = self.configurations;
        b
    }
}

impl Qualifier {
    pub fn read(bytes: &[u8]) -> Option<Qualifier> {
        let b: &[u8; 10] = bytes.try_into().ok()?;
        (b[0] == 10 && b[1] == QUALIFIER).then(|| Qualifier {
            usb: word(b, 2),
            class: [b[4], b[5], b[6]],
            packet: b[7],
            configurations: b[8],
            reserved: b[9],
        })
    }

    pub fn bytes(&self) -> [u8; 10] {
        let [low, high] = self.usb.to_le_bytes();
        let [class, subclass, protocol] = self.class;
        let counts = [self.packet, self.configurations, self.reserved];
        let [packet, configurations, reserved] = counts;
        [10, QUALIFIER, low, high, class, subclass, protocol, packet, configurations, reserved]
    }
}

/// The units of a string descriptor, if the bytes are one.
pub fn read_units(bytes: &[u8]) -> Option<Vec<u16>> {
    let [len, STRING, units @ ..] = bytes else {
        return None;
    };
    let is_string = usize::from(*len) == bytes.len() && len % 2 == 0;
    is_string.then(|| units.chunks_exact(2).map(|it| word(it, 0)).collect())
}

pub fn put_units(out: &mut Vec<u8>, units: &[u16]) -> Option<()> {
    if units.len() > 126 {
        return None;
    }
    out.extend_from_slice(&[2 + 2 * units.len() as u8, STRING]);
    out.extend(units.iter().flat_map(|unit| unit.to_le_bytes()));
    Some(())
}

fn mark_set(marks: &mut Numbers, set: &Configuration) {
    fn associations(marks: &mut Numbers, extras: &[Extra]) {
        for extra in extras {
            if let Extra::Association(it) = extra {
                marks.add(it.fields[5]);
            }
        }
    }
    marks.add(set.text);
    associations(marks, &set.extras);
    for setting in &set.settings {
        marks.add(setting.text);
        associations(marks, &setting.extras);
        for endpoint in &setting.endpoints {
            associations(marks, &endpoint.extras);
        }
    }
}

/// The indices of strings that a file names.
pub fn named(file: &DescriptorFile) -> Numbers {
    let mut marks = Numbers::default();
    for text in file.device.texts {
        marks.add(text);
    }
    for set in &file.sets {
        mark_set(&mut marks, set);
    }
    for set in file.other.iter().flat_map(|other| &other.sets) {
        mark_set(&mut marks, set);
    }
    marks.remove(0);
    marks
}

/// Takes a file apart from its start on.
struct Reader<'a> {
    bytes: &'a [u8],
    at: usize,
}

impl<'a> Reader<'a> {
    fn rest(&self) -> &'a [u8] {
        &self.bytes[self.at..]
    }

    fn take(&mut self, count: usize) -> Result<&'a [u8], FileFault> {
        match self.rest().get(..count) {
            None => fault(self.bytes.len(), FileWhy::Truncated),
            Some(part) => {
                self.at += count;
                Ok(part)
            }
        }
    }

    fn sets(&mut self, kind: u8, count: u8) -> Result<Vec<Configuration>, FileFault> {
        let mut sets = Vec::new();
        for _ in 0..count {
            let start = self.at;
            match read_set(self.rest()) {
                Ok((set, _)) if set.kind != kind => return fault(start + 1, FileWhy::SetKind),
                Ok((set, used)) => {
                    sets.push(set);
                    self.at += used;
                }
                Err(SetFault { at, why: SetWhy::Truncated }) => {
                    return fault(start + at, FileWhy::Truncated);
                }
                Err(SetFault { at, .. }) => return fault(start + at, FileWhy::Set),
            }
        }
        Ok(sets)
    }

    fn other(&mut self) -> Result<Option<Other>, FileFault> {
        match self.rest() {
            [] => return Ok(None),
            [_] => return fault(self.bytes.len(), FileWhy::Truncated),
            [_, kind, ..] if *kind != QUALIFIER => return Ok(None),
            _ => {}
        }
        let start = self.at;
        let Some(qualifier) = Qualifier::read(self.take(10)?) else {
            return fault(start, FileWhy::Qualifier);
        };
        let sets = self.sets(OTHER_SPEED, qualifier.configurations)?;
        Ok(Some(Other { qualifier, sets }))
    }

    fn string(&mut self, least: u8) -> Result<Vec<u16>, FileFault> {
        let start = self.at;
        let len = match self.rest() {
            [len, kind, ..] if *len < least || len % 2 == 1 || *kind != STRING => {
                return fault(start, FileWhy::Text);
            }
            [len, _, ..] => usize::from(*len),
            _ => return fault(self.bytes.len(), FileWhy::Truncated),
        };
        let part = self.take(len)?;
        Ok(part[2..].chunks_exact(2).map(|it| word(it, 0)).collect())
    }

    fn strings(&mut self, count: usize) -> Result<Option<Strings>, FileFault> {
        if count == 0 {
            return Ok(None);
        }
        let languages = self.string(4)?;
        let mut texts = Vec::new();
        for _ in 0..count * languages.len() {
            texts.push(self.string(2)?);
        }
        Ok(Some(Strings { languages, texts }))
    }
}

/// The file or the dump that bytes are; a dump ends where the languages are due.
pub fn read_input(bytes: &[u8]) -> Result<Input, FileFault> {
    let mut reader = Reader { bytes, at: 0 };
    let Some(device) = Device::read(reader.take(18)?) else {
        return fault(0, FileWhy::Device);
    };
    let sets = reader.sets(CONFIGURATION, device.configurations)?;
    let other = reader.other()?;
    let mut file = DescriptorFile { device, sets, other, strings: None };
    let count = named(&file).count();
    if count > 0 && file.other.is_none() && reader.rest().is_empty() {
        return Ok(Input::Dump(file));
    }
    file.strings = reader.strings(count)?;
    if reader.at < bytes.len() {
        return fault(reader.at, FileWhy::Trailing);
    }
    Ok(Input::File(file))
}

pub fn read_file(bytes: &[u8]) -> Result<DescriptorFile, FileFault> {
    match read_input(bytes)? {
        Input::File(file) => Ok(file),
        _ => fault(bytes.len(), FileWhy::Truncated),
    }
}

/// Whether the sets are as many as declared, and of the kind of their part.
pub fn has_declared_sets(file: &DescriptorFile) -> bool {
    let fit = |sets: &[Configuration], count: u8, kind: u8| {
        sets.len() == usize::from(count) && sets.iter().all(|set| set.kind == kind)
    };
    let other = file.other.as_ref();
    fit(&file.sets, file.device.configurations, CONFIGURATION)
        && other.is_none_or(|it| fit(&it.sets, it.qualifier.configurations, OTHER_SPEED))
}

pub fn has_named_strings(strings: &Option<Strings>, named: usize) -> bool {
    match strings {
        None => named == 0,
        Some(it) => {
            named > 0
                && (1..=126).contains(&it.languages.len())
                && it.texts.len() == it.languages.len() * named
                && it.texts.iter().all(|text| text.len() <= 126)
        }
    }
}

/// The bytes of a file, or none where it has none.
pub fn write_file(file: &DescriptorFile) -> Option<Vec<u8>> {
    if !has_declared_sets(file) || !has_named_strings(&file.strings, named(file).count()) {
        return None;
    }
    let mut out = file.device.bytes().to_vec();
    for set in &file.sets {
        encode_onto(set, &mut out)?;
    }
    if let Some(other) = &file.other {
        out.extend_from_slice(&other.qualifier.bytes());
        for set in &other.sets {
            encode_onto(set, &mut out)?;
        }
    }
    if let Some(strings) = &file.strings {
        put_units(&mut out, &strings.languages)?;
        for text in &strings.texts {
            put_units(&mut out, text)?;
        }
    }
    Some(out)
}
