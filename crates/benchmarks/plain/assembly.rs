//! Listings read back: a file of its listing, or the first line at fault.

use crate::file::{DescriptorFile, Device, Other, Qualifier, Strings, named};
use crate::listing::is_plain;
use crate::set::{self, Configuration, is_typed};

#[derive(Clone, Copy, Debug)]
#[repr(u8)]
pub enum ListWhy {
    Line = 1,
    Word,
    Place,
    Field,
    TooLong,
    Missing,
}

#[derive(Clone, Copy, Debug)]
pub struct ListFault {
    pub line: usize,
    pub why: ListWhy,
}

/// The values of the digits; those of other characters are above all sums of a pair.
static VALUES: [u16; 256] = {
    let (mut table, hex) = ([256; 256], b"0123456789abcdef");
    let mut value = 0;
    while value < 16 {
        table[hex[value] as usize] = value as u16;
        value += 1;
    }
    table
};

/// The number of two digits, above 255 where one is none.
fn sum(high: u8, low: u8) -> u16 {
    VALUES[usize::from(high)] * 16 + VALUES[usize::from(low)]
}

pub fn pair(high: u8, low: u8) -> Option<u8> {
    u8::try_from(sum(high, low)).ok()
}

fn number(text: &[u8]) -> Option<(u16, &[u8])> {
    let ([a, b, c, d], rest) = text.split_first_chunk()?;
    Some((u16::from_be_bytes([pair(*a, *b)?, pair(*c, *d)?]), rest))
}

/// Reads fields of these widths, in bytes, to a place of the buffer; answers the next place, and the rest of the text. What is
/// no field shows once all have been read.
#[inline(always)]
fn fields<'a>(buffer: &mut [u8; 255], start: usize, widths: &[u8], text: &'a [u8]) -> Option<(usize, &'a [u8])> {
    let length = widths.iter().map(|width| 1 + 2 * usize::from(*width)).sum();
    let (head, rest) = text.split_at_checked(length)?;
    let (mut at, mut place, mut sums, mut is_spaced) = (start, 0, 0, true);
    for width in widths {
        is_spaced &= head[place] == b' ';
        let first = sum(head[place + 1], head[place + 2]);
        sums |= first;
        if *width == 1 {
            buffer[at] = first as u8;
        } else {
            let second = sum(head[place + 3], head[place + 4]);
            sums |= second;
            (buffer[at], buffer[at + 1]) = (second as u8, first as u8);
        }
        at += usize::from(*width);
        place += 1 + 2 * usize::from(*width);
    }
    (is_spaced && sums < 256).then_some((at, rest))
}

/// Reads a tail to a place of the buffer; answers where it ends, and the next line.
fn tail<'a>(buffer: &mut [u8; 255], start: usize, text: &'a [u8]) -> Option<(usize, &'a [u8])> {
    if let Some(after) = text.strip_prefix(b" -\n") {
        return Some((start, after));
    }
    let digits = text.strip_prefix(b" ")?;
    let mut count = 0;
    for (place, digits) in buffer[start..].iter_mut().zip(digits.chunks_exact(2)) {
        let Some(value) = pair(digits[0], digits[1]) else {
            break;
        };
        *place = value;
        count += 1;
    }
    let after = digits[2 * count..].strip_prefix(b"\n")?;
    (count > 0).then_some((start + count, after))
}

/// Reads the bytes of a descriptor that begins with these, whose fields have these widths; answers the next line, too.
#[inline(always)]
fn descriptor<'a, 'b, const N: usize>(
    buffer: &'b mut [u8; 255],
    head: [u8; N],
    widths: &[u8],
    has_tail: bool,
    text: &'a [u8],
) -> Result<(&'b [u8], &'a [u8]), ListWhy> {
    buffer[..N].copy_from_slice(&head);
    let (at, rest) = fields(buffer, N, widths, text).ok_or(ListWhy::Field)?;
    let ended = if has_tail { tail(buffer, at, rest) } else { rest.strip_prefix(b"\n").map(|it| (at, it)) };
    let (end, next) = ended.ok_or(ListWhy::Field)?;
    buffer[0] = end as u8;
    Ok((&buffer[..end], next))
}

fn languages(text: &[u8]) -> Option<(Vec<u16>, &[u8])> {
    let mut languages = Vec::with_capacity(126);
    let mut rest = text;
    loop {
        if let Some(next) = rest.strip_prefix(b"\n") {
            return (!languages.is_empty()).then_some((languages, next));
        }
        let (language, after) = number(rest.strip_prefix(b" ")?)?;
        if languages.len() == 126 {
            return None;
        }
        languages.push(language);
        rest = after;
    }
}

fn string(text: &[u8]) -> Option<(Vec<u16>, &[u8])> {
    let mut rest = text.strip_prefix(b" \"")?;
    let mut units = Vec::with_capacity(rest.len().min(126));
    loop {
        let (first, after) = rest.split_first()?;
        let unit = u16::from(*first);
        if is_plain(unit) {
            units.push(unit);
            rest = after;
        } else if *first == b'\\' {
            let (unit, after) = number(after)?;
            if is_plain(unit) {
                return None;
            }
            units.push(unit);
            rest = after;
        } else {
            let next = rest.strip_prefix(b"\"\n")?;
            return Some((units, next));
        }
        if units.len() > 126 {
            return None;
        }
    }
}

/// A file so far: the bytes of the set in work, how many strings there will be, and room for a descriptor.
struct Draft {
    file: DescriptorFile,
    buffer: [u8; 255],
    work: usize,
    strings: usize,
}

impl Draft {
    fn new(device: Device) -> Draft {
        let file = DescriptorFile { device, sets: Vec::new(), other: None, strings: None };
        Draft { file, buffer: [0; 255], work: 0, strings: 0 }
    }

    fn declared(&self) -> usize {
        usize::from(match &self.file.other {
            None => self.file.device.configurations,
            Some(other) => other.qualifier.configurations,
        })
    }

    fn has_all_sets(&self) -> bool {
        let count = self.file.other.as_ref().map_or(self.file.sets.len(), |it| it.sets.len());
        count == self.declared()
    }

    /// Adds a set, if the word for it is allowed: after the qualifier or not.
    fn begin_set<'a>(&mut self, is_other: bool, kind: u8, text: &'a [u8]) -> Result<&'a [u8], ListWhy> {
        if self.file.other.is_some() != is_other || self.has_all_sets() || self.file.strings.is_some() {
            return Err(ListWhy::Place);
        }
        let (bytes, next) = descriptor(&mut self.buffer, [0, kind, 0, 0], &[1; 5], true, text)?;
        self.work = bytes.len();
        let sets = match &mut self.file.other {
            None => &mut self.file.sets,
            Some(other) => &mut other.sets,
        };
        sets.extend(Configuration::new(bytes));
        Ok(next)
    }

    /// Adds a descriptor that begins with these bytes and has fields of these widths to the last set.
    #[inline(always)]
    fn add<'a, const N: usize>(&mut self, head: [u8; N], widths: &[u8], text: &'a [u8]) -> Result<&'a [u8], ListWhy> {
        let sets = match &mut self.file.other {
            None => &mut self.file.sets,
            Some(other) => &mut other.sets,
        };
        let set = match sets.last_mut() {
            Some(set) if self.file.strings.is_none() => set,
            _ => return Err(ListWhy::Place),
        };
        if head.get(1) == Some(&set::ENDPOINT) && set.settings.is_empty() {
            return Err(ListWhy::Place);
        }
        let (bytes, next) = descriptor(&mut self.buffer, head, widths, true, text)?;
        if N == 1 && is_typed(bytes[1]) {
            return Err(ListWhy::Field);
        }
        if self.work + bytes.len() > 65_535 {
            return Err(ListWhy::TooLong);
        }
        self.work += bytes.len();
        set.add(bytes);
        Ok(next)
    }

    fn add_qualifier<'a>(&mut self, text: &'a [u8]) -> Result<&'a [u8], ListWhy> {
        if self.file.other.is_some() || !self.has_all_sets() || self.file.strings.is_some() {
            return Err(ListWhy::Place);
        }
        let widths = [2, 1, 1, 1, 1, 1, 1];
        let (bytes, next) = descriptor(&mut self.buffer, [0, set::QUALIFIER], &widths, false, text)?;
        let qualifier = Qualifier::read(bytes).ok_or(ListWhy::Field)?;
        self.file.other = Some(Other { qualifier, sets: Vec::new() });
        Ok(next)
    }

    fn add_languages<'a>(&mut self, text: &'a [u8]) -> Result<&'a [u8], ListWhy> {
        let named = named(&self.file).count();
        if self.file.strings.is_some() || !self.has_all_sets() || named == 0 {
            return Err(ListWhy::Place);
        }
        let (languages, next) = languages(text).ok_or(ListWhy::Field)?;
        self.strings = named * languages.len();
        self.file.strings = Some(Strings { languages, texts: Vec::new() });
        Ok(next)
    }

    fn add_string<'a>(&mut self, text: &'a [u8]) -> Result<&'a [u8], ListWhy> {
        match &mut self.file.strings {
            Some(strings) if strings.texts.len() < self.strings => {
                let (units, next) = string(text).ok_or(ListWhy::Field)?;
                strings.texts.push(units);
                Ok(next)
            }
            _ => Err(ListWhy::Place),
        }
    }

    /// Adds the first line; answers the next one.
    fn add_line<'a>(&mut self, text: &'a [u8]) -> Result<&'a [u8], ListWhy> {
        match text[0] {
            b'i' => self.add([0, set::INTERFACE], &[1; 7], after(b"interface", text)?),
            b'e' => self.add([0, set::ENDPOINT], &[1, 1, 2, 1], after(b"endpoint", text)?),
            b'r' => self.add([0], &[1], after(b"raw", text)?),
            b's' => self.add_string(after(b"string", text)?),
            b'a' => self.add([0, set::ASSOCIATION], &[1; 6], after(b"association", text)?),
            b'c' => self.begin_set(false, set::CONFIGURATION, after(b"configuration", text)?),
            b'o' => self.begin_set(true, set::OTHER_SPEED, after(b"other_speed", text)?),
            b'q' => self.add_qualifier(after(b"qualifier", text)?),
            b'l' => self.add_languages(after(b"languages", text)?),
            b'd' => after(b"device", text).and(Err(ListWhy::Place)),
            _ => Err(ListWhy::Word),
        }
    }

    fn finish(self) -> Option<DescriptorFile> {
        let has_strings = match &self.file.strings {
            None => named(&self.file).count() == 0,
            Some(strings) => strings.texts.len() == self.strings,
        };
        (self.has_all_sets() && has_strings).then_some(self.file)
    }
}

/// The text after the first word of its line, which must be this one.
fn after<'a, const N: usize>(word: &[u8; N], text: &'a [u8]) -> Result<&'a [u8], ListWhy> {
    match text.split_first_chunk() {
        Some((first, rest @ [b' ' | b'\n', ..])) if first == word => Ok(rest),
        _ => Err(ListWhy::Word),
    }
}

/// The draft of a first line, and the next one.
fn begin(text: &[u8]) -> Result<(Draft, &[u8]), ListWhy> {
    const WORDS: [&[u8]; 9] = [
        b"configuration",
        b"other_speed",
        b"interface",
        b"endpoint",
        b"raw",
        b"association",
        b"qualifier",
        b"languages",
        b"string",
    ];
    let Ok(fields) = after(b"device", text) else {
        let word = text.split(|it| matches!(it, b' ' | b'\n')).next();
        return Err(if word.is_some_and(|it| WORDS.contains(&it)) { ListWhy::Place } else { ListWhy::Word });
    };
    let widths = [2, 1, 1, 1, 1, 2, 2, 2, 1, 1, 1, 1];
    let mut buffer = [0; 255];
    let (bytes, next) = descriptor(&mut buffer, [0, 1], &widths, false, fields)?;
    let device = Device::read(bytes).ok_or(ListWhy::Field)?;
    Ok((Draft::new(device), next))
}

/// Why a line is none: a character in it, that it has no end, or what was found.
fn why_not(text: &[u8], why: ListWhy) -> ListWhy {
    match text.iter().find(|it| !(0x20..0x7f).contains(*it)) {
        Some(b'\n') => why,
        _ => ListWhy::Line,
    }
}

pub fn assemble(text: &[u8]) -> Result<DescriptorFile, ListFault> {
    let (mut draft, mut rest) = match begin(text) {
        Ok(begun) => begun,
        Err(_) if text.is_empty() => return Err(ListFault { line: 1, why: ListWhy::Missing }),
        Err(why) => return Err(ListFault { line: 1, why: why_not(text, why) }),
    };
    let mut line = 2;
    while !rest.is_empty() {
        rest = draft.add_line(rest).map_err(|why| ListFault { line, why: why_not(rest, why) })?;
        line += 1;
    }
    draft.finish().ok_or(ListFault { line, why: ListWhy::Missing })
}
