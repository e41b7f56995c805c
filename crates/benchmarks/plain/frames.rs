//! The frames of a recording: pcap, pcapng and usbmon's text, in pieces of any length.

pub struct Frame<'a> {
    pub time: Option<u64>,
    pub link: u16,
    pub is_big: bool,
    pub is_cut: bool,
    pub bytes: &'a [u8],
}

/// The number of a fault, and the place of the part that has it.
pub type Fault = (u8, usize);

struct Interface {
    link: u16,
    most: u32,
    second: i128,
    offset: i128,
}

#[derive(Clone, Copy, PartialEq)]
enum Stage {
    Start,
    Records { is_big: bool, unit: u64, link: u16 },
    Blocks { is_big: bool },
    Lines,
}

pub struct Reader {
    stage: Stage,
    interfaces: Vec<Interface>,
    held: Vec<u8>,
    pub place: usize,
}

pub fn short(bytes: &[u8], at: usize, is_big: bool) -> u16 {
    let pair = [bytes[at], bytes[at + 1]];
    if is_big { u16::from_be_bytes(pair) } else { u16::from_le_bytes(pair) }
}

pub fn number(bytes: &[u8], at: usize, is_big: bool) -> u32 {
    let four = [bytes[at], bytes[at + 1], bytes[at + 2], bytes[at + 3]];
    if is_big { u32::from_be_bytes(four) } else { u32::from_le_bytes(four) }
}

pub fn long(bytes: &[u8], at: usize, is_big: bool) -> u64 {
    let (first, second) = (u64::from(number(bytes, at, is_big)), u64::from(number(bytes, at + 4, is_big)));
    if is_big { first << 32 | second } else { second << 32 | first }
}

impl Reader {
    pub fn new() -> Reader {
        Reader { stage: Stage::Start, interfaces: Vec::new(), held: Vec::new(), place: 0 }
    }

    /// How many bytes there are of a part that isn't whole.
    pub fn left(&self) -> usize {
        self.held.len()
    }

    /// Takes the next bytes, and hands out each frame that is whole then.
    pub fn take(&mut self, piece: &[u8], sink: &mut impl FnMut(Frame)) -> Result<(), Fault> {
        if self.held.is_empty() {
            let used = self.parts(piece, sink)?;
            self.held.extend_from_slice(&piece[used..]);
            return Ok(());
        }
        let mut held = std::mem::take(&mut self.held);
        held.extend_from_slice(piece);
        let used = self.parts(&held, sink)?;
        held.drain(..used);
        self.held = held;
        Ok(())
    }

    /// Takes all whole parts at the front: how many bytes they have.
    fn parts(&mut self, bytes: &[u8], sink: &mut impl FnMut(Frame)) -> Result<usize, Fault> {
        let mut used = 0;
        while let Some(length) = self.part(&bytes[used..], sink).map_err(|why| (why, self.place))? {
            used += length;
            self.place += length;
        }
        Ok(used)
    }

    fn part(&mut self, bytes: &[u8], sink: &mut impl FnMut(Frame)) -> Result<Option<usize>, u8> {
        match self.stage {
            Stage::Start => self.start(bytes, sink),
            Stage::Records { is_big, unit, link } => Ok(record(bytes, is_big, unit, link, sink)),
            Stage::Blocks { is_big } => self.block(bytes, is_big, sink),
            Stage::Lines => line(bytes, sink),
        }
    }

    fn start(&mut self, bytes: &[u8], sink: &mut impl FnMut(Frame)) -> Result<Option<usize>, u8> {
        let Some(first) = bytes.first_chunk::<4>() else { return Ok(None) };
        let (is_big, unit) = match first {
            b"\xd4\xc3\xb2\xa1" => (false, 1000),
            b"\xa1\xb2\xc3\xd4" => (true, 1000),
            b"\x4d\x3c\xb2\xa1" => (false, 1),
            b"\xa1\xb2\x3c\x4d" => (true, 1),
            b"\x0a\x0d\x0d\x0a" => {
                self.stage = Stage::Blocks { is_big: false };
                return self.block(bytes, false, sink);
            }
            _ if first.iter().all(|it| matches!(it, b'0'..=b'9' | b'a'..=b'f')) => {
                self.stage = Stage::Lines;
                return line(bytes, sink);
            }
            _ => return Err(1),
        };
        if bytes.len() < 24 {
            return Ok(None);
        }
        self.stage = Stage::Records { is_big, unit, link: number(bytes, 20, is_big) as u16 };
        Ok(Some(24))
    }

    fn block(&mut self, bytes: &[u8], is_big: bool, sink: &mut impl FnMut(Frame)) -> Result<Option<usize>, u8> {
        if bytes.len() < 12 {
            return Ok(None);
        }
        let is_section = bytes[..4] == *b"\x0a\x0d\x0d\x0a";
        let is_big = match &bytes[8..12] {
            _ if !is_section => is_big,
            b"\x4d\x3c\x2b\x1a" => false,
            b"\x1a\x2b\x3c\x4d" => true,
            _ => return Err(2),
        };
        let length = number(bytes, 4, is_big) as usize;
        if length < 12 || length % 4 != 0 {
            return Err(3);
        }
        if bytes.len() < length {
            return Ok(None);
        }
        if number(bytes, length - 4, is_big) as usize != length {
            return Err(4);
        }
        self.content(&bytes[..length - 4], is_big, sink)?;
        self.stage = Stage::Blocks { is_big };
        Ok(Some(length))
    }

    /// What a block says, without its last four bytes.
    fn content(&mut self, block: &[u8], is_big: bool, sink: &mut impl FnMut(Frame)) -> Result<(), u8> {
        let kind = number(block, 0, is_big);
        let least = match kind {
            0x0a0d_0d0a => 24,
            1 => 16,
            2 | 6 => 28,
            3 => 12,
            _ => return Ok(()),
        };
        if block.len() < least {
            return Err(3);
        }
        match kind {
            0x0a0d_0d0a => {
                self.interfaces.clear();
                if short(block, 12, is_big) != 1 { Err(5) } else { Ok(()) }
            }
            1 if block.len() > 65_623 => Err(6),
            1 if self.interfaces.len() == 65_536 => Err(7),
            1 => {
                self.interfaces.push(interface(block, is_big).ok_or(8)?);
                Ok(())
            }
            3 => {
                let it = self.interfaces.first().ok_or(9)?;
                let original = number(block, 8, is_big);
                let captured = if it.most == 0 { original } else { original.min(it.most) };
                let data = block[12..].get(..captured as usize).ok_or(10)?;
                sink(Frame { time: None, link: it.link, is_big, is_cut: captured < original, bytes: data });
                Ok(())
            }
            _ => {
                let at = if kind == 6 { number(block, 8, is_big) as usize } else { short(block, 8, is_big).into() };
                let it = self.interfaces.get(at).ok_or(9)?;
                let units = i128::from(number(block, 12, is_big)) << 32 | i128::from(number(block, 16, is_big));
                let (captured, original) = (number(block, 20, is_big), number(block, 24, is_big));
                let data = block[28..].get(..captured as usize).ok_or(10)?;
                let time = units * 1_000_000_000 / it.second + it.offset * 1_000_000_000;
                let time = u64::try_from(time).ok();
                sink(Frame { time, link: it.link, is_big, is_cut: captured < original, bytes: data });
                Ok(())
            }
        }
    }
}

fn record(bytes: &[u8], is_big: bool, unit: u64, link: u16, sink: &mut impl FnMut(Frame)) -> Option<usize> {
    let head = bytes.get(..16)?;
    let captured = number(head, 8, is_big);
    let data = bytes[16..].get(..captured as usize)?;
    let time = u64::from(number(head, 0, is_big)) * 1_000_000_000 + u64::from(number(head, 4, is_big)) * unit;
    sink(Frame { time: Some(time), link, is_big, is_cut: captured < number(head, 12, is_big), bytes: data });
    Some(16 + data.len())
}

/// An interface by its description, where its options are whole.
fn interface(block: &[u8], is_big: bool) -> Option<Interface> {
    let (link, most) = (short(block, 8, is_big), number(block, 12, is_big));
    let mut it = Interface { link, most, second: 1_000_000, offset: 0 };
    let mut options = &block[16..];
    while options.len() >= 4 {
        let (code, length) = (short(options, 0, is_big), usize::from(short(options, 2, is_big)));
        let value = options[4..].get(..length)?;
        match (code, length) {
            (0, _) => break,
            (9, 1) if value[0] < 128 => it.second = 10i128.checked_pow(value[0].into())?,
            (9, 1) => it.second = 1i128.checked_shl((value[0] - 128).into())?,
            (14, 8) => it.offset = (long(value, 0, is_big) as i64).into(),
            (9 | 14, _) => return None,
            _ => {}
        }
        options = options.get(4 + length.next_multiple_of(4)..)?;
    }
    Some(it)
}

fn line(bytes: &[u8], sink: &mut impl FnMut(Frame)) -> Result<Option<usize>, u8> {
    let Some(end) = bytes.iter().take(512).position(|it| *it == b'\n') else {
        return if bytes.len() < 512 { Ok(None) } else { Err(11) };
    };
    text(&bytes[..end], sink).ok_or(11)?;
    Ok(Some(end + 1))
}

fn parsed(word: &[u8], base: u32, limit: u64) -> Option<u64> {
    let is_one = !word.is_empty() && word.iter().all(|it| matches!(it, b'0'..=b'9' | b'a'..=b'f'));
    let number = u64::from_str_radix(str::from_utf8(word).ok().filter(|_| is_one)?, base).ok()?;
    (number < limit).then_some(number)
}

/// A line of usbmon's text, as the frame of link type 220 that says the same.
fn text(line: &[u8], sink: &mut impl FnMut(Frame)) -> Option<()> {
    let mut words = line.split(|it| *it == b' ');
    let number = parsed(words.next()?, 16, u64::MAX)?;
    let time = parsed(words.next()?, 10, 1 << 32)?;
    let [event @ (b'S' | b'C' | b'E')] = words.next()? else { return None };
    let mut address = words.next()?.split(|it| *it == b':');
    let [kind, direction @ (b'i' | b'o')] = address.next()? else { return None };
    let transfer = b"ZICB".iter().position(|it| it == kind)?;
    let (bus, device) = (parsed(address.next()?, 10, 65_536)?, parsed(address.next()?, 10, 256)?);
    let endpoint = parsed(address.next()?, 10, 16)?;
    let mut frame = [0; 96];
    frame[..8].copy_from_slice(&number.to_le_bytes());
    frame[8] = *event;
    frame[9] = transfer as u8;
    frame[10] = endpoint as u8 | if *direction == b'i' { 128 } else { 0 };
    frame[11] = device as u8;
    frame[12..14].copy_from_slice(&(bus as u16).to_le_bytes());
    frame[14] = b'-';
    match words.next()? {
        b"s" => {
            frame[14] = 0;
            for at in [40, 41] {
                frame[at] = parsed(words.next()?, 16, 256)? as u8;
            }
            for at in [42, 44, 46] {
                frame[at..at + 2].copy_from_slice(&(parsed(words.next()?, 16, 65_536)? as u16).to_le_bytes());
            }
        }
        [b'-', code @ ..] => {
            let code = parsed(code.split(|it| *it == b':').next()?, 10, (1 << 31) + 1)? as u32;
            frame[28..32].copy_from_slice(&code.wrapping_neg().to_le_bytes());
        }
        [tag] if !tag.is_ascii_digit() => {
            frame[14] = *tag;
            words.nth(4)?;
        }
        code => {
            let code = parsed(code.split(|it| *it == b':').next()?, 10, 1 << 31)? as u32;
            frame[28..32].copy_from_slice(&code.to_le_bytes());
        }
    }
    let (mut count, mut is_cut) = (0, false);
    if transfer != 0 {
        let length = parsed(words.next()?, 10, 1 << 32)? as u32;
        frame[32..36].copy_from_slice(&length.to_le_bytes());
        if words.next() == Some(b"=") {
            count = length.min(32) as usize;
            let mut digits = words.flatten();
            for at in 0..count {
                frame[64 + at] = parsed(&[*digits.next()?, *digits.next()?], 16, 256)? as u8;
            }
            frame[36..40].copy_from_slice(&(count as u32).to_le_bytes());
            is_cut = count < length as usize;
        }
    }
    sink(Frame { time: Some(time * 1000), link: 220, is_big: false, is_cut, bytes: &frame[..64 + count] });
    Some(())
}
