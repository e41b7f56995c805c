//! What USB 2.0 forbids in control transfers, by what each device said before.

use crate::frames::short;

#[derive(Clone, Copy, PartialEq)]
pub enum Ending {
    Unseen,
    Done,
    Stall,
    Failed(u32),
    Refused(u32),
}

/// The number of a bus and an address.
pub type Device = (u16, u16);

pub struct Transfer {
    pub device: Device,
    pub time: Option<u64>,
    pub setup: [u8; 8],
    pub data: Vec<u8>,
    pub length: u32,
    pub is_cut: bool,
    pub ending: Ending,
}

impl Transfer {
    pub fn value(&self) -> u16 {
        short(&self.setup, 2, false)
    }

    pub fn index(&self) -> u16 {
        short(&self.setup, 4, false)
    }

    pub fn asked(&self) -> u16 {
        short(&self.setup, 6, false)
    }

    pub fn is_set_address(&self) -> bool {
        self.setup[..2] == [0, 5]
    }

    fn is_get_descriptor(&self) -> bool {
        self.setup[..2] == [0x80, 6]
    }

    /// Whether bytes of the descriptor came that was asked for.
    fn gives(&self) -> bool {
        self.is_get_descriptor()
            && self.ending == Ending::Done
            && !self.is_cut
            && self.data.len() > 1
            && self.data[1] == self.setup[3]
    }

    /// Whether all of it came.
    pub fn is_reading(&self) -> bool {
        self.gives() && self.data.len() == self.full_length()
    }

    fn full_length(&self) -> usize {
        let is_set = matches!(self.setup[3], 2 | 7);
        if is_set {
            usize::from(byte(&self.data, 2)) | usize::from(byte(&self.data, 3)) << 8
        } else {
            byte(&self.data, 0).into()
        }
    }
}

pub fn byte(data: &[u8], at: usize) -> u8 {
    data.get(at).copied().unwrap_or(0)
}

#[derive(Default)]
pub struct Conversations {
    said: Vec<((Device, u16, u16), Vec<u8>)>,
}

/// A finding by its number, a bit of what `take` answers.
pub const WORDS: [&str; 9] = [
    "more bytes than wLength (8.5.3, 9.3.5)",
    "a descriptor of another type than was asked for (9.4.3)",
    "neither all bytes of the descriptor nor wLength bytes (9.4.3)",
    "the same descriptor had other bytes before (9.4.3, 9.6)",
    "the device has it: it gave bytes of it (9.4.3)",
    "the device has it: all devices do (9.4.3)",
    "the device has it: bNumConfigurations counts it (9.6.1, 9.6.2)",
    "the device has it: a descriptor names it (9.6.7)",
    "the device has an address, so it answers (9.4.5)",
];

impl Conversations {
    fn of(&self, device: Device, value: u16, index: u16) -> &[u8] {
        let found = self.said.iter().find(|(key, _)| *key == (device, value, index));
        found.map_or(&[], |(_, data)| data)
    }

    /// What is found in a transfer.
    pub fn take(&mut self, it: &Transfer) -> u16 {
        let found = self.findings(it);
        let (bus, device) = it.device;
        let resets = device == 0 || it.setup[..4] == [0x23, 3, 4, 0];
        let sets = matches!(it.setup[..2], [0, 5 | 7]);
        if resets || sets {
            self.said.retain(|((of, ..), _)| of.0 != bus || !(resets || of.1 == device));
        }
        if it.gives() && !resets {
            self.keep(it);
        }
        found
    }

    fn keep(&mut self, it: &Transfer) {
        let key = (it.device, it.value(), it.index());
        match self.said.iter_mut().find(|(of, _)| *of == key) {
            Some((_, data)) if data.len() > it.data.len() => data[..it.data.len()].copy_from_slice(&it.data),
            Some((_, data)) => data.clone_from(&it.data),
            None => self.said.push((key, it.data.clone())),
        }
    }

    fn findings(&self, it: &Transfer) -> u16 {
        let mut found =
            u16::from(!matches!(it.ending, Ending::Unseen | Ending::Refused(_)) && it.length > it.asked().into());
        let is_status = it.setup == [0x80, 0, 0, 0, 0, 0, 2, 0] && it.device.1 > 0;
        found |= u16::from(it.ending == Ending::Stall && is_status) << 8;
        if !it.is_get_descriptor() {
            return found;
        }
        let before = self.of(it.device, it.value(), it.index());
        match it.ending {
            Ending::Done => found | self.found_in_bytes(it, before),
            Ending::Stall if !before.is_empty() => found | 1 << 4,
            Ending::Stall => found | self.found_in_refusal(it),
            _ => found,
        }
    }

    fn found_in_bytes(&self, it: &Transfer, before: &[u8]) -> u16 {
        if it.is_cut || it.data.len() < 2 {
            return 0;
        }
        let kind = it.setup[3];
        if it.data[1] != kind {
            return u16::from(matches!(kind, 1 | 2 | 3 | 6 | 7)) << 1;
        }
        let is_long = it.data.len() >= if matches!(kind, 2 | 7) { 4 } else { 1 };
        let is_first = kind == 1 && it.length == byte(&it.data, 7).into();
        let is_other = matches!(kind, 1 | 2 | 3 | 6 | 7)
            && is_long
            && it.length as usize != it.full_length().min(it.asked().into())
            && !is_first;
        let differs = it.data.iter().zip(before).any(|(one, other)| one != other);
        u16::from(is_other) << 2 | u16::from(differs) << 3
    }

    fn found_in_refusal(&self, it: &Transfer) -> u16 {
        let (value, index, kind, at) = (it.value(), it.index(), it.setup[3], it.setup[2]);
        let said = |value| self.of(it.device, value, 0);
        let is_required = matches!(value, 0x100 | 0x200) && index == 0;
        let is_counted =
            index == 0 && (kind == 2 && at > 0 && at < byte(said(0x100), 17) || kind == 7 && at < byte(said(0x600), 8));
        let is_named = if value == 0x300 {
            index == 0 && (14..17).any(|at| byte(said(0x100), at) > 0)
        } else {
            kind == 3 && self.is_named(it.device, at, index)
        };
        u16::from(is_required) << 5 | u16::from(is_counted) << 6 | u16::from(is_named) << 7
    }

    /// Whether a descriptor names this string, in a language of the list.
    fn is_named(&self, device: Device, number: u8, language: u16) -> bool {
        let languages = self.of(device, 0x300, 0);
        let is_listed = languages.len() > 2 && languages[2..].chunks_exact(2).any(|it| *it == language.to_le_bytes());
        let descriptor = self.of(device, 0x100, 0);
        is_listed
            && ((14..17).any(|at| byte(descriptor, at) == number)
                || (0..u16::from(byte(descriptor, 17))).any(|at| is_in(self.of(device, 0x200 + at, 0), number)))
    }
}

/// Whether a set names a string.
fn is_in(mut set: &[u8], number: u8) -> bool {
    while byte(set, 0) > 1 {
        let (one, rest) = set.split_at(set.len().min(set[0].into()));
        let index = match byte(one, 1) {
            2 | 7 => byte(one, 6),
            4 => byte(one, 8),
            11 => byte(one, 7),
            _ => 0,
        };
        if index == number {
            return true;
        }
        set = rest;
    }
    false
}
