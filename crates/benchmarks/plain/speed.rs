//! The speed of a set, by what its descriptors show, and what can't be at a speed.

use crate::set::{ENDPOINT, INTERFACE};

#[derive(Clone, Copy, PartialEq, Eq)]
pub enum Speed {
    Low,
    Full,
    High,
    Super,
    LowOrFull,
    FullOrHigh,
}

impl Speed {
    pub fn words(self) -> &'static str {
        match self {
            Speed::Low => "low speed",
            Speed::Full => "full speed",
            Speed::High => "high speed",
            Speed::Super => "SuperSpeed",
            Speed::LowOrFull => "low or full speed",
            Speed::FullOrHigh => "full or high speed",
        }
    }

    /// The speeds that may be meant.
    fn meant(self) -> &'static [Speed] {
        match self {
            Speed::Low => &[Speed::Low],
            Speed::Full => &[Speed::Full],
            Speed::High => &[Speed::High],
            Speed::Super => &[Speed::Super],
            Speed::LowOrFull => &[Speed::Low, Speed::Full],
            Speed::FullOrHigh => &[Speed::Full, Speed::High],
        }
    }

    pub fn may_be_high(self) -> bool {
        matches!(self, Speed::High | Speed::FullOrHigh)
    }
}

/// The descriptors that bytes have, each with its place.
pub fn cut(bytes: &[u8]) -> impl Iterator<Item = (usize, &[u8])> + Clone {
    let mut at = 0;
    std::iter::from_fn(move || {
        let len = usize::from(*bytes.get(at)?);
        let item = bytes.get(at..at + len).filter(|it| it.len() >= 2)?;
        at += len;
        Some((at - len, item))
    })
}

/// What is known of a set beside its own descriptors: its speed, and what the device or the qualifier before it says.
#[derive(Clone, Copy, Default)]
pub struct Known {
    pub speed: Option<Speed>,
    pub packet: Option<u8>,
    pub is_hub: bool,
    /// Whether the device is of a release from 3.0 on.
    pub is_newer: bool,
    /// Whether the device has another speed, and which.
    pub has_other: bool,
    pub other: Option<Speed>,
}

/// Whether size and bits 12 to 11 of wMaxPacketSize are of high speed alone, as table 9-14 has them together.
fn proves_high(kind: u8, size: u16, more: u16) -> bool {
    match kind {
        1 => size > 1023 || matches!((more, size), (1, 513..=1024) | (2, 683..=1024)),
        2 => size == 512,
        3 => size > 64,
        _ => false,
    }
}

pub fn speed_of(bytes: &[u8], known: Known) -> Speed {
    let (mut is_super, mut is_high, mut is_full, mut is_slow) = (false, false, false, false);
    let mut is_above_low = known.has_other || known.is_hub || known.packet.is_some_and(|it| it > 8);
    for (_, item) in cut(bytes) {
        match *item {
            [_, 0x30, ..] => is_super = true,
            [_, INTERFACE, _, _, _, class, ..] => is_above_low |= class == 9,
            [_, ENDPOINT, _, attributes, low, high, interval, ..] => {
                let whole = u16::from_le_bytes([low, high]);
                let (size, kind) = (whole & 0x7ff, attributes & 3);
                is_high |= proves_high(kind, size, whole >> 11 & 3);
                is_full |= kind == 2 && size <= 64;
                is_slow |= kind == 3 && interval > 16;
                is_above_low |= kind == 1 || kind == 2 || size > 8;
            }
            _ => {}
        }
    }
    let speed = match (known.speed, known.packet, known.other) {
        (Some(speed), _, _) => speed,
        (None, Some(packet), _) if packet != 64 => Speed::LowOrFull,
        (None, None, _) if is_super => Speed::Super,
        _ if is_high => Speed::High,
        _ if is_full => Speed::Full,
        (_, _, Some(Speed::Full)) => Speed::High,
        (_, _, Some(Speed::High)) => Speed::Full,
        _ if known.is_newer => Speed::High,
        _ if is_slow => Speed::LowOrFull,
        _ => Speed::FullOrHigh,
    };
    if speed == Speed::LowOrFull && is_above_low { Speed::Full } else { speed }
}

/// The speed of one side of a device of two speeds, by its own descriptors alone.
pub fn side_of(bytes: &[u8], known: Known) -> Option<Speed> {
    let (mut is_high, mut is_full) = (false, false);
    for (_, item) in cut(bytes) {
        if let [_, ENDPOINT, _, attributes, low, high, _, ..] = *item {
            let whole = u16::from_le_bytes([low, high]);
            let (size, kind) = (whole & 0x7ff, attributes & 3);
            is_high |= proves_high(kind, size, whole >> 11 & 3);
            is_full |= kind == 2 && size <= 64;
        }
    }
    match known.speed {
        Some(Speed::LowOrFull) => Some(Speed::Full),
        Some(speed) => Some(speed),
        None if is_high => Some(Speed::High),
        None if is_full || known.packet != Some(64) => Some(Speed::Full),
        None => None,
    }
}

/// The sizes of packets of a transfer type at a speed, if only some are right: those listed, or up to the last of two.
pub enum Right {
    All,
    UpTo(u16),
    These(&'static [u16]),
}

fn sizes_at(kind: u8, speed: Speed) -> Right {
    const SMALL: &[u16] = &[8, 16, 32, 64];
    match (kind, speed) {
        (0, Speed::Low) => Right::These(&[8]),
        (0, Speed::Full) | (2, Speed::Full) => Right::These(SMALL),
        (0, Speed::High) => Right::These(&[64]),
        (1, Speed::Low) | (2, Speed::Low) => Right::These(&[]),
        (1, Speed::Full) => Right::UpTo(1023),
        (1, Speed::High) | (3, Speed::High) => Right::UpTo(1024),
        (2, Speed::High) => Right::These(&[512]),
        (3, Speed::Low) => Right::UpTo(8),
        (3, Speed::Full) => Right::UpTo(64),
        _ => Right::All,
    }
}

/// The sizes that are right where this one isn't, at any speed that may be meant.
pub fn right_sizes(kind: u8, size: u16, speed: Speed) -> Option<Vec<u16>> {
    let mut listed = Vec::new();
    let mut most = None;
    for one in speed.meant() {
        match sizes_at(kind, *one) {
            Right::All => return None,
            Right::UpTo(last) if size <= last => return None,
            Right::UpTo(last) => most = most.max(Some(last)),
            Right::These(sizes) if sizes.contains(&size) => return None,
            Right::These(sizes) => listed.extend_from_slice(sizes),
        }
    }
    match most {
        Some(last) => listed = vec![0, last],
        None => {
            listed.sort_unstable();
            listed.dedup();
        }
    }
    Some(listed)
}

/// The first and the last interval that is right where this one isn't, at any speed that may be meant.
pub fn right_intervals(kind: u8, interval: u8, speed: Speed) -> Option<(u8, u8)> {
    let mut right: Option<(u8, u8)> = None;
    for one in speed.meant() {
        let (first, last) = match (kind, one) {
            (1, Speed::Full | Speed::High | Speed::Super) => (1, 16),
            (3, Speed::High | Speed::Super) => (1, 16),
            (3, Speed::Low) => (10, 255),
            (3, Speed::Full) => (1, 255),
            _ => return None,
        };
        if (first..=last).contains(&interval) {
            return None;
        }
        right = Some(right.map_or((first, last), |(a, b)| (a.min(first), b.max(last))));
    }
    right
}
