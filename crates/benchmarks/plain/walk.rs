//! The walk from a descriptor to the next one, as numbers: the struct of nozzlegorse.h, changed where it lies.

use crate::set::{ASSOCIATION, CONFIGURATION, ENDPOINT, INTERFACE, OTHER_SPEED, QUALIFIER, STRING};

const DEVICE: u8 = 1;

/// What a descriptor is, by its number in nozzlegorse.h.
#[derive(Clone, Copy, PartialEq, Eq)]
#[repr(u8)]
enum Role {
    Device = 1,
    Configuration,
    Interface,
    Endpoint,
    Association,
    Raw,
    Qualifier,
    Languages,
    Text,
}

/// A descriptor where it stands in its input, as `struct nzg_descriptor`.
#[derive(Clone, Default)]
pub struct Descriptor {
    pub place: usize,
    pub set_end: usize,
    pub languages_place: usize,
    pub strings: usize,
    pub main_sets: usize,
    pub other_sets: usize,
    pub set: usize,
    pub associations: usize,
    pub setting: usize,
    pub settings: usize,
    pub endpoint_number: usize,
    pub endpoints: usize,
    pub named: [u64; 4],
    pub language: u16,
    pub length: u8,
    pub kind: u8,
    pub role: u8,
    pub owner: u8,
    pub depth: u8,
    pub part: u8,
    pub interface: u8,
    pub alternate: u8,
    pub class: [u8; 3],
    pub endpoint: u8,
    pub index: u8,
    pub has_device: bool,
    pub has_languages: bool,
}

fn word(bytes: &[u8], at: usize) -> u16 {
    u16::from_le_bytes([bytes[at], bytes[at + 1]])
}

impl Descriptor {
    /// Goes to the next descriptor, or the first one. False where none can be: nothing changes then.
    pub fn next(&mut self, bytes: &[u8]) -> bool {
        if self.place > bytes.len() {
            return false;
        }
        let at = self.place + usize::from(self.length);
        let Some(&length) = bytes.get(at) else {
            return false;
        };
        let Some(d) = bytes.get(at..at + usize::from(length)).filter(|d| d.len() >= 2 && self.is_counted(at)) else {
            return false;
        };
        let left = self.set_end.saturating_sub(at);
        let role = match left {
            0 => self.outer_role(at, d),
            _ if d.len() <= left => self.inner_role(d),
            _ => None,
        };
        match role {
            Some(role) => self.enter(at, role, d, bytes),
            None => return false,
        }
        true
    }

    /// Whether there are no more of anything than bytes before.
    fn is_counted(&self, at: usize) -> bool {
        let of_set = [self.associations, self.settings, self.endpoints];
        let counts = [self.strings, self.main_sets, self.other_sets];
        counts.iter().chain(&of_set).all(|count| *count <= at)
    }

    fn outer_role(&self, at: usize, d: &[u8]) -> Option<Role> {
        let (holds, role) = match d[1] {
            DEVICE => (at == 0 && d.len() == 18, Role::Device),
            QUALIFIER => (self.has_device && d.len() == 10, Role::Qualifier),
            CONFIGURATION | OTHER_SPEED => (d.len() >= 9 && d.len() <= usize::from(word(d, 2)), Role::Configuration),
            STRING if self.has_languages => (d.len() % 2 == 0, Role::Text),
            STRING => (d.len() % 2 == 0 && d.len() >= 4, Role::Languages),
            _ => return None,
        };
        holds.then_some(role)
    }

    fn inner_role(&self, d: &[u8]) -> Option<Role> {
        let (holds, role) = match d[1] {
            CONFIGURATION | OTHER_SPEED => return None,
            INTERFACE => (d.len() >= 9, Role::Interface),
            ENDPOINT => (self.settings > 0 && d.len() >= 7, Role::Endpoint),
            ASSOCIATION => (d.len() >= 8, Role::Association),
            _ => return Some(Role::Raw),
        };
        Some(if holds { role } else { Role::Raw })
    }

    /// What a raw descriptor belongs to, by what came last.
    fn raw_depth(&self) -> u8 {
        match (self.role, self.depth) {
            (3, _) | (6, 3) => 3,
            (4, _) | (6, 4) => 4,
            _ => 2,
        }
    }

    fn enter(&mut self, at: usize, role: Role, d: &[u8], bytes: &[u8]) {
        let raw_depth = self.raw_depth();
        if !matches!(role, Role::Interface | Role::Endpoint | Role::Association | Role::Raw) {
            self.leave_set();
        }
        self.place = at;
        self.length = d[0];
        self.kind = d[1];
        self.role = role as u8;
        (self.owner, self.index, self.language) = (0, 0, 0);
        match role {
            Role::Device => {
                self.has_device = true;
                self.class = [d[4], d[5], d[6]];
                d[14..17].iter().for_each(|index| self.name(*index));
            }
            Role::Configuration => self.enter_set(at, d),
            Role::Interface => self.enter_interface(d),
            Role::Endpoint => {
                self.endpoint_number = self.endpoints;
                self.endpoints += 1;
                self.endpoint = d[2];
                self.depth = 3;
            }
            Role::Association => {
                self.associations += 1;
                self.owner = self.holder();
                self.depth = 2;
                self.name(d[7]);
            }
            Role::Raw => {
                self.owner = self.holder();
                self.depth = raw_depth;
            }
            Role::Qualifier => self.part = 2,
            Role::Languages => {
                self.languages_place = at;
                self.has_languages = true;
            }
            Role::Text => {
                (self.index, self.language) = self.string(bytes);
                self.strings += 1;
            }
        }
    }

    /// What an association or a raw descriptor belongs to.
    fn holder(&self) -> u8 {
        match (self.settings, self.endpoints) {
            (0, _) => Role::Configuration as u8,
            (_, 0) => Role::Interface as u8,
            _ => Role::Endpoint as u8,
        }
    }

    /// What is outside of sets has none of these numbers.
    fn leave_set(&mut self) {
        self.set_end = 0;
        self.set = 0;
        self.associations = 0;
        self.settings = 0;
        self.enter_setting(0, [0; 2], [0; 3]);
        self.depth = 0;
        self.part = 0;
    }

    fn enter_setting(&mut self, number: usize, [interface, alternate]: [u8; 2], class: [u8; 3]) {
        self.setting = number;
        (self.interface, self.alternate, self.class) = (interface, alternate, class);
        (self.endpoint_number, self.endpoints, self.endpoint) = (0, 0, 0);
    }

    fn enter_set(&mut self, at: usize, d: &[u8]) {
        let is_other = d[1] == OTHER_SPEED;
        let sets = if is_other { &mut self.other_sets } else { &mut self.main_sets };
        self.set = *sets;
        *sets += 1;
        self.set_end = at + usize::from(word(d, 2));
        self.part = if is_other { 2 } else { 1 };
        self.depth = 1;
        self.name(d[6]);
    }

    fn enter_interface(&mut self, d: &[u8]) {
        self.enter_setting(self.settings, [d[2], d[3]], [d[5], d[6], d[7]]);
        self.settings += 1;
        self.depth = 2;
        self.name(d[8]);
    }

    fn name(&mut self, index: u8) {
        self.named[usize::from(index / 64)] |= 1 << (index % 64);
    }

    /// The index and the language of the next string: they are language by language, one for each index that is named.
    fn string(&self, bytes: &[u8]) -> (u8, u16) {
        // No string has index 0.
        let named = [self.named[0] & !1, self.named[1], self.named[2], self.named[3]];
        let count = named.iter().map(|word| word.count_ones() as usize).sum::<usize>();
        if count == 0 {
            return (0, 0);
        }
        let list = bytes.get(self.languages_place..).unwrap_or(&[]);
        let list = &list[..list.len().min(list.first().copied().unwrap_or(0).into())];
        let at = 2 + 2 * (self.strings / count);
        let language = if at < 254 { [byte_at(list, at), byte_at(list, at + 1)] } else { [0; 2] };
        (index_of(&named, self.strings % count), u16::from_le_bytes(language))
    }
}

fn byte_at(bytes: &[u8], at: usize) -> u8 {
    bytes.get(at).copied().unwrap_or(0)
}

/// The place of the bit that so many come before.
fn index_of(words: &[u64; 4], number: usize) -> u8 {
    let mut before = number;
    for (place, word) in (0u8..).zip(words) {
        let count = word.count_ones() as usize;
        if before < count {
            let rest = (0..before).fold(*word, |rest, _| rest & (rest - 1));
            return 64 * place + rest.trailing_zeros() as u8;
        }
        before -= count;
    }
    0
}

fn add(sum: u64, number: u64) -> u64 {
    (sum.rotate_left(5) ^ number).wrapping_mul(0x9e37_79b9_7f4a_7c15)
}

/// All numbers as one.
fn add_all(sum: u64, d: &Descriptor) -> u64 {
    let counts = [d.place, d.languages_place, d.strings, d.main_sets, d.other_sets];
    let of_set = [d.set, d.associations, d.setting, d.settings, d.endpoint_number, d.endpoints];
    let [class, subclass, protocol] = d.class;
    let bytes = [d.length, d.kind, d.role, d.owner, d.depth, d.part, d.interface, d.alternate];
    let more = [class, subclass, protocol, d.endpoint, d.index, d.has_device.into(), d.has_languages.into()];
    let wide = counts.iter().chain(&of_set).map(|it| *it as u64).chain(d.named).chain([u64::from(d.language)]);
    wide.chain(bytes.iter().chain(&more).map(|it| u64::from(*it))).fold(sum, add)
}

/// How many descriptors a walk has, and the sum of all their numbers.
pub fn sum_of(bytes: &[u8]) -> (usize, u64) {
    let (mut d, mut count, mut sum) = (Descriptor::default(), 0, 0);
    while d.next(bytes) {
        count += 1;
        sum = add_all(sum, &d);
    }
    (count, sum)
}
