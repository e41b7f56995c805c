//! The rules of chapter 9: all findings of a file, in order.

use crate::explain::Input;
use crate::file::DescriptorFile;
use crate::numbers::Numbers;
use crate::set::{CONFIGURATION, Configuration, Extra, Setting};

#[derive(Clone, Copy, Debug, PartialEq, Eq, PartialOrd, Ord)]
#[repr(u8)]
pub enum Part {
    Device,
    Main,
    Other,
}

/// In the order in which findings are told.
#[derive(Clone, Copy, Debug, PartialEq, Eq, PartialOrd, Ord)]
pub struct Finding {
    pub rule: u8,
    pub part: Part,
    pub set: u8,
    pub setting: u16,
    pub endpoint: u16,
}

pub const RULES: usize = 13;

fn is_wrong_packet(packet: u8) -> bool {
    !matches!(packet, 8 | 16 | 32 | 64)
}

fn has_lone_subclass(class: [u8; 3]) -> bool {
    class[0] == 0 && class[1] != 0
}

/// An interface of the set in work: its first setting, and its alternate settings so far.
struct Interface {
    first: usize,
    alternates: Numbers,
}

/// What a set has so far: interface numbers, endpoint addresses, and those of several interfaces.
#[derive(Default)]
struct Seen {
    numbers: Numbers,
    addresses: Numbers,
    shared: Numbers,
}

/// One pass over the settings of each set finds everything, those of each rule in their order. The tables are made once: an
/// entry of `places` or `users` counts only where the set in work has that number or address, so that none is cleared.
struct Check {
    found: Vec<Finding>,
    part: Part,
    set: u8,
    /// Where each interface number is among the interfaces.
    places: [u8; 256],
    interfaces: Vec<Interface>,
    /// The number of the first interface that has each endpoint address.
    users: [u8; 256],
    /// bFirstInterface and bInterfaceCount of each association.
    associations: Vec<[u8; 2]>,
}

impl Check {
    fn new() -> Check {
        Check {
            found: Vec::new(),
            part: Part::Device,
            set: 0,
            places: [0; 256],
            interfaces: Vec::new(),
            users: [0; 256],
            associations: Vec::new(),
        }
    }

    fn tell_if(&mut self, holds: bool, rule: u8, setting: usize, endpoint: usize) {
        if holds {
            let (setting, endpoint) = (setting as u16, endpoint as u16);
            self.found.push(Finding { rule, part: self.part, set: self.set, setting, endpoint });
        }
    }

    fn note(&mut self, extras: &[Extra]) {
        for extra in extras {
            if let Extra::Association(it) = extra {
                self.associations.push([it.fields[0], it.fields[1]]);
            }
        }
    }

    /// V3.
    #[inline(always)]
    fn interface(&mut self, seen: &mut Seen, place: usize, setting: &Setting) {
        if seen.numbers.add(setting.number) {
            self.places[usize::from(setting.number)] = self.interfaces.len() as u8;
            self.interfaces.push(Interface { first: place, alternates: Numbers::default() });
        }
        let interface = &mut self.interfaces[usize::from(self.places[usize::from(setting.number)])];
        let is_new = interface.alternates.add(setting.alternate);
        self.tell_if(!is_new, 3, place, 0);
    }

    /// V5 to V8 and V12.
    #[inline(always)]
    fn endpoints(&mut self, seen: &mut Seen, place: usize, setting: &Setting) {
        self.tell_if(usize::from(setting.declared_endpoints) != setting.endpoints.len(), 5, place, 0);
        let mut here = Numbers::default();
        for (number, endpoint) in setting.endpoints.iter().enumerate() {
            let address = endpoint.address;
            self.tell_if(address & 0x0f == 0 || address & 0x70 != 0, 6, place, number);
            self.tell_if(!here.add(address), 7, place, number);
            let user = &mut self.users[usize::from(address)];
            if seen.addresses.add(address) {
                *user = setting.number;
            } else if *user != setting.number || seen.shared.has(address) {
                seen.shared.add(address);
                self.tell_if(true, 8, place, number);
            }
            self.tell_if(endpoint.max_packet & 0xe000 != 0, 12, place, number);
            self.note(&endpoint.extras);
        }
    }

    /// V1, V2, V4, V9 and V13, after all settings.
    #[inline(always)]
    fn whole_set(&mut self, seen: &Seen, set: &Configuration) {
        let count = self.interfaces.len();
        self.tell_if(usize::from(set.declared_interfaces) != count, 1, 0, 0);
        self.tell_if(seen.numbers.next_absent(0) != count, 2, 0, 0);
        for number in 0..count {
            let Interface { first, alternates } = &self.interfaces[number];
            let (first, has_default) = (*first, alternates.has(0));
            self.tell_if(!has_default, 4, first, 0);
        }
        self.tell_if(set.attributes & 0x80 == 0 || set.attributes & 0x1f != 0, 9, 0, 0);
        for place in 0..self.associations.len() {
            let [first, count] = self.associations[place];
            let end = usize::from(first) + usize::from(count);
            self.tell_if(count == 0 || end > seen.numbers.next_absent(first), 13, place, 0);
        }
    }

    fn set(&mut self, set: &Configuration) {
        self.interfaces.clear();
        self.associations.clear();
        let mut seen = Seen::default();
        self.note(&set.extras);
        for (place, setting) in set.settings.iter().enumerate() {
            self.interface(&mut seen, place, setting);
            self.note(&setting.extras);
            self.endpoints(&mut seen, place, setting);
        }
        self.whole_set(&seen, set);
    }

    fn sets(&mut self, part: Part, sets: &[Configuration]) {
        (self.part, self.set) = (part, 0);
        self.tell_if(sets.is_empty(), 10, 0, 0);
        let mut values = Numbers::default();
        values.add(0);
        for (place, set) in sets.iter().enumerate() {
            self.set = place as u8;
            let is_new = values.add(set.value);
            self.tell_if(!is_new, 10, 0, 0);
            self.set(set);
        }
    }

    fn file(&mut self, file: &DescriptorFile, is_wrong_packet0: bool) {
        self.tell_if(is_wrong_packet0 || has_lone_subclass(file.device.class), 11, 0, 0);
        self.sets(Part::Main, &file.sets);
        if let Some(other) = &file.other {
            let it = &other.qualifier;
            let is_wrong = is_wrong_packet(it.packet) || has_lone_subclass(it.class) || it.reserved != 0;
            (self.part, self.set) = (Part::Other, 0);
            self.tell_if(is_wrong, 11, 0, 0);
            self.sets(Part::Other, &other.sets);
        }
    }
}

/// Where the findings of each rule begin, once they are in order.
pub fn starts(found: &[Finding]) -> [usize; RULES] {
    let mut counts = [0; RULES];
    for it in found {
        counts[usize::from(it.rule) - 1] += 1;
    }
    let mut sum = 0;
    counts.map(|count| {
        sum += count;
        sum - count
    })
}

/// The findings in the order of the rules, by a counting sort.
fn by_rule(found: Vec<Finding>) -> Vec<Finding> {
    if found.is_sorted_by_key(|it| it.rule) {
        return found;
    }
    let (mut places, mut sorted) = (starts(&found), found.clone());
    for it in found {
        let place = &mut places[usize::from(it.rule) - 1];
        sorted[*place] = it;
        *place += 1;
    }
    sorted
}

/// The findings of an input that may be a set alone or a dump.
pub fn check_input(input: &Input) -> Vec<Finding> {
    let mut check = Check::new();
    match input {
        Input::File(file) => check.file(file, is_wrong_packet(file.device.packet)),
        Input::Dump(file) if file.device.usb >= 0x0300 => check.file(file, file.device.packet != 9),
        Input::Dump(file) => check.file(file, is_wrong_packet(file.device.packet)),
        Input::Set(set) => {
            let part = if set.kind == CONFIGURATION { Part::Main } else { Part::Other };
            check.sets(part, std::slice::from_ref(set));
        }
    }
    by_rule(check.found)
}

pub fn check(file: &DescriptorFile) -> Vec<Finding> {
    let mut check = Check::new();
    check.file(file, is_wrong_packet(file.device.packet));
    by_rule(check.found)
}
