//! Explanations: in words what the descriptors of a whole input mean, with findings, remarks and fields.

use crate::file::{DescriptorFile, named};
use crate::names::{Field, Form, Row, bit_names, class_name, row_of, terminal_name};
use crate::rules::{Finding, Part, RULES, check_input, starts};
use crate::set::{ASSOCIATION, CONFIGURATION, Configuration, ENDPOINT, INTERFACE, OTHER_SPEED};
use crate::speed::{Known, Speed, cut, right_intervals, right_sizes, side_of, speed_of};
use crate::text::Text;

pub enum Input {
    Set(Configuration),
    File(DescriptorFile),
    Dump(DescriptorFile),
}

const TRANSFERS: [&str; 4] = ["control", "isochronous", "bulk", "interrupt"];

fn word(bytes: &[u8], at: usize) -> u16 {
    u16::from_le_bytes([bytes[at], bytes[at + 1]])
}

fn put_class_name(text: &mut Text, class: u8) {
    match class_name(&[class]) {
        Some(name) => text.put(name),
        None => {
            text.put("class ");
            text.byte(class);
        }
    }
}

fn put_class(text: &mut Text, codes: &[u8]) {
    put_class_name(text, codes[0]);
    for count in 2..=3 {
        if let Some(name) = class_name(&codes[..count]) {
            text.put(" / ");
            text.put(name);
        }
    }
}

/// The same of an interface or a function, with what class 00 is called.
fn put_function_class(text: &mut Text, codes: &[u8], zero: &str) {
    if codes[0] == 0 {
        text.put(zero);
    } else {
        put_class(text, codes);
    }
}

fn put_end(text: &mut Text, address: u8, attributes: u8) {
    text.put("EP ");
    text.number(usize::from(address & 15));
    if attributes & 3 != 0 {
        text.put(if address & 0x80 != 0 { " IN" } else { " OUT" });
    }
}

fn put_attributes(text: &mut Text, attributes: u8) {
    text.put(TRANSFERS[usize::from(attributes & 3)]);
    if attributes & 3 == 1 {
        let kinds = [", no synchronization", ", asynchronous", ", adaptive", ", synchronous"];
        let usages = [", data", ", feedback", ", implicit feedback data", ", reserved usage"];
        text.put(kinds[usize::from(attributes >> 2 & 3)]);
        text.put(usages[usize::from(attributes >> 4 & 3)]);
    }
}

fn put_size(text: &mut Text, attributes: u8, size: u16, speed: Speed) {
    let (bytes, more) = (usize::from(size & 0x7ff), usize::from(size >> 11 & 3));
    let is_counted = (more == 1 && (513..=1024).contains(&bytes)) || (more == 2 && (683..=1024).contains(&bytes));
    let is_high = speed == Speed::High || (speed == Speed::FullOrHigh && is_counted);
    let is_periodic = attributes & 1 == 1 && is_high;
    if is_periodic && (more == 1 || more == 2) {
        text.number(more + 1);
        text.put(" x ");
        text.count(bytes, "byte");
        text.put(" a microframe");
        return;
    }
    text.count(bytes, "byte");
    if is_periodic && more == 3 {
        text.put(", reserved multiple");
    }
}

fn put_power_of_two(text: &mut Text, interval: u8, unit: usize) {
    if !(1..=16).contains(&interval) {
        return text.put("out of range");
    }
    let time = unit << (interval - 1);
    text.number(if time < 1000 { time } else { time / 1000 });
    text.put(if time < 1000 { " us" } else { " ms" });
}

/// The interval of a periodic endpoint.
fn put_interval(text: &mut Text, attributes: u8, interval: u8, speed: Speed) {
    if speed != Speed::High && speed != Speed::Super {
        match (attributes & 3, interval) {
            (1, _) => put_power_of_two(text, interval, 1000),
            (_, 0) => text.put("out of range"),
            _ => {
                text.number(usize::from(interval));
                text.put(" ms");
            }
        }
        if speed != Speed::FullOrHigh {
            return;
        }
        text.put("; at high speed ");
    }
    put_power_of_two(text, interval, 125);
}

fn put_milliseconds(text: &mut Text, units: u32) {
    text.number((units / 10_000) as usize);
    let mut parts = units % 10_000;
    if parts != 0 {
        let mut digits = 4;
        while parts % 10 == 0 {
            parts /= 10;
            digits -= 1;
        }
        text.put(".");
        text.put(&"000"[..digits - parts.ilog10() as usize - 1]);
        text.number(parts as usize);
    }
    text.put(" ms");
}

/// Puts the causes that hold.
fn put_causes(text: &mut Text, causes: &[(bool, &str)]) {
    for (number, (_, words)) in causes.iter().filter(|(holds, _)| *holds).enumerate() {
        text.put(if number > 0 { ", and " } else { "" });
        text.put(words);
    }
}

fn packet_cause(packet: u8, is_super: bool, is_dump: bool) -> (bool, &'static str) {
    match packet {
        _ if is_super && is_dump => (packet != 9, "bMaxPacketSize0 isn't 9"),
        9 if is_super => (true, "bMaxPacketSize0 is 9, as SuperSpeed has it; USB 2.0 has 8, 16, 32 or 64"),
        _ => (!matches!(packet, 8 | 16 | 32 | 64), "bMaxPacketSize0 isn't 8, 16, 32 or 64"),
    }
}

fn subclass_cause(codes: &[u8]) -> (bool, &'static str) {
    (codes[0] == 0 && codes[1] != 0, "there is a subclass without a class")
}

/// Where the header of an interface's class descriptors has wTotalLength.
fn total_length_at(codes: [u8; 3]) -> Option<usize> {
    match codes {
        [1, 1, 0x30] => None,
        [1, 1, 0x20] => Some(6),
        [1 | 14, 1, _] => Some(5),
        _ => None,
    }
}

/// A place in a set, and what of the set is needed there.
#[derive(Clone, Copy)]
struct Place<'a> {
    part: Part,
    set: usize,
    setting: usize,
    endpoint: usize,
    speed: Speed,
    codes: Option<[u8; 3]>,
    /// The number and the alternate setting of the interface.
    interface: Option<[u8; 2]>,
    /// The associations of the set, and its descriptors after this one.
    associations: &'a [&'a [u8]],
    later: &'a [u8],
    /// Where the first and the last interface of each number start in the set; they are nowhere at 0.
    first: &'a [u16; 256],
    last: &'a [u16; 256],
    start: usize,
}

impl Place<'_> {
    fn has(&self, number: u8) -> bool {
        self.last[usize::from(number)] > 0
    }

    fn came(&self, number: usize) -> bool {
        self.first.get(number).is_some_and(|it| *it > 0 && usize::from(*it) < self.start)
    }

    fn follows(&self, number: u8) -> bool {
        usize::from(self.last[usize::from(number)]) > self.start
    }
}

struct Explainer<'a> {
    bytes: &'a [u8],
    is_dump: bool,
    text: Text,
    found: Vec<Finding>,
    /// The next finding of each rule.
    due: [usize; RULES],
    /// The strings of the first language by their indices.
    names: Vec<Option<&'a [u16]>>,
    device: Option<&'a [u8]>,
    qualifier: Option<&'a [u8]>,
    /// The speeds of the device's own sets and of those after the qualifier, if there is one.
    own: Option<Speed>,
    other: Option<Speed>,
    /// The same by the descriptors of each side alone.
    sides: [Option<Speed>; 2],
    sets: [usize; 2],
    /// How many remarks were made.
    remarks: usize,
}

/// Of a device or a qualifier.
fn is_high_hub(item: &[u8]) -> bool {
    item[4] == 9 && matches!(item[6], 1 | 2)
}

impl<'a> Explainer<'a> {
    fn heading(&mut self, depth: usize) -> &mut Text {
        self.text.spaces(2 * depth);
        &mut self.text
    }

    fn end_heading(&mut self, at: usize, len: usize) {
        self.text.put(" @");
        self.text.number(at);
        self.text.put("+");
        self.text.number(len);
        self.text.end();
    }

    /// Begins the line of a finding at this place, if there is one.
    fn finds(&mut self, depth: usize, rule: usize, place: (Part, usize, usize, usize)) -> bool {
        let Some(next) = self.found.get(self.due[rule - 1]) else {
            return false;
        };
        let its = (next.part, usize::from(next.set), usize::from(next.setting), usize::from(next.endpoint));
        if usize::from(next.rule) != rule || its != place {
            return false;
        }
        self.due[rule - 1] += 1;
        self.text.spaces(2 * depth + 2);
        self.text.put("! V");
        self.text.number(rule);
        self.text.put(" ");
        true
    }

    fn finding(&mut self, depth: usize, rule: usize, place: (Part, usize, usize, usize), words: &str) {
        if self.finds(depth, rule, place) {
            self.text.put(words);
            self.text.end();
        }
    }

    fn remark(&mut self, depth: usize) -> &mut Text {
        self.text.spaces(2 * depth + 2);
        self.text.put("? ");
        self.remarks += 1;
        &mut self.text
    }

    fn field(&mut self, depth: usize, name: &str) -> &mut Text {
        let (start, mut line) = (2 * depth + 4, [b' '; 80]);
        let end = start + name.len().max(22) + 1;
        line[start..start + name.len()].copy_from_slice(name.as_bytes());
        self.text.0.extend_from_slice(&line[..end]);
        &mut self.text
    }

    fn number_field(&mut self, depth: usize, name: &str, number: u8) {
        self.field(depth, name).number(usize::from(number));
        self.text.end();
    }

    fn index_field(&mut self, depth: usize, name: &str, index: u8) {
        self.field(depth, name);
        self.put_index(index);
        self.text.end();
    }

    fn put_index(&mut self, index: u8) {
        self.text.number(usize::from(index));
        match self.names.get(usize::from(index)) {
            _ if index == 0 => self.text.put(" (none)"),
            Some(Some(units)) => {
                self.text.put(" ");
                self.text.quoted(units);
            }
            _ => self.text.put(" (not in the input)"),
        }
    }

    fn release_field(&mut self, depth: usize, name: &str, number: u16) {
        self.field(depth, name).coded_release(number);
        self.text.end();
    }

    fn tail_field(&mut self, depth: usize, tail: &[u8]) {
        if !tail.is_empty() {
            self.field(depth, "tail").hex(tail);
            self.text.end();
        }
    }

    fn class_fields(&mut self, depth: usize, names: [&str; 3], codes: &[u8], zero: Option<&'static str>) {
        for (place, name) in names.into_iter().enumerate() {
            let own = class_name(&codes[..=place]);
            let meaning = if place == 0 && codes[0] == 0 { zero.or(own) } else { own };
            let text = self.field(depth, name);
            text.byte(codes[place]);
            text.meaning(meaning);
            text.end();
        }
    }

    fn of_device(&mut self, item: &'a [u8]) {
        self.device = Some(item);
        let (usb, codes, packet) = (word(item, 2), &item[4..7], item[7]);
        let text = self.heading(0);
        text.put("device ");
        text.hex(&[item[9], item[8]]);
        text.put(":");
        text.hex(&[item[11], item[10]]);
        text.put(", USB ");
        text.release(usb);
        text.put(", ");
        put_class(text, codes);
        self.end_heading(0, 18);
        if item[17] == 0 {
            self.finding(0, 10, (Part::Main, 0, 0, 0), "there is no configuration");
        }
        if self.finds(0, 11, (Part::Device, 0, 0, 0)) {
            let causes = [packet_cause(packet, usb >= 0x0300, self.is_dump), subclass_cause(codes)];
            put_causes(&mut self.text, &causes);
            self.text.end();
        }
        self.release_remark(usb);
        self.device_class_remark(codes[0]);
        let speed = if usb >= 0x0300 && packet == 9 { Some(Speed::Super) } else { self.sides[0] };
        if let Some(speed @ (Speed::Super | Speed::High)) = speed {
            self.packet_remark(packet, speed);
        }
        self.associations_remark(codes, item[17], 18);
        self.release_field(0, "bcdUSB", usb);
        self.class_fields(0, ["bDeviceClass", "bDeviceSubClass", "bDeviceProtocol"], codes, None);
        let text = self.field(0, "bMaxPacketSize0");
        text.number(usize::from(packet));
        if usb >= 0x0300 && packet == 9 {
            text.put(" (512 bytes)");
        }
        text.end();
        for (name, at) in [("idVendor", 8), ("idProduct", 10)] {
            self.field(0, name).word(word(item, at));
            self.text.end();
        }
        self.release_field(0, "bcdDevice", word(item, 12));
        for (name, at) in [("iManufacturer", 14), ("iProduct", 15), ("iSerialNumber", 16)] {
            self.index_field(0, name, item[at]);
        }
        self.number_field(0, "bNumConfigurations", item[17]);
    }

    fn release_remark(&mut self, usb: u16) -> bool {
        let is_none = !matches!(usb, 0x0100 | 0x0110 | 0x0200 | 0x0201 | 0x0210 | 0x0250 | 0x0300 | 0x0310 | 0x0320);
        if is_none {
            self.remark(0).put("bcdUSB is no release of USB\n");
        }
        is_none
    }

    fn device_class_remark(&mut self, class: u8) {
        if matches!(class, 1 | 3 | 5..=8 | 0x0a | 0x0b | 0x0d..=0x10) {
            self.remark(0).put("this class is one of interfaces, and not of devices\n");
        }
    }

    /// bMaxPacketSize0 is 64 at high speed, and the exponent 9 at SuperSpeed.
    fn packet_remark(&mut self, packet: u8, speed: Speed) {
        let (right, section) = if speed == Speed::Super { (9, " (USB 3.2, 9.6.1)\n") } else { (64, " (5.5.3)\n") };
        if packet != right {
            let text = self.remark(0);
            text.put("bMaxPacketSize0 is ");
            text.number(usize::from(packet));
            text.put("; at ");
            text.put(speed.words());
            text.put(" it must be ");
            text.number(usize::from(right));
            text.put(section);
        }
    }

    /// Of a device or a qualifier whose sets start here.
    fn associations_remark(&mut self, codes: &[u8], sets: u8, start: usize) {
        let end = (0..sets).fold(start, |at, _| at + usize::from(word(self.bytes, at + 2)));
        let has = cut(&self.bytes[start..end]).any(|(_, it)| it[1] == ASSOCIATION);
        match (codes == [0xef, 2, 1], has) {
            (false, true) => {
                self.remark(0).put("its class isn't 0xef, 0x02, 0x01; with associations it must be (ECN)\n")
            }
            (true, false) if sets > 0 => {
                self.remark(0).put("its class is 0xef, 0x02, 0x01, and it has no association (ECN)\n");
            }
            _ => {}
        }
    }

    fn of_qualifier(&mut self, item: &'a [u8], at: usize) {
        self.qualifier = Some(item);
        let (usb, codes) = (word(item, 2), &item[4..7]);
        let text = self.heading(0);
        text.put("qualifier of the other speed, USB ");
        text.release(usb);
        text.put(", ");
        put_class(text, codes);
        self.end_heading(at, 10);
        if item[8] == 0 {
            self.finding(0, 10, (Part::Other, 0, 0, 0), "there is no configuration");
        }
        if self.finds(0, 11, (Part::Other, 0, 0, 0)) {
            let reserved = (item[9] != 0, "bReserved isn't 0");
            put_causes(&mut self.text, &[packet_cause(item[7], false, false), subclass_cause(codes), reserved]);
            self.text.end();
        }
        if !self.release_remark(usb) && usb < 0x0200 {
            let text = self.remark(0);
            text.put("bcdUSB is ");
            text.release(usb);
            text.put("; of a qualifier it must be at least 2.00 (9.6.2)\n");
        }
        self.device_class_remark(codes[0]);
        let [own, other] = self.sides;
        if own == Some(Speed::Full) || other == Some(Speed::High) {
            self.packet_remark(item[7], Speed::High);
        }
        self.associations_remark(codes, item[8], at + 10);
        if let (Some(speed @ (Speed::Full | Speed::High)), true) = (own, own == other) {
            let text = self.remark(0);
            text.put("its sets are at ");
            text.put(speed.words());
            text.put(", as are those before it; they must differ (9.6.2)\n");
        }
        self.release_field(0, "bcdUSB", usb);
        self.class_fields(0, ["bDeviceClass", "bDeviceSubClass", "bDeviceProtocol"], codes, None);
        self.number_field(0, "bMaxPacketSize0", item[7]);
        self.number_field(0, "bNumConfigurations", item[8]);
        self.field(0, "bReserved").byte(item[9]);
        self.text.end();
    }

    /// What is known of sets after a device descriptor, or after a qualifier.
    fn known_before(device: &[u8], has_other: bool, other: Option<Speed>) -> Known {
        let (usb, packet) = (word(device, 2), device[7]);
        let is_super = usb >= 0x0300 && packet == 9;
        let speed = match usb {
            _ if is_super => Some(Speed::Super),
            0..0x0200 => Some(Speed::LowOrFull),
            _ => is_high_hub(device).then_some(Speed::High),
        };
        Known { speed, packet: Some(packet), is_hub: device[4] == 9, is_newer: usb >= 0x0300, has_other, other }
    }

    fn known_after(qualifier: &[u8], other: Option<Speed>) -> Known {
        Known {
            speed: is_high_hub(qualifier).then_some(Speed::High),
            packet: Some(qualifier[7]),
            is_hub: qualifier[4] == 9,
            is_newer: false,
            has_other: true,
            other,
        }
    }

    /// The speed that a set has.
    fn set_speed(&self, set: &[u8]) -> Speed {
        let known = match (self.device, self.qualifier) {
            (None, _) => Known::default(),
            (_, Some(qualifier)) => Self::known_after(qualifier, self.own),
            (Some(device), None) => Self::known_before(device, self.other.is_some(), self.other),
        };
        speed_of(set, known)
    }

    fn of_set(&mut self, set: &'a [u8], at: usize) {
        let is_main = set[1] == CONFIGURATION;
        let part = if is_main { Part::Main } else { Part::Other };
        let number = self.sets[usize::from(!is_main)];
        self.sets[usize::from(!is_main)] += 1;
        let speed = self.set_speed(set);
        let bindings: Vec<&[u8]> = cut(set).map(|it| it.1).filter(|it| it[1] == ASSOCIATION).collect();
        let associations = bindings.as_slice();
        let (mut first, mut last) = ([0; 256], [0; 256]);
        for (start, it) in cut(set).filter(|(_, it)| it[1] == INTERFACE) {
            let number = usize::from(it[2]);
            first[number] = if first[number] == 0 { start as u16 } else { first[number] };
            last[number] = start as u16;
        }
        let mut place = Place {
            part,
            set: number,
            setting: 0,
            endpoint: 0,
            speed,
            codes: None,
            interface: None,
            associations,
            later: set,
            first: &first,
            last: &last,
            start: 0,
        };
        let (mut owner, mut settings, mut associations) = (1, 0, 0);
        for (start, item) in cut(set) {
            (place.start, place.later) = (start, &set[start + item.len()..]);
            match item[1] {
                CONFIGURATION | OTHER_SPEED => self.of_configuration(item, at, place),
                INTERFACE => {
                    (owner, place.setting, place.endpoint) = (2, settings, 0);
                    (settings, place.codes) = (settings + 1, Some([item[5], item[6], item[7]]));
                    place.interface = Some([item[2], item[3]]);
                    self.of_interface(item, at + start, place);
                }
                ENDPOINT => {
                    owner = 3;
                    self.of_endpoint(item, at + start, place);
                    place.endpoint += 1;
                }
                ASSOCIATION => {
                    self.of_association(item, at + start, Place { setting: associations, endpoint: 0, ..place });
                    associations += 1;
                }
                _ => self.of_raw(item, at + start, owner + 1, place),
            }
        }
    }

    fn of_configuration(&mut self, item: &[u8], at: usize, place: Place) {
        let is_main = place.part == Part::Main;
        let (attributes, current) = (item[7], usize::from(item[8]) * if place.speed == Speed::Super { 8 } else { 2 });
        let power = if attributes & 0x40 != 0 { "self-powered" } else { "bus-powered" };
        let text = self.heading(1);
        text.put(if is_main { "configuration " } else { "other-speed configuration " });
        text.number(usize::from(item[5]));
        text.put(", ");
        text.put(place.speed.words());
        text.put(", ");
        text.count(usize::from(item[4]), "interface");
        text.put(", ");
        text.put(power);
        text.put(", ");
        text.number(current);
        text.put(" mA");
        self.end_heading(at, item.len());
        let its = (place.part, place.set, 0, 0);
        if self.finds(1, 1, its) {
            let mut numbers = crate::numbers::Numbers::default();
            cut(place.later).filter(|(_, it)| it[1] == INTERFACE).for_each(|(_, it)| _ = numbers.add(it[2]));
            self.text.put("bNumInterfaces is ");
            self.text.number(usize::from(item[4]));
            self.text.put(", and the set has ");
            self.text.count(numbers.count(), "interface");
            self.text.end();
        }
        self.finding(1, 2, its, "the interfaces aren't numbered from 0 without a gap");
        if self.finds(1, 9, its) {
            let clear = (attributes & 0x80 == 0, "bit 7 of bmAttributes isn't one");
            put_causes(&mut self.text, &[clear, (attributes & 0x1f != 0, "bits 4 to 0 of bmAttributes aren't zero")]);
            self.text.end();
        }
        let is_zero = item[5] == 0;
        let words = if is_zero { "bConfigurationValue is 0" } else { "an earlier set has this bConfigurationValue" };
        self.finding(1, 10, its, words);
        let most = if place.speed == Speed::Super { 1500 } else { 500 };
        if current > most {
            let text = self.remark(1);
            text.put("bMaxPower is ");
            text.number(current);
            text.put(" mA, and a device draws at most ");
            text.number(most);
            text.put(" mA\n");
        }
        self.field(1, "wTotalLength").number(usize::from(word(item, 2)));
        self.text.end();
        self.number_field(1, "bNumInterfaces", item[4]);
        self.number_field(1, "bConfigurationValue", item[5]);
        self.index_field(1, "iConfiguration", item[6]);
        let text = self.field(1, "bmAttributes");
        text.byte(attributes);
        text.put(" (");
        text.put(power);
        text.put(if attributes & 0x20 != 0 { ", remote wakeup)" } else { ")" });
        text.end();
        let text = self.field(1, "bMaxPower");
        text.number(usize::from(item[8]));
        text.put(" (");
        text.number(current);
        text.put(" mA)");
        text.end();
        self.tail_field(1, &item[9..]);
    }

    fn of_association(&mut self, item: &[u8], at: usize, place: Place) {
        let (first, count, codes) = (usize::from(item[2]), usize::from(item[3]), &item[4..7]);
        let text = self.heading(2);
        text.put("association ");
        text.number(place.setting);
        text.put(if count == 0 { " of no interface" } else { " of interface" });
        if count > 0 {
            text.put(if count > 1 { "s " } else { " " });
            text.number(first);
        }
        if count > 1 {
            text.put(" to ");
            text.number(first + count - 1);
        }
        text.put(", ");
        put_function_class(text, codes, "class not allowed");
        self.end_heading(at, item.len());
        let binds = count > 0;
        let words = if binds { "it binds an interface that the set hasn't" } else { "it binds no interface" };
        self.finding(2, 13, (place.part, place.set, place.setting, 0), words);
        if codes[0] == 0 {
            self.remark(2).put("class 0x00 is not allowed\n");
        }
        if (first..first + count).any(|number| place.came(number)) {
            self.remark(2).put("this association comes after its interfaces\n");
        }
        self.number_field(2, "bFirstInterface", item[2]);
        self.number_field(2, "bInterfaceCount", item[3]);
        self.class_fields(
            2,
            ["bFunctionClass", "bFunctionSubClass", "bFunctionProtocol"],
            codes,
            Some("class not allowed"),
        );
        self.index_field(2, "iFunction", item[7]);
        self.tail_field(2, &item[8..]);
    }

    fn of_interface(&mut self, item: &[u8], at: usize, place: Place) {
        let (number, codes) = (item[2], &item[5..8]);
        let text = self.heading(2);
        text.put("interface ");
        text.number(usize::from(number));
        text.put(" alternate ");
        text.number(usize::from(item[3]));
        let binds = |it: &[u8]| number >= it[2] && u16::from(number) < u16::from(it[2]) + u16::from(it[3]);
        if let Some(bound) = place.associations.iter().position(|it| binds(it)) {
            text.put(" of association ");
            text.number(bound);
        }
        text.put(", ");
        put_function_class(text, codes, "reserved class");
        text.put(", ");
        text.count(usize::from(item[4]), "endpoint");
        self.end_heading(at, item.len());
        let its = (place.part, place.set, place.setting, 0);
        self.finding(2, 3, its, "this interface has this alternate setting already");
        self.finding(2, 4, its, "this interface has no alternate setting 0");
        if self.finds(2, 5, its) {
            let own = cut(place.later).take_while(|(_, it)| it[1] != INTERFACE);
            self.text.put("bNumEndpoints is ");
            self.text.number(usize::from(item[4]));
            self.text.put(", and the setting has ");
            self.text.count(own.filter(|(_, it)| it[1] == ENDPOINT).count(), "endpoint");
            self.text.end();
        }
        if codes[0] == 0 {
            self.remark(2).put("class 0x00 is reserved for future use\n");
        }
        self.interface_remark(codes, place.later);
        self.number_field(2, "bInterfaceNumber", number);
        self.number_field(2, "bAlternateSetting", item[3]);
        self.number_field(2, "bNumEndpoints", item[4]);
        self.class_fields(
            2,
            ["bInterfaceClass", "bInterfaceSubClass", "bInterfaceProtocol"],
            codes,
            Some("reserved class"),
        );
        self.index_field(2, "iInterface", item[8]);
        self.tail_field(2, &item[9..]);
    }

    fn of_endpoint(&mut self, item: &[u8], at: usize, place: Place) {
        let (address, attributes, size, interval) = (item[2], item[3], word(item, 4), item[6]);
        let (speed, is_periodic) = (place.speed, attributes & 1 == 1);
        let text = self.heading(3);
        text.put("endpoint ");
        text.byte(address);
        text.put(" (");
        put_end(text, address, attributes);
        text.put("), ");
        put_attributes(text, attributes);
        text.put(", ");
        put_size(text, attributes, size, speed);
        if is_periodic {
            text.put(", ");
            put_interval(text, attributes, interval, speed);
        }
        self.end_heading(at, item.len());
        let its = (place.part, place.set, place.setting, place.endpoint);
        if self.finds(3, 6, its) {
            let zero = (address & 0x0f == 0, "the address names endpoint 0");
            put_causes(&mut self.text, &[zero, (address & 0x70 != 0, "bits 6 to 4 of the address aren't zero")]);
            self.text.end();
        }
        self.finding(3, 7, its, "this setting has this address already");
        self.finding(3, 8, its, "another interface of the set has this address");
        self.finding(3, 12, its, "bits 15 to 13 of wMaxPacketSize aren't zero");
        self.endpoint_remarks(attributes, size, interval, speed);
        self.setting_remarks(attributes, size & 0x7ff, place);
        let text = self.field(3, "bEndpointAddress");
        text.byte(address);
        text.put(" (");
        put_end(text, address, attributes);
        text.put(")\n");
        let text = self.field(3, "bmAttributes");
        text.byte(attributes);
        text.put(" (");
        put_attributes(text, attributes);
        text.put(")\n");
        let text = self.field(3, "wMaxPacketSize");
        text.word(size);
        text.put(" (");
        put_size(text, attributes, size, speed);
        text.put(")\n");
        let text = self.field(3, "bInterval");
        text.number(usize::from(interval));
        if is_periodic {
            text.put(" (");
            put_interval(text, attributes, interval, speed);
            text.put(")");
        }
        text.end();
        match &item[7..] {
            [refresh, synch] if place.codes.is_some_and(|it| it[0] == 1) => {
                self.number_field(3, "bRefresh", *refresh);
                self.field(3, "bSynchAddress").byte(*synch);
                self.text.end();
            }
            tail => self.tail_field(3, tail),
        }
    }

    fn endpoint_remarks(&mut self, attributes: u8, size: u16, interval: u8, speed: Speed) {
        let (kind, packet, more) = (attributes & 3, size & 0x7ff, size >> 11 & 3);
        if let Some((first, last)) = right_intervals(kind, interval, speed) {
            let text = self.remark(3);
            text.put("bInterval is ");
            text.number(usize::from(interval));
            text.put("; at ");
            text.put(speed.words());
            text.put(" it must be ");
            text.number(usize::from(first));
            text.put(" to ");
            text.number(usize::from(last));
            text.put(" (9.6.6)\n");
        }
        match right_sizes(kind, packet, speed).as_deref() {
            None => {}
            Some([]) => {
                let text = self.remark(3);
                text.put(if kind == 1 { "an isochronous endpoint; at " } else { "a bulk endpoint; at " });
                text.put(speed.words());
                text.put(if kind == 1 { " there are none (5.6.4)\n" } else { " there are none (5.8.4)\n" });
            }
            Some(sizes @ [.., last]) => {
                let text = self.size_remark(packet);
                text.put("; at ");
                text.put(speed.words());
                text.put(if sizes[0] == 0 { " it must be at most " } else { " it must be " });
                let others = if sizes[0] == 0 { &[] } else { &sizes[..sizes.len() - 1] };
                for (place, other) in others.iter().enumerate() {
                    text.put(if place > 0 { ", " } else { "" });
                    text.number(usize::from(*other));
                }
                text.put(if others.is_empty() { "" } else { " or " });
                text.number(usize::from(*last));
                text.put([" (5.5.3)\n", " (5.6.3)\n", " (5.8.3)\n", " (5.7.3)\n"][usize::from(kind)]);
            }
        }
        let least = [0, 513, 683, 0][usize::from(more)];
        if !(speed.may_be_high() && kind & 1 == 1) {
            if more != 0 {
                self.remark(3).put("bits 12 to 11 of wMaxPacketSize are reserved here\n");
            }
        } else if more == 3 {
            self.remark(3).put("3 in bits 12 to 11 of wMaxPacketSize is reserved\n");
        } else if packet < least {
            let text = self.size_remark(packet);
            text.put("; with ");
            text.number(usize::from(more) + 1);
            text.put(" transactions it must be at least ");
            text.number(usize::from(least));
            text.put(" (9.6.6)\n");
        }
        let reserved = if kind == 3 && speed == Speed::Super { 0x2c } else { 0x3c };
        if kind == 1 && attributes & 0x30 == 0x30 {
            self.remark(3).put("usage 3 is reserved\n");
        } else if kind != 1 && attributes & reserved != 0 {
            self.remark(3).put("bits 5 to 2 of bmAttributes are reserved here\n");
        } else if attributes & 0xc0 != 0 {
            self.remark(3).put("bits 7 to 6 of bmAttributes are reserved\n");
        }
    }

    fn size_remark(&mut self, packet: u16) -> &mut Text {
        let text = self.remark(3);
        text.put("wMaxPacketSize is ");
        text.count(usize::from(packet), "byte");
        text
    }

    /// What an endpoint breaks by the alternate setting that it is of.
    fn setting_remarks(&mut self, attributes: u8, size: u16, place: Place) {
        let Some([number, 0]) = place.interface else {
            return;
        };
        if attributes & 3 == 1 && size != 0 && place.speed != Speed::Super {
            self.size_remark(size).put("; in alternate setting 0 it must be 0 (5.6.3)\n");
        }
        if attributes & 3 == 3 && size > 64 && place.speed == Speed::High {
            self.size_remark(size).put("; in alternate setting 0 it must be at most 64 (5.7.3)\n");
        }
        if size == 0 && !place.follows(number) {
            self.remark(3).put("packets of 0 bytes hold no data, and no other setting follows\n");
        }
    }

    /// What an interface lacks among its descriptors.
    fn interface_remark(&mut self, codes: &[u8], later: &[u8]) {
        let mut own = cut(later).map(|(_, it)| it).take_while(|it| it[1] != INTERFACE);
        if codes[0] == 3 {
            let is_in = |it: &[u8]| it[1] == ENDPOINT && it[3] & 3 == 3 && it[2] & 0x80 != 0;
            let (mut has_hid, mut has_in) = (false, false);
            own.for_each(|it| (has_hid, has_in) = (has_hid || it[1] == 0x21, has_in || is_in(it)));
            if !has_hid {
                self.remark(2).put("no HID descriptor between interface and endpoints (HID 1.11, 7.1)\n");
            }
            if !has_in {
                self.remark(2).put("no interrupt IN endpoint (HID 1.11, 4.4)\n");
            }
            return;
        }
        let words = match *codes {
            [8, _, 0x50] if !has_both_directions(&mut own) => {
                "a bulk IN or bulk OUT endpoint is missing (Bulk-Only 1.0, 4.4)\n"
            }
            [2, 1..=11 | 13 | 14, _] if own.all(|it| it[1] != 0x24 || it.get(2) != Some(&0)) => {
                "no header functional descriptor (CDC 1.2, 5.2.3)\n"
            }
            _ => return,
        };
        self.remark(2).put(words);
    }

    /// What is wrong with a class descriptor by its own bytes.
    fn raw_remarks(&mut self, item: &[u8], depth: usize, codes: [u8; 3], place: Place) {
        match (codes[0], item[1]) {
            (3, 0x21) => {
                let right = 6 + 3 * usize::from(item.get(5).copied().unwrap_or(0));
                if item.len() < 6 {
                    let text = self.remark(depth);
                    text.put("it is too short for bNumDescriptors: bLength is ");
                    text.number(item.len());
                    text.put(" (HID 1.11, 6.2.1)\n");
                } else if item.len() != right {
                    let text = self.remark(depth);
                    text.put("by bNumDescriptors it has ");
                    text.count(right, "byte");
                    text.put(", and bLength is ");
                    text.number(item.len());
                    text.end();
                }
                match item.get(6..9) {
                    Some([0x22, 0, 0]) => self.remark(depth).put("the report descriptor has 0 bytes\n"),
                    None | Some([0x22, ..]) => {}
                    _ => self.remark(depth).put("it names no report descriptor first (HID 1.11, 6.2.1)\n"),
                }
                if depth == 4 {
                    self.remark(depth).put("this HID descriptor comes after an endpoint (HID 1.11, 7.1)\n");
                }
                self.class_release_remark(depth, item.get(2..4));
            }
            (2, 0x24) => {
                if depth == 4 {
                    self.remark(depth).put("this functional descriptor comes after an endpoint (CDC 1.2, 5.2.3)\n");
                }
                let least = match item.get(2) {
                    Some(0 | 1 | 6) => 5,
                    Some(2) => 4,
                    _ => 0,
                };
                if item.len() < least {
                    let text = self.remark(depth);
                    text.put("this functional descriptor has at least ");
                    text.number(least);
                    text.put(" bytes, and bLength is ");
                    text.number(item.len());
                    text.end();
                } else if item.get(2) == Some(&6) {
                    self.named_remark(depth, &item[3..], place);
                } else if item.get(2) == Some(&1) && item[3] & 3 == 3 {
                    self.named_remark(depth, &item[4..5], place);
                }
                if item.len() >= 5 && item[2] == 0 {
                    self.class_release_remark(depth, item.get(3..5));
                }
            }
            _ => {}
        }
    }

    fn class_release_remark(&mut self, depth: usize, release: Option<&[u8]>) {
        if release.is_some_and(|it| !(1..0x10).contains(&it[1])) {
            self.remark(depth).put("this is no release: its bytes may be swapped\n");
        }
    }

    fn named_remark(&mut self, depth: usize, named: &[u8], place: Place) {
        if let Some(number) = named.iter().find(|it| !place.has(**it)) {
            let text = self.remark(depth);
            text.put("it names interface ");
            text.number(usize::from(*number));
            text.put(", which the set hasn't\n");
        }
    }

    fn of_raw(&mut self, item: &[u8], at: usize, depth: usize, place: Place) {
        let row = row_of(item, place.codes);
        match row {
            Some(row) => self.heading(depth).put(row.name),
            None => {
                let text = self.heading(depth);
                text.put("descriptor of type ");
                text.byte(item[1]);
            }
        }
        self.end_heading(at, item.len());
        if let (Some(codes), [_, 0x24, 0x01, ..]) = (place.codes, item) {
            self.header_remark(item, depth, codes, place.later);
        }
        if let Some(codes) = place.codes {
            self.raw_remarks(item, depth, codes, place);
        }
        self.field(depth, "bDescriptorType").byte(item[1]);
        self.text.end();
        self.raw_fields(&item[2..], depth, row);
    }

    fn header_remark(&mut self, item: &[u8], depth: usize, codes: [u8; 3], later: &[u8]) {
        let Some(at) = total_length_at(codes).filter(|at| at + 2 <= item.len()) else {
            return;
        };
        let own = cut(later).take_while(|(_, it)| it[1] == 0x24);
        let found = item.len() + own.map(|(_, it)| it.len()).sum::<usize>();
        let total = usize::from(word(item, at));
        if total != found {
            let text = self.remark(depth);
            text.put("wTotalLength is ");
            text.number(total);
            text.put(", and the class descriptors have ");
            text.count(found, "byte");
            text.end();
        }
    }

    fn raw_fields(&mut self, body: &[u8], depth: usize, row: Option<&'static Row>) {
        let mut rest = body;
        if let Some(row) = row {
            let all_there = row.fields.iter().all(|field| {
                let Some((value, more)) = rest.split_at_checked(field.size) else {
                    return false;
                };
                self.raw_field(depth, field, value);
                rest = more;
                true
            });
            let size: usize = row.group.iter().map(|field| field.size).sum();
            while all_there && size > 0 && size <= rest.len() {
                for field in &row.group {
                    let (value, more) = rest.split_at(field.size);
                    self.raw_field(depth, field, value);
                    rest = more;
                }
            }
        }
        if !rest.is_empty() {
            self.field(depth, "bytes").hex(rest);
            self.text.end();
        }
    }

    fn raw_field(&mut self, depth: usize, field: &Field, value: &[u8]) {
        self.field(depth, field.name);
        let mut bytes = [0; 4];
        let count = value.len().min(4);
        bytes[..count].copy_from_slice(&value[..count]);
        let number = u32::from_le_bytes(bytes);
        let text = &mut self.text;
        match field.form {
            Form::Index => self.put_index(value[0]),
            Form::Interval => {
                text.number(number as usize);
                text.put(" (");
                put_milliseconds(text, number);
                text.put(")");
            }
            Form::Guid => {
                text.hex(value);
                let is_name = value[..4].iter().all(|it| it.is_ascii_uppercase() || it.is_ascii_digit());
                if is_name && value[4..] == [0, 0, 0x10, 0, 0x80, 0, 0, 0xaa, 0, 0x38, 0x9b, 0x71] {
                    text.meaning(str::from_utf8(&value[..4]).ok());
                }
            }
            Form::Terminal(class) => {
                text.word(number as u16);
                text.meaning(terminal_name(class, number as u16));
            }
            Form::Bits(place) => {
                text.byte(value[0]);
                put_bits(text, bit_names(place), value[0]);
            }
            Form::Hex if count == value.len() => {
                text.put("0x");
                text.hex(&number.to_be_bytes()[4 - count..]);
            }
            Form::Hex => text.hex(value),
            Form::Dec => text.number(number as usize),
            Form::Bcd => text.coded_release(number as u16),
            Form::Type => {
                text.byte(value[0]);
                text.meaning(match value[0] {
                    0x22 => Some("report"),
                    0x23 => Some("physical"),
                    _ => None,
                });
            }
        }
        self.text.end();
    }

    fn of_strings(&mut self, file: &DescriptorFile, at: usize) {
        let Some(strings) = &file.strings else {
            return;
        };
        self.text.put("languages");
        for language in &strings.languages {
            self.text.put(" ");
            self.text.word(*language);
        }
        let mut start = at + 2 + 2 * strings.languages.len();
        self.end_heading(at, start - at);
        if let Some(wrong) = strings.languages.iter().find(|it| **it >> 8 & 3 != 0 || **it >> 10 == 0) {
            let text = self.remark(0);
            text.word(*wrong);
            text.put(" is not a LANGID: bits 9 to 8 must be 0 and bits 15 to 10 must not all be 0 (9.6.7)\n");
        }
        let named = named(file).to_vec();
        let places = strings.languages.iter().flat_map(|language| named.iter().map(move |it| (*language, *it)));
        for ((language, index), units) in places.zip(&strings.texts) {
            self.text.put("string ");
            self.text.number(usize::from(index));
            self.text.put(" in ");
            self.text.word(language);
            self.text.put(": ");
            self.text.quoted(units);
            self.end_heading(start, 2 + 2 * units.len());
            if units.last() == Some(&0) {
                self.remark(0).put("the string ends in a NUL, which USB strings don't have (9.6.7)\n");
            }
            start += 2 + 2 * units.len();
        }
    }

    /// The sets from here on, so many; answers where they end.
    fn of_sets(&mut self, count: usize, start: usize) -> usize {
        let mut at = start;
        for _ in 0..count {
            let end = at + usize::from(word(self.bytes, at + 2));
            self.of_set(&self.bytes[at..end], at);
            at = end;
        }
        at
    }

    fn of_file(&mut self, file: &DescriptorFile) {
        let bytes = self.bytes;
        let end_of_main = {
            let skip = |at: usize| at + usize::from(word(bytes, at + 2));
            (0..file.sets.len()).fold(18, |at, _| skip(at))
        };
        if file.other.is_some() {
            let (own, later) = (&bytes[18..end_of_main], &bytes[end_of_main..]);
            self.own = Some(speed_of(own, Self::known_before(bytes, true, None)));
            self.other = Some(speed_of(&later[10..], Self::known_after(later, None)));
            self.sides[1] = side_of(&later[10..], Self::known_after(later, None));
        }
        self.sides[0] = side_of(&bytes[18..end_of_main], Self::known_before(&bytes[..18], true, None));
        self.of_device(&bytes[..18]);
        let mut at = self.of_sets(file.sets.len(), 18);
        if let Some(other) = &file.other {
            self.of_qualifier(&bytes[at..at + 10], at);
            at = self.of_sets(other.sets.len(), at + 10);
        }
        self.of_strings(file, at);
    }
}

/// Whether descriptors have a bulk endpoint of each direction.
fn has_both_directions<'a>(own: impl Iterator<Item = &'a [u8]>) -> bool {
    let mut sides = [false; 2];
    for it in own.filter(|it| it[1] == ENDPOINT && it[3] & 3 == 2) {
        sides[usize::from(it[2] >> 7)] = true;
    }
    sides == [true; 2]
}

fn put_bits(text: &mut Text, names: &[&str], bits: u8) {
    for (number, bit) in (0..8).filter(|bit| bits >> bit & 1 == 1).enumerate() {
        text.put(if number > 0 { ", " } else { " (" });
        match names.get(bit) {
            Some(name) => text.put(name),
            None => {
                text.put("bit ");
                text.number(bit);
            }
        }
    }
    text.put(if bits != 0 { ")" } else { "" });
}

/// The strings of the first language by their indices.
fn names_of(file: &DescriptorFile) -> Vec<Option<&[u16]>> {
    let Some(strings) = &file.strings else {
        return Vec::new();
    };
    let mut names = vec![None; 256];
    for (index, units) in named(file).to_vec().iter().zip(&strings.texts) {
        names[usize::from(*index)] = Some(units.as_slice());
    }
    names
}

/// The explanation of bytes that are this input.
pub fn explain(bytes: &[u8], input: &Input) -> Vec<u8> {
    let found = check_input(input);
    let mut explainer = Explainer {
        bytes,
        is_dump: matches!(input, Input::Dump(_)),
        // Most bytes take some thirty characters.
        text: Text(Vec::with_capacity(1024 + 36 * bytes.len())),
        due: starts(&found),
        found,
        names: Vec::new(),
        device: None,
        qualifier: None,
        own: None,
        other: None,
        sides: [None; 2],
        sets: [0; 2],
        remarks: 0,
    };
    explainer.text.put(match input {
        Input::Set(_) => "set, ",
        Input::File(file) if file.strings.is_some() => "file, ",
        Input::File(_) => "file, no strings named, ",
        Input::Dump(_) => "device and its sets without strings, ",
    });
    explainer.text.count(bytes.len(), "byte");
    explainer.text.end();
    match input {
        Input::Set(_) => explainer.of_set(bytes, 0),
        Input::File(file) | Input::Dump(file) => {
            explainer.names = names_of(file);
            explainer.of_file(file);
        }
    }
    match explainer.found.len() {
        0 => explainer.text.put("no findings"),
        count => explainer.text.count(count, "finding"),
    }
    if explainer.remarks > 0 {
        explainer.text.put(", ");
        explainer.text.count(explainer.remarks, "remark");
    }
    explainer.text.end();
    explainer.text.0
}
