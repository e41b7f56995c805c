//! Listings: a file or a set as text, a line for each descriptor.

use crate::file::{DescriptorFile, Device, Qualifier};
use crate::set::{CONFIGURATION, Configuration, Extra};

/// The two digits of each byte.
static DIGITS: [[u8; 2]; 256] = {
    let (mut table, hex) = ([[0; 2]; 256], b"0123456789abcdef");
    let mut byte = 0;
    while byte < 256 {
        table[byte] = [hex[byte >> 4], hex[byte & 15]];
        byte += 1;
    }
    table
};

pub fn digits(byte: u8) -> [u8; 2] {
    DIGITS[usize::from(byte)]
}

/// A space and two digits for each byte.
fn put_bytes<const N: usize>(out: &mut Vec<u8>, bytes: [u8; N]) {
    let fields = bytes.map(|byte| {
        let [high, low] = digits(byte);
        [b' ', high, low]
    });
    out.extend_from_slice(fields.as_flattened());
}

fn put_number(out: &mut Vec<u8>, number: u16) {
    let [high, low] = number.to_be_bytes();
    let ([a, b], [c, d]) = (digits(high), digits(low));
    out.extend_from_slice(&[b' ', a, b, c, d]);
}

/// The end of a line: what a descriptor has beyond its fields.
fn put_tail(out: &mut Vec<u8>, tail: &[u8]) {
    if tail.is_empty() {
        out.extend_from_slice(b" -\n");
        return;
    }
    out.push(b' ');
    let start = out.len();
    out.resize(start + 2 * tail.len(), 0);
    for (place, byte) in out[start..].chunks_exact_mut(2).zip(tail) {
        place.copy_from_slice(&digits(*byte));
    }
    out.push(b'\n');
}

fn put_extras(out: &mut Vec<u8>, extras: &[Extra]) {
    for extra in extras {
        match extra {
            Extra::Raw { kind, body } => {
                out.extend_from_slice(b"raw");
                put_bytes(out, [*kind]);
                put_tail(out, body);
            }
            Extra::Association(it) => {
                out.extend_from_slice(b"association");
                put_bytes(out, it.fields);
                put_tail(out, &it.tail);
            }
        }
    }
}

pub fn list_set(set: &Configuration, out: &mut Vec<u8>) {
    let is_main = set.kind == CONFIGURATION;
    out.extend_from_slice(if is_main { b"configuration" } else { b"other_speed" });
    let numbers = [set.declared_interfaces, set.value, set.text, set.attributes, set.power];
    put_bytes(out, numbers);
    put_tail(out, &set.tail);
    put_extras(out, &set.extras);
    for setting in &set.settings {
        let [class, subclass, protocol] = setting.class;
        let numbers = [setting.number, setting.alternate, setting.declared_endpoints];
        let [number, alternate, endpoints] = numbers;
        out.extend_from_slice(b"interface");
        put_bytes(out, [number, alternate, endpoints, class, subclass, protocol, setting.text]);
        put_tail(out, &setting.tail);
        put_extras(out, &setting.extras);
        for it in &setting.endpoints {
            out.extend_from_slice(b"endpoint");
            put_bytes(out, [it.address, it.attributes]);
            put_number(out, it.max_packet);
            put_bytes(out, [it.interval]);
            put_tail(out, &it.tail);
            put_extras(out, &it.extras);
        }
    }
}

fn list_device(device: &Device, out: &mut Vec<u8>) {
    let [class, subclass, protocol] = device.class;
    let [maker, product, serial] = device.texts;
    out.extend_from_slice(b"device");
    put_number(out, device.usb);
    put_bytes(out, [class, subclass, protocol, device.packet]);
    for number in device.numbers {
        put_number(out, number);
    }
    put_bytes(out, [maker, product, serial, device.configurations]);
    out.push(b'\n');
}

fn list_qualifier(it: &Qualifier, out: &mut Vec<u8>) {
    let [class, subclass, protocol] = it.class;
    out.extend_from_slice(b"qualifier");
    put_number(out, it.usb);
    put_bytes(out, [class, subclass, protocol, it.packet, it.configurations, it.reserved]);
    out.push(b'\n');
}

/// Whether a unit is written as itself.
pub fn is_plain(unit: u16) -> bool {
    (0x20..0x7f).contains(&unit) && unit != 0x22 && unit != 0x5c
}

fn list_string(units: &[u16], out: &mut Vec<u8>) {
    out.extend_from_slice(b"string \"");
    list_units(units, out);
    out.extend_from_slice(b"\"\n");
}

pub fn list_units(units: &[u16], out: &mut Vec<u8>) {
    for unit in units {
        if is_plain(*unit) {
            out.push(*unit as u8);
        } else {
            let [high, low] = unit.to_be_bytes();
            let ([a, b], [c, d]) = (digits(high), digits(low));
            out.extend_from_slice(&[b'\\', a, b, c, d]);
        }
    }
}

pub fn list(file: &DescriptorFile, out: &mut Vec<u8>) {
    list_device(&file.device, out);
    for set in &file.sets {
        list_set(set, out);
    }
    if let Some(other) = &file.other {
        list_qualifier(&other.qualifier, out);
        for set in &other.sets {
            list_set(set, out);
        }
    }
    if let Some(strings) = &file.strings {
        out.extend_from_slice(b"languages");
        for language in &strings.languages {
            put_number(out, *language);
        }
        out.push(b'\n');
        for text in &strings.texts {
            list_string(text, out);
        }
    }
}
