//! What a recording says: a line for each control transfer and each finding in packets, and the last lines.

use crate::conversation::{Conversations, Device, Ending, Transfer, WORDS, byte};
use crate::frames::{Fault, Frame, Reader, long, number, short};
use crate::heard::{Bus, DAMAGES, Place, TRANSACTIONS, read};
use crate::text::Text;

/// What a frame says of a transfer.
struct Event<'a> {
    id: u64,
    is_error: bool,
    ends: bool,
    device: Device,
    setup: Option<[u8; 8]>,
    status: u32,
    length: u32,
    data: &'a [u8],
    is_windows: bool,
}

/// What an event of endpoint zero says, and whether the frame is an event at all.
fn event_of<'a>(frame: &Frame<'a>) -> (bool, Option<Event<'a>>) {
    match frame.link {
        189 => of_linux(frame, 48),
        220 => of_linux(frame, 64),
        249 => of_windows(frame.bytes),
        _ => (false, None),
    }
}

fn of_linux<'a>(frame: &Frame<'a>, header: usize) -> (bool, Option<Event<'a>>) {
    let (bytes, is_big) = (frame.bytes, frame.is_big);
    if bytes.len() < header || !matches!(bytes[8], b'S' | b'C' | b'E') || bytes[9] > 3 {
        return (false, None);
    }
    if bytes[9] != 2 || bytes[10] & 127 != 0 {
        return (true, None);
    }
    let captured = number(bytes, 36, is_big) as usize;
    let event = Event {
        id: long(bytes, 0, is_big),
        is_error: bytes[8] == b'E',
        ends: bytes[8] != b'S',
        device: (short(bytes, 12, is_big), bytes[11].into()),
        setup: if bytes[14] == 0 { bytes[40..48].try_into().ok() } else { None },
        status: number(bytes, 28, is_big),
        length: number(bytes, 32, is_big),
        data: &bytes[header..][..captured.min(bytes.len() - header)],
        is_windows: false,
    };
    (true, Some(event))
}

fn of_windows(bytes: &[u8]) -> (bool, Option<Event<'_>>) {
    if bytes.len() < 27 || bytes[22] > 3 {
        return (false, None);
    }
    let header = usize::from(short(bytes, 0, false));
    if header < 27 || bytes.len() < header {
        return (false, None);
    }
    if bytes[22] != 2 || bytes[21] & 127 != 0 {
        return (true, None);
    }
    let stage = if header > 27 { Some(bytes[27]) } else { None };
    let (mut length, is_back) = (number(bytes, 23, false), bytes[16] & 1 == 1);
    let (mut data, mut setup) = (&bytes[header..][..(length as usize).min(bytes.len() - header)], None);
    if stage == Some(0) {
        let mut eight = [0; 8];
        let (first, rest) = data.split_at(data.len().min(8));
        eight[..first.len()].copy_from_slice(first);
        (setup, data, length) = (Some(eight), rest, length.saturating_sub(8));
    }
    let event = Event {
        id: long(bytes, 2, false),
        is_error: false,
        ends: is_back && stage != Some(1),
        device: (short(bytes, 17, false), short(bytes, 19, false)),
        setup,
        status: number(bytes, 10, false),
        length,
        data,
        is_windows: true,
    };
    (true, Some(event))
}

impl Event<'_> {
    fn ending(&self) -> Ending {
        let stall = if self.is_windows { 0xc000_0004 } else { 0xffff_ffe0 };
        match self.status {
            status if self.is_error => Ending::Refused(status),
            0 => Ending::Done,
            status if status == stall => Ending::Stall,
            status => Ending::Failed(status),
        }
    }
}

/// A descriptor that came whole.
struct Kept {
    device: Device,
    words: [u8; 4],
    data: Vec<u8>,
}

struct Recording {
    text: Text,
    count: u64,
    told: u64,
    replaced: u64,
    origin: u64,
    last: Option<u64>,
    open: Vec<(u64, Transfer)>,
    bus: Bus,
    conversations: Conversations,
    seen: Vec<(Option<Device>, u64)>,
    kept: Vec<Kept>,
}

impl Recording {
    fn take(&mut self, frame: &Frame, form: u8) {
        if self.count == 0 {
            self.origin = frame.time.unwrap_or(0);
            first_line(&mut self.text, form, frame.link);
        }
        self.count += 1;
        self.last = frame.time;
        if matches!(frame.link, 288 | 293..=295) {
            return self.take_packet((self.count, frame.time), frame);
        }
        let (is_event, event) = event_of(frame);
        self.told += u64::from(is_event);
        if let Some(event) = event {
            self.take_event(&event, frame);
        }
    }

    fn take_event(&mut self, event: &Event, frame: &Frame) {
        let at = self.open.iter().position(|(id, _)| *id == event.id);
        let earlier = at.map(|at| self.open.remove(at).1);
        if let Some(setup) = event.setup {
            if let Some(earlier) = earlier {
                self.end(earlier);
            }
            let (time, length) = (frame.time, event.length);
            let data = event.data.to_vec();
            let it = Transfer {
                device: event.device,
                time,
                setup,
                data,
                length,
                is_cut: frame.is_cut,
                ending: Ending::Unseen,
            };
            self.open.push((event.id, it));
        } else if let Some(mut it) = earlier {
            it.data.extend_from_slice(event.data);
            it.length = if event.is_windows { it.length.saturating_add(event.length) } else { event.length };
            it.is_cut |= frame.is_cut;
            if event.ends {
                it.ending = event.ending();
                it.time = frame.time.or(it.time);
                self.end(it);
            } else {
                self.open.push((event.id, it));
            }
        }
    }

    fn take_packet(&mut self, place: Place, frame: &Frame) {
        let packet = if frame.is_cut { Err(DAMAGES.len()) } else { read(frame.bytes) };
        self.told += u64::from(packet.is_ok());
        let over = self.bus.take(place, packet.as_ref().ok());
        let device = over.as_ref().map(|it| (0, it.address.into()));
        if let Some(it) = over {
            let found = self.bus.found_in(&it);
            if let Some(transfer) = self.bus.end_of(&it) {
                self.end(transfer);
            }
            for (at, words) in TRANSACTIONS.iter().enumerate() {
                if found >> at & 1 == 1 {
                    self.finding(it.place, device, words);
                }
            }
        }
        if let Err(damage) = packet
            && let Some(words) = DAMAGES.get(damage)
        {
            self.finding(place, device, words);
        }
    }

    fn saw(&mut self, device: Option<Device>, findings: u64) {
        match self.seen.iter_mut().find(|(it, _)| *it == device) {
            Some((_, count)) => *count += findings,
            None => self.seen.push((device, findings)),
        }
    }

    fn finding(&mut self, place: Place, device: Option<Device>, words: &str) {
        self.saw(device, 1);
        head(&mut self.text, place.1, self.origin, device);
        self.text.put("! ");
        self.text.put(words);
        self.text.put(", frame ");
        self.text.number(place.0 as usize);
        self.text.end();
    }

    fn end(&mut self, it: Transfer) {
        self.replaced += u64::from(matches!(it.ending, Ending::Unseen));
        let found = self.conversations.take(&it);
        self.saw(Some(it.device), found.count_ones().into());
        transfer_line(&mut self.text, &it, self.origin);
        for (at, words) in WORDS.iter().enumerate() {
            if found >> at & 1 == 1 {
                self.text.spaces(11);
                self.text.put("! ");
                self.text.put(words);
                self.text.end();
            }
        }
        self.keep(it);
    }

    /// Keeps the last whole reading of each descriptor. SET_ADDRESS makes a device the owner of its address, and another
    /// device descriptor is one of another device.
    fn keep(&mut self, it: Transfer) {
        if it.is_set_address() {
            self.kept.retain(|kept| kept.device != (it.device.0, it.value()));
        }
        if !it.is_reading() {
            return;
        }
        let (device, words) = (it.device, [it.setup[2], it.setup[3], it.setup[4], it.setup[5]]);
        let at = self.kept.iter().position(|kept| kept.device == device && kept.words == words);
        let before = at.map(|at| self.kept.remove(at));
        if words[..2] == [0, 1] && before.is_some_and(|kept| kept.data != it.data) {
            self.kept.retain(|kept| kept.device != device);
        }
        self.kept.push(Kept { device, words, data: it.data });
    }

    fn last_lines(&mut self, place: usize, left: usize) {
        for it in self.open.iter().map(|(_, it)| it).chain(self.bus.open()) {
            transfer_line(&mut self.text, it, self.origin);
        }
        self.text.count(self.count as usize, "frame");
        if let Some(last) = self.last {
            self.text.put(", ");
            seconds(&mut self.text, last.saturating_sub(self.origin));
            self.text.put(" seconds");
        }
        self.text.end();
        if self.count > self.told {
            self.text.put("no transfer: ");
            self.text.count((self.count - self.told) as usize, "frame");
            self.text.end();
        }
        if self.replaced > 0 {
            self.text.put("another request came before the end: ");
            self.text.count(self.replaced as usize, "transfer");
            self.text.end();
        }
        if left > 0 {
            self.text.put("cut: ");
            self.text.count(left, "byte");
            self.text.put(" of what begins at ");
            self.text.number(place);
            self.text.end();
        }
        for (device, count) in &self.seen {
            device_line(&mut self.text, *device, *count, &self.kept);
        }
    }
}

/// The text of a recording that is read in pieces, and whether anything is found in it.
pub fn tell(bytes: &[u8], piece: usize) -> Result<(Vec<u8>, bool), Fault> {
    let mut recording = Recording {
        text: Text(Vec::new()),
        count: 0,
        told: 0,
        replaced: 0,
        origin: 0,
        last: None,
        open: Vec::new(),
        bus: Bus::new(),
        conversations: Conversations::default(),
        seen: Vec::new(),
        kept: Vec::new(),
    };
    let (mut reader, form) = (Reader::new(), bytes.first().copied().unwrap_or(0));
    for piece in bytes.chunks(piece) {
        reader.take(piece, &mut |frame| recording.take(&frame, form))?;
    }
    recording.last_lines(reader.place, reader.left());
    let is_found = recording.seen.iter().any(|(_, count)| *count > 0);
    Ok((recording.text.0, is_found))
}

fn first_line(text: &mut Text, form: u8, link: u16) {
    text.put("capture: ");
    text.put(match form {
        0x0a => "pcapng",
        0x4d | 0xa1 | 0xd4 => "pcap",
        _ => "text",
    });
    text.put(match link {
        189 | 220 => ", usbmon",
        249 => ", USBPcap",
        288 => ", packets of the bus",
        293 => ", packets of the bus, low speed",
        294 => ", packets of the bus, full speed",
        295 => ", packets of the bus, high speed",
        _ => ", link type ",
    });
    if !matches!(link, 189 | 220 | 249 | 288 | 293..=295) {
        text.number(link.into());
        text.put(", no USB");
    }
    text.end();
}

/// Spaces up to a column, one at least.
fn column(text: &mut Text, begin: usize, width: usize) {
    let end = (begin + width).max(text.0.len() + 1);
    text.0.resize(end, b' ');
}

fn seconds(text: &mut Text, nanoseconds: u64) {
    text.number((nanoseconds / 1_000_000_000) as usize);
    text.put(".");
    let mut left = (nanoseconds / 1000 % 1_000_000) as u32;
    let mut six = [b'0'; 6];
    for digit in six.iter_mut().rev() {
        *digit += (left % 10) as u8;
        left /= 10;
    }
    text.0.extend_from_slice(&six);
}

fn address(text: &mut Text, device: Device) {
    text.number(device.0.into());
    text.put(".");
    text.number(device.1.into());
}

/// The first two columns of a line.
fn head(text: &mut Text, time: Option<u64>, origin: u64, device: Option<Device>) {
    let begin = text.0.len();
    match time {
        None => text.put("-"),
        Some(time) => {
            if time < origin {
                text.put("-");
            }
            seconds(text, time.abs_diff(origin));
        }
    }
    column(text, begin, 11);
    let begin = text.0.len();
    match device {
        Some(device) => address(text, device),
        None => text.put("-"),
    }
    column(text, begin, 6);
}

fn transfer_line(text: &mut Text, it: &Transfer, origin: u64) {
    head(text, it.time, origin, Some(it.device));
    let begin = text.0.len();
    request(text, it);
    column(text, begin, 44);
    let status = match it.ending {
        Ending::Failed(status) | Ending::Refused(status) => Some(status),
        _ => None,
    };
    match it.ending {
        Ending::Unseen => text.put("no end"),
        Ending::Stall => text.put("STALL"),
        Ending::Done if it.asked() == 0 => text.put("done"),
        Ending::Done => text.number(it.length as usize),
        Ending::Failed(_) => text.put("error "),
        Ending::Refused(_) => text.put("refused "),
    }
    if let Some(status) = status {
        code(text, status);
    }
    if it.is_cut {
        text.put(", cut");
    }
    text.end();
    if let Some(status) = status {
        text.spaces(11);
        text.put("? ");
        text.put(if status > ERRNO { errno(status.wrapping_neg()) } else { usbd(status) });
        text.end();
    }
}

/// Above it a status is a negative number of Linux.
const ERRNO: u32 = 0xffff_f000;

fn code(text: &mut Text, status: u32) {
    if status > ERRNO {
        text.put("-");
        text.number(status.wrapping_neg() as usize);
    } else {
        text.put("0x");
        text.hex(&status.to_be_bytes());
    }
}

fn request(text: &mut Text, it: &Transfer) {
    let [kind, request, low, high, part, ..] = it.setup;
    if kind >> 5 & 3 == 0 {
        text.put(request_name(request));
        match request {
            6 | 7 => descriptor(text, it, high, low),
            1 | 3 | 5 | 9 | 11 => {
                text.put(" ");
                text.number(it.value().into());
            }
            _ => {}
        }
    } else {
        text.put(["", "class request ", "vendor request ", "reserved request "][usize::from(kind >> 5 & 3)]);
        text.byte(request);
    }
    match kind & 31 {
        1 => {
            text.put(" of interface ");
            text.number(it.index().into());
        }
        2 => {
            text.put(" of endpoint ");
            text.byte(part);
        }
        3 => {
            text.put(" of other ");
            text.number(it.index().into());
        }
        _ => {}
    }
    if it.asked() > 0 {
        text.put(", ");
        text.count(it.asked().into(), "byte");
    }
}

fn descriptor(text: &mut Text, it: &Transfer, kind: u8, at: u8) {
    text.put(" ");
    match kind_name(kind) {
        "" => text.byte(kind),
        name => text.put(name),
    }
    text.put(" ");
    text.number(at.into());
    if kind == 3 && at > 0 {
        text.put(" ");
        text.word(it.index());
    }
}

fn device_line(text: &mut Text, device: Option<Device>, count: u64, kept: &[Kept]) {
    let Some(device) = device else {
        text.put("no device    ");
        text.count(count as usize, "finding");
        return text.end();
    };
    text.put("device ");
    let begin = text.0.len();
    address(text, device);
    column(text, begin, 6);
    let of = |kind| kept.iter().find(|it| it.device == device && it.words[1] == kind);
    match of(1) {
        None => text.put("no device descriptor came"),
        Some(it) => {
            text.hex(&[byte(&it.data, 9), byte(&it.data, 8)]);
            text.put(":");
            text.hex(&[byte(&it.data, 11), byte(&it.data, 10)]);
        }
    }
    match of(2) {
        None => text.put(", no configuration came"),
        Some(it) => {
            text.put(", configuration of ");
            text.count(it.data.len(), "byte");
        }
    }
    if count > 0 {
        text.put(", ");
        text.count(count as usize, "finding");
    }
    text.end();
}

fn request_name(request: u8) -> &'static str {
    match request {
        0 => "GET_STATUS",
        1 => "CLEAR_FEATURE",
        3 => "SET_FEATURE",
        5 => "SET_ADDRESS",
        6 => "GET_DESCRIPTOR",
        7 => "SET_DESCRIPTOR",
        8 => "GET_CONFIGURATION",
        9 => "SET_CONFIGURATION",
        10 => "GET_INTERFACE",
        11 => "SET_INTERFACE",
        12 => "SYNCH_FRAME",
        _ => "reserved request",
    }
}

fn kind_name(kind: u8) -> &'static str {
    match kind {
        1 => "device",
        2 => "configuration",
        3 => "string",
        6 => "qualifier",
        7 => "other-speed",
        15 => "BOS",
        _ => "",
    }
}

fn errno(number: u32) -> &'static str {
    match number {
        1 => "EPERM: nothing may be sent to the device now",
        2 => "ENOENT: the host took it back before its end",
        11 => "EAGAIN: the host can't send it now",
        12 => "ENOMEM: the host was out of memory",
        18 => "EXDEV: a part of an isochronous transfer failed",
        19 => "ENODEV: the device is gone",
        22 => "EINVAL: no such transfer can be made",
        28 => "ENOSPC: the bus has no bandwidth left",
        32 => "EPIPE: the endpoint is halted",
        62 => "ETIME: no answer within the time of a packet",
        63 => "ENOSR: the host's data came too late for the bus",
        70 => "ECOMM: the bus brought data faster than the host stored them",
        71 => "EPROTO: no whole answer; look at wire, clock, the first packet",
        75 => "EOVERFLOW: more bytes came than were asked for",
        84 => "EILSEQ: a wrong CRC, or no answer; look at wire and clock",
        90 => "EMSGSIZE: a packet is too long for the endpoint",
        104 => "ECONNRESET: the host took it back before its end",
        108 => "ESHUTDOWN: the device or the host controller is gone",
        110 => "ETIMEDOUT: no end within the time that the host gave",
        113 => "EHOSTUNREACH: the device is suspended",
        121 => "EREMOTEIO: fewer bytes came than the driver takes",
        _ => "a status without a name here",
    }
}

fn usbd(status: u32) -> &'static str {
    match status {
        0xc000_0001 => "CRC: a packet with a wrong CRC",
        0xc000_0002 => "BTSTUFF: a packet with a wrong stuffed bit",
        0xc000_0003 => "DATA_TOGGLE_MISMATCH: DATA0 in the place of DATA1, or the reverse",
        0xc000_0004 => "STALL_PID: the endpoint is halted",
        0xc000_0005 => "DEV_NOT_RESPONDING: no answer; look at wire, clock, power",
        0xc000_0006 => "PID_CHECK_FAILURE: a packet whose PID isn't one",
        0xc000_0007 => "UNEXPECTED_PID: a packet that has no place here",
        0xc000_0008 => "DATA_OVERRUN: more bytes came than were asked for",
        0xc000_0009 => "DATA_UNDERRUN: fewer bytes came than were asked for",
        0xc000_000c => "BUFFER_OVERRUN: data came faster than the host stored them",
        0xc000_000d => "BUFFER_UNDERRUN: the host's data came too late for the bus",
        0xc000_0010 => "FIFO: the host's data came too late for the bus",
        0xc000_0011 => "XACT_ERROR: no whole answer; look at wire, clock, the first packet",
        0xc000_0012 => "BABBLE_DETECTED: more bytes came than were asked for",
        0xc000_0013 => "DATA_BUFFER_ERROR: the host's memory was too slow for the bus",
        0xc000_0030 => "ENDPOINT_HALTED: the endpoint is halted",
        0xc000_6000 => "TIMEOUT: no end within the time that the host gave",
        0xc000_7000 => "DEVICE_GONE: the device is gone",
        0xc000_9000 => "HUB_INTERNAL_ERROR: the hub failed",
        0xc001_0000 => "CANCELED: the host took it back before its end",
        0x8000_0200 => "INVALID_URB_FUNCTION: no such transfer can be made",
        0x8000_0300 => "INVALID_PARAMETER: no such transfer can be made",
        0x8000_0700 => "NO_BANDWIDTH: the bus has no bandwidth left",
        0x8000_0800 => "INTERNAL_HC_ERROR: the host controller failed",
        0x8000_0900 => "ERROR_SHORT_TRANSFER: fewer bytes came than the driver takes",
        _ => "a status without a name here",
    }
}
