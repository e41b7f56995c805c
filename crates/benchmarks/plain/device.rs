//! A device: its descriptors encoded once, and its end of the control transfers of endpoint zero.

use crate::file::{DescriptorFile, Strings, has_declared_sets, has_named_strings, named, put_units};
use crate::rules::{Finding, check};
use crate::set::{CONFIGURATION, Configuration, OTHER_SPEED, QUALIFIER, STRING, Setting, encode_onto};
use std::ops::Range;

#[derive(Clone, Copy, PartialEq, Eq)]
pub enum Speed {
    Low,
    Full,
    High,
}

#[derive(Debug)]
pub enum DescriptionFault {
    Finding(Finding),
    Texts,
    Speed,
    Unwritable,
}

/// The descriptors of a file, one after another, and where each is.
#[derive(Default)]
struct Image {
    bytes: Vec<u8>,
    places: Vec<Range<usize>>,
}

impl Image {
    fn add(&mut self, put: impl FnOnce(&mut Vec<u8>) -> Option<()>) -> Option<()> {
        let start = self.bytes.len();
        put(&mut self.bytes)?;
        self.places.push(start..self.bytes.len());
        Some(())
    }
}

const ABSENT: u8 = 255;

pub struct Description {
    file: DescriptorFile,
    image: Image,
    /// Where the qualifier is, and where the languages are.
    others: usize,
    strings: usize,
    named: usize,
    ranks: [u8; 256],
}

impl Description {
    pub fn new(file: DescriptorFile, speed: Speed) -> Result<Description, DescriptionFault> {
        let mut image = Image::default();
        let others = add_sets(&mut image, &file).ok_or(DescriptionFault::Unwritable)?;
        let strings = image.places.len();
        let named = named(&file).to_vec();
        if let Some(first) = check(&file).first() {
            return Err(DescriptionFault::Finding(*first));
        }
        if !has_named_strings(&file.strings, named.len()) || has_language_twice(&file) {
            return Err(DescriptionFault::Texts);
        }
        if !fits_speed(&file, speed) {
            return Err(DescriptionFault::Speed);
        }
        if let Some(strings) = &file.strings {
            for units in std::iter::once(&strings.languages).chain(&strings.texts) {
                image.add(|out| put_units(out, units)).ok_or(DescriptionFault::Texts)?;
            }
        }
        let mut ranks = [ABSENT; 256];
        for (rank, index) in named.iter().enumerate() {
            ranks[usize::from(*index)] = rank as u8;
        }
        Ok(Description { file, image, others, strings, named: named.len(), ranks })
    }

    pub fn packet(&self) -> usize {
        usize::from(self.file.device.packet)
    }

    #[inline]
    pub fn bytes(&self, place: usize) -> &[u8] {
        &self.image.bytes[self.image.places[place].clone()]
    }

    /// All descriptors, one after another.
    pub fn all_bytes(&self) -> &[u8] {
        &self.image.bytes
    }

    #[inline(always)]
    pub fn find(&self, kind: u8, index: u8, language: u16) -> Option<usize> {
        let number = usize::from(index);
        match (kind, &self.file.other, &self.file.strings) {
            (1, _, _) if index == 0 => Some(0),
            (CONFIGURATION, _, _) if number < self.file.sets.len() => Some(1 + number),
            (QUALIFIER, Some(_), _) if index == 0 => Some(self.others),
            (OTHER_SPEED, Some(it), _) if number < it.sets.len() => Some(self.others + 1 + number),
            (STRING, _, Some(_)) if index == 0 => Some(self.strings),
            (STRING, _, Some(strings)) => self.find_string(strings, number, language),
            _ => None,
        }
    }

    #[inline(never)]
    fn find_string(&self, strings: &Strings, index: usize, language: u16) -> Option<usize> {
        let rank = self.ranks[index];
        if rank == ABSENT {
            return None;
        }
        let row = strings.languages.iter().position(|it| *it == language)?;
        Some(self.strings + 1 + row * self.named + usize::from(rank))
    }
}

/// Adds all but the strings, and answers where the qualifier is.
fn add_sets(image: &mut Image, file: &DescriptorFile) -> Option<usize> {
    if !has_declared_sets(file) {
        return None;
    }
    let put = |out: &mut Vec<u8>, bytes: &[u8]| {
        out.extend_from_slice(bytes);
        Some(())
    };
    image.add(|out| put(out, &file.device.bytes()))?;
    for set in &file.sets {
        image.add(|out| encode_onto(set, out))?;
    }
    let others = image.places.len();
    if let Some(other) = &file.other {
        image.add(|out| put(out, &other.qualifier.bytes()))?;
        for set in &other.sets {
            image.add(|out| encode_onto(set, out))?;
        }
    }
    Some(others)
}

fn has_language_twice(file: &DescriptorFile) -> bool {
    let languages = file.strings.as_ref().map_or(&[][..], |strings| &strings.languages);
    (1..languages.len()).any(|place| languages[..place].contains(&languages[place]))
}

fn fits_speed(file: &DescriptorFile, speed: Speed) -> bool {
    let fits = match speed {
        Speed::Low => file.device.packet == 8 && file.other.is_none(),
        Speed::Full => true,
        Speed::High => file.device.packet == 64,
    };
    fits && (file.other.is_none() || file.device.usb >= 0x0200)
}

#[derive(Clone, Copy, PartialEq, Eq)]
pub struct Setup {
    pub request_type: u8,
    pub request: u8,
    pub value: u16,
    pub index: u16,
    pub length: u16,
}

impl Setup {
    pub fn read(b: [u8; 8]) -> Setup {
        let word = |at: usize| u16::from_le_bytes([b[at], b[at + 1]]);
        Setup { request_type: b[0], request: b[1], value: word(2), index: word(4), length: word(6) }
    }

    pub fn bytes(self) -> [u8; 8] {
        let [a, b] = self.value.to_le_bytes();
        let [c, d] = self.index.to_le_bytes();
        let [e, f] = self.length.to_le_bytes();
        [self.request_type, self.request, a, b, c, d, e, f]
    }

    pub fn is_in(self) -> bool {
        self.request_type & 0x80 != 0
    }
}

#[derive(Clone, Copy)]
pub enum Token<'a> {
    Setup([u8; 8]),
    In,
    /// Whether the toggle is DATA1, and the bytes.
    Out(bool, &'a [u8]),
}

#[derive(Clone, Copy)]
pub struct Transaction<'a> {
    pub address: u8,
    pub token: Token<'a>,
}

#[derive(Clone, Copy)]
pub enum Answer<'a> {
    Ack,
    Nak,
    Stall,
    /// Whether the toggle is DATA1, and the bytes.
    Data(bool, &'a [u8]),
    Silence,
}

/// What an owner's answer may have.
const ROOM: usize = 512;

pub struct State {
    address: u8,
    selected: u8,
    alternates: [u8; 256],
    halts: u32,
    wakeup: bool,
}

enum Change {
    Nothing,
    Address(u8),
    Configuration(u8),
    Wakeup(bool),
    Halts(u32),
    Alternate(u8, u8, u32),
}

enum Decision {
    Descriptor(usize),
    Byte(u8),
    Status(u8),
    Done(Change),
}

fn halt_bit(endpoint: u8) -> u32 {
    1 << (endpoint & 15 | endpoint >> 3 & 16)
}

/// A standard request, its device and its state: a function for each row of the device's table, which answers none where
/// the request is rejected.
struct Request<'r> {
    description: &'r Description,
    state: &'r State,
    setup: Setup,
}

impl<'r> Request<'r> {
    #[inline(always)]
    fn decide(&self) -> Option<Decision> {
        let q = self.setup;
        match (q.request_type & 0x7f, q.request) {
            (0, 6) => self.get_descriptor(),
            (0..=2, 0) if q.value == 0 => self.get_status(),
            (0 | 2, 1 | 3) => self.change_feature(q.request == 3),
            (0, 5) => self.set_address(),
            (0, 8) if self.has_address() && q.value == 0 && q.index == 0 => self.byte(self.state.selected),
            (0, 9) => self.set_configuration(),
            (1, 10) if self.has_interface() && q.value == 0 => self.byte(self.state.alternates[usize::from(q.index)]),
            (1, 11) if self.is_configured() => self.set_interface(),
            _ => None,
        }
    }

    #[inline(always)]
    fn get_descriptor(&self) -> Option<Decision> {
        let [number, kind] = self.setup.value.to_le_bytes();
        let place = self.description.find(kind, number, self.setup.index)?;
        match self.setup.length {
            0 => Some(Decision::Done(Change::Nothing)),
            _ => self.setup.is_in().then_some(Decision::Descriptor(place)),
        }
    }

    fn get_status(&self) -> Option<Decision> {
        let first = match self.setup.request_type & 0x7f {
            0 if self.has_address() && self.setup.index == 0 => {
                let is_shown = |set: &&Configuration| !self.is_configured() || set.value == self.state.selected;
                let attributes = self.description.file.sets.iter().find(is_shown).map_or(0, |set| set.attributes);
                attributes >> 6 & 1 | u8::from(self.state.wakeup) << 1
            }
            1 if self.has_interface() => 0,
            2 if self.has_address() && self.is_endpoint_zero() => 0,
            2 => u8::from(self.state.halts & halt_bit(self.endpoint()?) != 0),
            _ => return None,
        };
        (self.setup.is_in() && self.setup.length == 2).then_some(Decision::Status(first))
    }

    fn change_feature(&self, on: bool) -> Option<Decision> {
        let q = self.setup;
        if q.request_type & 0x7f == 0 {
            let can_wake = self.description.file.sets.iter().any(|set| set.attributes & 0x20 != 0);
            let is_wakeup = self.has_address() && q.value == 1 && q.index == 0 && can_wake;
            return if is_wakeup { self.done(Change::Wakeup(on)) } else { None };
        }
        if q.value != 0 {
            return None;
        }
        let (halts, bit) = (self.state.halts, halt_bit(self.endpoint()?));
        self.done(Change::Halts(if on { halts | bit } else { halts & !bit }))
    }

    fn set_address(&self) -> Option<Decision> {
        let q = self.setup;
        let is_allowed = !self.is_configured() && q.value < 128 && q.index == 0;
        if is_allowed { self.done(Change::Address(q.value as u8)) } else { None }
    }

    fn set_configuration(&self) -> Option<Decision> {
        let value = u8::try_from(self.setup.value).ok()?;
        let is_there = value == 0 || self.description.file.sets.iter().any(|set| set.value == value);
        let is_allowed = self.has_address() && self.setup.index == 0 && is_there;
        if is_allowed { self.done(Change::Configuration(value)) } else { None }
    }

    fn set_interface(&self) -> Option<Decision> {
        let (number, alternate) = (u8::try_from(self.setup.index).ok()?, u8::try_from(self.setup.value).ok()?);
        let of_number = self.settings().iter().filter(|it| it.number == number);
        of_number.clone().find(|it| it.alternate == alternate)?;
        let endpoints = of_number.flat_map(|it| &it.endpoints);
        let halts = endpoints.fold(self.state.halts, |halts, it| halts & !halt_bit(it.address));
        self.done(Change::Alternate(number, alternate, halts))
    }

    fn has_address(&self) -> bool {
        self.state.address != 0
    }

    fn is_configured(&self) -> bool {
        self.has_address() && self.state.selected != 0
    }

    fn settings(&self) -> &'r [Setting] {
        let mut sets = self.description.file.sets.iter();
        sets.find(|set| set.value == self.state.selected).map_or(&[], |set| &set.settings)
    }

    fn has_interface(&self) -> bool {
        self.is_configured() && self.settings().iter().any(|it| u16::from(it.number) == self.setup.index)
    }

    fn is_endpoint_zero(&self) -> bool {
        matches!(self.setup.index, 0 | 0x80)
    }

    /// The address of an endpoint other than zero in a selected setting, if the request names one.
    fn endpoint(&self) -> Option<u8> {
        if !self.is_configured() || self.is_endpoint_zero() {
            return None;
        }
        let is_chosen = |it: &&Setting| self.state.alternates[usize::from(it.number)] == it.alternate;
        let mut endpoints = self.settings().iter().filter(is_chosen).flat_map(|it| &it.endpoints);
        endpoints.find(|it| u16::from(it.address) == self.setup.index).map(|it| it.address)
    }

    fn done(&self, change: Change) -> Option<Decision> {
        (self.setup.length == 0).then_some(Decision::Done(change))
    }

    fn byte(&self, value: u8) -> Option<Decision> {
        (self.setup.is_in() && self.setup.length == 1).then_some(Decision::Byte(value))
    }
}

#[derive(Clone, Copy, PartialEq, Eq)]
enum Stage {
    Idle,
    Halted,
    Sending,
    StatusOut,
    Over,
    StatusIn,
    Receiving,
    Written,
}

#[derive(Debug)]
pub enum Unanswered {
    Nothing,
    Closed,
    Shape,
    Room,
}

pub struct Device<'d> {
    description: &'d Description,
    state: State,
    stage: Stage,
    /// The descriptor that is sent, or none for the kept bytes.
    source: Option<&'d [u8]>,
    kept: [u8; ROOM],
    packet: usize,
    offset: usize,
    end: usize,
    /// Whether less is sent than was asked for, so that a packet that isn't full ends it.
    is_short: bool,
    is_data1: bool,
    request: Setup,
    /// Whether the host knows of the rejection, or whether the request was carried out.
    is_settled: bool,
    /// Whether an ACK counts.
    is_pending: bool,
}

impl<'d> Device<'d> {
    pub fn new(description: &'d Description) -> Device<'d> {
        Device {
            description,
            state: State { address: 0, selected: 0, alternates: [0; 256], halts: 0, wakeup: false },
            stage: Stage::Idle,
            source: None,
            kept: [0; ROOM],
            packet: description.packet(),
            offset: 0,
            end: 0,
            is_short: false,
            is_data1: true,
            request: Setup::read([0; 8]),
            is_settled: false,
            is_pending: false,
        }
    }

    pub fn reset(&mut self) {
        *self = Device::new(self.description);
    }

    #[inline(always)]
    pub fn serve(&mut self, t: &Transaction, is_ready: bool) -> Answer<'_> {
        self.is_pending = false;
        if t.address != self.state.address {
            return Answer::Silence;
        }
        match t.token {
            Token::Setup(bytes) => {
                self.begin(Setup::read(bytes));
                Answer::Ack
            }
            _ if !is_ready => Answer::Nak,
            Token::In => self.send(),
            Token::Out(is_data1, bytes) => self.receive(is_data1, bytes),
        }
    }

    #[inline(never)]
    fn begin(&mut self, q: Setup) {
        match self.decide(q) {
            Some(Decision::Descriptor(place)) => {
                let bytes = self.description.bytes(place);
                self.source = Some(bytes);
                self.begin_sending(bytes.len().min(usize::from(q.length)), usize::from(q.length));
            }
            Some(Decision::Byte(byte)) => self.keep(&[byte], 1),
            Some(Decision::Status(first)) => self.keep(&[first, 0], 2),
            Some(Decision::Done(_)) => self.wait(Stage::StatusIn, q),
            None => self.wait(Stage::Halted, q),
        }
    }

    #[inline(always)]
    fn decide(&self, setup: Setup) -> Option<Decision> {
        Request { description: self.description, state: &self.state, setup }.decide()
    }

    fn wait(&mut self, stage: Stage, q: Setup) {
        (self.stage, self.request, self.is_settled) = (stage, q, false);
    }

    fn begin_sending(&mut self, count: usize, limit: usize) {
        (self.stage, self.offset, self.end) = (Stage::Sending, 0, count);
        (self.is_short, self.is_data1) = (count < limit, true);
    }

    fn keep(&mut self, bytes: &[u8], limit: usize) {
        self.source = None;
        self.kept[..bytes.len()].copy_from_slice(bytes);
        self.begin_sending(bytes.len(), limit);
    }

    #[inline(always)]
    fn send(&mut self) -> Answer<'_> {
        match self.stage {
            Stage::Sending => {
                self.is_pending = true;
                let bytes = self.source.unwrap_or(&self.kept);
                Answer::Data(self.is_data1, &bytes[self.offset..self.packet_end()])
            }
            Stage::StatusIn => {
                if !self.is_settled && !self.is_set_address() {
                    self.carry_out();
                }
                (self.is_settled, self.is_pending) = (true, true);
                Answer::Data(true, &[])
            }
            _ => self.stall(),
        }
    }

    #[inline(always)]
    fn packet_end(&self) -> usize {
        self.end.min(self.offset + self.packet)
    }

    #[inline(always)]
    fn receive(&mut self, is_data1: bool, bytes: &[u8]) -> Answer<'_> {
        match self.stage {
            Stage::Sending | Stage::StatusOut | Stage::Over if !is_data1 => Answer::Ack,
            Stage::Sending | Stage::StatusOut | Stage::Over if bytes.is_empty() => {
                self.stage = Stage::Over;
                Answer::Ack
            }
            _ => self.receive_data(is_data1, bytes),
        }
    }

    /// A packet of a write: kept, discarded where it came again, or stalled.
    #[inline(never)]
    fn receive_data(&mut self, is_data1: bool, bytes: &[u8]) -> Answer<'_> {
        match self.stage {
            Stage::Receiving | Stage::Written if is_data1 != self.is_data1 => Answer::Ack,
            Stage::StatusIn if self.request.length > 0 => Answer::Ack,
            Stage::Receiving => {
                let left = usize::from(self.request.length) - self.offset;
                if bytes.len() != left.min(self.packet) {
                    return self.stall();
                }
                let end = self.offset + bytes.len();
                self.kept[self.offset..end].copy_from_slice(bytes);
                (self.offset, self.is_data1) = (end, !self.is_data1);
                if bytes.len() == left {
                    self.stage = Stage::Written;
                }
                Answer::Ack
            }
            _ => self.stall(),
        }
    }

    fn stall(&mut self) -> Answer<'_> {
        (self.stage, self.is_settled) = (Stage::Halted, true);
        Answer::Stall
    }

    fn is_set_address(&self) -> bool {
        self.request.request_type & 0x7f == 0 && self.request.request == 5
    }

    #[inline(never)]
    fn carry_out(&mut self) {
        let Some(Decision::Done(change)) = self.decide(self.request) else {
            return;
        };
        let state = &mut self.state;
        match change {
            Change::Nothing => {}
            Change::Address(address) => state.address = address,
            Change::Configuration(value) => {
                (state.selected, state.alternates, state.halts) = (value, [0; 256], 0);
            }
            Change::Wakeup(on) => state.wakeup = on,
            Change::Halts(halts) => state.halts = halts,
            Change::Alternate(number, alternate, halts) => {
                state.alternates[usize::from(number)] = alternate;
                state.halts = halts;
            }
        }
    }

    /// The host has acknowledged what was sent last.
    #[inline(always)]
    pub fn acked(&mut self) {
        if !std::mem::take(&mut self.is_pending) {
            return;
        }
        if self.stage == Stage::Sending {
            let end = self.packet_end();
            let is_full = end - self.offset == self.packet;
            (self.offset, self.is_data1) = (end, !self.is_data1);
            if !is_full || end == self.end && !self.is_short {
                self.stage = Stage::StatusOut;
            }
        } else if self.stage == Stage::StatusIn {
            if self.is_set_address() {
                self.carry_out();
            }
            self.stage = Stage::Idle;
        }
    }

    /// The rejected request that the host doesn't know of yet.
    pub fn refused(&self) -> Option<Setup> {
        (self.stage == Stage::Halted && !self.is_settled).then_some(self.request)
    }

    /// The rejected request, where it is open to an owner.
    fn open(&self) -> Result<Setup, Unanswered> {
        let q = self.refused().ok_or(Unanswered::Nothing)?;
        let is_open = match q.request_type >> 5 & 3 {
            0 if q.request == 6 => match q.request_type & 0x1f {
                0 => !matches!(q.value >> 8, 1 | 2 | 6 | 7),
                recipient => recipient < 3,
            },
            class => class == 1 || class == 2,
        };
        if is_open { Ok(q) } else { Err(Unanswered::Closed) }
    }

    /// The write whose data have all come, and those data.
    pub fn written(&self) -> Option<(Setup, &[u8])> {
        (self.stage == Stage::Written).then(|| (self.request, &self.kept[..self.offset]))
    }

    /// The owner accepts a rejected request, or the data of a write.
    pub fn accept(&mut self) -> Result<(), Unanswered> {
        if self.stage == Stage::Written {
            self.wait(Stage::StatusIn, self.request);
            return Ok(());
        }
        let q = self.open()?;
        if q.length > 0 && q.is_in() {
            return Err(Unanswered::Shape);
        }
        if usize::from(q.length) > ROOM {
            return Err(Unanswered::Room);
        }
        self.wait(if q.length > 0 { Stage::Receiving } else { Stage::StatusIn }, q);
        (self.offset, self.is_data1) = (0, true);
        Ok(())
    }

    /// The owner answers a rejected request.
    pub fn answer_with(&mut self, bytes: &[u8]) -> Result<(), Unanswered> {
        let q = self.open()?;
        if q.length == 0 || !q.is_in() {
            return Err(Unanswered::Shape);
        }
        let limit = usize::from(q.length);
        let bytes = &bytes[..bytes.len().min(limit)];
        if bytes.len() > ROOM {
            return Err(Unanswered::Room);
        }
        self.keep(bytes, limit);
        Ok(())
    }
}
