//! The host's end: one control transfer, and a host that enumerates.

use crate::device::{Answer, Setup, Speed, Token, Transaction};
use crate::file::{DescriptorFile, Device, Other, Qualifier, Strings, named, read_units};
use crate::set::{CONFIGURATION, Configuration, Decoder, OTHER_SPEED, QUALIFIER, STRING};

#[derive(Clone, Copy, Debug, PartialEq, Eq)]
pub enum Why {
    NoAnswer = 1,
    Busy,
    Stalled,
    TooLong,
    Unexpected,
    Malformed,
}

pub enum Heard<'a> {
    Again,
    Bytes(&'a [u8]),
    Complete,
    Failed(Why),
}

#[derive(Clone, Copy, PartialEq, Eq)]
enum Stage {
    Setup,
    DataIn,
    DataOut,
    StatusOut,
    StatusIn,
    Completed,
    Failed,
}

pub struct Transfer {
    address: u8,
    packet: u8,
    naks: u16,
    request: Setup,
    stage: Stage,
    /// Where it has failed.
    why: Why,
    is_data1: bool,
    kept: u16,
    strikes: u8,
    nak_count: u16,
}

impl Transfer {
    pub fn new(address: u8, packet: u8, naks: u16, request: Setup) -> Transfer {
        Transfer {
            address,
            packet,
            naks,
            request,
            stage: Stage::Setup,
            why: Why::Unexpected,
            is_data1: true,
            kept: 0,
            strikes: 0,
            nak_count: 0,
        }
    }

    #[inline(always)]
    pub fn next(&self) -> Option<Transaction<'static>> {
        self.next_with(&[])
    }

    /// The transaction that is due, with these data to the device.
    #[inline(always)]
    fn next_with<'a>(&self, data: &'a [u8]) -> Option<Transaction<'a>> {
        let token = match self.stage {
            Stage::Setup => Token::Setup(self.request.bytes()),
            Stage::DataIn | Stage::StatusIn => Token::In,
            Stage::DataOut => {
                let left = data.get(usize::from(self.kept)..).unwrap_or(&[]);
                Token::Out(self.is_data1, &left[..left.len().min(usize::from(self.packet))])
            }
            Stage::StatusOut => Token::Out(true, &[]),
            Stage::Completed | Stage::Failed => return None,
        };
        Some(Transaction { address: self.address, token })
    }

    #[inline(always)]
    pub fn take<'a>(&mut self, answer: Answer<'a>) -> Heard<'a> {
        match (self.stage, answer) {
            (Stage::DataIn, Answer::Data(is_data1, bytes)) => self.take_data(is_data1, bytes),
            (Stage::Completed, _) => Heard::Complete,
            (Stage::Failed, _) => Heard::Failed(self.why),
            (_, Answer::Silence) => self.strike(),
            (Stage::Setup, Answer::Ack) if self.request.length == 0 => self.go_on(Stage::StatusIn),
            (Stage::Setup, Answer::Ack) if self.request.is_in() => self.go_on(Stage::DataIn),
            (Stage::Setup, Answer::Ack) => self.go_on(Stage::DataOut),
            (Stage::Setup, _) => self.fail(Why::Unexpected),
            (_, Answer::Nak) if self.nak_count < self.naks => {
                self.nak_count += 1;
                Heard::Again
            }
            (_, Answer::Nak) => self.fail(Why::Busy),
            (_, Answer::Stall) => self.fail(Why::Stalled),
            (Stage::StatusOut, Answer::Ack) => self.complete(),
            (Stage::StatusIn, Answer::Data(_, [_, ..])) => self.fail(Why::TooLong),
            (Stage::StatusIn, Answer::Data(true, [])) => self.complete(),
            (Stage::StatusIn, Answer::Data(false, [])) => self.strike(),
            (_, Answer::Ack | Answer::Data(..)) => self.fail(Why::Unexpected),
        }
    }

    #[inline(always)]
    fn take_data<'a>(&mut self, is_data1: bool, bytes: &'a [u8]) -> Heard<'a> {
        let packet = usize::from(self.packet);
        if bytes.len() > packet {
            return self.fail(Why::TooLong);
        }
        if is_data1 != self.is_data1 {
            return self.strike();
        }
        let (kept, length) = (usize::from(self.kept) + bytes.len(), usize::from(self.request.length));
        if kept > length {
            return self.fail(Why::TooLong);
        }
        (self.kept, self.is_data1) = (kept as u16, !is_data1);
        (self.strikes, self.nak_count) = (0, 0);
        if kept == length || bytes.len() < packet {
            self.stage = Stage::StatusOut;
        }
        Heard::Bytes(bytes)
    }

    /// The device has acknowledged a packet of data.
    fn count_packet(&mut self) -> Heard<'static> {
        self.kept += (self.request.length - self.kept).min(u16::from(self.packet));
        self.is_data1 = !self.is_data1;
        let is_last = self.kept == self.request.length;
        self.go_on(if is_last { Stage::StatusIn } else { Stage::DataOut })
    }

    fn go_on(&mut self, stage: Stage) -> Heard<'static> {
        (self.stage, self.strikes, self.nak_count) = (stage, 0, 0);
        Heard::Again
    }

    fn complete(&mut self) -> Heard<'static> {
        self.go_on(Stage::Completed);
        Heard::Complete
    }

    fn strike(&mut self) -> Heard<'static> {
        self.strikes += 1;
        if self.strikes < 3 { Heard::Again } else { self.fail(Why::NoAnswer) }
    }

    fn fail(&mut self, why: Why) -> Heard<'static> {
        (self.stage, self.why) = (Stage::Failed, why);
        Heard::Failed(why)
    }
}

/// A transfer with data to the device.
pub struct Write {
    transfer: Transfer,
}

impl Write {
    pub fn new(address: u8, packet: u8, naks: u16, request: Setup) -> Write {
        Write { transfer: Transfer::new(address, packet, naks, request) }
    }

    #[inline(always)]
    pub fn next<'a>(&self, data: &'a [u8]) -> Option<Transaction<'a>> {
        self.transfer.next_with(data)
    }

    #[inline(always)]
    pub fn take<'a>(&mut self, answer: Answer<'a>) -> Heard<'a> {
        match (self.transfer.stage, answer) {
            (Stage::DataOut, Answer::Ack) => self.transfer.count_packet(),
            (_, answer) => self.transfer.take(answer),
        }
    }
}

#[derive(Clone, Copy, Debug, PartialEq, Eq)]
enum Step {
    First,
    Address,
    Device,
    Header { kind: u8 },
    Set { kind: u8, total: u16 },
    Qualifier,
    Languages,
    Text,
    Configure,
}

pub enum Action {
    Reset,
    Send(Transaction<'static>),
    Ended,
}

/// The limits of a host: its device's address, NAKs without progress, and attempts.
#[derive(Clone, Copy)]
pub struct Limits {
    pub address: u8,
    pub naks: u16,
    pub attempts: u8,
}

#[derive(Clone, Copy, PartialEq, Eq)]
enum Due {
    Reset,
    Transfer,
    Nothing,
}

/// A string that was passed over: the language list has index 0.
#[derive(Clone, Copy, Debug, PartialEq, Eq)]
pub struct Missing {
    pub language: u16,
    pub index: u8,
    pub why: Why,
}

pub struct Host {
    limits: Limits,
    speed: Speed,
    /// Whether a string may be missing, and those that are.
    may_lack: bool,
    forgiven: Vec<Missing>,
    attempts: u8,
    due: Due,
    outcome: Option<Result<(), Why>>,
    step: Step,
    transfer: Transfer,
    first: [u8; 8],
    file: Option<DescriptorFile>,
    strings: Strings,
    named: Vec<u8>,
    /// A read of at most 255 bytes.
    kept: [u8; 255],
    count: usize,
    decoder: Decoder,
}

fn getting(kind: u8, index: u8, language: u16, length: u16) -> Setup {
    let value = u16::from_be_bytes([kind, index]);
    Setup { request_type: 0x80, request: 6, value, index: language, length }
}

fn telling(request: u8, value: u8) -> Setup {
    Setup { request_type: 0, request, value: u16::from(value), index: 0, length: 0 }
}

impl Host {
    pub fn new(limits: Limits, speed: Speed, may_lack: bool) -> Host {
        Host {
            limits,
            speed,
            may_lack,
            forgiven: Vec::new(),
            attempts: 0,
            due: Due::Reset,
            outcome: None,
            step: Step::First,
            transfer: Transfer::new(0, 8, limits.naks, getting(1, 0, 0, 8)),
            first: [0; 8],
            file: None,
            strings: Strings { languages: Vec::new(), texts: Vec::new() },
            named: Vec::new(),
            kept: [0; 255],
            count: 0,
            decoder: Decoder::new(),
        }
    }

    /// The strings that are missing so far.
    pub fn forgiven(&self) -> &[Missing] {
        &self.forgiven
    }

    pub fn is_at_string(&self) -> bool {
        self.step == Step::Text
    }

    #[inline(always)]
    pub fn next(&self) -> Action {
        match self.due {
            Due::Reset => Action::Reset,
            Due::Transfer => self.transfer.next().map_or(Action::Ended, Action::Send),
            Due::Nothing => Action::Ended,
        }
    }

    pub fn reset_done(&mut self) {
        if self.due == Due::Reset {
            self.attempts += 1;
            (self.due, self.outcome, self.file) = (Due::Transfer, None, None);
            self.strings = Strings { languages: Vec::new(), texts: Vec::new() };
            self.forgiven.clear();
            self.begin(Step::First);
        }
    }

    pub fn attempts(&self) -> u8 {
        self.attempts
    }

    /// What has been read, or why it could not be, once the host has ended.
    pub fn into_outcome(self) -> Option<Result<DescriptorFile, Why>> {
        match self.outcome? {
            Ok(()) => self.file.map(Ok),
            Err(why) => Some(Err(why)),
        }
    }

    #[inline(always)]
    pub fn take(&mut self, answer: Answer<'_>) {
        if self.due != Due::Transfer {
            return;
        }
        match self.transfer.take(answer) {
            Heard::Again => {}
            Heard::Bytes(bytes) => self.keep(bytes),
            Heard::Complete => self.end(None),
            Heard::Failed(why) => self.end(Some(why)),
        }
    }

    /// Goes on after a transfer that has ended, perhaps by a failure.
    #[inline(never)]
    fn end(&mut self, failure: Option<Why>) {
        let next = match failure {
            None => self.read(),
            Some(Why::Stalled) if self.step == Step::Qualifier => Ok(self.after_speeds()),
            Some(why) => Err(why),
        };
        let next = match next {
            Err(why @ (Why::Stalled | Why::Malformed)) if self.may_lack => self.forgive(why),
            next => next,
        };
        self.go_on(next);
    }

    /// Goes on with a stand-in for a string, if one was asked for.
    fn forgive(&mut self, why: Why) -> Result<Option<Step>, Why> {
        let Setup { value, index: language, .. } = self.request();
        match self.step {
            Step::Languages => self.take_languages(vec![0x0409]),
            Step::Text => self.strings.texts.push(Vec::new()),
            _ => return Err(why),
        }
        self.forgiven.push(Missing { language, index: value as u8, why });
        Ok(self.after_text())
    }

    fn take_languages(&mut self, languages: Vec<u16>) {
        self.strings.texts = Vec::with_capacity(languages.len() * self.named.len());
        self.strings.languages = languages;
    }

    #[inline(always)]
    fn keep(&mut self, bytes: &[u8]) {
        if let Step::Set { .. } = self.step {
            // Its faults are judged once the transfer has completed.
            let _ = self.decoder.feed(bytes);
        } else {
            let end = self.count + bytes.len();
            self.kept[self.count..end].copy_from_slice(bytes);
            self.count = end;
        }
    }

    fn go_on(&mut self, next: Result<Option<Step>, Why>) {
        match next {
            Ok(Some(step)) => self.begin(step),
            Ok(None) => (self.due, self.outcome) = (Due::Nothing, Some(Ok(()))),
            Err(why) => {
                let may_retry = matches!(why, Why::NoAnswer | Why::Busy) && self.attempts < self.limits.attempts;
                self.due = if may_retry { Due::Reset } else { Due::Nothing };
                self.outcome = Some(Err(why));
            }
        }
    }

    fn begin(&mut self, step: Step) {
        (self.step, self.count) = (step, 0);
        if let Step::Set { .. } = step {
            self.decoder.restart();
        }
        let (address, packet) = match step {
            Step::First => (0, 8),
            Step::Address => (0, self.first[7]),
            _ => (self.limits.address, self.first[7]),
        };
        self.transfer = Transfer::new(address, packet, self.limits.naks, self.request());
    }

    /// The request of the step in work.
    fn request(&self) -> Setup {
        let file = self.file.as_ref();
        let count = |kind| self.sets(kind).len() as u8;
        match self.step {
            Step::First => getting(1, 0, 0, 8),
            Step::Address => telling(5, self.limits.address),
            Step::Device => getting(1, 0, 0, 18),
            Step::Header { kind } => getting(kind, count(kind), 0, 9),
            Step::Set { kind, total } => getting(kind, count(kind), 0, total),
            Step::Qualifier => getting(QUALIFIER, 0, 0, 10),
            Step::Languages => getting(STRING, 0, 0, 255),
            Step::Text => {
                let (done, named) = (self.strings.texts.len(), self.named.len());
                getting(STRING, self.named[done % named], self.strings.languages[done / named], 255)
            }
            Step::Configure => {
                let first = file.and_then(|file| file.sets.first());
                telling(9, first.map_or(0, |set| set.value))
            }
        }
    }

    fn sets(&self, kind: u8) -> &[Configuration] {
        match &self.file {
            Some(file) if kind == CONFIGURATION => &file.sets,
            Some(DescriptorFile { other: Some(other), .. }) => &other.sets,
            _ => &[],
        }
    }

    fn declared(&self, kind: u8) -> usize {
        usize::from(match &self.file {
            Some(file) if kind == CONFIGURATION => file.device.configurations,
            Some(DescriptorFile { other: Some(other), .. }) => other.qualifier.configurations,
            _ => 0,
        })
    }

    fn after_set(&mut self, kind: u8) -> Option<Step> {
        if self.sets(kind).len() < self.declared(kind) {
            return Some(Step::Header { kind });
        }
        let usb = self.file.as_ref().map_or(0, |file| file.device.usb);
        if kind == CONFIGURATION && usb >= 0x0200 && self.speed != Speed::Low {
            return Some(Step::Qualifier);
        }
        self.after_speeds()
    }

    fn after_speeds(&mut self) -> Option<Step> {
        self.named = self.file.as_ref().map_or(Vec::new(), |file| named(file).to_vec());
        Some(if self.named.is_empty() { Step::Configure } else { Step::Languages })
    }

    fn after_text(&mut self) -> Option<Step> {
        if self.strings.texts.len() < self.strings.languages.len() * self.named.len() {
            return Some(Step::Text);
        }
        let none = Strings { languages: Vec::new(), texts: Vec::new() };
        let strings = std::mem::replace(&mut self.strings, none);
        if let Some(file) = &mut self.file {
            file.strings = Some(strings);
        }
        Some(Step::Configure)
    }

    /// Judges a read that has completed, and answers the next step, or none after the last.
    fn read(&mut self) -> Result<Option<Step>, Why> {
        let bytes = &self.kept[..self.count];
        let next = match self.step {
            Step::First => self.read_first(),
            Step::Address => Some(Step::Device),
            Step::Device => match Device::read(bytes) {
                Some(device) if bytes[..8] == self.first && device.configurations > 0 => {
                    let (sets, other, strings) = (Vec::new(), None, None);
                    self.file = Some(DescriptorFile { device, sets, other, strings });
                    self.after_set(CONFIGURATION)
                }
                _ => None,
            },
            Step::Header { kind } => match *bytes {
                [len, type_of, low, high, _, _, _, _, _] if len >= 9 && type_of == kind => {
                    let total = u16::from_le_bytes([low, high]);
                    (total >= u16::from(len)).then_some(Step::Set { kind, total })
                }
                _ => None,
            },
            Step::Set { kind, total } => self.read_set(kind, total),
            Step::Qualifier => match (Qualifier::read(bytes), &mut self.file) {
                (Some(qualifier), Some(file)) => {
                    file.other = Some(Other { qualifier, sets: Vec::new() });
                    self.after_set(OTHER_SPEED)
                }
                _ => None,
            },
            Step::Languages => match read_units(bytes) {
                Some(languages) if !languages.is_empty() => {
                    self.take_languages(languages);
                    self.after_text()
                }
                _ => None,
            },
            Step::Text => match read_units(bytes) {
                Some(units) => {
                    self.strings.texts.push(units);
                    self.after_text()
                }
                None => None,
            },
            Step::Configure => return Ok(None),
        };
        next.map(Some).ok_or(Why::Malformed)
    }

    fn read_first(&mut self) -> Option<Step> {
        let first: [u8; 8] = self.kept[..self.count].try_into().ok()?;
        let fits = match self.speed {
            Speed::Low => first[7] == 8,
            Speed::Full => matches!(first[7], 8 | 16 | 32 | 64),
            Speed::High => first[7] == 64,
        };
        self.first = first;
        (first[0] == 18 && first[1] == 1 && fits).then_some(Step::Address)
    }

    fn read_set(&mut self, kind: u8, total: u16) -> Option<Step> {
        let is_of_header = self.decoder.total() == usize::from(total);
        let set = self.decoder.take_set().ok()?;
        let file = self.file.as_mut()?;
        let is_first = kind == CONFIGURATION && file.sets.is_empty();
        if !is_of_header || set.kind != kind || is_first && set.value == 0 {
            return None;
        }
        match (&mut file.other, kind) {
            (Some(other), OTHER_SPEED) => other.sets.push(set),
            _ => file.sets.push(set),
        }
        self.after_set(kind)
    }
}
