//! Configuration sets: the tree, a decoder that takes bytes in pieces, and the bytes of a tree.

pub const CONFIGURATION: u8 = 2;
pub const STRING: u8 = 3;
pub const INTERFACE: u8 = 4;
pub const ENDPOINT: u8 = 5;
pub const QUALIFIER: u8 = 6;
pub const OTHER_SPEED: u8 = 7;
pub const ASSOCIATION: u8 = 11;

pub struct Association {
    /// bFirstInterface to iFunction.
    pub fields: [u8; 6],
    pub tail: Vec<u8>,
}

pub enum Extra {
    Raw { kind: u8, body: Vec<u8> },
    Association(Association),
}

pub struct Endpoint {
    pub address: u8,
    pub attributes: u8,
    pub max_packet: u16,
    pub interval: u8,
    pub tail: Vec<u8>,
    pub extras: Vec<Extra>,
}

pub struct Setting {
    pub number: u8,
    pub alternate: u8,
    pub declared_endpoints: u8,
    pub class: [u8; 3],
    pub text: u8,
    pub tail: Vec<u8>,
    pub extras: Vec<Extra>,
    pub endpoints: Vec<Endpoint>,
}

pub struct Configuration {
    pub kind: u8,
    pub declared_interfaces: u8,
    pub value: u8,
    pub text: u8,
    pub attributes: u8,
    pub power: u8,
    pub tail: Vec<u8>,
    pub extras: Vec<Extra>,
    pub settings: Vec<Setting>,
}

#[derive(Clone, Copy, Debug, PartialEq, Eq)]
#[repr(u8)]
pub enum SetWhy {
    HeaderLength = 1,
    HeaderKind,
    Total,
    ItemLength,
    Over,
    Nested,
    ItemShort,
    Stray,
    Truncated,
}

#[derive(Clone, Copy, Debug)]
pub struct SetFault {
    pub at: usize,
    pub why: SetWhy,
}

pub enum Progress {
    More,
    Done { used: usize },
}

impl Configuration {
    /// The set of a first descriptor, which has no fault.
    pub fn new(header: &[u8]) -> Option<Configuration> {
        let [_, kind, _, _, declared_interfaces, value, text, attributes, power, tail @ ..] = header else {
            return None;
        };
        Some(Configuration {
            kind: *kind,
            declared_interfaces: *declared_interfaces,
            value: *value,
            text: *text,
            attributes: *attributes,
            power: *power,
            tail: tail.to_vec(),
            extras: Vec::new(),
            settings: Vec::new(),
        })
    }

    /// Adds a whole descriptor that has no fault.
    pub fn add(&mut self, item: &[u8]) {
        match *item {
            [_, INTERFACE, number, alternate, endpoints, class, subclass, protocol, text, ref tail @ ..] => {
                self.settings.push(Setting {
                    number,
                    alternate,
                    declared_endpoints: endpoints,
                    class: [class, subclass, protocol],
                    text,
                    tail: tail.to_vec(),
                    extras: Vec::new(),
                    endpoints: Vec::new(),
                });
            }
            [_, ENDPOINT, address, attributes, low, high, interval, ref tail @ ..] => {
                if let Some(setting) = self.settings.last_mut() {
                    setting.endpoints.push(Endpoint {
                        address,
                        attributes,
                        max_packet: u16::from_le_bytes([low, high]),
                        interval,
                        tail: tail.to_vec(),
                        extras: Vec::new(),
                    });
                }
            }
            [_, ASSOCIATION, a, b, c, d, e, f, ref tail @ ..] => {
                let association = Association { fields: [a, b, c, d, e, f], tail: tail.to_vec() };
                self.last_extras().push(Extra::Association(association));
            }
            [_, kind, ref body @ ..] => {
                let extra = Extra::Raw { kind, body: body.to_vec() };
                self.last_extras().push(extra);
            }
            _ => {}
        }
    }

    /// The extras of the last descriptor that can own some.
    fn last_extras(&mut self) -> &mut Vec<Extra> {
        match self.settings.last_mut() {
            None => &mut self.extras,
            Some(setting) => match setting.endpoints.last_mut() {
                None => &mut setting.extras,
                Some(endpoint) => &mut endpoint.extras,
            },
        }
    }

    /// What is wrong with a descriptor as the next one, as far as its bytes are there.
    pub fn fault_in(&self, room: usize, item: &[u8]) -> Option<SetWhy> {
        let len = item[0];
        if len < 2 {
            return Some(SetWhy::ItemLength);
        }
        if usize::from(len) > room {
            return Some(SetWhy::Over);
        }
        match *item.get(1)? {
            CONFIGURATION | OTHER_SPEED => Some(SetWhy::Nested),
            INTERFACE if len < 9 => Some(SetWhy::ItemShort),
            ENDPOINT if len < 7 => Some(SetWhy::ItemShort),
            ASSOCIATION if len < 8 => Some(SetWhy::ItemShort),
            ENDPOINT if self.settings.is_empty() => Some(SetWhy::Stray),
            _ => None,
        }
    }
}

/// What is wrong with a set's first descriptor, as far as its bytes are there.
fn fault_in_header(bytes: &[u8]) -> Option<SetFault> {
    match *bytes {
        [len, ..] if len < 9 => Some(SetFault { at: 0, why: SetWhy::HeaderLength }),
        [_, kind, ..] if kind != CONFIGURATION && kind != OTHER_SPEED => {
            Some(SetFault { at: 1, why: SetWhy::HeaderKind })
        }
        [len, _, low, high, ..] if u16::from_le_bytes([low, high]) < u16::from(len) => {
            Some(SetFault { at: 2, why: SetWhy::Total })
        }
        _ => None,
    }
}

/// The tree so far, and where the next descriptor starts.
struct Partial {
    tree: Option<Configuration>,
    total: usize,
    place: usize,
}

impl Partial {
    fn is_done(&self) -> bool {
        self.tree.is_some() && self.place == self.total
    }

    #[inline(always)]
    fn look(&self, bytes: &[u8]) -> Result<(), SetFault> {
        let fault = match &self.tree {
            None => fault_in_header(bytes),
            Some(tree) => tree.fault_in(self.total - self.place, bytes).map(|why| SetFault { at: self.place, why }),
        };
        fault.map_or(Ok(()), Err)
    }

    #[inline(always)]
    fn add(&mut self, item: &[u8]) {
        match &mut self.tree {
            Some(tree) => tree.add(item),
            None => {
                self.total = usize::from(u16::from_le_bytes([item[2], item[3]]));
                self.tree = Configuration::new(item);
            }
        }
        self.place += item.len();
    }
}

pub struct Decoder {
    partial: Partial,
    fault: Option<SetFault>,
    held: usize,
    /// How many bytes of the descriptor in work are missing, once it can have no fault; else 0.
    missing: usize,
    buffer: [u8; 255],
}

impl Decoder {
    pub fn new() -> Decoder {
        let partial = Partial { tree: None, total: 0, place: 0 };
        Decoder { partial, fault: None, held: 0, missing: 0, buffer: [0; 255] }
    }

    /// Begins again. What is held of an earlier set counts no more.
    pub fn restart(&mut self) {
        self.partial = Partial { tree: None, total: 0, place: 0 };
        (self.fault, self.held, self.missing) = (None, 0, 0);
    }

    #[inline(always)]
    pub fn feed(&mut self, piece: &[u8]) -> Result<Progress, SetFault> {
        if piece.len() < self.missing {
            self.hold(piece);
            self.missing -= piece.len();
            return Ok(Progress::More);
        }
        self.feed_ends(piece)
    }

    /// A piece in which a descriptor may begin or end.
    #[inline(never)]
    fn feed_ends(&mut self, piece: &[u8]) -> Result<Progress, SetFault> {
        if let Some(fault) = self.fault {
            return Err(fault);
        }
        if self.partial.is_done() {
            return Ok(Progress::Done { used: 0 });
        }
        let result = self.read(piece);
        match result {
            Err(fault) => {
                self.partial.tree = None;
                (self.fault, self.missing) = (Some(fault), 0);
            }
            Ok(_) => self.missing = self.still_missing(),
        }
        result
    }

    /// All faults of a header show in its first four bytes, those of other descriptors in two.
    fn still_missing(&self) -> usize {
        let judged = if self.partial.tree.is_some() { 2 } else { 4 };
        if self.held < judged { 0 } else { usize::from(self.buffer[0]) - self.held }
    }

    #[inline(always)]
    fn hold(&mut self, bytes: &[u8]) {
        match bytes {
            [byte] => self.buffer[self.held] = *byte,
            _ => self.buffer[self.held..self.held + bytes.len()].copy_from_slice(bytes),
        }
        self.held += bytes.len();
    }

    fn read(&mut self, piece: &[u8]) -> Result<Progress, SetFault> {
        let mut used = 0;
        while used < piece.len() {
            let rest = &piece[used..];
            if self.held == 0 {
                self.partial.look(rest)?;
                let Some(item) = rest.get(..usize::from(rest[0])) else {
                    self.hold(rest);
                    return Ok(Progress::More);
                };
                self.partial.add(item);
                used += item.len();
            } else {
                let (before, len) = (self.held, usize::from(self.buffer[0]));
                let count = rest.len().min(len - before);
                self.hold(&rest[..count]);
                // All faults show in the first four bytes.
                if before < 4 {
                    self.partial.look(&self.buffer[..self.held])?;
                }
                if self.held < len {
                    return Ok(Progress::More);
                }
                self.partial.add(&self.buffer[..len]);
                self.held = 0;
                used += count;
            }
            if self.partial.is_done() {
                return Ok(Progress::Done { used });
            }
        }
        Ok(Progress::More)
    }

    /// wTotalLength, once the first descriptor has been read.
    pub fn total(&self) -> usize {
        self.partial.total
    }

    pub fn finish(mut self) -> Result<Configuration, SetFault> {
        self.take_set()
    }

    /// The set that was read, which is taken out where it lies.
    pub fn take_set(&mut self) -> Result<Configuration, SetFault> {
        if let Some(fault) = self.fault {
            return Err(fault);
        }
        let at = self.partial.place + self.held;
        let is_whole = self.partial.place == self.partial.total;
        let tree = if is_whole { self.partial.tree.take() } else { None };
        tree.ok_or(SetFault { at, why: SetWhy::Truncated })
    }
}

/// The set that the bytes begin with, and how many of them it has.
pub fn read_set(bytes: &[u8]) -> Result<(Configuration, usize), SetFault> {
    let mut decoder = Decoder::new();
    let used = match decoder.feed(bytes)? {
        Progress::Done { used } => used,
        Progress::More => bytes.len(),
    };
    Ok((decoder.finish()?, used))
}

pub fn is_typed(kind: u8) -> bool {
    matches!(kind, CONFIGURATION | INTERFACE | ENDPOINT | OTHER_SPEED | ASSOCIATION)
}

fn length(fixed: usize, tail: &[u8]) -> Option<usize> {
    let len = fixed + tail.len();
    (len <= 255).then_some(len)
}

fn extras_length(extras: &[Extra]) -> Option<usize> {
    let mut sum = 0;
    for extra in extras {
        sum += match extra {
            Extra::Raw { kind, .. } if is_typed(*kind) => return None,
            Extra::Raw { body, .. } => length(2, body)?,
            Extra::Association(it) => length(8, &it.tail)?,
        };
    }
    Some(sum)
}

/// How many bytes a set has, or none where it has no bytes.
fn set_length(set: &Configuration) -> Option<u16> {
    let mut sum = length(9, &set.tail)? + extras_length(&set.extras)?;
    for setting in &set.settings {
        sum += length(9, &setting.tail)? + extras_length(&setting.extras)?;
        for endpoint in &setting.endpoints {
            sum += length(7, &endpoint.tail)? + extras_length(&endpoint.extras)?;
        }
    }
    u16::try_from(sum).ok()
}

fn put<const N: usize>(out: &mut Vec<u8>, fields: [u8; N], tail: &[u8]) {
    out.extend_from_slice(&fields);
    out.extend_from_slice(tail);
}

fn put_extras(out: &mut Vec<u8>, extras: &[Extra]) {
    for extra in extras {
        match extra {
            Extra::Raw { kind, body } => put(out, [2 + body.len() as u8, *kind], body),
            Extra::Association(it) => {
                let [a, b, c, d, e, f] = it.fields;
                put(out, [8 + it.tail.len() as u8, ASSOCIATION, a, b, c, d, e, f], &it.tail);
            }
        }
    }
}

/// Adds the bytes of a set, or answers none where it has none.
pub fn encode_onto(set: &Configuration, out: &mut Vec<u8>) -> Option<()> {
    let total = set_length(set)?;
    out.reserve(usize::from(total));
    let [low, high] = total.to_le_bytes();
    let (len, fields) = (9 + set.tail.len() as u8, [set.value, set.text, set.attributes, set.power]);
    let [value, text, attributes, power] = fields;
    let header = [len, set.kind, low, high, set.declared_interfaces, value, text, attributes, power];
    put(out, header, &set.tail);
    put_extras(out, &set.extras);
    for setting in &set.settings {
        let len = 9 + setting.tail.len() as u8;
        let [class, subclass, protocol] = setting.class;
        let head = [len, INTERFACE, setting.number, setting.alternate, setting.declared_endpoints];
        let [a, b, c, d, e] = head;
        put(out, [a, b, c, d, e, class, subclass, protocol, setting.text], &setting.tail);
        put_extras(out, &setting.extras);
        for it in &setting.endpoints {
            let [low, high] = it.max_packet.to_le_bytes();
            let len = 7 + it.tail.len() as u8;
            put(out, [len, ENDPOINT, it.address, it.attributes, low, high, it.interval], &it.tail);
            put_extras(out, &it.extras);
        }
    }
    Some(())
}

pub fn encode(set: &Configuration) -> Option<Vec<u8>> {
    let mut out = Vec::new();
    encode_onto(set, &mut out)?;
    Some(out)
}
