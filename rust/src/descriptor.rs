//! Descriptors, their fields and the rules that they break, as values.
use crate::fault::{done, Fault};
use crate::sys::{self, nzg_descriptor, nzg_field, nzg_finding, nzg_remark};
use crate::{into, text_of, Speed};
use std::hash::{Hash, Hasher};
use std::{fmt, iter::FusedIterator, ops::Deref};

/// What bytes are.
#[derive(Clone, Copy, Debug, PartialEq, Eq, Hash)]
#[non_exhaustive]
pub enum Input {
    /// One configuration set.
    Set,
    /// A descriptor file.
    File,
    /// A dump of Linux: a file without its strings.
    Dump,
}

/// What these bytes are, or their fault.
pub fn judge(bytes: &[u8]) -> Result<Input, Fault> {
    let answer = done(unsafe { sys::nzg_judge(bytes.as_ptr(), bytes.len()) }).map_err(|it| it.of(bytes))?;
    Ok(match answer.number {
        1 => Input::Set,
        2 => Input::File,
        _ => Input::Dump,
    })
}

/// What a descriptor is at its place.
#[derive(Clone, Copy, Debug, PartialEq, Eq, Hash)]
#[non_exhaustive]
pub enum Role {
    /// A device descriptor.
    Device = 1,
    /// A configuration descriptor, of the device's own speed or of its other.
    Configuration,
    /// An interface at one of its settings.
    Interface,
    /// An endpoint.
    Endpoint,
    /// Interfaces that make one function.
    Association,
    /// Of a class or a vendor, or of a type that has no meaning in a set.
    Raw,
    /// What the device is at its other speed.
    Qualifier,
    /// The list of languages.
    Languages,
    /// A string.
    String,
}

impl Role {
    fn of(number: u8) -> Option<Role> {
        Some(match number {
            1 => Role::Device,
            2 => Role::Configuration,
            3 => Role::Interface,
            4 => Role::Endpoint,
            5 => Role::Association,
            6 => Role::Raw,
            7 => Role::Qualifier,
            8 => Role::Languages,
            9 => Role::String,
            _ => return None,
        })
    }
}

/// A part of an input.
#[derive(Clone, Copy, Debug, PartialEq, Eq, Hash)]
pub enum Part {
    /// The device descriptor, and what is of no set.
    Device,
    /// The device's sets.
    Main,
    /// Its qualifier, and its sets at the other speed.
    Other,
}

impl Part {
    fn of(number: u8) -> Part {
        match number {
            0 => Part::Device,
            1 => Part::Main,
            _ => Part::Other,
        }
    }
}

/// A descriptor where it is in its input. A number that doesn't apply is 0. Two are equal where all of these numbers and their bytes
/// are.
#[derive(Clone, Copy)]
pub struct Descriptor<'a> {
    at: nzg_descriptor,
    input: &'a [u8],
}

impl PartialEq for Descriptor<'_> {
    fn eq(&self, other: &Descriptor<'_>) -> bool {
        self.at == other.at && self.bytes() == other.bytes()
    }
}

impl Eq for Descriptor<'_> {}

impl Hash for Descriptor<'_> {
    fn hash<H: Hasher>(&self, state: &mut H) {
        (self.at, self.bytes()).hash(state);
    }
}

impl fmt::Debug for Descriptor<'_> {
    fn fmt(&self, f: &mut fmt::Formatter<'_>) -> fmt::Result {
        write!(f, "{:?} at {}: {:02x?}", self.role(), self.place(), self.bytes())
    }
}

impl<'a> Descriptor<'a> {
    /// What it is at its place.
    pub fn role(&self) -> Role {
        Role::of(self.at.role).expect("a descriptor has a role")
    }
    /// Where its first byte is.
    pub fn place(&self) -> usize {
        self.at.place
    }
    /// All of its bytes.
    pub fn bytes(&self) -> &'a [u8] {
        &self.input[self.at.place..][..self.at.length.into()]
    }
    /// How deep it is in the tree: 0 to 4.
    pub fn depth(&self) -> u8 {
        self.at.depth
    }
    /// Of an association or a raw one: what it belongs to.
    pub fn owner(&self) -> Option<Role> {
        Role::of(self.at.owner)
    }
    /// The part that it is in.
    pub fn part(&self) -> Part {
        Part::of(self.at.part)
    }
    /// Number of its set in its part, from 0.
    pub fn set(&self) -> usize {
        self.at.set
    }
    /// Number of its setting in its set, from 0.
    pub fn setting(&self) -> usize {
        self.at.setting
    }
    /// Number of its endpoint in its setting, from 0.
    pub fn endpoint_number(&self) -> usize {
        self.at.endpoint_number
    }
    /// bInterfaceNumber of the setting that it is or belongs to.
    pub fn interface(&self) -> u8 {
        self.at.interface_
    }
    /// bAlternateSetting of that setting.
    pub fn alternate(&self) -> u8 {
        self.at.alternate
    }
    /// Class, subclass and protocol of that setting; of a device its own.
    pub fn codes(&self) -> (u8, u8, u8) {
        (self.at.class_, self.at.subclass, self.at.protocol)
    }
    /// It, if it is an endpoint.
    pub fn endpoint(&self) -> Option<Endpoint<'a>> {
        (self.role() == Role::Endpoint).then_some(Endpoint(*self))
    }
    /// Of a string: its language.
    pub fn language(&self) -> u16 {
        self.at.language
    }
    /// Of a string: its index.
    pub fn index(&self) -> u8 {
        self.at.index
    }
    /// Of a string: its characters, with escapes for what is none.
    pub fn text(&self) -> Result<String, Fault> {
        let (bytes, len) = (self.input.as_ptr(), self.input.len());
        text_of(into(|out, room| unsafe { sys::nzg_text(bytes, len, &self.at, out, room) }))
    }
    /// Its fields, in the order of the bytes.
    pub fn fields(&self) -> impl Iterator<Item = Field> + 'a {
        // A field has a byte at least.
        let mut out = vec![nzg_field::default(); self.bytes().len()];
        let (bytes, len) = (self.input.as_ptr(), self.input.len());
        let answer = unsafe { sys::nzg_fields(bytes, len, &self.at, out.as_mut_ptr(), out.len()) };
        out.into_iter().take(answer.length).map(Field)
    }
    /// Its first field of this name in the standard, as `wMaxPacketSize`.
    pub fn field(&self, name: &str) -> Option<Field> {
        let mut out = nzg_field::default();
        let (bytes, len) = (self.input.as_ptr(), self.input.len());
        unsafe { sys::nzg_field_named(bytes, len, &self.at, name.as_ptr(), name.len(), &mut out) }.then_some(Field(out))
    }
    /// Of a configuration, an interface at a setting and an endpoint: the descriptors of a class or a vendor, and the associations,
    /// that belong to it.
    pub fn extras(&self) -> impl Iterator<Item = Descriptor<'a>> + 'a {
        let role = self.role();
        self.contents().filter(move |it| it.owner() == Some(role))
    }
    /// Whether it is in a set, after its configuration.
    pub(crate) fn is_in_a_set(&self) -> bool {
        self.at.depth > 1
    }
    /// The descriptors after it, to the end of the input.
    pub(crate) fn later(&self) -> Descriptors<'a> {
        Descriptors { at: self.at, input: self.input }
    }
    /// The descriptors after it in its set, up to the next of its kind, or of the kind that contains it.
    pub(crate) fn contents(&self) -> impl Iterator<Item = Descriptor<'a>> + 'a {
        let role = self.at.role;
        let ends = move |it: &Descriptor<'_>| matches!(it.role(), Role::Interface | Role::Endpoint) && it.at.role <= role;
        self.later().take_while(move |it| it.is_in_a_set() && !ends(it))
    }
}

/// A field of a descriptor.
#[derive(Clone, Copy, PartialEq, Eq, Hash)]
pub struct Field(nzg_field);

impl Field {
    /// Its name in the standard of its descriptor.
    pub fn name(&self) -> &str {
        std::str::from_utf8(&self.0.name[..self.0.name_length.into()]).expect("a name is ASCII")
    }
    /// Where its first byte is in the input.
    pub fn place(&self) -> usize {
        self.0.place
    }
    /// How many bytes it has.
    pub fn width(&self) -> u8 {
        self.0.width
    }
    /// The number that they are, little-endian; 0 of more than eight.
    pub fn value(&self) -> u64 {
        self.0.value
    }
}

impl fmt::Debug for Field {
    fn fmt(&self, f: &mut fmt::Formatter<'_>) -> fmt::Result {
        write!(f, "{} {:#x} at {}", self.name(), self.value(), self.place())
    }
}

/// How an endpoint transfers.
#[derive(Clone, Copy, Debug, PartialEq, Eq, Hash)]
pub enum TransferType {
    /// Control.
    Control,
    /// Isochronous.
    Isochronous,
    /// Bulk.
    Bulk,
    /// Interrupt.
    Interrupt,
}

/// An endpoint descriptor.
#[derive(Clone, Copy, Debug, PartialEq, Eq, Hash)]
pub struct Endpoint<'a>(Descriptor<'a>);

impl<'a> Deref for Endpoint<'a> {
    type Target = Descriptor<'a>;

    fn deref(&self) -> &Descriptor<'a> {
        &self.0
    }
}

impl Endpoint<'_> {
    /// bEndpointAddress.
    pub fn address(&self) -> u8 {
        self.bytes()[2]
    }
    /// Whether it goes to the host.
    pub fn is_in(&self) -> bool {
        self.address() & 0x80 != 0
    }
    /// bmAttributes.
    pub fn attributes(&self) -> u8 {
        self.at.attributes
    }
    /// Bits 1 and 0 of bmAttributes.
    pub fn transfer_type(&self) -> TransferType {
        match self.attributes() & 3 {
            0 => TransferType::Control,
            1 => TransferType::Isochronous,
            2 => TransferType::Bulk,
            _ => TransferType::Interrupt,
        }
    }
    /// Bytes in a packet: bits 10 to 0 of wMaxPacketSize.
    pub fn max_packet_size(&self) -> u16 {
        self.at.packet
    }
    /// Transactions in a microframe, by bits 12 and 11 of wMaxPacketSize: 1 to 3, and 0 where those are reserved. They count for
    /// isochronous and interrupt endpoints at high speed.
    pub fn transactions(&self) -> u8 {
        self.at.transactions
    }
    /// bInterval.
    pub fn interval(&self) -> u8 {
        self.at.interval
    }
}

/// The descriptors of an input, in the order of the bytes.
#[derive(Clone, Debug)]
pub struct Descriptors<'a> {
    at: nzg_descriptor,
    input: &'a [u8],
}

/// The descriptors of these bytes, in their order; of broken bytes as far as they can be read.
pub fn descriptors(bytes: &[u8]) -> Descriptors<'_> {
    Descriptors { at: nzg_descriptor::default(), input: bytes }
}

impl<'a> Iterator for Descriptors<'a> {
    type Item = Descriptor<'a>;

    fn next(&mut self) -> Option<Descriptor<'a>> {
        unsafe { sys::nzg_next(self.input.as_ptr(), self.input.len(), &mut self.at) }
            .then_some(Descriptor { at: self.at, input: self.input })
    }
}

impl FusedIterator for Descriptors<'_> {}

/// The bytes of which something is said. What is said is compared without them.
#[derive(Clone, Copy)]
struct Of<'a>(&'a [u8]);

impl PartialEq for Of<'_> {
    fn eq(&self, _: &Of<'_>) -> bool {
        true
    }
}

impl Eq for Of<'_> {}

impl Hash for Of<'_> {
    fn hash<H: Hasher>(&self, _: &mut H) {}
}

impl fmt::Debug for Of<'_> {
    fn fmt(&self, f: &mut fmt::Formatter<'_>) -> fmt::Result {
        write!(f, "{} bytes", self.0.len())
    }
}

/// A rule of chapter 9 that is broken. It is shown with its place, the rule and its message.
#[derive(Clone, Copy, Debug, PartialEq, Eq, Hash)]
pub struct Finding<'a> {
    /// The rule's number: 1 to 13.
    pub rule: u8,
    /// In which part.
    pub part: Part,
    /// Number of the set in its part, from 0.
    pub set: usize,
    /// Number of the setting in its set, from 0.
    pub setting: usize,
    /// Number of the endpoint in its setting, from 0.
    pub endpoint: usize,
    /// Where the descriptor is that breaks it.
    pub place: usize,
    /// What it is.
    pub role: Role,
    input: Of<'a>,
}

impl Finding<'_> {
    /// What breaks the rule, in the words of `usbdesc explain`: counts that differ too. The bytes are read anew for it; empty out of memory.
    pub fn message(&self) -> String {
        let (bytes, len) = (self.input.0.as_ptr(), self.input.0.len());
        let it = nzg_finding { place: self.place, rule: self.rule, ..nzg_finding::default() };
        text_of(into(|out, room| unsafe { sys::nzg_finding_text(bytes, len, &it, out, room) })).unwrap_or_default()
    }
}

impl fmt::Display for Finding<'_> {
    fn fmt(&self, f: &mut fmt::Formatter<'_>) -> fmt::Result {
        write!(f, "at {}: V{}: {}", self.place, self.rule, self.message())
    }
}

/// Each rule of chapter 9 that a set, a descriptor file or a dump breaks, in the order of the bytes.
pub fn check(bytes: &[u8]) -> Result<Vec<Finding<'_>>, Fault> {
    let (data, len) = (bytes.as_ptr(), bytes.len());
    let (answer, found) = into::<nzg_finding>(|out, room| unsafe { sys::nzg_findings(data, len, out, room) });
    done(answer).map_err(|it| it.of(bytes))?;
    let finding = |it: nzg_finding| Finding {
        rule: it.rule,
        part: Part::of(it.part),
        set: it.set,
        setting: it.setting,
        endpoint: it.endpoint,
        place: it.place,
        role: Role::of(it.role).expect("a finding has a descriptor"),
        input: Of(bytes),
    };
    Ok(found.into_iter().map(finding).collect())
}

/// What is remarked of a descriptor, which breaks no rule. It is shown with its place, its number and its message.
#[derive(Clone, Copy, Debug, PartialEq, Eq, Hash)]
pub struct Remark<'a> {
    /// The remark's number, from 1, in the table of remarks in docs/formats.md.
    pub number: u8,
    /// In which part.
    pub part: Part,
    /// Number of the set in its part, from 0.
    pub set: usize,
    /// Number of the setting in its set, from 0.
    pub setting: usize,
    /// Number of the endpoint in its setting, from 0.
    pub endpoint: usize,
    /// Where the descriptor is.
    pub place: usize,
    /// What it is.
    pub role: Role,
    input: Of<'a>,
    speed: Option<Speed>,
}

impl Remark<'_> {
    /// What is remarked, in the words of `usbdesc explain`. The bytes are read anew for it; empty out of memory.
    pub fn message(&self) -> String {
        let (bytes, len, speed) = (self.input.0.as_ptr(), self.input.0.len(), self.speed.map_or(0, |it| it as u8));
        let it = nzg_remark { place: self.place, number: self.number, ..nzg_remark::default() };
        text_of(into(|out, room| unsafe { sys::nzg_remark_text(bytes, len, speed, &it, out, room) })).unwrap_or_default()
    }
}

impl fmt::Display for Remark<'_> {
    fn fmt(&self, f: &mut fmt::Formatter<'_>) -> fmt::Result {
        write!(f, "at {}: R{}: {}", self.place, self.number, self.message())
    }
}

/// What is remarked of a set, a descriptor file or a dump, in the order of the bytes. The device ran at this speed, if it is known.
pub fn remarks(bytes: &[u8], speed: Option<Speed>) -> Result<Vec<Remark<'_>>, Fault> {
    let (data, len, number) = (bytes.as_ptr(), bytes.len(), speed.map_or(0, |it| it as u8));
    let (answer, found) = into::<nzg_remark>(|out, room| unsafe { sys::nzg_remarks(data, len, number, out, room) });
    done(answer).map_err(|it| it.of(bytes))?;
    let remark = |it: nzg_remark| Remark {
        number: it.number,
        part: Part::of(it.part),
        set: it.set,
        setting: it.setting,
        endpoint: it.endpoint,
        place: it.place,
        role: Role::of(it.role).expect("a remark has a descriptor"),
        input: Of(bytes),
        speed,
    };
    Ok(found.into_iter().map(remark).collect())
}
