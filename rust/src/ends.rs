//! Both ends of endpoint zero, transaction by transaction, and a set in pieces.
use crate::fault::{done, Fault, Step};
use crate::sys::{self, nzg_packet, nzg_setup, nzg_step, nzg_transaction, nzg_trouble};
use crate::{into, text_of, Speed};

/// The data toggle of a packet.
#[derive(Clone, Copy, Debug, PartialEq, Eq, Hash)]
pub enum Toggle {
    /// DATA0.
    Data0,
    /// DATA1.
    Data1,
}

impl Toggle {
    fn of(number: u8) -> Toggle {
        if number == 0 {
            Toggle::Data0
        } else {
            Toggle::Data1
        }
    }
}

/// What a transaction is.
#[derive(Clone, Copy, Debug, PartialEq, Eq, Hash)]
pub enum Stage<'a> {
    /// SETUP with a request.
    Setup([u8; 8]),
    /// IN.
    In,
    /// OUT with data.
    Out(Toggle, &'a [u8]),
}

/// What a host sends.
#[derive(Clone, Copy, Debug, PartialEq, Eq, Hash)]
pub struct Transaction<'a> {
    /// To which address.
    pub address: u8,
    /// What it is.
    pub stage: Stage<'a>,
}

impl Transaction<'_> {
    fn numbers(&self) -> (nzg_transaction, &[u8]) {
        let (stage, toggle, setup, data): (u8, u8, [u8; 8], &[u8]) = match self.stage {
            Stage::Setup(setup) => (0, 0, setup, &[]),
            Stage::In => (1, 0, [0; 8], &[]),
            Stage::Out(toggle, data) => (2, toggle as u8, [0; 8], data),
        };
        (nzg_transaction { address: self.address, stage, toggle, setup }, data)
    }

    fn due(it: nzg_transaction) -> Transaction<'static> {
        let stage = match it.stage {
            0 => Stage::Setup(it.setup),
            1 => Stage::In,
            _ => Stage::Out(Toggle::of(it.toggle), &[]),
        };
        Transaction { address: it.address, stage }
    }
}

/// What comes back of a transaction.
#[derive(Clone, Debug, PartialEq, Eq, Hash)]
pub enum Reply {
    /// ACK.
    Ack,
    /// NAK.
    Nak,
    /// STALL.
    Stall,
    /// A data packet.
    Data(Toggle, Vec<u8>),
    /// Nothing.
    Silence,
}

impl Reply {
    fn numbers(&self) -> (u8, u8, &[u8]) {
        match self {
            Reply::Ack => (0, 0, &[]),
            Reply::Nak => (1, 0, &[]),
            Reply::Stall => (2, 0, &[]),
            Reply::Data(toggle, data) => (3, *toggle as u8, data),
            Reply::Silence => (4, 0, &[]),
        }
    }
}

impl Reply {
    fn of(it: &nzg_packet) -> Reply {
        match it.reply {
            0 => Reply::Ack,
            1 => Reply::Nak,
            2 => Reply::Stall,
            3 => Reply::Data(Toggle::of(it.toggle), it.data[..it.length.into()].to_vec()),
            _ => Reply::Silence,
        }
    }
}

/// How a device under test differs from one that has its descriptors: docs/bench.md.
#[derive(Clone, Copy, Debug, PartialEq, Eq, Hash)]
#[non_exhaustive]
pub enum Difference {
    /// No ACK of a SETUP (USB 2.0, 8.4.6.4).
    Setup,
    /// An answer at another address, or none at its own (9.4.6).
    Address,
    /// The other toggle (8.5.3, 8.6).
    Toggle,
    /// No empty packet, after whole ones or as the status (8.5.3.2, 8.5.3.1).
    NotEmpty,
    /// Other bytes (8.5.3.2, 9.4).
    Bytes,
    /// STALL of a request that the device has (9.4).
    Stalled,
    /// No STALL of one that it hasn't, or before the SETUP after one (9.2.7, 8.5.3.4).
    NotStalled,
    /// Data for OUT, or an ACK for IN (8.4.6.1, 8.4.6.3).
    OtherPacket,
}

impl Difference {
    fn of(number: u8) -> Option<Difference> {
        use Difference::*;
        let all = [Setup, Address, Toggle, NotEmpty, Bytes, Stalled, NotStalled, OtherPacket];
        all.get(usize::from(number).checked_sub(1)?).copied()
    }
}

/// What a device under test has answered in the transfer of a request that is open to it: [`Device::judge`].
#[derive(Clone, Debug, Default, PartialEq, Eq, Hash)]
pub struct OpenTransfer(sys::nzg_open_transfer);

impl OpenTransfer {
    /// The host's ACK of the data that was judged right before has reached the device: with [`Device::acked`].
    pub fn acked(&mut self) {
        unsafe { sys::nzg_judge_acked(&mut self.0) };
    }
}

// Each handle is closed by the library when it is dropped. It may move between threads: the library has no global state and none of
// a thread. Each call takes it as `&mut`, so two never have it at once.
macro_rules! handles {
    ($($(#[$words:meta])* $name:ident $of:ident $close:ident)*) => {$(
        $(#[$words])*
        #[derive(Debug)]
        pub struct $name(sys::$of);

        // SAFETY: as the header says, a handle may be used and closed by any thread, in one call at a time.
        unsafe impl Send for $name {}

        impl Drop for $name {
            fn drop(&mut self) {
                unsafe { sys::$close(&mut self.0) }
            }
        }
    )*};
}

handles! {
    /// A host that enumerates one device. It is `Send`, and neither `Clone` nor `Sync`.
    ///
    /// ```
    /// use nozzlegorse::{Action, Host, Speed};
    ///
    /// let mut host = Host::open(1, 16, 3, Speed::Full)?;
    /// assert_eq!(host.due(), Action::Reset);
    /// let due = std::thread::spawn(move || {
    ///     host.reset_done();
    ///     host.due()
    /// });
    /// assert!(matches!(due.join().unwrap(), Action::Send(_)));
    /// # Ok::<(), nozzlegorse::Fault>(())
    /// ```
    Host nzg_host nzg_host_close
    /// A set that comes in pieces. It is `Send`, and neither `Clone` nor `Sync`.
    ///
    /// ```
    /// let mut decoder = nozzlegorse::Decoder::open()?;
    /// assert_eq!(decoder.feed(&[9, 2])?, (false, 2));
    /// let listed = std::thread::spawn(move || {
    ///     decoder.feed(&[9, 0, 0, 1, 0, 0x80, 50])?;
    ///     decoder.list()
    /// });
    /// assert!(listed.join().unwrap()?.starts_with("configuration "));
    /// # Ok::<(), nozzlegorse::Fault>(())
    /// ```
    Decoder nzg_decoder nzg_decoder_close
}

/// One control transfer at the host's end, without data for the device: that is [`Write`]. A copy is a place to come back to.
#[derive(Clone, Copy, Debug, PartialEq, Eq, Hash)]
pub struct Transfer(sys::nzg_transfer);

/// One control transfer with data to the device. A copy is a place to come back to.
#[derive(Clone, Copy, Debug, PartialEq, Eq, Hash)]
pub struct Write(sys::nzg_write);

/// A device with the descriptors of a file. It is `Send`. A copy is a place to come back to.
///
/// ```
/// use nozzlegorse::{Device, Reply, Speed, Stage, Transaction};
///
/// let device = [18, 1, 0, 2, 0, 0, 0, 64, 9, 18, 1, 0, 0, 1, 0, 0, 0, 1];
/// let set = [9, 2, 18, 0, 1, 1, 0, 0x80, 50, 9, 4, 0, 0, 0, 0xff, 0, 0, 0];
/// let mut device = Device::open(&[device, set].concat(), Speed::Full)?;
/// let reply = std::thread::spawn(move || {
///     let setup = Stage::Setup([0x80, 6, 0, 1, 0, 0, 18, 0]);
///     device.serve(&Transaction { address: 0, stage: setup }, true)
/// });
/// assert_eq!(reply.join().unwrap(), Reply::Ack);
/// # Ok::<(), nozzlegorse::Fault>(())
/// ```
#[derive(Clone, Debug, PartialEq, Eq, Hash)]
pub struct Device {
    it: sys::nzg_device,
    image: Vec<u8>,
    kept: Vec<u8>,
}

/// The most bytes of an owner's answer, or of a write.
const ROOM: usize = 512;

/// What a device keeps.
#[derive(Clone, Copy, Debug, PartialEq, Eq, Hash)]
pub struct State {
    /// Its address.
    pub address: u8,
    /// bConfigurationValue of its configuration, or 0.
    pub selected: u8,
    /// Whether remote wakeup is enabled.
    pub wakeup: bool,
    /// The endpoints that are halted, a bit each.
    pub halts: u32,
    /// The alternate setting of each interface, by its number.
    pub alternates: [u8; 256],
}

impl Device {
    /// A device with the descriptors of a file, at a speed.
    pub fn open(file: &[u8], speed: Speed) -> Result<Device, Fault> {
        let (answer, image) =
            into(|image, room| unsafe { sys::nzg_device_image(file.as_ptr(), file.len(), speed as u8, image, room) });
        done(answer)?;
        Ok(Device { it: sys::nzg_device::default(), image, kept: vec![0; ROOM] })
    }
    /// The bus is reset.
    pub fn reset(&mut self) {
        unsafe { sys::nzg_device_reset(&mut self.it) };
    }
    /// What comes back of a transaction; NAK to IN and OUT where the device isn't ready.
    pub fn serve(&mut self, transaction: &Transaction<'_>, ready: bool) -> Reply {
        let ((sent, data), mut it) = (transaction.numbers(), nzg_packet::default());
        let (image, kept) = (&self.image, &mut self.kept);
        unsafe {
            sys::nzg_device_serve(
                &mut self.it,
                image.as_ptr(),
                image.len(),
                kept.as_mut_ptr(),
                kept.len(),
                &sent,
                data.as_ptr(),
                data.len(),
                ready,
                &mut it,
            )
        };
        Reply::of(&it)
    }
    /// Whether a device under test may answer so in the transfer of this request: this one has the same transaction, is ready
    /// where the other was, and gives its own answer. What is open to a device goes on in `open`. `None` where the answer has more
    /// than 64 bytes.
    pub fn judge(
        &mut self, open: &mut OpenTransfer, request: [u8; 8], transaction: &Transaction<'_>, came: &Reply,
    ) -> Option<(Option<Difference>, Reply)> {
        let ((sent, data), (reply, toggle, bytes)) = (transaction.numbers(), came.numbers());
        let mut packet = nzg_packet { reply, toggle, length: u8::try_from(bytes.len()).ok()?, ..nzg_packet::default() };
        packet.data.get_mut(..bytes.len())?.copy_from_slice(bytes);
        let (request, mut has) = (nzg_setup { bytes: request }, nzg_packet::default());
        let (image, kept) = (&self.image, &mut self.kept);
        let number = unsafe {
            sys::nzg_judge_device(
                &mut self.it,
                image.as_ptr(),
                image.len(),
                kept.as_mut_ptr(),
                kept.len(),
                &mut open.0,
                &request,
                &sent,
                data.as_ptr(),
                data.len(),
                &packet,
                &mut has,
            )
        };
        (number < 9).then(|| (Difference::of(number), Reply::of(&has)))
    }
    /// The host acknowledged the data that was answered right before.
    pub fn acked(&mut self) {
        unsafe { sys::nzg_device_acked(&mut self.it, self.image.as_ptr(), self.image.len()) };
    }
    /// The request that is refused, before the host is told.
    pub fn refused(&self) -> Option<[u8; 8]> {
        let mut setup = nzg_setup::default();
        unsafe { sys::nzg_device_refused(&self.it, &mut setup) }.then_some(setup.bytes)
    }
    /// Answers the refused request with these bytes.
    pub fn answer_with(&mut self, bytes: &[u8]) -> Result<(), Fault> {
        let (kept, len) = (self.kept.as_mut_ptr(), self.kept.len());
        done(unsafe { sys::nzg_device_answer_with(&mut self.it, kept, len, bytes.as_ptr(), bytes.len()) }).map(|_| ())
    }
    /// Accepts the refused request, which has no data stage or sends data to the device; or the write of [`Device::written`].
    pub fn accept(&mut self) -> Result<(), Fault> {
        done(unsafe { sys::nzg_device_accept(&mut self.it, self.kept.len()) }).map(|_| ())
    }
    /// The request of a write whose data have all come and that wasn't answered yet, and those data.
    pub fn written(&self) -> Option<([u8; 8], Vec<u8>)> {
        let (kept, mut setup) = (&self.kept, nzg_setup::default());
        let answer = unsafe { sys::nzg_device_written(&self.it, kept.as_ptr(), kept.len(), &mut setup) };
        (answer.status == 0).then(|| (setup.bytes, kept[..answer.length].to_vec()))
    }
    /// STALL until the next SETUP, where the device itself rejects the request, and its status stage wasn't answered yet.
    pub fn refuse(&mut self) {
        unsafe { sys::nzg_device_refuse(&mut self.it, self.image.as_ptr(), self.image.len()) };
    }
    /// The request that was carried out just now.
    pub fn carried_out(&self) -> Option<[u8; 8]> {
        let mut setup = nzg_setup::default();
        unsafe { sys::nzg_device_carried_out(&self.it, &mut setup) }.then_some(setup.bytes)
    }
    /// What the device keeps.
    pub fn state(&self) -> State {
        let it = &self.it.state;
        State { address: it.address, selected: it.selected, wakeup: it.wakeup, halts: it.halts, alternates: it.alternates }
    }
}

impl Transfer {
    /// The transfer of a request to a device whose bMaxPacketSize0 is `packet`; `naks` NAKs in a row are taken.
    pub fn open(request: [u8; 8], address: u8, packet: u8, naks: u16) -> Result<Transfer, Fault> {
        let mut transfer = Transfer(sys::nzg_transfer::default());
        done(unsafe { sys::nzg_transfer_open(&mut transfer.0, address, packet, naks, &nzg_setup { bytes: request }) })?;
        Ok(transfer)
    }
    /// The next transaction; `None` once it has ended.
    pub fn due(&self) -> Option<Transaction<'static>> {
        let mut due = nzg_transaction::default();
        unsafe { sys::nzg_transfer_next(&self.0, &mut due) }.then(|| Transaction::due(due))
    }
    /// Takes what came back: whether the transfer is complete, and how many bytes of the reply are new.
    pub fn take(&mut self, reply: &Reply) -> Result<(bool, usize), Fault> {
        let (number, toggle, data) = reply.numbers();
        let answer = done(unsafe { sys::nzg_transfer_take(&mut self.0, number, toggle, data.as_ptr(), data.len()) })?;
        Ok((answer.status == 0, answer.length))
    }
}

impl Write {
    /// The write of a request with data to a device whose bMaxPacketSize0 is `packet`; `naks` NAKs in a row are taken.
    pub fn open(request: [u8; 8], address: u8, packet: u8, naks: u16) -> Result<Write, Fault> {
        let mut write = Write(sys::nzg_write::default());
        done(unsafe { sys::nzg_write_open(&mut write.0, address, packet, naks, &nzg_setup { bytes: request }) })?;
        Ok(write)
    }
    /// The next transaction, where these are the wLength bytes of data; `None` once it has ended.
    ///
    /// ```
    /// use nozzlegorse::{Fault, Reply, Stage, Toggle, Transaction, Write};
    ///
    /// /// SET_LINE_CODING: 115,200 bits a second, eight data bits.
    /// fn set_line_coding(mut send: impl FnMut(&Transaction) -> Reply) -> Result<(), Fault> {
    ///     let coding = [0x00, 0xc2, 0x01, 0x00, 0, 0, 8];
    ///     let mut write = Write::open([0x21, 0x20, 0, 0, 0, 0, 7, 0], 5, 64, 16)?;
    ///     while let Some(due) = write.due(&coding)? {
    ///         write.take(&send(&due))?;
    ///     }
    ///     Ok(())
    /// }
    ///
    /// let mut sent = Vec::new();
    /// set_line_coding(|due| match due.stage {
    ///     Stage::Out(_, data) => {
    ///         sent.extend_from_slice(data);
    ///         Reply::Ack
    ///     }
    ///     Stage::In => Reply::Data(Toggle::Data1, Vec::new()),
    ///     _ => Reply::Ack,
    /// })?;
    /// assert_eq!(sent, [0x00, 0xc2, 0x01, 0x00, 0, 0, 8]);
    /// assert!(set_line_coding(|_| Reply::Stall).is_err());
    /// # Ok::<(), Fault>(())
    /// ```
    pub fn due<'a>(&self, data: &'a [u8]) -> Result<Option<Transaction<'a>>, Fault> {
        let mut due = nzg_transaction::default();
        let answer = done(unsafe { sys::nzg_write_next(&self.0, data.as_ptr(), data.len(), &mut due) })?;
        let mut due = Transaction::due(due);
        if let Stage::Out(toggle, _) = due.stage {
            due.stage = Stage::Out(toggle, &data[answer.place..answer.place + answer.length]);
        }
        Ok((answer.status == 0).then_some(due))
    }
    /// Takes what came back: whether the write is complete.
    pub fn take(&mut self, reply: &Reply) -> Result<bool, Fault> {
        let (number, toggle, data) = reply.numbers();
        let answer = done(unsafe { sys::nzg_write_take(&mut self.0, number, toggle, data.as_ptr(), data.len()) })?;
        Ok(answer.status == 0)
    }
}

/// What a host does next.
#[derive(Clone, Debug, PartialEq, Eq, Hash)]
pub enum Action {
    /// It resets the bus.
    Reset,
    /// It sends a transaction.
    Send(Transaction<'static>),
    /// Nothing: it has ended.
    Ended,
}

/// What becomes of the strings that descriptors name.
#[derive(Clone, Copy, Debug, PartialEq, Eq, Hash)]
pub enum NamedStrings {
    /// Each must be there.
    Needed,
    /// One that the device refuses or gives wrongly may be missing.
    Wanted,
    /// None is asked for.
    Skipped,
}

/// What a host asks a device for beside its device descriptor and its configurations.
#[derive(Clone, Copy, Debug, PartialEq, Eq, Hash)]
pub struct Choice {
    /// The strings.
    pub strings: NamedStrings,
    /// Whether the qualifier and the sets of the other speed are asked for, where there may be some.
    pub other_speed: bool,
}

impl Host {
    /// A host that gives this address, takes `naks` NAKs in a row and begins at most so often. It asks for all that a descriptor file
    /// has.
    pub fn open(address: u8, naks: u16, attempts: u8, speed: Speed) -> Result<Host, Fault> {
        let mut host = Host(sys::nzg_host::default());
        done(unsafe { sys::nzg_host_open(&mut host.0, address, naks, attempts, speed as u8) })?;
        Ok(host)
    }
    /// One that asks for so much. In a file that was read, a language list that is missing is 0x0409 alone, and a string that is
    /// missing is empty: [`Host::forgiven`] says which these are.
    ///
    /// ```
    /// use nozzlegorse::{Choice, Host, NamedStrings, Speed};
    ///
    /// let choice = Choice { strings: NamedStrings::Wanted, other_speed: false };
    /// let mut host = Host::open_with(1, 16, 3, Speed::Full, choice)?;
    /// assert!(host.forgiven().is_empty());
    /// # Ok::<(), nozzlegorse::Fault>(())
    /// ```
    pub fn open_with(address: u8, naks: u16, attempts: u8, speed: Speed, choice: Choice) -> Result<Host, Fault> {
        let (mut host, Choice { strings, other_speed }) = (Host(sys::nzg_host::default()), choice);
        let (speed, strings) = (speed as u8, strings as u8);
        done(unsafe { sys::nzg_host_open_with(&mut host.0, address, naks, attempts, speed, strings, other_speed) })?;
        Ok(host)
    }
    /// What it does next.
    pub fn due(&mut self) -> Action {
        let mut due = nzg_transaction::default();
        match unsafe { sys::nzg_host_next(&mut self.0, &mut due) } {
            0 => Action::Reset,
            1 => Action::Send(Transaction::due(due)),
            _ => Action::Ended,
        }
    }
    /// The bus was reset.
    pub fn reset_done(&mut self) {
        unsafe { sys::nzg_host_reset_done(&mut self.0) };
    }
    /// Takes what the transaction brought.
    pub fn take(&mut self, reply: &Reply) {
        let (number, toggle, data) = reply.numbers();
        unsafe { sys::nzg_host_take(&mut self.0, number, toggle, data.as_ptr(), data.len()) };
    }
    /// What is in work.
    pub fn step(&mut self) -> Option<Step> {
        let mut it = nzg_step::default();
        unsafe { sys::nzg_host_step(&mut self.0, &mut it) }.then(|| Step::of(it.step, it.index, it.language))?
    }
    /// How often it began.
    pub fn attempts(&mut self) -> u8 {
        unsafe { sys::nzg_host_attempts(&mut self.0) }
    }
    /// What is missing of the strings in this attempt, and why, in order: each as the trouble that it was.
    pub fn forgiven(&mut self) -> Vec<Fault> {
        let mut it = nzg_trouble::default();
        let mut next = |number| unsafe { sys::nzg_host_forgiven(&mut self.0, number, &mut it) }.then(|| Fault::trouble(&it));
        (0..).map_while(&mut next).collect()
    }
    /// The bytes of the file that was read, `None` before the end, or the trouble and its step.
    pub fn outcome(&mut self) -> Result<Option<Vec<u8>>, Fault> {
        let mut it = nzg_trouble::default();
        let (answer, out) = into(|out, room| unsafe { sys::nzg_host_outcome(&mut self.0, &mut it, out, room) });
        match done(answer) {
            Ok(answer) => Ok((answer.status == 0).then_some(out)),
            Err(fault) => Err(fault.at(it.step, it.index, it.language)),
        }
    }
}

impl Decoder {
    /// A decoder to which nothing has been fed.
    pub fn open() -> Result<Decoder, Fault> {
        let mut decoder = Decoder(sys::nzg_decoder::default());
        done(unsafe { sys::nzg_decoder_open(&mut decoder.0) })?;
        Ok(decoder)
    }
    /// Whether the set is whole, and how many bytes of the piece it took.
    pub fn feed(&mut self, piece: &[u8]) -> Result<(bool, usize), Fault> {
        let answer = done(unsafe { sys::nzg_decoder_feed(&mut self.0, piece.as_ptr(), piece.len()) })?;
        Ok((answer.status == 0, answer.length))
    }
    /// The listing of the set.
    pub fn list(mut self) -> Result<String, Fault> {
        // The call closes the decoder, so the room is what the longest set wants.
        let mut out = vec![0u8; 1 << 20];
        let answer = unsafe { sys::nzg_decoder_list(&mut self.0, out.as_mut_ptr(), out.len()) };
        out.truncate(answer.length);
        text_of((answer, out))
    }
}
