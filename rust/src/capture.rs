//! Recordings of a bus.
use crate::fault::{done, Fault};
use crate::sys::{self, nzg_recorded};
use crate::{into, text_of};

/// A device of a recording: the number of its bus, and its address.
#[derive(Clone, Copy, Debug, PartialEq, Eq, Hash, PartialOrd, Ord)]
pub struct DeviceAddress {
    /// The number of its bus: of packets 0.
    pub bus: u16,
    /// Its address.
    pub device: u16,
}

/// How a control transfer of a recording ended.
#[derive(Clone, Copy, Debug, PartialEq, Eq, Hash)]
#[non_exhaustive]
pub enum Ending {
    /// Its end isn't in the recording.
    Unseen,
    /// All its stages were done.
    Done,
    /// The device answered STALL.
    Stall,
    /// It failed with this status of the host's system.
    Failed(u32),
    /// The host controller didn't take it, with this status.
    Refused(u32),
}

/// What USB 2.0 forbids, found in a recording.
#[derive(Clone, Debug, PartialEq, Eq, Hash)]
#[non_exhaustive]
pub struct Forbidden {
    /// T1 in a transfer, C1 to C17 in a device's conversation, P1 to P13 in packets.
    pub name: String,
    /// What is wrong, with the sections of USB 2.0 that say so.
    pub message: String,
    /// When, in nanoseconds.
    pub time: Option<u64>,
    /// Whose it is.
    pub device: Option<DeviceAddress>,
    /// In packets the number of the frame, from 1.
    pub frame: Option<u64>,
}

/// A control transfer of endpoint zero.
#[derive(Clone, Debug, PartialEq, Eq, Hash)]
#[non_exhaustive]
pub struct Request {
    /// When it ended, or began where no end came, in nanoseconds.
    pub time: Option<u64>,
    /// When the host controller got it.
    pub begun: Option<u64>,
    /// Whose it is.
    pub device: DeviceAddress,
    /// Its setup packet.
    pub setup: [u8; 8],
    /// The bytes of its data that the recording has.
    pub data: Vec<u8>,
    /// How many bytes of data came or went.
    pub length: u32,
    /// How it ended.
    pub ending: Ending,
    /// Whether a frame of it was cut.
    pub is_cut: bool,
    /// What is found in it.
    pub found: Vec<Forbidden>,
}

/// What a recording shows, in order.
#[derive(Clone, Debug, PartialEq, Eq, Hash)]
#[non_exhaustive]
pub enum Recorded {
    /// A control transfer is over.
    Request(Request),
    /// Something is wrong in packets.
    Packet(Forbidden),
}

/// A recording in pieces: pcap, pcapng or usbmon's text.
///
/// ```
/// use nozzlegorse::Capture;
///
/// let mut capture = Capture::new()?;
/// let shown = capture.feed(&[0xd4, 0xc3, 0xb2, 0xa1, 2, 0, 4, 0, 0, 0, 0, 0, 0, 0, 0, 0, 0, 0, 1, 0, 220, 0, 0, 0])?;
/// assert!(shown.is_empty() && capture.unended().is_empty() && capture.cut().is_none());
/// # Ok::<(), nozzlegorse::Fault>(())
/// ```
#[derive(Debug)]
pub struct Capture(sys::nzg_capture);

// SAFETY: what it points to has this one owner.
unsafe impl Send for Capture {}

impl Capture {
    /// One that has read nothing.
    pub fn new() -> Result<Capture, Fault> {
        let mut it = Capture(Default::default());
        done(unsafe { sys::nzg_capture_open(&mut it.0) })?;
        Ok(it)
    }

    /// What is over with the next bytes. A fault of the recording is answered once what came before it was: by the next call, of no
    /// bytes at the end of the file.
    pub fn feed(&mut self, piece: &[u8]) -> Result<Vec<Recorded>, Fault> {
        let (mut rest, mut over) = (piece, Vec::new());
        loop {
            let answer = unsafe { sys::nzg_capture_feed(&mut self.0, rest.as_ptr(), rest.len()) };
            match done(answer) {
                Err(fault) if over.is_empty() => return Err(fault),
                Err(_) => return Ok(over),
                Ok(_) => rest = &rest[answer.length..],
            }
            for (it, data) in self.all(1) {
                let found = self.all(2).into_iter().map(|it| forbidden(it, false)).collect();
                over.push(Recorded::Request(request(it, data, found)));
            }
            over.extend(self.all(3).into_iter().map(|it| Recorded::Packet(forbidden(it, true))));
            if rest.is_empty() {
                return Ok(over);
            }
        }
    }

    /// The requests so far whose end didn't come.
    pub fn unended(&mut self) -> Vec<Request> {
        self.all(4).into_iter().map(|(it, data)| request(it, data, Vec::new())).collect()
    }

    /// Where the part begins that isn't whole, and how many bytes of it came, if any did: a file that ends here is cut.
    pub fn cut(&mut self) -> Option<(usize, usize)> {
        let answer = unsafe { sys::nzg_capture_end(&mut self.0) };
        Some((answer.place, answer.length)).filter(|&(_, length)| length > 0)
    }

    /// The devices so far, in the order in which they are first seen, each with how many findings it has: `None` of packets of which no
    /// device is known.
    pub fn devices(&mut self) -> Vec<(Option<DeviceAddress>, u64)> {
        self.all(5).into_iter().map(|(it, _)| (device(&it), it.count as u64)).collect()
    }

    /// The descriptors of a device that came, as `usbdesc capture --file` writes them: a descriptor file, or a dump where strings are
    /// missing.
    pub fn file(&mut self, it: DeviceAddress) -> Result<Vec<u8>, Fault> {
        let (answer, out) = into(|out, room| unsafe { sys::nzg_capture_file(&mut self.0, it.bus, it.device, out, room) });
        done(answer)?;
        Ok(out)
    }

    /// Each thing of a kind, as its numbers and its data.
    fn all(&mut self, kind: u8) -> Vec<(nzg_recorded, Vec<u8>)> {
        let mut found = Vec::new();
        loop {
            let (mut it, number) = (nzg_recorded::default(), found.len());
            let (answer, data) =
                into(|out, room| unsafe { sys::nzg_capture_get(&mut self.0, kind, number, &mut it, out, room) });
            if answer.status > 0 {
                return found;
            }
            found.push((it, data));
        }
    }
}

impl Drop for Capture {
    fn drop(&mut self) {
        unsafe { sys::nzg_capture_close(&mut self.0) }
    }
}

fn device(it: &nzg_recorded) -> Option<DeviceAddress> {
    Some(DeviceAddress { bus: it.bus, device: it.device }).filter(|_| it.has_device)
}

fn forbidden((it, words): (nzg_recorded, Vec<u8>), in_packets: bool) -> Forbidden {
    let name = match it.finding {
        number if in_packets => format!("P{number}"),
        1 => "T1".into(),
        number => format!("C{}", number - 1),
    };
    let message = text_of((Default::default(), words)).expect("no fault");
    let time = Some(it.time).filter(|_| it.has_time);
    Forbidden { name, message, time, device: device(&it), frame: Some(it.count as u64).filter(|&count| count > 0) }
}

fn request(it: nzg_recorded, data: Vec<u8>, found: Vec<Forbidden>) -> Request {
    let ending = match it.ending {
        0 => Ending::Unseen,
        1 => Ending::Done,
        2 => Ending::Stall,
        3 => Ending::Failed(it.status),
        _ => Ending::Refused(it.status),
    };
    let (time, begun) = (Some(it.time).filter(|_| it.has_time), Some(it.begun).filter(|_| it.has_begun));
    let device = DeviceAddress { bus: it.bus, device: it.device };
    Request { time, begun, device, setup: it.setup, data, length: it.length, ending, is_cut: it.is_cut, found }
}
