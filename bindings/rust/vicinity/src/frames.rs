//! Frames, and lines of a log. These calls take no memory.

use crate::fault::{Fault, Refusal};
use crate::uid::{Mask, Uid};
use std::ops::Deref;
use vicinity_sys as sys;

/// A frame, CRC included: at most 16 bytes.
#[derive(Clone, Copy, Debug, PartialEq, Eq)]
pub struct Frame {
    len: usize,
    bytes: [u8; 16],
}

impl Deref for Frame {
    type Target = [u8];

    fn deref(&self) -> &[u8] {
        &self.bytes[..self.len]
    }
}

/// A request that was read.
#[derive(Clone, Copy, Debug, PartialEq, Eq)]
pub enum Request {
    Inventory { link: u8, slots: u8, mask: Mask },
    StayQuiet { link: u8, uid: Uid },
}

/// A reply that was read.
#[derive(Clone, Copy, Debug, PartialEq, Eq)]
pub struct Reply {
    pub flags: u8,
    pub dsfid: u8,
    pub uid: Uid,
}

/// An entry of a log. A frame is not judged when its line is written.
#[derive(Clone, Copy, Debug, PartialEq, Eq)]
pub enum Entry<'a> {
    /// `T`: this frame was sent.
    Sent(&'a [u8]),
    /// `H`: this reply was heard, and may have hidden others. This is what a reader knows.
    Reply(&'a [u8]),
    /// `R`: this reply was heard, and no other tag answered. If one did, an answer can be wrong.
    LoneReply(&'a [u8]),
    /// `S`: the slot was silent.
    Silent,
    /// `C`: several tags answered.
    Collision,
    /// `D`: a tag answered at least, and its reply couldn't be read.
    Garbled,
    /// `N`: nothing is known of the slot.
    Unknown,
    /// `F`: the field was switched off and on.
    FieldCycle,
    /// `U`: the reader lists this UID.
    Listed(Uid),
}

/// A frame that the library wrote.
fn frame(told: sys::vicinity_frame) -> Result<Frame, Refusal> {
    match told.fault {
        0 => Ok(Frame { len: told.len as usize, bytes: told.bytes }),
        fault => Err(Refusal::of(fault)),
    }
}

/// The frame of an Inventory request.
///
/// ```
/// use vicinity::{write_inventory, write_line, Entry, Mask};
///
/// let asked = write_inventory(2, 1, Mask::ALL)?;
/// assert_eq!(write_line(Entry::Sent(&asked))?, "T 260100F60A\n");
/// # Ok::<(), vicinity::Refusal>(())
/// ```
pub fn write_inventory(link: u8, slots: u8, mask: Mask) -> Result<Frame, Refusal> {
    let mut told = sys::vicinity_frame::default();
    let (link, slots) = (u32::from(link), u32::from(slots));
    // SAFETY: `told` is a struct that nothing else refers to; so it is in the calls below.
    unsafe { sys::vicinity_write_inventory(link, slots, mask.len(), mask.value(), &mut told) };
    frame(told)
}

/// The frame of a Stay Quiet request.
pub fn write_stay_quiet(link: u8, uid: Uid) -> Result<Frame, Refusal> {
    let mut told = sys::vicinity_frame::default();
    // SAFETY: as above.
    unsafe { sys::vicinity_write_stay_quiet(u32::from(link), uid.number(), &mut told) };
    frame(told)
}

/// The frame of a reply.
pub fn write_response(flags: u8, dsfid: u8, uid: Uid) -> Result<Frame, Refusal> {
    let mut told = sys::vicinity_frame::default();
    let (flags, dsfid) = (u32::from(flags), u32::from(dsfid));
    // SAFETY: as above.
    unsafe { sys::vicinity_write_response(flags, dsfid, uid.number(), &mut told) };
    frame(told)
}

/// At most 14 bytes followed by their CRC, for a chip that strips it.
pub fn add_crc(bytes: &[u8]) -> Result<Frame, Refusal> {
    let mut told = sys::vicinity_frame::default();
    // SAFETY: as above, and the slice has its length.
    unsafe { sys::vicinity_add_crc(bytes.as_ptr(), bytes.len(), &mut told) };
    frame(told)
}

/// A frame as a request, or its first fault.
///
/// ```
/// use vicinity::{read_request, Request};
///
/// // this one silences no tag: its UID is 0
/// let read = read_request(&[0x22, 0x02, 0, 0, 0, 0, 0, 0, 0, 0, 0x79, 0x0C]);
/// assert!(matches!(read, Ok(Request::StayQuiet { link: 2, uid }) if uid.number() == 0));
/// ```
pub fn read_request(bytes: &[u8]) -> Result<Request, Fault> {
    let mut told = sys::vicinity_request::default();
    // SAFETY: as above.
    unsafe { sys::vicinity_read_request(bytes.as_ptr(), bytes.len(), &mut told) };
    let link = told.link as u8;
    match (told.fault, told.slots) {
        (0, 0) => Ok(Request::StayQuiet { link, uid: Uid::written(told.uid) }),
        (0, slots) => {
            let mask = crate::answers::mask(told.mask_len, told.mask_value);
            Ok(Request::Inventory { link, slots: slots as u8, mask })
        }
        (fault, _) => Err(Fault::of(fault)),
    }
}

/// A frame as a reply, or its first fault.
///
/// ```
/// let reply = vicinity::read_response(&[0x00, 0x00, 0xA1]);
/// assert_eq!(reply, Err(vicinity::Fault::FrameLength));
/// assert_eq!(reply.unwrap_err().to_string(), "Length");
/// ```
pub fn read_response(bytes: &[u8]) -> Result<Reply, Fault> {
    let mut told = sys::vicinity_reply::default();
    // SAFETY: as above.
    unsafe { sys::vicinity_read_response(bytes.as_ptr(), bytes.len(), &mut told) };
    match told.fault {
        0 => Ok(Reply {
            flags: told.flags as u8,
            dsfid: told.dsfid as u8,
            uid: Uid::written(told.uid),
        }),
        fault => Err(Fault::of(fault)),
    }
}

/// The mask of a slot, counted from 0, of an Inventory request: which UIDs answer in it.
pub fn slot_mask(slots: u8, mask: Mask, slot: u8) -> Result<Mask, Refusal> {
    let mut told = sys::vicinity_mask::default();
    let (slots, slot) = (u32::from(slots), u32::from(slot));
    // SAFETY: as above.
    unsafe { sys::vicinity_slot_mask(slots, mask.len(), mask.value(), slot, &mut told) };
    match told.fault {
        0 => Ok(crate::answers::mask(told.len, told.value)),
        fault => Err(Refusal::of(fault)),
    }
}

/// A line of a log, LF included.
///
/// ```
/// use vicinity::{check, write_line, write_response, Entry, Uid, HEADER_LINE};
///
/// let reply = write_response(0, 0, Uid::new(0xE0040100000000A1).unwrap())?;
/// let asked = format!("{HEADER_LINE}T 260100F60A\n");
/// for (entry, wanted) in [
///     (Entry::Reply(&reply), "unlisted E0040100000000A1"),
///     (Entry::Unknown, "unsettled 0 -"),
/// ] {
///     let text = asked.clone() + &write_line(entry)?;
///     assert_eq!(check(text.as_bytes()).unwrap().to_string(), wanted);
/// }
/// // only where no other tag can have answered:
/// assert!(write_line(Entry::LoneReply(&reply))?.starts_with("R "));
/// assert!(write_line(Entry::Reply(&reply))?.starts_with("H "));
/// # Ok::<(), vicinity::Refusal>(())
/// ```
pub fn write_line(entry: Entry<'_>) -> Result<String, Refusal> {
    let (letter, bytes, uid): (u8, &[u8], u64) = match entry {
        Entry::Sent(bytes) => (b'T', bytes, 0),
        Entry::Reply(bytes) => (b'H', bytes, 0),
        Entry::LoneReply(bytes) => (b'R', bytes, 0),
        Entry::Silent => (b'S', &[], 0),
        Entry::Collision => (b'C', &[], 0),
        Entry::Garbled => (b'D', &[], 0),
        Entry::Unknown => (b'N', &[], 0),
        Entry::FieldCycle => (b'F', &[], 0),
        Entry::Listed(uid) => (b'U', &[], uid.number()),
    };
    let mut told = sys::vicinity_line { fault: 0, len: 0, text: [0; 132] };
    // SAFETY: as above.
    unsafe { sys::vicinity_write_line(letter, bytes.as_ptr(), bytes.len(), uid, &mut told) };
    match told.fault {
        0 => Ok(String::from_utf8_lossy(&told.text[..told.len as usize]).into_owned()),
        fault => Err(Refusal::of(fault)),
    }
}
