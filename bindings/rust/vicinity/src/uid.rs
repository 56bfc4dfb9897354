//! UIDs, and masks of UIDs.

use std::fmt;
use std::str::FromStr;

/// The UID of a tag. Its top byte is E0, unless it was read from a Stay Quiet request.
///
/// ```
/// let uid: vicinity::Uid = "E0040100000000A1".parse()?;
/// assert_eq!(uid.number(), 0xE004_0100_0000_00A1);
/// assert_eq!(uid.to_string(), "E0040100000000A1");
/// assert_eq!(format!("{uid:?}"), "Uid(E0040100000000A1)");
/// assert!("0123456789ABCDEF".parse::<vicinity::Uid>().is_err());
/// # Ok::<(), vicinity::NotUid>(())
/// ```
#[derive(Clone, Copy, PartialEq, Eq, PartialOrd, Ord, Hash)]
#[repr(transparent)]
pub struct Uid(u64);

/// A text or a number is no UID.
#[derive(Clone, Copy, Debug, PartialEq, Eq)]
pub struct NotUid;

impl Uid {
    /// The UID with this number, if its top byte is E0.
    pub fn new(number: u64) -> Option<Uid> {
        (number >> 56 == 0xE0).then(|| Uid(number))
    }

    pub fn number(self) -> u64 {
        self.0
    }

    /// The UID of a number that the library wrote.
    pub(crate) fn written(number: u64) -> Uid {
        Uid(number)
    }
}

impl FromStr for Uid {
    type Err = NotUid;

    /// Sixteen hex digits, the most significant first.
    fn from_str(text: &str) -> Result<Uid, NotUid> {
        if text.len() != 16 || !text.bytes().all(|digit| digit.is_ascii_hexdigit()) {
            return Err(NotUid);
        }
        let number = u64::from_str_radix(text, 16).map_err(|_| NotUid)?;
        Uid::new(number).ok_or(NotUid)
    }
}

impl fmt::Display for Uid {
    fn fmt(&self, f: &mut fmt::Formatter<'_>) -> fmt::Result {
        write!(f, "{:016X}", self.0)
    }
}

impl fmt::Debug for Uid {
    fn fmt(&self, f: &mut fmt::Formatter<'_>) -> fmt::Result {
        write!(f, "Uid({self})")
    }
}

impl fmt::Display for NotUid {
    fn fmt(&self, f: &mut fmt::Formatter<'_>) -> fmt::Result {
        f.write_str("a UID is 16 hex digits, of which the first two are E0")
    }
}

impl std::error::Error for NotUid {}

/// A mask: the UIDs whose low bits are its value.
///
/// ```
/// let mask = vicinity::Mask::new(7, 0x61).unwrap();
/// assert_eq!(mask.to_string(), "7 61");
/// assert!(mask.holds("E0040100000000E1".parse()?));
/// assert_eq!(vicinity::Mask::new(4, 16), None);
/// # Ok::<(), vicinity::NotUid>(())
/// ```
#[derive(Clone, Copy, Debug, Default, PartialEq, Eq, PartialOrd, Ord, Hash)]
pub struct Mask {
    len: u32,
    value: u64,
}

impl Mask {
    /// The mask of all UIDs.
    pub const ALL: Mask = Mask { len: 0, value: 0 };

    /// The mask with so many bits, at most 64, of this value, if it has no more bits.
    pub fn new(len: u32, value: u64) -> Option<Mask> {
        (len <= 64 && (len == 64 || value >> len == 0)).then(|| Mask { len, value })
    }

    /// How many bits it has.
    pub fn len(self) -> u32 {
        self.len
    }

    /// Whether it has no bits, and all UIDs.
    pub fn is_empty(self) -> bool {
        self.len == 0
    }

    pub fn value(self) -> u64 {
        self.value
    }

    /// Whether a UID lies in it.
    pub fn holds(self, uid: Uid) -> bool {
        self.len == 0 || (uid.number() ^ self.value) << (64 - self.len) == 0
    }
}

impl fmt::Display for Mask {
    /// As the program writes it, and as `vicinity spell` takes it: the length, then the value in
    /// whole bytes, `-` if there is none.
    fn fmt(&self, f: &mut fmt::Formatter<'_>) -> fmt::Result {
        if self.len == 0 {
            return f.write_str("0 -");
        }
        let digits = 2 * ((self.len as usize + 7) / 8);
        write!(f, "{} {:0digits$X}", self.len, self.value)
    }
}
